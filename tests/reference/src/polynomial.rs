//! Sparse polynomials: sums of x^i y^j (the lower part) and of x^i y^j z (the upper part), j < q.
//!
//! Only non-zero terms are kept, in a map from monomial to symbol. y^q never stays: it is
//! rewritten as x^(q+1) + y, which is the same function on the curve.

use crate::curve::{weight, Point};
use crate::field::Field;
use std::collections::btree_map::{BTreeMap, Entry};

/// Where a monomial stands. The upper part is the later one, so it wins ties of weight.
#[derive(Clone, Copy, Debug, PartialEq, Eq, PartialOrd, Ord)]
pub enum Part {
    Lower,
    Upper,
}

#[derive(Clone, Copy, Debug, PartialEq, Eq, PartialOrd, Ord)]
pub struct Monomial {
    pub part: Part,
    pub y: usize,
    pub x: usize,
}

impl Monomial {
    pub fn lower(x: usize, y: usize) -> Monomial {
        Monomial {
            part: Part::Lower,
            y,
            x,
        }
    }

    pub fn upper(x: usize, y: usize) -> Monomial {
        Monomial {
            part: Part::Upper,
            y,
            x,
        }
    }

    /// The weight under s, which is added in the upper part.
    pub fn weight_under(self, s: i64, q: usize) -> i64 {
        let own = weight(q, self.x, self.y) as i64;
        match self.part {
            Part::Lower => own,
            Part::Upper => own + s,
        }
    }
}

#[derive(Clone, Debug, PartialEq, Eq)]
pub struct Polynomial {
    field: Field,
    terms: BTreeMap<Monomial, u8>,
}

impl Polynomial {
    pub fn zero(field: Field) -> Polynomial {
        Polynomial {
            field,
            terms: BTreeMap::new(),
        }
    }

    /// The sum of the given monomials, each with coefficient 1.
    pub fn sum_of(field: Field, monomials: &[Monomial]) -> Polynomial {
        let mut sum = Polynomial::zero(field);
        for &monomial in monomials {
            sum.add_term(monomial, 1);
        }
        sum
    }

    pub fn terms(&self) -> impl Iterator<Item = (Monomial, u8)> + '_ {
        self.terms
            .iter()
            .map(|(&monomial, &symbol)| (monomial, symbol))
    }

    pub fn coefficient(&self, monomial: Monomial) -> u8 {
        self.terms.get(&monomial).copied().unwrap_or(0)
    }

    /// The degree in x of the polynomial that stands at one power of y in one part.
    pub fn degree_at(&self, part: Part, y: usize) -> Option<usize> {
        let first = Monomial { part, y, x: 0 };
        let last = Monomial {
            part,
            y,
            x: usize::MAX,
        };
        self.terms
            .range(first..=last)
            .next_back()
            .map(|(monomial, _)| monomial.x)
    }

    /// The heaviest term under weight s, of two as heavy the upper one.
    pub fn leading_term(&self, s: i64) -> Option<(Monomial, u8)> {
        let q = self.field.q();
        self.terms()
            .max_by_key(|(monomial, _)| (monomial.weight_under(s, q), monomial.part))
    }

    /// Adds one term. Any power of y may be given; it is rewritten until it is below q.
    pub fn add_term(&mut self, monomial: Monomial, symbol: u8) {
        let q = self.field.q();
        if monomial.y >= q {
            let y = monomial.y - q;
            self.add_term(
                Monomial {
                    x: monomial.x + q + 1,
                    y,
                    ..monomial
                },
                symbol,
            );
            self.add_term(
                Monomial {
                    y: y + 1,
                    ..monomial
                },
                symbol,
            );
            return;
        }
        // The place is looked for once: most of the reference's time goes here.
        match self.terms.entry(monomial) {
            Entry::Vacant(place) => {
                if symbol != 0 {
                    place.insert(symbol);
                }
            }
            Entry::Occupied(mut place) => match self.field.sum(*place.get(), symbol) {
                0 => drop(place.remove()),
                total => *place.get_mut() = total,
            },
        }
    }

    /// This polynomial with symbol · x^x_shift · other added.
    pub fn plus_multiple(&self, symbol: u8, x_shift: usize, other: &Polynomial) -> Polynomial {
        let mut sum = self.clone();
        for (monomial, coefficient) in other.terms() {
            let shifted = Monomial {
                x: monomial.x + x_shift,
                ..monomial
            };
            sum.add_term(shifted, self.field.product(symbol, coefficient));
        }
        sum
    }

    pub fn plus(&self, other: &Polynomial) -> Polynomial {
        self.plus_multiple(1, 0, other)
    }

    pub fn times_symbol(&self, symbol: u8) -> Polynomial {
        Polynomial::zero(self.field).plus_multiple(symbol, 0, self)
    }

    /// The product with x^x_power · y^y_power.
    pub fn times_monomial(&self, x_power: usize, y_power: usize) -> Polynomial {
        let mut product = Polynomial::zero(self.field);
        for (Monomial { part, x, y }, symbol) in self.terms() {
            let moved = Monomial {
                part,
                x: x + x_power,
                y: y + y_power,
            };
            product.add_term(moved, symbol);
        }
        product
    }

    /// The polynomial after z has become z + symbol · x^x_power · y^y_power.
    pub fn with_z_moved(&self, symbol: u8, x_power: usize, y_power: usize) -> Polynomial {
        let mut moved = self.clone();
        for (monomial, coefficient) in self.terms() {
            if monomial.part == Part::Upper {
                let fallen = Monomial::lower(monomial.x + x_power, monomial.y + y_power);
                moved.add_term(fallen, self.field.product(coefficient, symbol));
            }
        }
        moved
    }

    /// The value at a point of the curve with a symbol in the place of z.
    pub fn value_at(&self, point: Point, z: u8) -> u8 {
        let field = self.field;
        let highest = self
            .terms()
            .map(|(monomial, _)| monomial.x)
            .max()
            .unwrap_or(0);
        let x_powers = powers(field, point.x, highest);
        let y_powers = powers(field, point.y, field.q() - 1);
        let mut total = 0;
        for (monomial, symbol) in self.terms() {
            let function = field.product(x_powers[monomial.x], y_powers[monomial.y]);
            let value = field.product(symbol, function);
            total = field.sum(
                total,
                match monomial.part {
                    Part::Lower => value,
                    Part::Upper => field.product(value, z),
                },
            );
        }
        total
    }
}

/// The powers of a symbol from 0 to the highest exponent.
fn powers(field: Field, symbol: u8, highest: usize) -> Vec<u8> {
    let mut list = vec![1];
    for exponent in 0..highest {
        list.push(field.product(list[exponent], symbol));
    }
    list
}
