//! h, the function that takes a row's symbols at the points, by Lagrange products.
//!
//! No closed formula is used: each point gets a product of linear factors that are zero at all
//! other points, as source 000 has it at the end of section II.

use crate::curve::{points, Point};
use crate::field::Field;
use crate::polynomial::{Monomial, Polynomial};

/// h: of degree below q² in x and below q in y, with the row's symbols as values.
pub fn interpolate(field: Field, row: &[u8]) -> Polynomial {
    let basis = if field.q() == 2 {
        &BASIS_FOR_2
    } else {
        &BASIS_FOR_4
    };
    basis.with(|basis| {
        assert_eq!(row.len(), basis.len(), "a row has n symbols");
        basis
            .iter()
            .zip(row)
            .fold(Polynomial::zero(field), |sum, (one_point, &symbol)| {
                sum.plus_multiple(symbol, 0, one_point)
            })
    })
}

// Every row needs the same functions, so they are worked out once for each q.
thread_local! {
    static BASIS_FOR_2: Vec<Polynomial> = lagrange_basis(2);
    static BASIS_FOR_4: Vec<Polynomial> = lagrange_basis(4);
}

/// For each point the function that is 1 there and 0 at all others.
fn lagrange_basis(q: u64) -> Vec<Polynomial> {
    let field = Field::of(q).expect("q has a field");
    let all = points(field);
    all.iter()
        .map(|&point| one_at(field, &all, point))
        .collect()
}

/// The product of (x - a') over all other abscissas and of (y - b') over the other points above
/// the same abscissa, divided by its value at the point.
fn one_at(field: Field, all: &[Point], point: Point) -> Polynomial {
    let mut product = Polynomial::sum_of(field, &[Monomial::lower(0, 0)]);
    for abscissa in field.symbols().filter(|&abscissa| abscissa != point.x) {
        product = product
            .times_monomial(1, 0)
            .plus(&product.times_symbol(abscissa));
    }
    for other in all
        .iter()
        .filter(|other| other.x == point.x && other.y != point.y)
    {
        product = product
            .times_monomial(0, 1)
            .plus(&product.times_symbol(other.y));
    }
    product.times_symbol(field.inverse(product.value_at(point, 0)))
}

#[cfg(test)]
mod tests {
    use super::*;
    use crate::polynomial::Part;
    use crate::samples::Random;

    #[test]
    fn h_takes_the_symbols_of_the_row_and_keeps_its_degrees() {
        let mut random = Random::seeded(31);
        for field in [Field::of(2).unwrap(), Field::of(4).unwrap()] {
            let all = points(field);
            for _ in 0..50 {
                let row = random.symbols(field, all.len());
                let h = interpolate(field, &row);
                for (&point, &symbol) in all.iter().zip(&row) {
                    assert_eq!(h.value_at(point, 0), symbol);
                }
                for (monomial, _) in h.terms() {
                    assert_eq!(monomial.part, Part::Lower);
                    assert!(monomial.x < field.size() && monomial.y < field.q());
                }
            }
        }
    }

    #[test]
    fn the_zero_row_has_no_term() {
        for field in [Field::of(2).unwrap(), Field::of(4).unwrap()] {
            let row = vec![0; points(field).len()];
            assert_eq!(interpolate(field, &row), Polynomial::zero(field));
        }
    }

    #[test]
    fn a_monomial_is_found_again_from_its_values() {
        for field in [Field::of(2).unwrap(), Field::of(4).unwrap()] {
            for (x, y) in (0..field.size()).flat_map(|x| (0..field.q()).map(move |y| (x, y))) {
                let monomial = Polynomial::sum_of(field, &[Monomial::lower(x, y)]);
                let all = points(field);
                let row: Vec<u8> = all
                    .iter()
                    .map(|&point| monomial.value_at(point, 0))
                    .collect();
                assert_eq!(interpolate(field, &row), monomial);
            }
        }
    }
}
