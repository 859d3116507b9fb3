//! The curve y^q + y = x^(q+1), the weights of its functions, and the codes on it.

use crate::field::Field;
use crate::refusal::{Refusal, UNKNOWN_Q, UNUSABLE_U};

/// A place on the curve.
#[derive(Clone, Copy, Debug, PartialEq, Eq)]
pub struct Point {
    pub x: u8,
    pub y: u8,
}

/// The points of the curve, by x and then by y as numbers.
pub fn points(field: Field) -> Vec<Point> {
    let q = field.q();
    let mut found = Vec::new();
    for x in field.symbols() {
        let right_side = field.power(x, q + 1);
        for y in field.symbols() {
            if field.sum(field.power(y, q), y) == right_side {
                found.push(Point { x, y });
            }
        }
    }
    found
}

/// The weight of x^x_power · y^y_power.
pub fn weight(q: usize, x_power: usize, y_power: usize) -> usize {
    q * x_power + (q + 1) * y_power
}

/// The powers of x and y of the monomial of a weight, or nothing if the weight is a gap.
pub fn monomial_of(q: usize, weight: usize) -> Option<(usize, usize)> {
    let y_power = weight % q;
    let rest = weight.checked_sub((q + 1) * y_power)?;
    Some((rest / q, y_power))
}

/// A code that document 01 allows.
#[derive(Clone, Copy, Debug, PartialEq, Eq)]
pub struct Code {
    pub field: Field,
    pub u: usize,
}

impl Code {
    /// The code named by q and u, or the refusal that document 01 gives for them.
    pub fn named(q: u64, u: u64) -> Result<Code, Refusal> {
        let field = Field::of(q).ok_or(UNKNOWN_Q)?;
        let length = field.q().pow(3);
        // The bounds come first, so that no later number can be too large for its type.
        if u < q || u >= length as u64 {
            return Err(UNUSABLE_U);
        }
        let u = u as usize;
        match monomial_of(field.q(), u) {
            Some(_) => Ok(Code { field, u }),
            None => Err(UNUSABLE_U),
        }
    }

    pub fn q(&self) -> usize {
        self.field.q()
    }

    /// The number of symbols in a row.
    pub fn n(&self) -> usize {
        self.q().pow(3)
    }

    /// The weights that have a message symbol, rising.
    pub fn message_weights(&self) -> Vec<usize> {
        (0..=self.u)
            .filter(|&s| monomial_of(self.q(), s).is_some())
            .collect()
    }

    /// The number of symbols in a message.
    pub fn k(&self) -> usize {
        self.message_weights().len()
    }

    /// The distance by proposition 14 of source 000, as it stands there: with u = aq + b, by b and a - (q² - q).
    pub fn distance(&self) -> usize {
        let (n, q, u) = (self.n() as i64, self.q() as i64, self.u as i64);
        let (a, b) = (u / q, u % q);
        let distance = if b <= a - (q * q - q) {
            n - a * q
        } else {
            n - u
        };
        distance as usize
    }

    /// τ, the largest number of differing places that is accepted.
    pub fn reach(&self) -> usize {
        (self.distance() - 1) / 2
    }

    /// The row of a message: its sum's value at each point.
    pub fn encode(&self, message: &[u8]) -> Vec<u8> {
        let weights = self.message_weights();
        assert_eq!(message.len(), weights.len(), "a message has k symbols");
        points(self.field)
            .into_iter()
            .map(|point| self.sum_at(&weights, message, point))
            .collect()
    }

    fn sum_at(&self, weights: &[usize], message: &[u8], point: Point) -> u8 {
        let field = self.field;
        let mut total = 0;
        for (&s, &symbol) in weights.iter().zip(message) {
            let (i, j) = monomial_of(self.q(), s).expect("message weights are no gaps");
            let value = field.product(field.power(point.x, i), field.power(point.y, j));
            total = field.sum(total, field.product(symbol, value));
        }
        total
    }
}

/// The number of places in which two rows differ.
pub fn differing_places(left: &[u8], right: &[u8]) -> usize {
    assert_eq!(left.len(), right.len());
    left.iter().zip(right).filter(|(a, b)| a != b).count()
}

#[cfg(test)]
mod tests {
    use super::*;

    fn gaps_below(q: usize, end: usize) -> Vec<usize> {
        (0..end).filter(|&s| monomial_of(q, s).is_none()).collect()
    }

    #[test]
    fn gaps_are_those_of_document_01() {
        assert_eq!(gaps_below(2, 200), [1]);
        assert_eq!(gaps_below(4, 200), [1, 2, 3, 6, 7, 11]);
    }

    #[test]
    fn monomial_and_weight_belong_to_each_other() {
        for q in [2, 4] {
            for s in 0..200 {
                if let Some((i, j)) = monomial_of(q, s) {
                    assert!(j < q);
                    assert_eq!(weight(q, i, j), s);
                }
            }
            for (i, j) in (0..30).flat_map(|i| (0..q).map(move |j| (i, j))) {
                assert_eq!(monomial_of(q, weight(q, i, j)), Some((i, j)));
            }
        }
    }

    #[test]
    fn four_sets_of_ordinates_are_those_of_document_01() {
        let field = Field::of(4).unwrap();
        let places = points(field);
        assert_eq!(places.len(), 64);
        for x in field.symbols() {
            let found: Vec<u8> = places.iter().filter(|p| p.x == x).map(|p| p.y).collect();
            let expected = match field.power(x, 5) {
                0 => [0, 1, 6, 7],
                1 => [2, 3, 4, 5],
                6 => [10, 11, 12, 13],
                7 => [8, 9, 14, 15],
                other => panic!("x⁵ = {other} is not in document 01"),
            };
            assert_eq!(found, expected, "x = {x}");
        }
    }

    #[test]
    fn tape_code_has_the_sizes_of_document_01() {
        let tape = Code::named(4, 45).unwrap();
        assert_eq!((tape.n(), tape.k(), tape.reach()), (64, 40, 9));
        let small = Code::named(2, 4).unwrap();
        assert_eq!((small.n(), small.k(), small.reach()), (8, 4, 1));
        assert_eq!(small.message_weights(), [0, 2, 3, 4]);
    }

    #[test]
    fn thin_codes_have_the_reach_of_wish_2() {
        for (u, reach) in [(45, 9), (58, 3), (63, 1)] {
            assert_eq!(Code::named(4, u).unwrap().reach(), reach, "u = {u}");
        }
    }

    /// ν(s) for s = tq + r: what the votes for weight s bear.
    fn margin(code: &Code, s: usize) -> i64 {
        let (n, q, s) = (code.n() as i64, code.q() as i64, s as i64);
        let (t, r) = (s / q, s % q);
        n - s + r * (t - r + q + 1 - q * q).max(0)
    }

    #[test]
    fn the_distance_is_the_least_margin_of_a_weight() {
        for q in [2, 4] {
            for code in (0..q * q * q).filter_map(|u| Code::named(q, u).ok()) {
                let weights = code.message_weights();
                let least = weights.iter().map(|&s| margin(&code, s)).min();
                assert_eq!(least, Some(code.distance() as i64), "{code:?}");
            }
        }
    }

    /// The message of q = 2 whose symbols are the digits of a number.
    fn message_numbered(code: &Code, number: usize) -> Vec<u8> {
        let digit = |place: usize| (number >> (2 * place) & 3) as u8;
        (0..code.k()).map(digit).collect()
    }

    #[test]
    fn no_row_of_q_2_but_zero_has_fewer_symbols_than_the_distance() {
        for u in 2..8 {
            let code = Code::named(2, u).unwrap();
            for number in 1..1 << (2 * code.k()) {
                let row = code.encode(&message_numbered(&code, number));
                let symbols = row.iter().filter(|&&symbol| symbol != 0).count();
                assert!(symbols >= code.distance(), "u = {u}: {row:?}");
            }
        }
    }

    #[test]
    fn codes_are_refused_as_document_01_says() {
        for u in [0, 3, 11, 64, 65, u64::MAX, (1 << 32) + 45] {
            assert_eq!(Code::named(4, u), Err(UNUSABLE_U), "u = {u}");
        }
        for (q, u) in [(0, 4), (3, 4), (8, 45), (u64::MAX, u64::MAX)] {
            assert_eq!(Code::named(q, u), Err(UNKNOWN_Q), "q = {q}");
        }
        let passing = |q| (0..100).filter(move |&u| Code::named(q, u).is_ok());
        assert_eq!(passing(2).collect::<Vec<u64>>(), [2, 3, 4, 5, 6, 7]);
        assert_eq!(passing(4).count(), 57);
    }
}
