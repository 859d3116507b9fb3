//! A fixed random generator, and codes, messages and damaged rows drawn from it.
//!
//! Tests print the seed they use, so that a failing case can be made again.

use crate::curve::Code;
use crate::field::Field;

/// A xorshift generator of 64 bits with a final product, for tests only.
pub struct Random {
    state: u64,
}

impl Random {
    pub fn seeded(seed: u64) -> Random {
        // The state must not be zero, and near seeds should not start alike.
        let spread = seed.wrapping_add(1).wrapping_mul(0x9e37_79b9_7f4a_7c15);
        let mut random = Random { state: spread | 1 };
        for _ in 0..8 {
            random.next();
        }
        random
    }

    #[allow(clippy::should_implement_trait)]
    pub fn next(&mut self) -> u64 {
        self.state ^= self.state >> 12;
        self.state ^= self.state << 25;
        self.state ^= self.state >> 27;
        self.state.wrapping_mul(0x2545_f491_4f6c_dd1d)
    }

    /// A number below the end; the slight lean to small numbers does not matter to tests.
    pub fn below(&mut self, end: usize) -> usize {
        ((self.next() >> 16) % end as u64) as usize
    }

    pub fn symbol(&mut self, field: Field) -> u8 {
        self.below(field.size()) as u8
    }

    pub fn symbols(&mut self, field: Field, count: usize) -> Vec<u8> {
        (0..count).map(|_| self.symbol(field)).collect()
    }

    pub fn bytes(&mut self, count: usize) -> Vec<u8> {
        (0..count).map(|_| self.below(256) as u8).collect()
    }

    pub fn message(&mut self, code: &Code) -> Vec<u8> {
        self.symbols(code.field, code.k())
    }

    /// Different places of a row, in no order.
    pub fn places(&mut self, length: usize, count: usize) -> Vec<usize> {
        let mut all: Vec<usize> = (0..length).collect();
        for taken in 0..count {
            let other = taken + self.below(length - taken);
            all.swap(taken, other);
        }
        all.truncate(count);
        all
    }

    /// Changes exactly this many places of a row to another symbol.
    pub fn damage(&mut self, field: Field, row: &mut [u8], errors: usize) {
        for place in self.places(row.len(), errors) {
            let change = 1 + self.below(field.size() - 1) as u8;
            row[place] = field.sum(row[place], change);
        }
    }
}

/// Every code that document 01 allows for a q, u rising.
pub fn all_codes(q: u64) -> Vec<Code> {
    (0..q.pow(3))
        .filter_map(|u| Code::named(q, u).ok())
        .collect()
}

#[cfg(test)]
mod tests {
    use super::*;
    use crate::curve::differing_places;

    #[test]
    fn damage_changes_exactly_the_asked_number_of_places() {
        let mut random = Random::seeded(3);
        for code in [Code::named(2, 4).unwrap(), Code::named(4, 45).unwrap()] {
            for errors in 0..=code.n() {
                let row = random.symbols(code.field, code.n());
                let mut damaged = row.clone();
                random.damage(code.field, &mut damaged, errors);
                assert_eq!(differing_places(&row, &damaged), errors);
                assert!(damaged.iter().all(|&symbol| code.field.is_symbol(symbol)));
            }
        }
    }

    #[test]
    fn one_seed_gives_one_sequence_and_other_seeds_others() {
        let first = Random::seeded(7).symbols(Field::of(4).unwrap(), 64);
        assert_eq!(first, Random::seeded(7).symbols(Field::of(4).unwrap(), 64));
        assert_ne!(first, Random::seeded(8).symbols(Field::of(4).unwrap(), 64));
    }

    #[test]
    fn all_codes_are_six_and_fifty_seven() {
        assert_eq!(all_codes(2).len(), 6);
        assert_eq!(all_codes(4).len(), 57);
    }
}
