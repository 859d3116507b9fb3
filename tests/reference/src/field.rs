//! Symbols of the two codes: GF(4) for q = 2 and GF(16) for q = 4.
//!
//! A symbol is a polynomial over two elements, its bits the coefficients. Products follow the
//! rule of document 01: multiply without carries, then reduce by a²+a+1 or by a⁴+a+1.

/// a² + a + 1 and a⁴ + a + 1 as bits.
const MODULUS_FOR_2: u8 = 0b111;
const MODULUS_FOR_4: u8 = 0b1_0011;

// The rule is worked out once, at compile time; only the speed of large test runs needs this.
static PRODUCTS_FOR_2: [[u8; 4]; 4] = all_products(MODULUS_FOR_2);
static PRODUCTS_FOR_4: [[u8; 16]; 16] = all_products(MODULUS_FOR_4);

/// The field of q² symbols that the codes of q are written in.
#[derive(Clone, Copy, Debug, PartialEq, Eq)]
pub struct Field {
    q: usize,
}

impl Field {
    /// The field of q, or nothing where document 01 has no code for q.
    pub fn of(q: u64) -> Option<Field> {
        match q {
            2 => Some(Field { q: 2 }),
            4 => Some(Field { q: 4 }),
            _ => None,
        }
    }

    pub fn q(self) -> usize {
        self.q
    }

    /// How many symbols there are: q².
    pub fn size(self) -> usize {
        self.q * self.q
    }

    pub fn is_symbol(self, byte: u8) -> bool {
        usize::from(byte) < self.size()
    }

    /// Every symbol, rising as a number.
    pub fn symbols(self) -> impl Iterator<Item = u8> {
        0..self.size() as u8
    }

    /// The sum, which is the difference too, because minus equals plus in both fields.
    pub fn sum(self, left: u8, right: u8) -> u8 {
        left ^ right
    }

    pub fn product(self, left: u8, right: u8) -> u8 {
        let (left, right) = (usize::from(left), usize::from(right));
        if self.q == 2 {
            PRODUCTS_FOR_2[left][right]
        } else {
            PRODUCTS_FOR_4[left][right]
        }
    }

    /// The symbol whose product with this one is 1. Zero has none and is a caller's error.
    pub fn inverse(self, symbol: u8) -> u8 {
        self.symbols()
            .find(|&other| self.product(symbol, other) == 1)
            .expect("zero has no inverse")
    }

    pub fn quotient(self, dividend: u8, divisor: u8) -> u8 {
        self.product(dividend, self.inverse(divisor))
    }

    /// The power by repeated products; the power 0 is 1 also for the symbol 0.
    pub fn power(self, symbol: u8, exponent: usize) -> u8 {
        (0..exponent).fold(1, |so_far, _| self.product(so_far, symbol))
    }
}

/// The product of two polynomials over two elements.
const fn carry_less_product(left: u8, right: u8) -> u8 {
    let mut product = 0;
    let mut bit = 0;
    while bit < 4 {
        if (right >> bit) & 1 == 1 {
            product ^= left << bit;
        }
        bit += 1;
    }
    product
}

/// The remainder after division by the modulus, one high bit at a time.
const fn reduced(mut value: u8, modulus: u8) -> u8 {
    let degree = 7 - modulus.leading_zeros();
    let mut bit = 7;
    while bit >= degree {
        if (value >> bit) & 1 == 1 {
            value ^= modulus << (bit - degree);
        }
        bit -= 1;
    }
    value
}

const fn all_products<const SIZE: usize>(modulus: u8) -> [[u8; SIZE]; SIZE] {
    let mut table = [[0; SIZE]; SIZE];
    let mut left = 0;
    while left < SIZE {
        let mut right = 0;
        while right < SIZE {
            table[left][right] = reduced(carry_less_product(left as u8, right as u8), modulus);
            right += 1;
        }
        left += 1;
    }
    table
}

#[cfg(test)]
mod tests {
    use super::*;

    fn both_fields() -> [Field; 2] {
        [Field::of(2).unwrap(), Field::of(4).unwrap()]
    }

    #[test]
    fn only_two_and_four_have_a_field() {
        for q in (0..100).chain([u64::MAX, (1 << 32) + 2, (1 << 32) + 4]) {
            assert_eq!(Field::of(q).is_some(), q == 2 || q == 4, "q = {q}");
        }
    }

    #[test]
    fn field_laws_hold_for_all_symbols() {
        for field in both_fields() {
            for a in field.symbols() {
                assert_eq!(field.product(a, 1), a);
                assert_eq!(field.product(a, 0), 0);
                assert_eq!(field.sum(a, a), 0);
                for b in field.symbols() {
                    assert!(field.is_symbol(field.product(a, b)));
                    assert_eq!(field.product(a, b), field.product(b, a));
                    assert_eq!(field.product(a, b) == 0, a == 0 || b == 0);
                    for c in field.symbols() {
                        let (ab, bc) = (field.product(a, b), field.product(b, c));
                        assert_eq!(field.product(ab, c), field.product(a, bc));
                        let (sum, ac) = (field.sum(b, c), field.product(a, c));
                        assert_eq!(field.product(a, sum), field.sum(ab, ac));
                    }
                }
            }
        }
    }

    #[test]
    fn inverses_and_quotients_undo_products() {
        for field in both_fields() {
            for a in field.symbols().skip(1) {
                assert_eq!(field.product(a, field.inverse(a)), 1);
                for b in field.symbols() {
                    assert_eq!(field.quotient(field.product(a, b), a), b);
                }
            }
        }
    }

    #[test]
    fn powers_are_those_of_document_01() {
        let listed = [1, 2, 4, 8, 3, 6, 12, 11, 5, 10, 7, 14, 15, 13, 9];
        let field = Field::of(4).unwrap();
        for (exponent, &symbol) in listed.iter().enumerate() {
            assert_eq!(field.power(2, exponent), symbol);
        }
        assert_eq!(field.power(2, 15), 1);
        assert_eq!(field.power(0, 0), 1);
    }

    #[test]
    fn products_are_those_of_document_01() {
        let small = Field::of(2).unwrap();
        assert_eq!((small.product(2, 2), small.product(2, 3)), (3, 1));
        assert_eq!(small.product(3, 3), 2);
        let large = Field::of(4).unwrap();
        assert_eq!((large.product(2, 9), large.product(8, 8)), (1, 12));
    }
}
