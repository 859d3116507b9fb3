//! The picture of a state that the stop service leaves in the work area (document 01, "Lent
//! areas"). It is the only place where this reference writes polynomials as flat symbols.

use crate::polynomial::{Monomial, Part};
use crate::steps::State;

/// The number of coefficients the picture keeps of each polynomial in x.
pub fn picture_width(q: usize) -> usize {
    q * q + 2 * q - 1
}

/// The number of symbols in the picture, which is what the work area needs.
pub fn picture_size(q: usize) -> usize {
    4 * q * q * picture_width(q)
}

/// The state in the layout of document 01, "Lent areas": the g before the f; of a polynomial the
/// upper part before the lower, both by power of y; of a row the coefficient of x^0 first.
pub fn picture(state: &State) -> Vec<u8> {
    let q = state.code.q();
    let mut symbols = Vec::with_capacity(picture_size(q));
    for polynomial in state.g.iter().chain(&state.f) {
        for part in [Part::Upper, Part::Lower] {
            for y in 0..q {
                let coefficients = (0..picture_width(q)).map(|x| Monomial { part, y, x });
                symbols.extend(coefficients.map(|monomial| polynomial.coefficient(monomial)));
            }
        }
    }
    symbols
}
