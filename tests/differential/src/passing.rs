//! Cases of passing a row on: rows that are too short, just long enough or longer, after every answer.

use crate::case::{Call, Case};
use crate::refusals::{near_or_large, one_of};
use reference::samples::Random;

/// Answers of a decoding, and numbers that none gives.
const ANSWERS: [i64; 9] = [0, 1, 9, 64, i64::MAX, -1, -8, -11, i64::MIN];

/// A row around n of one of the two q; its bytes need not be symbols.
fn row_near(random: &mut Random) -> Vec<u8> {
    let length = one_of(&[0, 1, 7, 8, 9, 63, 64, 65, 130], random);
    random.bytes(length)
}

pub fn pass_on_case(index: usize, random: &mut Random) -> Case {
    let q = match index % 4 {
        0 => near_or_large(&[0, 1, 3, 5, 8, 16], random),
        1 => 2,
        _ => 4,
    };
    let call = Call::PassOn {
        q,
        decoded: ANSWERS[index / 4 % ANSWERS.len()],
        from: random.next(),
    };
    Case::of(call, vec![row_near(random), row_near(random)])
}

/// A call with both rows long enough.
pub fn full_rows(index: usize, random: &mut Random) -> Case {
    let mut case = pass_on_case(4 * index + 1 + random.below(3), random);
    case.areas = vec![random.bytes(64), random.bytes(64)];
    case
}
