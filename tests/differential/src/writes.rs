//! Cases of writing a block: payloads of every number of rows, and payloads and areas that are refused.

use crate::case::{Call, Case};
use crate::refusals::area;
use reference::block::{MOST_ROWS, PAYLOAD_BYTES, ROW_BYTES};
use reference::samples::Random;

/// How many bytes the block of this many rows has.
pub fn block_bytes(rows: usize) -> usize {
    8 + ROW_BYTES * rows
}

/// Most payloads are random; some are one byte again and again, as an empty image has them.
fn payload_of(length: usize, random: &mut Random) -> Vec<u8> {
    match random.below(8) {
        0 => vec![0; length],
        1 => random.bytes(1).repeat(length),
        _ => random.bytes(length),
    }
}

/// A payload of this many rows and an area that is long enough.
pub fn write_case(rows: usize, random: &mut Random) -> Case {
    let payload = payload_of(PAYLOAD_BYTES * rows, random);
    let spare = random.below(40);
    Case::of(
        Call::Write,
        vec![payload, random.bytes(block_bytes(rows) + spare)],
    )
}

/// Lengths of payloads that fill no rows, part of a row, or more rows than a block has.
const WRONG_LENGTHS: [usize; 11] = [
    0,
    1,
    PAYLOAD_BYTES - 1,
    PAYLOAD_BYTES + 1,
    2 * PAYLOAD_BYTES + 10,
    17 * PAYLOAD_BYTES - 1,
    MOST_ROWS * PAYLOAD_BYTES - 1,
    MOST_ROWS * PAYLOAD_BYTES + 1,
    (MOST_ROWS + 1) * PAYLOAD_BYTES,
    (MOST_ROWS + 2) * PAYLOAD_BYTES,
    2 * MOST_ROWS * PAYLOAD_BYTES,
];

/// The two lowest bits of the index say whether 10 and 7 are to hold, the rest which payload.
pub fn refused_write(index: usize, random: &mut Random) -> Case {
    let length = match index & 1 {
        0 => PAYLOAD_BYTES * (1 + random.below(40)),
        _ => WRONG_LENGTHS[index / 4 % WRONG_LENGTHS.len()],
    };
    let needed = block_bytes(length / PAYLOAD_BYTES);
    let payload = payload_of(length, random);
    let area = area(needed, index & 2 == 2, random);
    Case::of(Call::Write, vec![payload, area])
}
