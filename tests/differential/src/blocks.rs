//! Cases of verifying: blocks with damage, blocks that are refused, and random bytes as blocks.

use crate::case::{Call, Case};
use crate::refusals::{area, one_of, spoil_length};
use reference::block::{block_of, header, pack, unpack, PAYLOAD_BYTES, ROW_BYTES};
use reference::curve::Code;
use reference::picture::picture_size;
use reference::samples::Random;

pub fn tape() -> Code {
    Code::named(4, 45).expect("the tape code is allowed")
}

/// The bytes of row r of a block.
fn row_mut(block: &mut [u8], r: usize) -> &mut [u8] {
    &mut block[8 + ROW_BYTES * r..][..ROW_BYTES]
}

fn damage_row(block: &mut [u8], r: usize, places: usize, random: &mut Random) {
    let bytes = row_mut(block, r);
    let mut symbols = unpack(bytes);
    random.damage(tape().field, &mut symbols, places);
    bytes.copy_from_slice(&pack(&symbols));
}

/// Damages a row in so many places that it can still be read.
fn damage_within_reach(block: &mut [u8], r: usize, random: &mut Random) {
    let places = random.below(tape().reach() + 1);
    damage_row(block, r, places, random);
}

/// A case over whole areas of random earlier contents.
pub fn verify_case(block: Vec<u8>, payload: Vec<u8>, rows: usize, random: &mut Random) -> Case {
    let records = 2 * rows + random.below(6);
    let work = picture_size(4) + random.below(6);
    let call = Call::Verify { at: random.next() };
    let areas = vec![block, payload, random.bytes(records), random.bytes(work)];
    Case::of(call, areas)
}

/// What may befall a row so that it is not equal: damage beyond reach, other bytes, or another
/// payload with the row damaged too.
fn spoil_row(block: &mut [u8], payload: &mut [u8], r: usize, random: &mut Random) {
    match random.below(3) {
        0 => {
            let beyond = 1 + random.below(2);
            damage_row(block, r, tape().reach() + beyond, random);
        }
        1 => {
            let bytes = random.bytes(ROW_BYTES);
            row_mut(block, r).copy_from_slice(&bytes);
        }
        _ => {
            payload[PAYLOAD_BYTES * r + random.below(PAYLOAD_BYTES)] ^= 1 << random.below(8);
            damage_within_reach(block, r, random);
        }
    }
}

/// A block of this many rows. A third have only rows within reach, a third one row that is not
/// equal, a third many.
pub fn damaged_block(rows: usize, random: &mut Random) -> Case {
    let mut payload = random.bytes(PAYLOAD_BYTES * rows);
    let mut block = block_of(&payload).expect("the number of rows is allowed");
    let (mood, spoiled) = (random.below(3), random.below(rows));
    for r in 0..rows {
        let spoil = match mood {
            0 => false,
            1 => r == spoiled,
            _ => random.below(4) == 0,
        };
        if spoil {
            spoil_row(&mut block, &mut payload, r, random);
        } else if random.below(2) == 0 {
            damage_within_reach(&mut block, r, random);
        }
    }
    verify_case(block, payload, rows, random)
}

/// A block of two rows with one byte of its header changed; the index says which and how.
pub fn other_header(index: usize, random: &mut Random) -> Case {
    let payload = random.bytes(2 * PAYLOAD_BYTES);
    let mut block = block_of(&payload).expect("two rows are allowed");
    block[index / 255 % 8] ^= (1 + index % 255) as u8;
    verify_case(block, payload, 2, random)
}

/// A block whose count of rows is not allowed, though all else agrees with it.
pub fn forbidden_count(index: usize, random: &mut Random) -> Case {
    let rows = [0, 1025, 1026, 2048][index % 4];
    let mut block = header(rows as u16);
    block.extend(random.bytes(ROW_BYTES * rows));
    let payload = random.bytes(PAYLOAD_BYTES * rows);
    verify_case(block, payload, rows, random)
}

/// A call of which the four lowest bits of the index say which of 9, 10, 11 and 6 is to hold.
pub fn refused_block(index: usize, random: &mut Random) -> Case {
    let wrong = |bit: usize| index >> bit & 1 == 1;
    let rows = 1 + random.below(3);
    let mut payload = random.bytes(PAYLOAD_BYTES * rows);
    let mut block = block_of(&payload).expect("up to three rows are allowed");
    if wrong(0) {
        spoil_length(&mut block, random);
    }
    if wrong(1) {
        spoil_length(&mut payload, random);
    }
    let records = area(2 * rows, wrong(2), random);
    let work = area(picture_size(4), wrong(3), random);
    let call = Call::Verify { at: random.next() };
    Case::of(call, vec![block, payload, records, work])
}

/// Random bytes; some begin as a block of their length would, so that the rows are read.
pub fn random_bytes(random: &mut Random) -> Case {
    let rows = random.below(4);
    let mut block = match random.below(4) {
        0 => header(rows as u16),
        1 => header(one_of(&[1, 2, 3], random)),
        _ => random.bytes(8),
    };
    let stray = match random.below(4) {
        0 => random.below(40),
        _ => 0,
    };
    block.extend(random.bytes(ROW_BYTES * rows + stray));
    let payload = random.bytes(PAYLOAD_BYTES * rows);
    verify_case(block, payload, rows, random)
}
