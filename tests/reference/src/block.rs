//! Blocks of tape rows (document 01, "Block and verification"; document 02, Wish 1): reading,
//! verifying, making, writing.
//!
//! The header has 8 bytes: 4 for the length of all that is behind these 4, then version, u, and 2
//! for R; rows of 32 bytes follow. Numbers are big-endian; of a byte's symbols the high one is first.

use crate::calls::decode;
use crate::curve::Code;
use crate::picture::picture_size;
use crate::refusal::{
    Refusal, BAD_BLOCK, BAD_PAYLOAD, SHORT_OUTPUT, SHORT_WORK, TOO_FEW_RECORDS,
};

const TAPE_Q: u64 = 4;
const TAPE_U: u8 = 45;
const VERSION: u8 = 1;
const HEADER_BYTES: usize = 8;
pub const ROW_BYTES: usize = 32;
pub const PAYLOAD_BYTES: usize = 20;
pub const MOST_ROWS: usize = 1024;

pub const EQUAL: u8 = 0;
pub const OTHER_MESSAGE: u8 = 1;
pub const UNREADABLE: u8 = 2;

/// The outcome of one row: a state and the count of differing places (0 when unreadable).
#[derive(Clone, Copy, Debug, Default, PartialEq, Eq)]
pub struct Record {
    pub state: u8,
    pub count: u64,
}

/// The answer of verifying a block.
#[derive(Clone, Copy, Debug, PartialEq, Eq)]
pub enum Verdict {
    /// Every row is equal; the sum of the counts.
    Copied(u64),
    /// The first row that is not equal was read, but has another message.
    Differs(usize),
    /// The first row that is not equal could not be read.
    Unreadable(usize),
    Refused(Refusal),
}

/// The number of rows of a block that is exactly as document 01 says, or nothing.
pub fn row_count(block: &[u8]) -> Option<usize> {
    let header: [u8; HEADER_BYTES] = block.get(..HEADER_BYTES)?.try_into().ok()?;
    let [l0, l1, l2, l3, version, u, r0, r1] = header;
    let length = u32::from_be_bytes([l0, l1, l2, l3]) as usize;
    let rows = usize::from(u16::from_be_bytes([r0, r1]));
    let as_document_01_says = version == VERSION
        && u == TAPE_U
        && (1..=MOST_ROWS).contains(&rows)
        && length == 4 + ROW_BYTES * rows
        && block.len() == length + 4;
    as_document_01_says.then_some(rows)
}

/// Two symbols from each byte, the high four bits first.
pub fn unpack(bytes: &[u8]) -> Vec<u8> {
    bytes
        .iter()
        .flat_map(|&byte| [byte >> 4, byte & 15])
        .collect()
}

/// The bytes of an even number of symbols below 16, the high four bits first.
pub fn pack(symbols: &[u8]) -> Vec<u8> {
    symbols
        .chunks_exact(2)
        .map(|pair| pair[0] << 4 | pair[1])
        .collect()
}

/// Compares each row of a block with its 20 bytes of payload and records each outcome.
/// Refusals: 9, 10, 11, 6, in this order. Otherwise its part of `work` ends zero.
pub fn verify(block: &[u8], payload: &[u8], records: &mut [Record], work: &mut [u8]) -> Verdict {
    let rows = match row_count(block) {
        Some(rows) => rows,
        None => return Verdict::Refused(BAD_BLOCK),
    };
    if payload.len() != PAYLOAD_BYTES * rows {
        return Verdict::Refused(BAD_PAYLOAD);
    }
    if records.len() < rows {
        return Verdict::Refused(TOO_FEW_RECORDS);
    }
    if work.len() < picture_size(TAPE_Q as usize) {
        return Verdict::Refused(SHORT_WORK);
    }
    for r in 0..rows {
        let row = &block[HEADER_BYTES + ROW_BYTES * r..][..ROW_BYTES];
        let original = &payload[PAYLOAD_BYTES * r..][..PAYLOAD_BYTES];
        records[r] = outcome(row, original, work);
    }
    verdict_on(&records[..rows])
}

fn outcome(row: &[u8], original: &[u8], work: &mut [u8]) -> Record {
    let (mut message, mut corrected) = ([0; 40], [0; 64]);
    let symbols = unpack(row);
    let answer = decode(
        TAPE_Q,
        TAPE_U.into(),
        &symbols,
        work,
        &mut message,
        &mut corrected,
    );
    match answer {
        Ok(count) if message[..] == unpack(original)[..] => Record {
            state: EQUAL,
            count,
        },
        Ok(count) => Record {
            state: OTHER_MESSAGE,
            count,
        },
        Err(_) => Record {
            state: UNREADABLE,
            count: 0,
        },
    }
}

fn verdict_on(records: &[Record]) -> Verdict {
    match records.iter().position(|record| record.state != EQUAL) {
        None => Verdict::Copied(records.iter().map(|record| record.count).sum()),
        Some(row) if records[row].state == UNREADABLE => Verdict::Unreadable(row),
        Some(row) => Verdict::Differs(row),
    }
}

/// The block of a payload, or nothing if the payload is not 20 bytes for each of 1 to 1,024 rows.
pub fn block_of(payload: &[u8]) -> Option<Vec<u8>> {
    let rows = payload.len() / PAYLOAD_BYTES;
    if payload.len() != rows * PAYLOAD_BYTES || !(1..=MOST_ROWS).contains(&rows) {
        return None;
    }
    let tape = Code::named(TAPE_Q, TAPE_U.into()).expect("the tape code is allowed");
    let mut block = header(rows as u16);
    for original in payload.chunks_exact(PAYLOAD_BYTES) {
        block.extend(pack(&tape.encode(&unpack(original))));
    }
    Some(block)
}

/// Writes the block of a payload to the first bytes of an area; the answer is how many bytes that is.
/// Refusals: 10, 7, in this order.
pub fn write(payload: &[u8], area: &mut [u8]) -> Result<usize, Refusal> {
    let block = block_of(payload).ok_or(BAD_PAYLOAD)?;
    let room = area.get_mut(..block.len()).ok_or(SHORT_OUTPUT)?;
    room.copy_from_slice(&block);
    Ok(block.len())
}

/// The header for a count of rows, also a forbidden one, which tests of refusal 9 need.
pub fn header(rows: u16) -> Vec<u8> {
    let length = 4 + ROW_BYTES as u32 * u32::from(rows);
    let mut bytes = length.to_be_bytes().to_vec();
    bytes.extend([VERSION, TAPE_U]);
    bytes.extend(rows.to_be_bytes());
    bytes
}
