//! A difference in words, with the row as a text that the program rowtrace reads.

use crate::case::{Body, Call, Case, Outcome};
use reference::block::{unpack, PAYLOAD_BYTES, ROW_BYTES};
use reference::calls::encode;
use std::fmt::Write;

/// The harness's result for a call that read or wrote past an area, or wrote where nothing is to be written.
const FAULT: i64 = i64::MIN;

/// The text of a row: a line with q and u, a line with the row.
fn rowtrace_text(q: u64, u: u64, row: &[u8]) -> String {
    let numbers: Vec<String> = row.iter().map(u8::to_string).collect();
    format!("{q} {u}\n{}\n", numbers.join(" "))
}

pub fn result_of(bytes: &[u8]) -> i64 {
    let mut result = [0; 8];
    result.copy_from_slice(&bytes[..8]);
    i64::from_le_bytes(result)
}

/// The first of the request's numbers, where a verification writes its total or row.
pub fn place_of(bytes: &[u8]) -> u64 {
    let mut number = [0; 8];
    number.copy_from_slice(&bytes[8..16]);
    u64::from_le_bytes(number)
}

pub fn is_fault(answer: &[u8]) -> bool {
    result_of(answer) == FAULT
}

/// The two results, or, if they agree, the first byte that differs.
pub fn first_difference(call: &Call, body: &Body, expected: &[u8], answer: &[u8]) -> String {
    let (result, wanted) = (result_of(answer), result_of(expected));
    if is_fault(answer) {
        return format!("it touches what it may not, and the result is to be {wanted}");
    }
    if result != wanted {
        return format!("the result is {result} instead of {wanted}");
    }
    let at = (0..expected.len())
        .find(|&at| expected[at] != answer[at])
        .expect("the answers differ");
    let place = body.place_in_words(call, at);
    format!("{place} is {} instead of {}", answer[at], expected[at])
}

/// The call, how long its areas are, and each row that it is about.
pub fn case_in_words(case: &Case, expected: &Outcome) -> String {
    let lengths: Vec<usize> = case.areas.iter().map(Vec::len).collect();
    let mut text = format!("{:?}, areas of {lengths:?} bytes\n", case.call);
    if let Some((area, length)) = case.told {
        writeln!(text, "area {area} told as {length} bytes").expect("a string takes every text");
    }
    match case.call {
        Call::Encode { q, u } => {
            let mut row = [0; 64];
            let message = &case.areas[0];
            writeln!(text, "message {message:?}").expect("a string takes every text");
            let length = if q == 2 { 8 } else { 64 };
            if encode(q, u, message, &mut row).is_ok() {
                text += &rowtrace_text(q, u, &row[..length]);
            }
        }
        Call::Stop { q, u, .. } | Call::Decode { q, u } => {
            text += &rowtrace_text(q, u, &case.areas[0]);
        }
        Call::Verify { .. } => text += &rows_of_block(case, expected),
        Call::PassOn { .. } => (),
        Call::Write => {
            let payload = &case.areas[0];
            let first = &payload[..payload.len().min(PAYLOAD_BYTES)];
            writeln!(text, "payload begins with {first:?}").expect("a string takes every text");
        }
    }
    text
}

/// The block's head, and its rows with the records that they should get. Only whole blocks of a
/// few rows are shown in full: a difference in a long one shows again in a short one.
fn rows_of_block(case: &Case, expected: &Outcome) -> String {
    let (block, records) = (&case.areas[0], &expected.areas[2]);
    let head = &block[..block.len().min(8)];
    let mut text = format!("block begins with {head:?}\n");
    if expected.result < 0 {
        return text;
    }
    for (r, packed) in block[8..].chunks(ROW_BYTES).take(16).enumerate() {
        let record = &records[2 * r..][..2];
        writeln!(text, "row {r}, its record is {record:?}:").expect("a string takes every text");
        text += &rowtrace_text(4, 45, &unpack(packed));
    }
    text
}
