//! The public calls of document 01 over lent areas: refusals in their order, and the effect on
//! every lent place. Places that a call does not name are never touched.

use crate::curve::{differing_places, Code};
use crate::field::Field;
use crate::picture::{picture, picture_size};
use crate::refusal::{
    Refusal, BEYOND_REACH, NOT_A_SYMBOL, SHORT_OUTPUT, SHORT_WORK, TOO_MANY_STEPS, WRONG_LENGTH,
};
use crate::steps::{step_count, State};

/// Writes the row of a message to the first n places of `out`. Refusals: 1, 2, 4, 5, 7.
pub fn encode(q: u64, u: u64, message: &[u8], out: &mut [u8]) -> Result<(), Refusal> {
    let code = Code::named(q, u)?;
    check_symbols(&code, message, code.k())?;
    check_output(out, code.n())?;
    write_to(out, &code.encode(message));
    Ok(())
}

/// Takes some steps on a row, leaves the picture of the state in `work` and the votes in the
/// first k places of `out`. Refusals: 1, 2, 3, 4, 5, 6, 7.
pub fn stop(
    q: u64,
    u: u64,
    steps: u64,
    row: &[u8],
    work: &mut [u8],
    out: &mut [u8],
) -> Result<(), Refusal> {
    let code = Code::named(q, u)?;
    if steps > step_count(code.q()) as u64 {
        return Err(TOO_MANY_STEPS);
    }
    check_symbols(&code, row, code.n())?;
    check_work(&code, work)?;
    check_output(out, code.k())?;
    let state = State::after(code, row, steps as usize);
    write_to(work, &picture(&state));
    write_to(out, &state.message());
    Ok(())
}

/// Takes all steps and accepts the votes if their row differs from the received one in at most τ
/// places; the answer is the number of these places. Writes the first k places of `message` and
/// the first n of `corrected`. Refusals: 1, 2, 4, 5, 6, 7, 8. Accepted or refused with 8, its
/// part of `work` ends zero.
pub fn decode(
    q: u64,
    u: u64,
    row: &[u8],
    work: &mut [u8],
    message: &mut [u8],
    corrected: &mut [u8],
) -> Result<u64, Refusal> {
    let code = Code::named(q, u)?;
    check_symbols(&code, row, code.n())?;
    check_work(&code, work)?;
    check_output(message, code.k())?;
    check_output(corrected, code.n())?;
    let votes = State::after(code, row, step_count(code.q())).message();
    let votes_row = code.encode(&votes);
    work[..picture_size(code.q())].fill(0);
    let count = differing_places(&votes_row, row);
    if count > code.reach() {
        return Err(BEYOND_REACH);
    }
    write_to(message, &votes);
    write_to(corrected, &votes_row);
    Ok(count as u64)
}

/// The first n symbols of the corrected row if accepted, else of the received one; an empty part
/// if there is no such q or the row is too short.
pub fn pass_on<'a>(q: u64, accepted: bool, received: &'a [u8], corrected: &'a [u8]) -> &'a [u8] {
    let chosen = if accepted { corrected } else { received };
    match Field::of(q) {
        Some(field) => chosen.get(..field.q().pow(3)).unwrap_or(&[]),
        None => &[],
    }
}

/// Refusals 4 and 5, in this order, for a row or a message.
fn check_symbols(code: &Code, symbols: &[u8], length: usize) -> Result<(), Refusal> {
    if symbols.len() != length {
        return Err(WRONG_LENGTH);
    }
    if symbols.iter().any(|&symbol| !code.field.is_symbol(symbol)) {
        return Err(NOT_A_SYMBOL);
    }
    Ok(())
}

fn check_work(code: &Code, work: &[u8]) -> Result<(), Refusal> {
    if work.len() < picture_size(code.q()) {
        return Err(SHORT_WORK);
    }
    Ok(())
}

fn check_output(out: &[u8], needed: usize) -> Result<(), Refusal> {
    if out.len() < needed {
        return Err(SHORT_OUTPUT);
    }
    Ok(())
}

fn write_to(area: &mut [u8], symbols: &[u8]) {
    area[..symbols.len()].copy_from_slice(symbols);
}
