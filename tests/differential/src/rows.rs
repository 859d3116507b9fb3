//! Cases over full rows and messages: whatever their symbols are, no call refuses them but by 8.

use crate::case::{Call, Case};
use reference::curve::Code;
use reference::picture::picture_size;
use reference::samples::{all_codes, Random};
use reference::steps::step_count;

/// An area with at least the needed places; what it holds must not matter to any answer.
fn lent(needed: usize, random: &mut Random) -> Vec<u8> {
    let length = needed + random.below(6);
    random.bytes(length)
}

fn numbers(code: &Code) -> (u64, u64) {
    (code.q() as u64, code.u as u64)
}

pub fn encode_case(code: &Code, message: Vec<u8>, random: &mut Random) -> Case {
    let (q, u) = numbers(code);
    Case::of(Call::Encode { q, u }, vec![message, lent(code.n(), random)])
}

pub fn stop_case(code: &Code, steps: usize, row: Vec<u8>, random: &mut Random) -> Case {
    let (q, u) = numbers(code);
    let steps = steps as u64;
    let work = lent(picture_size(code.q()), random);
    Case::of(
        Call::Stop { q, u, steps },
        vec![row, work, lent(code.k(), random)],
    )
}

pub fn decode_case(code: &Code, row: Vec<u8>, random: &mut Random) -> Case {
    let (q, u) = numbers(code);
    let work = lent(picture_size(code.q()), random);
    let (message, corrected) = (lent(code.k(), random), lent(code.n(), random));
    Case::of(Call::Decode { q, u }, vec![row, work, message, corrected])
}

/// The row of a random message with this many places changed.
pub fn damaged(code: &Code, places: usize, random: &mut Random) -> Vec<u8> {
    let mut row = code.encode(&random.message(code));
    random.damage(code.field, &mut row, places);
    row
}

/// Rows near no message, and rows of much regularity, where scores are often equal.
pub fn garbage(code: &Code, random: &mut Random) -> Vec<u8> {
    let (field, n, q) = (code.field, code.n(), code.q());
    match random.below(6) {
        0 => random.symbols(field, n),
        1 => {
            let two = random.symbols(field, 2);
            (0..n).map(|_| two[random.below(2)]).collect()
        }
        2 => {
            let mut row = vec![random.symbol(field); n];
            let places = random.below(q * q);
            random.damage(field, &mut row, places);
            row
        }
        3 => {
            let places = code.reach() + 1 + random.below(n - code.reach());
            damaged(code, places, random)
        }
        4 => {
            let by_abscissa = random.symbols(field, field.size());
            (0..n).map(|place| by_abscissa[place / q]).collect()
        }
        _ => {
            let codes = all_codes(q as u64);
            let other = codes[random.below(codes.len())];
            damaged(&other, 0, random)
        }
    }
}

/// Every code of q with every number of damaged places from 0 to two beyond its reach.
pub fn codes_and_damages(q: u64) -> Vec<(Code, usize)> {
    let damages = |code: Code| (0..=code.reach() + 2).map(move |places| (code, places));
    all_codes(q).into_iter().flat_map(damages).collect()
}

/// The codes of q = 4 with the longest messages, damaged in as many places as the reach and in one more. There are 32 of
/// them, so that every thirteenth of 13 rounds has each.
pub fn thin_borders() -> Vec<(Code, usize)> {
    let borders = |code: Code| [(code, code.reach()), (code, code.reach() + 1)];
    let thin = all_codes(4).into_iter().filter(|code| code.u >= 48);
    thin.flat_map(borders).collect()
}

/// Every code of q with every number of steps.
pub fn codes_and_steps(q: u64) -> Vec<(Code, usize)> {
    let stops = |code: Code| (0..=step_count(code.q())).map(move |steps| (code, steps));
    all_codes(q).into_iter().flat_map(stops).collect()
}

/// The entry of a list that goes on from its start again and again.
pub fn around<T: Copy>(list: &[T], index: usize) -> T {
    list[index % list.len()]
}

/// The row of q = 2 whose symbols are the digits of a number.
pub fn row_of_q_2(number: usize) -> Vec<u8> {
    (0..8)
        .map(|place| (number >> (2 * place) & 3) as u8)
        .collect()
}

/// The number whose digits a row of q = 2 has.
pub fn number_of_row(row: &[u8]) -> usize {
    let digits = row.iter().rev();
    digits.fold(0, |number, &symbol| number << 2 | usize::from(symbol))
}
