//! Cases over rows that a call refuses by 1 to 7, alone and together, with numbers of any size.

use crate::case::{Call, Case};
use crate::rows::damaged;
use reference::curve::Code;
use reference::picture::picture_size;
use reference::samples::{all_codes, Random};
use reference::steps::step_count;

/// Numbers that no call takes; some end in bits that a call would take alone.
const LARGE: [u64; 9] = [
    256,
    (1 << 16) + 4,
    (1 << 32) + 2,
    (1 << 32) + 4,
    (1 << 32) + 45,
    1 << 63,
    (1 << 63) + 4,
    u64::MAX - 1,
    u64::MAX,
];

pub fn one_of<T: Copy>(list: &[T], random: &mut Random) -> T {
    list[random.below(list.len())]
}

/// Near numbers are as likely as large ones.
pub fn near_or_large(near: &[u64], random: &mut Random) -> u64 {
    if random.below(2) == 0 {
        one_of(near, random)
    } else {
        one_of(&LARGE, random)
    }
}

fn wrong_q(random: &mut Random) -> u64 {
    near_or_large(&[0, 1, 3, 5, 6, 8, 16], random)
}

fn wrong_u(q: usize, random: &mut Random) -> u64 {
    let is_wrong = |&u: &u64| Code::named(q as u64, u).is_err();
    let near: Vec<u64> = (0..2 * q.pow(3) as u64).filter(is_wrong).collect();
    near_or_large(&near, random)
}

fn wrong_steps(q: usize, random: &mut Random) -> u64 {
    let one_more = step_count(q) as u64 + 1;
    near_or_large(&[one_more, one_more + 1], random)
}

/// One too long, one too short, or empty.
pub fn spoil_length(area: &mut Vec<u8>, random: &mut Random) {
    match random.below(3) {
        0 => area.push(0),
        1 => drop(area.pop()),
        _ => area.clear(),
    }
}

fn spoil_symbol(symbols: &mut [u8], code: &Code, random: &mut Random) {
    let size = code.field.size();
    if !symbols.is_empty() {
        let place = random.below(symbols.len());
        symbols[place] = one_of(&[size, size + 1, 128, 255], random) as u8;
    }
}

/// An area with the needed places and perhaps more, or, if it is to be wrong, with fewer.
pub fn area(needed: usize, short: bool, random: &mut Random) -> Vec<u8> {
    let length = match (short, random.below(2)) {
        (false, more) => needed + more,
        (true, 0) => needed - 1,
        (true, _) => random.below(needed),
    };
    random.bytes(length)
}

/// A call over a row or a message. The seven lowest bits of the index say which of refusals 1 to 7
/// is to hold, the next two say which call it is: so each call meets each set of wrongs.
pub fn row_call(index: usize, random: &mut Random) -> Case {
    let wrong = |refusal: usize| index >> (refusal - 1) & 1 == 1;
    let code = one_of(&all_codes(one_of(&[2, 2, 2, 4], random)), random);
    let q = if wrong(1) {
        wrong_q(random)
    } else {
        code.q() as u64
    };
    let u = if wrong(2) {
        wrong_u(code.q(), random)
    } else {
        code.u as u64
    };
    let which = index >> 7 & 3;
    let mut symbols = match which {
        0 => random.message(&code),
        _ => damaged(&code, 1, random),
    };
    if wrong(4) {
        spoil_length(&mut symbols, random);
    }
    if wrong(5) {
        spoil_symbol(&mut symbols, &code, random);
    }
    let work = area(picture_size(code.q()), wrong(6), random);
    // Of two outputs either one or both are short; a call with one output has its own spoiled.
    let spoiled = if which == 2 { random.below(3) } else { 2 };
    let message = area(code.k(), wrong(7) && spoiled != 1, random);
    let row = area(code.n(), wrong(7) && spoiled != 0, random);
    match which {
        0 => Case::of(Call::Encode { q, u }, vec![symbols, row]),
        1 => {
            let steps = match wrong(3) {
                true => wrong_steps(code.q(), random),
                false => random.below(step_count(code.q()) + 1) as u64,
            };
            Case::of(Call::Stop { q, u, steps }, vec![symbols, work, message])
        }
        _ => Case::of(Call::Decode { q, u }, vec![symbols, work, message, row]),
    }
}
