//! The refusal order of every call and the effect of every answer on every lent place.

use reference::calls::{decode, encode, pass_on, stop};
use reference::curve::Code;
use reference::picture::{picture, picture_size};
use reference::samples::Random;
use reference::steps::State;

/// What areas hold before a call; no symbol has this value.
const BEFORE: u8 = 0xee;

/// Lengths and numbers of one call, each of them right or wrong in a chosen way.
struct Trial {
    q: u64,
    u: u64,
    steps: u64,
    symbols: Vec<u8>,
    work: usize,
    first: usize,
    second: usize,
}

fn encode_trial(trial: &Trial) -> Result<(), u8> {
    let mut out = vec![BEFORE; trial.second];
    let answer = encode(trial.q, trial.u, &trial.symbols, &mut out);
    if answer.is_err() {
        assert!(out.iter().all(|&byte| byte == BEFORE));
    }
    answer
}

fn stop_trial(trial: &Trial) -> Result<(), u8> {
    let mut work = vec![BEFORE; trial.work];
    let mut out = vec![BEFORE; trial.first];
    let answer = stop(
        trial.q,
        trial.u,
        trial.steps,
        &trial.symbols,
        &mut work,
        &mut out,
    );
    if answer.is_err() {
        assert!(work.iter().chain(&out).all(|&byte| byte == BEFORE));
    }
    answer
}

fn decode_trial(trial: &Trial) -> Result<u64, u8> {
    let mut work = vec![BEFORE; trial.work];
    let mut message = vec![BEFORE; trial.first];
    let mut corrected = vec![BEFORE; trial.second];
    let answer = decode(
        trial.q,
        trial.u,
        &trial.symbols,
        &mut work,
        &mut message,
        &mut corrected,
    );
    if answer.is_err() {
        assert!(message.iter().chain(&corrected).all(|&byte| byte == BEFORE));
        let needed = if answer == Err(8) {
            picture_size(trial.q as usize)
        } else {
            0
        };
        assert!(work[..needed].iter().all(|&byte| byte == 0));
        assert!(work[needed..].iter().all(|&byte| byte == BEFORE));
    }
    answer
}

/// A trial for q = 2, u = 4 with exactly the wrongs whose refusal numbers are given.
fn wrong_in(numbers: &[u8], length: usize) -> Trial {
    let wrong = |number: u8| numbers.contains(&number);
    let mut symbols = vec![0; if wrong(4) { length + 1 } else { length }];
    if wrong(5) {
        symbols[length - 1] = 4;
    }
    Trial {
        q: if wrong(1) { 3 } else { 2 },
        u: if wrong(2) { 8 } else { 4 },
        steps: if wrong(3) { 11 } else { 10 },
        symbols,
        work: if wrong(6) { 111 } else { 112 },
        first: if wrong(7) { 3 } else { 4 },
        second: if wrong(7) { 7 } else { 8 },
    }
}

#[test]
fn the_first_refusal_that_holds_is_given() {
    for chosen in 0..128_u32 {
        let numbers: Vec<u8> = (1..=7).filter(|bit| chosen >> (bit - 1) & 1 == 1).collect();
        let first_of = |order: &[u8]| order.iter().copied().find(|n| numbers.contains(n));
        let expected = |order: &[u8]| first_of(order).map_or(Ok(()), Err);
        let (row, message) = (wrong_in(&numbers, 8), wrong_in(&numbers, 4));
        assert_eq!(
            encode_trial(&message),
            expected(&[1, 2, 4, 5, 7]),
            "{numbers:?}"
        );
        assert_eq!(
            stop_trial(&row),
            expected(&[1, 2, 3, 4, 5, 6, 7]),
            "{numbers:?}"
        );
        let decoded = decode_trial(&row).map(|_| ());
        assert_eq!(decoded, expected(&[1, 2, 4, 5, 6, 7]), "{numbers:?}");
    }
}

#[test]
fn either_short_output_is_refused() {
    for (first, second) in [(3, 8), (4, 7), (0, 0), (8, 4)] {
        let trial = Trial {
            first,
            second,
            ..wrong_in(&[], 8)
        };
        assert_eq!(decode_trial(&trial), Err(7));
    }
}

#[test]
fn beyond_reach_is_refused_last_and_leaves_zero_work() {
    let symbols = vec![1, 1, 0, 0, 0, 0, 0, 0];
    let trial = Trial {
        symbols,
        work: 150,
        first: 9,
        second: 20,
        ..wrong_in(&[], 8)
    };
    assert_eq!(decode_trial(&trial), Err(8));
    assert_eq!(decode_trial(&Trial { second: 7, ..trial }), Err(7));
}

#[test]
fn numbers_of_any_size_are_refused_and_not_cut_short() {
    let trial = wrong_in(&[], 8);
    for number in [u64::MAX, (1 << 32) + 2, 1 << 63, (1 << 32) + 4] {
        assert_eq!(
            decode_trial(&Trial {
                q: number,
                ..wrong_in(&[], 8)
            }),
            Err(1)
        );
        assert_eq!(
            decode_trial(&Trial {
                u: number,
                ..wrong_in(&[], 8)
            }),
            Err(2)
        );
        assert_eq!(
            stop_trial(&Trial {
                steps: number,
                ..wrong_in(&[], 8)
            }),
            Err(3)
        );
    }
    assert_eq!(decode_trial(&trial), Ok(0));
}

#[test]
fn places_beyond_stay_and_earlier_contents_do_not_matter() {
    let mut random = Random::seeded(5);
    for (q, u) in [(2, 4), (2, 7), (4, 45), (4, 20)] {
        let code = Code::named(q, u).unwrap();
        let (n, k, size) = (code.n(), code.k(), picture_size(code.q()));
        let sent = random.message(&code);
        let mut row = vec![BEFORE; n + 3];
        assert_eq!(encode(q, u, &sent, &mut row), Ok(()));
        assert_eq!(row[n..], [BEFORE; 3]);
        row.truncate(n);
        random.damage(code.field, &mut row, code.reach());
        let mut work = random.bytes(size + 5);
        let mut message = random.bytes(k + 5);
        let mut corrected = random.bytes(n + 5);
        let kept = [&work[size..], &message[k..], &corrected[n..]].concat();
        let steps = random.below(70) as u64 % (if q == 2 { 11 } else { 77 });
        assert_eq!(stop(q, u, steps, &row, &mut work, &mut message), Ok(()));
        let state = State::after(code, &row, steps as usize);
        assert_eq!(
            (&work[..size], &message[..k]),
            (&picture(&state)[..], &state.message()[..])
        );
        let decoded = decode(q, u, &row, &mut work, &mut message, &mut corrected);
        assert_eq!(decoded, Ok(code.reach() as u64));
        assert_eq!(work[..size], vec![0; size]);
        assert_eq!(
            (&message[..k], &corrected[..n]),
            (&sent[..], &code.encode(&sent)[..])
        );
        assert_eq!(
            [&work[size..], &message[k..], &corrected[n..]].concat(),
            kept
        );
    }
}

#[test]
fn the_row_passed_on_is_a_part_of_a_lent_row() {
    let (received, corrected) = ([1; 70], [2; 66]);
    for (q, n) in [(2, 8), (4, 64)] {
        let accepted = pass_on(q, true, &received, &corrected);
        assert_eq!((accepted.as_ptr(), accepted.len()), (corrected.as_ptr(), n));
        let refused = pass_on(q, false, &received, &corrected);
        assert_eq!((refused.as_ptr(), refused.len()), (received.as_ptr(), n));
        assert!(pass_on(q, true, &received, &corrected[..n - 1]).is_empty());
        assert!(pass_on(q, false, &received[..n - 1], &corrected).is_empty());
        assert_eq!(pass_on(q, false, &received, &[]).len(), n);
    }
    for q in [0, 1, 3, 8, u64::MAX, (1 << 32) + 2] {
        assert!(pass_on(q, true, &received, &corrected).is_empty());
    }
}
