//! Random and exhaustive rows: demand 3 after every step, undamaged rows, and rows within reach.
//!
//! Document 01 does not promise that every row within reach is accepted, but source 000 does
//! (proposition 12), so these tests tell whether it holds for the steps as document 01 has them.

use reference::calls::decode;
use reference::curve::{differing_places, Code};
use reference::demand3;
use reference::picture::picture_size;
use reference::samples::{all_codes, Random};
use reference::steps::{step_count, State};

/// Takes all steps and checks demand 3 at the start and after every one.
fn check_every_step(code: Code, row: &[u8]) {
    let mut state = State::start(code, row);
    for steps in 0..=step_count(code.q()) {
        if let Err(what) = demand3::check(&state, row, steps) {
            panic!("{code:?} row {row:?} after {steps} steps: {what}");
        }
        if state.weight >= 0 {
            state.step();
        }
    }
}

/// The count, message and corrected row of a decode call, or its refusal.
fn decoded(code: &Code, row: &[u8]) -> Result<(u64, Vec<u8>, Vec<u8>), u8> {
    let mut work = vec![1; picture_size(code.q())];
    let (mut message, mut corrected) = (vec![1; code.k()], vec![1; code.n()]);
    let (q, u) = (code.q() as u64, code.u as u64);
    let count = decode(q, u, row, &mut work, &mut message, &mut corrected)?;
    Ok((count, message, corrected))
}

/// An acceptance must be true of the row, whatever the row is.
fn check_acceptance(code: &Code, row: &[u8]) {
    match decoded(code, row) {
        Ok((count, message, corrected)) => {
            assert_eq!(corrected, code.encode(&message));
            assert_eq!(count as usize, differing_places(&corrected, row));
            assert!(count as usize <= code.reach());
        }
        Err(refusal) => assert_eq!(refusal, 8),
    }
}

/// One row with this many errors: within reach its message must come back with its count.
fn check_damaged(code: &Code, errors: usize, random: &mut Random) {
    let message = random.message(code);
    let sent = code.encode(&message);
    let mut row = sent.clone();
    random.damage(code.field, &mut row, errors);
    if errors <= code.reach() {
        let expected = Ok((errors as u64, message, sent));
        assert_eq!(
            decoded(code, &row),
            expected,
            "{code:?}, {errors} errors, row {row:?}"
        );
    } else {
        check_acceptance(code, &row);
    }
}

#[test]
fn demand_3_holds_after_every_step_for_q_2() {
    let seed = 201;
    println!("seed {seed}");
    let mut random = Random::seeded(seed);
    for code in all_codes(2) {
        for case in 0..400 {
            let mut row = code.encode(&random.message(&code));
            let errors = case % (code.reach() + 4);
            match errors.checked_sub(code.reach() + 3) {
                None => random.damage(code.field, &mut row, errors),
                Some(_) => row = random.symbols(code.field, code.n()),
            }
            check_every_step(code, &row);
        }
    }
}

#[test]
fn demand_3_holds_after_every_step_for_q_4() {
    let seed = 202;
    println!("seed {seed}");
    let mut random = Random::seeded(seed);
    for code in all_codes(4) {
        check_every_step(code, &random.symbols(code.field, code.n()));
        for errors in [0, code.reach(), code.reach() + 1] {
            let mut row = code.encode(&random.message(&code));
            random.damage(code.field, &mut row, errors);
            check_every_step(code, &row);
        }
    }
}

#[test]
fn demand_3_holds_for_every_error_count_of_the_tape_code() {
    let seed = 203;
    println!("seed {seed}");
    let mut random = Random::seeded(seed);
    let code = Code::named(4, 45).unwrap();
    for errors in 0..=code.n() {
        let mut row = code.encode(&random.message(&code));
        random.damage(code.field, &mut row, errors);
        check_every_step(code, &row);
    }
}

#[test]
fn rows_of_q_4_within_reach_give_their_message() {
    let seed = 204;
    println!("seed {seed}");
    let mut random = Random::seeded(seed);
    for code in all_codes(4) {
        for errors in 0..=code.reach() + 2 {
            check_damaged(&code, errors, &mut random);
        }
        check_acceptance(&code, &random.symbols(code.field, code.n()));
    }
}

#[test]
fn rows_of_the_tape_code_within_reach_give_their_message() {
    let seed = 205;
    println!("seed {seed}");
    let mut random = Random::seeded(seed);
    let code = Code::named(4, 45).unwrap();
    for case in 0..600 {
        check_damaged(&code, case % (code.reach() + 3), &mut random);
    }
}

/// All rows of q = 2, coded as numbers of base 4; a message is read from a number likewise.
fn symbols_of(number: usize, length: usize) -> Vec<u8> {
    (0..length)
        .map(|place| (number >> (2 * place) & 3) as u8)
        .collect()
}

#[test]
fn every_row_of_q_2_is_judged_rightly() {
    for code in all_codes(2) {
        for number in (0..1 << 16).step_by(if code.u == 4 { 1 } else { 7 }) {
            check_acceptance(&code, &symbols_of(number, 8));
        }
    }
}

#[test]
fn every_row_of_q_2_within_reach_gives_its_message() {
    for code in all_codes(2) {
        // An error row of weight 0 is among them, so undamaged rows are tried too.
        let errors: Vec<Vec<u8>> = (0..1 << 16)
            .map(|number| symbols_of(number, 8))
            .filter(|error| differing_places(error, &[0; 8]) <= code.reach())
            .collect();
        for number in 0..1 << (2 * code.k()) {
            let message = symbols_of(number, code.k());
            let sent = code.encode(&message);
            for error in &errors {
                let row: Vec<u8> = sent.iter().zip(error).map(|(a, b)| a ^ b).collect();
                let count = differing_places(error, &[0; 8]) as u64;
                let expected = Ok((count, message.clone(), sent.clone()));
                assert_eq!(decoded(&code, &row), expected, "{code:?}, row {row:?}");
            }
        }
    }
}
