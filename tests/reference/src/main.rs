//! A small program over the reference.
//!
//! - `reference rowtrace` prints what rowtrace must print for the text on standard input.
//! - `reference block` writes the block of the payload on standard input.
//! - `reference time` tells how long 1,000 decodes of the tape code take.

use reference::block::block_of;
use reference::calls::decode;
use reference::curve::Code;
use reference::rowtrace::rowtrace;
use reference::samples::Random;
use std::io::{Read, Write};
use std::process::ExitCode;
use std::time::Instant;

fn main() -> ExitCode {
    match std::env::args().nth(1).as_deref() {
        Some("rowtrace") => answer_standard_input(|text| Some(rowtrace(text))),
        Some("block") => answer_standard_input(block_of),
        Some("time") => time_decodes(1000),
        _ => {
            eprintln!("usage: reference rowtrace | reference block | reference time");
            ExitCode::FAILURE
        }
    }
}

/// Writes what is made of standard input, or fails if nothing is made of it.
fn answer_standard_input(answer: fn(&[u8]) -> Option<Vec<u8>>) -> ExitCode {
    let mut input = Vec::new();
    std::io::stdin()
        .read_to_end(&mut input)
        .expect("standard input can be read");
    match answer(&input) {
        Some(output) => {
            std::io::stdout()
                .write_all(&output)
                .expect("standard output can be written");
            ExitCode::SUCCESS
        }
        None => ExitCode::FAILURE,
    }
}

/// Error counts run from 0 to τ+2, so that accepted and refused rows are both timed.
fn time_decodes(rows: usize) -> ExitCode {
    let code = Code::named(4, 45).expect("the tape code is allowed");
    let mut random = Random::seeded(1);
    let lists: Vec<Vec<u8>> = (0..rows)
        .map(|case| {
            let mut row = code.encode(&random.message(&code));
            random.damage(code.field, &mut row, case % (code.reach() + 3));
            row
        })
        .collect();
    let (mut work, mut message, mut corrected) = ([0; 1472], [0; 40], [0; 64]);
    let begin = Instant::now();
    let accepted = lists
        .iter()
        .filter(|row| decode(4, 45, row, &mut work, &mut message, &mut corrected).is_ok())
        .count();
    println!(
        "{rows} decodes, {accepted} accepted, {} ms",
        begin.elapsed().as_millis()
    );
    ExitCode::SUCCESS
}
