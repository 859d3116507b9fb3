//! The messages that the program crate `encode_rows` encodes, and what it must print.
//!
//! `cargo run --example encode_rows -- messages` prints each message as the text of the byte string that stands in the program,
//! `-- answers` its `stdout`.

use reference::calls::encode;
use reference::curve::Code;
use reference::samples::Random;

fn main() {
    let code = Code::named(4, 45).expect("the tape code is allowed");
    let mut random = Random::seeded(45);
    let messages: Vec<Vec<u8>> = (0..3).map(|_| random.message(&code)).collect();
    match std::env::args().nth(1).as_deref() {
        Some("messages") => messages
            .iter()
            .for_each(|message| println!("{}", text(message))),
        Some("answers") => {
            // Document 01's entries, with so many zeros as messages of these codes have.
            for (u, k) in [(4, 2), (63, 58), (0, 0), (3, 0), (11, 0), (64, 0)] {
                println!("u {u} {}", encoded(u, &vec![0; k], &mut [0; 64]));
            }
            messages.iter().for_each(|message| print_row(message));
        }
        _ => panic!("usage: encode_rows messages | encode_rows answers"),
    }
}

/// A message as a byte string of the program.
fn text(message: &[u8]) -> String {
    let bytes: String = message
        .iter()
        .map(|byte| format!("\\x{byte:02x}"))
        .collect();
    format!("b\"{bytes}\"")
}

/// What encoding for q = 4 answers.
fn encoded(u: u64, message: &[u8], row: &mut [u8]) -> String {
    match encode(4, u, message, row) {
        Ok(()) => "done".to_string(),
        Err(refusal) => format!("refuse {refusal}"),
    }
}

fn print_row(message: &[u8]) {
    let mut row = [0; 64];
    let answer = encoded(45, message, &mut row);
    let symbols: String = row.iter().map(|symbol| format!(" {symbol}")).collect();
    println!("row{symbols} {answer}");
}
