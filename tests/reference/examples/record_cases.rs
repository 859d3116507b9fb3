//! What the program crate `record_cases` must print: the records that verifying leaves in a list of four.
//!
//! `cargo run --example record_cases` prints the program's `stdout`.

use reference::block::{header, verify, Record};

/// Rows of zeros with some bytes changed, counted from the block's first.
fn block_with(rows: u16, changes: &[(usize, u8)]) -> Vec<u8> {
    let mut block = header(rows);
    block.resize(8 + 32 * usize::from(rows), 0);
    for &(place, byte) in changes {
        block[place] = byte;
    }
    block
}

/// Verifies with four records that no verifying leaves, and prints them.
fn run(name: &str, block: &[u8], payload: &[u8]) {
    let mut records = [Record { state: 9, count: 9 }; 4];
    verify(block, payload, &mut records, &mut [0; 1472]);
    println!("{name}");
    for record in records {
        println!("state {} count {}", record.state, record.count);
    }
}

fn main() {
    let (zeros, mut payload) = (block_with(2, &[]), [0; 80]);
    let ten = [(8, 17), (11, 34), (17, 51), (24, 68), (31, 85)];
    let nine = [(40, 17), (44, 34), (50, 51), (61, 68), (70, 5)];
    payload[20] = 1;
    run(
        "changed, other message",
        &block_with(2, &[(8, 16)]),
        &payload[..40],
    );
    payload[20] = 0;
    run("unreadable, equal", &block_with(2, &ten), &payload[..40]);
    run("version 2", &block_with(2, &[(4, 2)]), &payload[..40]);
    run("payload of 39", &zeros, &payload[..39]);
    payload[59] = 128;
    run(
        "equal, nine changed, other message, equal",
        &block_with(4, &nine),
        &payload,
    );
}
