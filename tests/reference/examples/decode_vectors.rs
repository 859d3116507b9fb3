//! The rows that the program crate `decode_vectors` decodes, and what it must print for them.
//!
//! `cargo run --example decode_vectors -- rows` prints the program's `stdin`, `-- answers` its `stdout`.

use reference::calls::decode;
use reference::curve::Code;
use reference::samples::Random;

/// What stands in an output where nothing was written; it is no symbol.
const UNTOUCHED: u8 = 255;

fn main() {
    let answers = match std::env::args().nth(1).as_deref() {
        Some("rows") => false,
        Some("answers") => true,
        _ => panic!("usage: decode_vectors rows | decode_vectors answers"),
    };
    for (code, row) in rows() {
        let named = format!("{} {:02}", code.q(), code.u);
        if answers {
            println!("{named} {}", answer(&code, &row, 1480));
        } else {
            println!("{named} {}", digits(&row));
        }
    }
    if answers {
        edges();
    }
}

/// q = 2, u = 4: every row with at most one damaged place, for six messages. q = 4: rows of several u with no place, one
/// place, half the reach, the reach, and one and three places more damaged; for the tape code every number up to two more.
fn rows() -> Vec<(Code, Vec<u8>)> {
    let mut random = Random::seeded(7);
    let small = Code::named(2, 4).expect("a code");
    let mut messages = vec![vec![0, 0, 0, 0], vec![1, 2, 0, 3], vec![3, 3, 3, 3]];
    messages.extend((0..3).map(|_| random.message(&small)));
    let mut rows = Vec::new();
    for message in messages {
        let row = small.encode(&message);
        rows.push((small, row.clone()));
        for place in 0..small.n() {
            for change in 1..4 {
                let mut damaged = row.clone();
                damaged[place] = small.field.sum(damaged[place], change);
                rows.push((small, damaged));
            }
        }
    }
    for u in [4, 13, 30, 45, 52, 58, 63] {
        let code = Code::named(4, u).expect("a code");
        let reach = code.reach();
        let counts = match u {
            45 => (0..=reach + 2).collect(),
            _ => vec![0, 1, reach / 2, reach, reach + 1, reach + 3],
        };
        for errors in counts {
            let mut row = code.encode(&random.message(&code));
            random.damage(code.field, &mut row, errors);
            rows.push((code, row));
        }
    }
    rows
}

/// The answer, the two outputs of 64 places, and how many places of the work area are zero from its start on.
fn answer(code: &Code, row: &[u8], area: usize) -> String {
    let mut work = vec![UNTOUCHED; area];
    let (mut message, mut corrected) = ([UNTOUCHED; 64], [UNTOUCHED; 64]);
    let (q, u) = (code.q() as u64, code.u as u64);
    let told = match decode(q, u, row, &mut work, &mut message, &mut corrected) {
        Ok(count) => format!("accept {count}"),
        Err(refusal) => format!("refuse {refusal}"),
    };
    let cleared = work.iter().take_while(|&&place| place == 0).count();
    format!(
        "{told} {} {} {cleared}",
        digits(&message),
        digits(&corrected)
    )
}

/// A work area that is just long enough, and one that is a place too short.
fn edges() {
    let code = Code::named(4, 45).expect("the tape code");
    let row = [0; 64];
    for area in [1472, 1471] {
        println!("work {area} {}", answer(&code, &row, area));
    }
}

/// A hexadecimal digit for each symbol, and a dot where nothing was written.
fn digits(symbols: &[u8]) -> String {
    symbols
        .iter()
        .map(|&symbol| match symbol {
            UNTOUCHED => '.',
            _ => char::from_digit(u32::from(symbol), 16).expect("a symbol"),
        })
        .collect()
}
