//! The cases that the program crate `stop_vectors` runs the stop service on, and what it must print for them.
//!
//! `cargo run --example stop_vectors -- cases` prints the program's `stdin`, `-- answers` its `stdout`.

use reference::calls::stop;
use reference::curve::Code;
use reference::picture::picture_size;
use reference::samples::Random;
use reference::steps::step_count;

/// What stands in the areas before a call; it is no symbol.
const UNTOUCHED: u8 = 255;

/// One call: the areas are as long as said, and hold no symbols before it.
#[derive(Clone)]
struct Case {
    q: u64,
    u: u64,
    steps: u64,
    work: usize,
    output: usize,
    row: Vec<u8>,
}

fn main() {
    let answers = match std::env::args().nth(1).as_deref() {
        Some("cases") => false,
        Some("answers") => true,
        _ => panic!("usage: stop_vectors cases | stop_vectors answers"),
    };
    for case in cases() {
        let numbers = case.numbers();
        if answers {
            println!("{numbers} {}", case.answer());
        } else {
            println!("{numbers} {}", digits(&case.row));
        }
    }
}

/// Several u for each q, with the tape code and document 01's example code among them, then the refusals.
fn cases() -> Vec<Case> {
    let mut random = Random::seeded(5);
    let mut cases = Vec::new();
    for (u, stops) in [
        (2, vec![5, 10]),
        (4, (0..=10).collect()),
        (5, vec![3, 10]),
        (7, vec![1, 10]),
    ] {
        add_rows(&mut random, 2, u, &stops, &mut cases);
    }
    for (u, stops) in [
        (4, vec![76]),
        (30, vec![50]),
        (45, vec![0, 31, 76]),
        (63, vec![13]),
    ] {
        add_rows(&mut random, 4, u, &stops, &mut cases);
    }
    cases.extend(borders(&cases));
    cases
}

/// A zero row, a code row, a row damaged in as many places as the reach, one damaged in two places more, and a garbage row,
/// each stopped after each of these numbers of steps.
fn add_rows(random: &mut Random, q: u64, u: u64, stops: &[u64], cases: &mut Vec<Case>) {
    let code = Code::named(q, u).expect("a code");
    let mut rows = vec![vec![0; code.n()]];
    for errors in [0, code.reach(), code.reach() + 2] {
        let mut row = code.encode(&random.message(&code));
        random.damage(code.field, &mut row, errors);
        rows.push(row);
    }
    rows.push(random.symbols(code.field, code.n()));
    for row in rows {
        for &steps in stops {
            cases.push(Case {
                q,
                u,
                steps,
                // One place more than is needed, which must stay as it was.
                work: picture_size(code.q()) + 1,
                output: (code.k() + 1).min(64),
                row: row.clone(),
            });
        }
    }
}

/// The last case of each q with one thing wrong, and what passes at the same border: those of document
/// 01's hand-worked table (76 and 77 steps, 1,472 and 1,471 places of work) are among them.
fn borders(cases: &[Case]) -> Vec<Case> {
    let mut found = Vec::new();
    for q in [2, 4] {
        let good = cases.iter().rfind(|case| case.q == q).expect("a case");
        let code = Code::named(q, good.u).expect("a code");
        let (steps, work, k) = (
            step_count(code.q()) as u64,
            picture_size(code.q()),
            code.k(),
        );
        let mut other = |change: &dyn Fn(&mut Case)| {
            let mut case = good.clone();
            change(&mut case);
            found.push(case);
        };
        other(&|case| case.q = 3);
        other(&|case| case.u = 1);
        other(&|case| case.steps = steps);
        other(&|case| case.steps = steps + 1);
        other(&|case| case.row.truncate(code.n() - 1));
        other(&|case| case.row.push(0));
        other(&|case| case.row[1] = code.field.size() as u8);
        other(&|case| case.work = work);
        other(&|case| case.work = work - 1);
        other(&|case| case.output = k);
        other(&|case| case.output = k - 1);
    }
    found
}

impl Case {
    fn numbers(&self) -> String {
        let Case {
            q,
            u,
            steps,
            work,
            output,
            ..
        } = self;
        format!("{q} {u:02} {steps:02} {work:04} {output:02}")
    }

    /// The answer, the output and the work area.
    fn answer(&self) -> String {
        let mut work = vec![UNTOUCHED; self.work];
        let mut output = vec![UNTOUCHED; self.output];
        let told = match stop(
            self.q,
            self.u,
            self.steps,
            &self.row,
            &mut work,
            &mut output,
        ) {
            Ok(()) => "done".to_string(),
            Err(refusal) => format!("refuse {refusal}"),
        };
        format!("{told} {} {}", digits(&output), digits(&work))
    }
}

/// A digit for each number, letters beyond f for what is no symbol, and a dot where nothing was written.
fn digits(numbers: &[u8]) -> String {
    numbers
        .iter()
        .map(|&number| match number {
            UNTOUCHED => '.',
            _ => char::from_digit(u32::from(number), 36).expect("at most the field's size"),
        })
        .collect()
}
