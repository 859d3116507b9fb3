//! A case with what must come of it, and how a program is held to that.

use crate::case::{Body, Case, Outcome};
use crate::harness::TOGETHER;
use crate::program::Program;
use crate::report::{self, is_fault};
use reference::samples::Random;

/// At most so many cases go together, so that the threads end at about the same time.
const CASES_TOGETHER: usize = 64;

/// A case, what must come of it, and the bytes that say both.
pub struct Made {
    group: &'static str,
    index: usize,
    case: Case,
    outcome: Outcome,
    body: Body,
    wanted: Vec<u8>,
}

impl Made {
    /// The group and the index say in words which case it is.
    pub fn of(
        (group, index): (&'static str, usize),
        case: Case,
        outcome: Outcome,
        random: &mut Random,
    ) -> Made {
        let body = Body::of(&case, &outcome, random);
        let wanted = body.after(&outcome);
        Made {
            group,
            index,
            case,
            outcome,
            body,
            wanted,
        }
    }

    fn in_words(&self, what: &str) -> String {
        let words = report::case_in_words(&self.case, &self.outcome);
        format!(
            "in case {} of \"{}\": {what}\n{words}",
            self.index, self.group
        )
    }
}

/// The next cases, as many as go together.
pub fn together(mut next: impl FnMut() -> Option<Made>) -> Vec<Made> {
    let (mut cases, mut bytes) = (Vec::new(), 0);
    while cases.len() < CASES_TOGETHER && bytes < TOGETHER / 2 {
        match next() {
            Some(made) => cases.push(made),
            None => break,
        }
        bytes += cases.last().map_or(0, |made| made.body.bytes.len());
    }
    cases
}

/// Asks a program for all cases; it is told no more once enough was found of it.
pub fn hold(program: &Program, cases: &[Made], thread: usize) {
    let mut harness = program.harness(thread);
    // Another thread may have had its last answer meanwhile.
    if program.is_given_up() {
        return;
    }
    if let Err(error) = harness.send(cases.iter().map(|made| &made.body.bytes[..])) {
        return program.add_breakdown(cases[0].in_words(&error.to_string()));
    }
    for made in cases {
        match harness.answer(made.wanted.len()) {
            Ok(answer) if answer == made.wanted => (),
            Ok(answer) => {
                let call = &made.case.call;
                let what = report::first_difference(call, &made.body, &made.wanted, &answer);
                program.add_difference(made.in_words(&what), is_fault(&answer));
            }
            Err(_) if program.is_given_up() => return,
            Err(error) => return program.add_breakdown(made.in_words(&error.to_string())),
        }
    }
}
