//! Calls of one program by itself, where what it is asked next follows from what it answered. No
//! decoder of the reference is used: what a row must be read as is known from the message that the
//! program itself encoded.

use crate::case::{Body, Case, Outcome};
use crate::made::{hold, together, Made};
use crate::program::Program;
use crate::report::{place_of, result_of};
use crate::rows::{decode_case, encode_case};
use reference::curve::Code;
use reference::picture::picture_size;
use reference::refusal::BEYOND_REACH;
use reference::samples::Random;

/// So many calls over a row go to the program together.
const CALLS_TOGETHER: usize = 64;

/// A call that was done, and its answer.
pub struct Done {
    body: Body,
    answer: Vec<u8>,
}

impl Done {
    pub fn area(&self, area: usize, length: usize) -> &[u8] {
        &self.body.area_in(&self.answer, area)[..length]
    }

    pub fn result(&self) -> i64 {
        result_of(&self.answer)
    }

    /// The number in the place that a verification writes to.
    pub fn at(&self) -> u64 {
        place_of(&self.answer)
    }
}

/// A message with its row.
pub struct Encoded {
    pub message: Vec<u8>,
    pub row: Vec<u8>,
}

/// A row, and the message within reach of it with the number of places in which it differs from that
/// message's row; nothing if there is none.
pub struct Reading<'a> {
    pub row: Vec<u8>,
    pub near: Option<(&'a Encoded, usize)>,
}

pub struct Asker<'a> {
    pub program: &'a Program,
    pub thread: usize,
    pub random: Random,
    /// How many rows or blocks were tried.
    pub tried: usize,
}

impl Asker<'_> {
    /// Says what is wrong; nothing more is asked then.
    pub fn wrong(&self, text: String) -> Option<()> {
        self.program.add_difference(text, false);
        None
    }

    /// The answers to some calls; nothing if one did not come, or enough was found.
    fn ask(&mut self, cases: &[Case]) -> Option<Vec<Done>> {
        let unknown = Outcome {
            result: 0,
            place: None,
            areas: Vec::new(),
        };
        let random = &mut self.random;
        let bodies: Vec<Body> = cases
            .iter()
            .map(|case| Body::of(case, &unknown, random))
            .collect();
        let mut harness = self.program.harness(self.thread);
        if self.program.is_given_up() {
            return None;
        }
        match harness.ask(bodies.iter().map(|body| &body.bytes[..])) {
            Ok(answers) => {
                let done = bodies.into_iter().zip(answers);
                Some(done.map(|(body, answer)| Done { body, answer }).collect())
            }
            Err(error) => {
                self.program
                    .add_breakdown(format!("{:?}: {error}", cases[0].call));
                None
            }
        }
    }

    /// The answer to one call.
    pub fn ask_one(&mut self, case: &Case) -> Option<Done> {
        self.ask(std::slice::from_ref(case))?.pop()
    }

    /// The rows that the program makes of messages.
    pub fn encode(&mut self, code: &Code, messages: Vec<Vec<u8>>) -> Option<Vec<Encoded>> {
        let mut encoded = Vec::new();
        for some in messages.chunks(CALLS_TOGETHER) {
            let random = &mut self.random;
            let case = |message: &Vec<u8>| encode_case(code, message.clone(), random);
            let cases: Vec<Case> = some.iter().map(case).collect();
            for (message, done) in some.iter().zip(self.ask(&cases)?) {
                let (message, row) = (message.clone(), done.area(1, code.n()).to_vec());
                if done.result() != 0 || !row.iter().all(|&symbol| code.field.is_symbol(symbol)) {
                    self.wrong(format!("{code:?}: {message:?} is not encoded"))?;
                }
                encoded.push(Encoded { message, row });
            }
        }
        Some(encoded)
    }

    /// Holds the program to what each row must be read as, with every byte of every area.
    pub fn hold<'a>(
        &mut self,
        group: &'static str,
        code: &Code,
        mut readings: impl Iterator<Item = Reading<'a>>,
    ) -> Option<()> {
        while !self.program.is_given_up() {
            let (random, tried) = (&mut self.random, &mut self.tried);
            let cases = together(|| {
                let reading = readings.next()?;
                *tried += 1;
                let case = decode_case(code, reading.row, random);
                let outcome = read_as(&case, code, reading.near);
                Some(Made::of((group, *tried), case, outcome, random))
            });
            if cases.is_empty() {
                return Some(());
            }
            hold(self.program, &cases, self.thread);
        }
        None
    }
}

/// What decoding must answer and leave: the message with its row and the count, or refusal 8.
fn read_as(case: &Case, code: &Code, near: Option<(&Encoded, usize)>) -> Outcome {
    let mut areas = case.areas.clone();
    areas[1][..picture_size(code.q())].fill(0);
    let result = match near {
        Some((encoded, count)) => {
            areas[2][..code.k()].copy_from_slice(&encoded.message);
            areas[3][..code.n()].copy_from_slice(&encoded.row);
            count as i64
        }
        None => -i64::from(BEYOND_REACH),
    };
    Outcome {
        result,
        place: None,
        areas,
    }
}
