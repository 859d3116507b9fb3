//! A program that is held against the reference: its harnesses, and what was found of it.

use crate::harness::Harness;
use crate::THREADS;
use std::sync::{Mutex, MutexGuard};

/// After so many differences a program is given up: the first ones say enough.
const ENOUGH: usize = 3;

/// What was found of a program.
#[derive(Default)]
struct Found {
    differences: Vec<String>,
    /// One of its harnesses has ended, and can be asked no more.
    has_ended: bool,
    broke_down: bool,
}

pub struct Program {
    path: String,
    /// One for each thread, or one for all.
    harnesses: Vec<Mutex<Harness>>,
    enough: usize,
    found: Mutex<Found>,
}

impl Program {
    /// Where many programs are held against the reference, each has one harness only, and one with a
    /// mistake in it is given up at its first difference.
    pub fn start(words: &[String], path: &str, is_right: bool, many: bool) -> Program {
        let start =
            |_| Mutex::new(Harness::start(words, path).expect("the harness can be started"));
        Program {
            path: path.to_string(),
            harnesses: (0..if many { 1 } else { THREADS }).map(start).collect(),
            enough: if is_right { ENOUGH } else { 1 },
            found: Mutex::default(),
        }
    }

    pub fn harness(&self, thread: usize) -> MutexGuard<'_, Harness> {
        let harness = &self.harnesses[thread % self.harnesses.len()];
        harness.lock().expect("no thread panicked")
    }

    fn found(&self) -> MutexGuard<'_, Found> {
        self.found.lock().expect("no thread panicked")
    }

    /// A harness whose call touched what it may not has ended after it said so.
    pub fn add_difference(&self, text: String, has_ended: bool) {
        let mut found = self.found();
        found.differences.push(format!("DIFFERENCE {text}"));
        found.has_ended |= has_ended;
    }

    /// No answer came: no byte of it could be compared.
    pub fn add_breakdown(&self, text: String) {
        let mut found = self.found();
        found.differences.push(format!("BROKE DOWN {text}"));
        found.has_ended = true;
        found.broke_down = true;
    }

    pub fn differences(&self) -> usize {
        self.found().differences.len()
    }

    pub fn has_differed(&self) -> bool {
        self.differences() > 0
    }

    /// Whether enough was found of it, or it cannot be asked.
    pub fn is_given_up(&self) -> bool {
        let found = self.found();
        found.differences.len() >= self.enough || found.has_ended
    }

    pub fn print_found(&self) {
        let found = self.found();
        found.differences.iter().for_each(|text| println!("{text}"));
        println!("given up after {} differences", found.differences.len());
    }

    /// Whether it was told from the reference by an answer; else prints that it was not.
    pub fn was_told(&self) -> bool {
        let found = self.found();
        match found.differences.first() {
            Some(text) => println!("{}: {}", self.path, text.lines().next().unwrap_or("")),
            None => println!("{}: NOT FOUND", self.path),
        }
        !found.differences.is_empty() && !found.broke_down
    }
}
