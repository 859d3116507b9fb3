//! Runs the cases of a group: makes them, asks the programs and the reference, and compares.

use crate::expected::expected;
use crate::groups::Group;
use crate::made::{hold, together, Made};
use crate::program::Program;
use crate::THREADS;
use reference::samples::Random;
use std::sync::atomic::{AtomicUsize, Ordering};

pub struct Trial<'a> {
    pub group: &'a Group,
    pub indices: Vec<usize>,
    pub seed: u64,
}

impl Trial<'_> {
    pub fn run(&self, programs: &[Program]) {
        let next = AtomicUsize::new(0);
        std::thread::scope(|scope| {
            for thread in 0..THREADS {
                let next = &next;
                scope.spawn(move || self.work(next, thread, programs));
            }
        });
    }

    /// What one thread does: takes cases that no thread has taken until none is left.
    fn work(&self, next: &AtomicUsize, thread: usize, programs: &[Program]) {
        let take = || {
            let taken = next.fetch_add(1, Ordering::Relaxed);
            self.indices.get(taken).map(|&index| self.made(index))
        };
        while !programs[0].is_given_up() {
            let cases = together(take);
            if cases.is_empty() {
                return;
            }
            for program in programs {
                hold(program, &cases, thread);
            }
        }
    }

    fn made(&self, index: usize) -> Made {
        let case_seed = self.seed.wrapping_shl(24).wrapping_add(index as u64);
        let mut random = Random::seeded(case_seed);
        let case = (self.group.make)(index, &mut random);
        let outcome = expected(&case);
        Made::of((self.group.name, index), case, outcome, &mut random)
    }
}
