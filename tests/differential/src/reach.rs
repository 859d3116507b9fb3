//! What is within reach is always read: the trials of one program by itself, on all threads.

use crate::asker::Asker;
use crate::copies::{blocks, copied_block, COPIES};
use crate::program::Program;
use crate::reading::{damaged_rows, every_row, DAMAGED, EVERY_ROW};
use crate::THREADS;
use reference::samples::{all_codes, Random};
use std::sync::atomic::{AtomicUsize, Ordering};
use std::time::Instant;

pub struct Reach<'a> {
    pub seed: u64,
    pub stride: usize,
    pub program: &'a Program,
}

impl Reach<'_> {
    /// The quick trials come first: most planted mistakes are then found soon.
    pub fn run(&self) {
        self.work(COPIES, &blocks(self.stride), copied_block);
        self.work(DAMAGED, &all_codes(4), |code, asker| {
            damaged_rows(code, self.stride, asker)
        });
        self.work(EVERY_ROW, &all_codes(2), |code, asker| {
            every_row(code, self.stride, asker)
        });
    }

    /// Does some jobs, each on one thread, until one finds the program wrong.
    fn work<Job: Sync>(
        &self,
        name: &str,
        jobs: &[Job],
        run: impl Fn(&Job, &mut Asker) -> Option<()> + Sync,
    ) {
        let (begin, next, tried) = (Instant::now(), AtomicUsize::new(0), AtomicUsize::new(0));
        let on_thread = |thread| {
            while let Some((number, job)) = take(jobs, &next) {
                let mut asker = self.asker(number, thread);
                let go_on = run(job, &mut asker);
                tried.fetch_add(asker.tried, Ordering::Relaxed);
                if go_on.is_none() {
                    return;
                }
            }
        };
        std::thread::scope(|scope| {
            let on_thread = &on_thread;
            for thread in 0..THREADS {
                scope.spawn(move || on_thread(thread));
            }
        });
        let (count, seconds) = (tried.into_inner(), begin.elapsed().as_secs_f64());
        println!("{count:7} {name} ({seconds:.1} s)");
    }

    /// Each job has a generator seeded for it alone.
    fn asker(&self, number: usize, thread: usize) -> Asker<'_> {
        let seed = self.seed.wrapping_mul(1000).wrapping_add(number as u64);
        Asker {
            program: self.program,
            thread,
            random: Random::seeded(seed),
            tried: 0,
        }
    }
}

/// The next job that no thread has taken, and its number.
fn take<'a, Job>(jobs: &'a [Job], next: &AtomicUsize) -> Option<(usize, &'a Job)> {
    let number = next.fetch_add(1, Ordering::Relaxed);
    Some((number, jobs.get(number)?))
}
