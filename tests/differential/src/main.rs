//! Holds the layer against the independent reference, through the harness.
//!
//! - `differential agree SEED STRIDE START... -- PROGRAM` sends every STRIDE-th case to the harness
//!   PROGRAM, which the words START start, and compares every byte of its answers. It ends well if
//!   there is no difference; else it prints the first ones.
//! - `differential tell SEED STRIDE START... -- PROGRAM MISTAKEN...` sends the same cases to more
//!   programs, and ends well if PROGRAM agrees and every other one answers wrongly somewhere. One
//!   that breaks down has not answered.
//! - `differential reach SEED STRIDE START... -- PROGRAM MISTAKEN...` asks no reference: it damages
//!   rows that a program encoded itself, and blocks that it wrote, and ends well if PROGRAM reads
//!   whatever is within reach and every other one somewhere does not.

mod asker;
mod blocks;
mod case;
mod copies;
mod damage;
mod expected;
mod groups;
mod harness;
mod lengths;
mod made;
mod nearest;
mod passing;
mod program;
mod reach;
mod reading;
mod refusals;
mod report;
mod rows;
mod trial;
mod writes;

use groups::all_groups;
use program::Program;
use reach::Reach;
use std::process::ExitCode;
use std::time::Instant;
use trial::Trial;

pub const THREADS: usize = 2;

/// What the words ask for.
struct Asked {
    order: String,
    seed: u64,
    stride: usize,
    start: Vec<String>,
    programs: Vec<String>,
}

fn asked() -> Option<Asked> {
    let words: Vec<String> = std::env::args().skip(1).collect();
    let end = words.iter().position(|word| word == "--")?;
    let asked = Asked {
        order: words[0].clone(),
        seed: words.get(1)?.parse().ok()?,
        stride: words.get(2)?.parse().ok()?,
        start: words.get(3..end)?.to_vec(),
        programs: words[end + 1..].to_vec(),
    };
    let is_known = match &asked.order[..] {
        "agree" => asked.programs.len() == 1,
        "tell" | "reach" => !asked.programs.is_empty(),
        _ => false,
    };
    (is_known && asked.stride > 0).then_some(asked)
}

fn main() -> ExitCode {
    let asked = match asked() {
        Some(asked) => asked,
        None => {
            eprintln!("usage: differential agree|tell|reach SEED STRIDE START... -- PROGRAM...");
            return ExitCode::FAILURE;
        }
    };
    let many = asked.programs.len() > 1;
    let programs: Vec<Program> = (asked.programs.iter().enumerate())
        .map(|(number, path)| Program::start(&asked.start, path, number == 0, many))
        .collect();
    println!("seed {}", asked.seed);
    match &asked.order[..] {
        "reach" => run_reach(&asked, &programs),
        _ => run_groups(&asked, &programs),
    }
    let ended_well = if programs[0].has_differed() {
        programs[0].print_found();
        false
    } else {
        let told = programs[1..].iter().map(Program::was_told);
        told.fold(true, |all, one| all & one)
    };
    match ended_well {
        true => ExitCode::SUCCESS,
        false => ExitCode::FAILURE,
    }
}

/// Runs all groups, as long as the first program agrees.
fn run_groups(asked: &Asked, programs: &[Program]) {
    let mut cases = 0;
    for (number, group) in all_groups().iter().enumerate() {
        let trial = Trial {
            group,
            indices: (0..group.count).step_by(asked.stride).collect(),
            seed: asked.seed.wrapping_mul(1000).wrapping_add(number as u64),
        };
        let begin = Instant::now();
        trial.run(programs);
        let (count, seconds) = (trial.indices.len(), begin.elapsed().as_secs_f64());
        println!("{count:7} {} ({seconds:.1} s)", group.name);
        cases += count;
        if programs[0].has_differed() {
            return;
        }
    }
    println!("{cases} cases, {} differences", programs[0].differences());
}

/// Asks each program by itself.
fn run_reach(asked: &Asked, programs: &[Program]) {
    for program in programs {
        let reach = Reach {
            seed: asked.seed,
            stride: asked.stride,
            program,
        };
        reach.run();
    }
}
