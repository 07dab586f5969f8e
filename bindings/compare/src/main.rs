//! `comparison N SEED` makes N random runs of both hosts, the proved one and
//! the plain model, and compares everything after each step: the answer, the
//! record, the store and the lent buffer. It ends with 1 at the first
//! difference, or when a step never gave a number that document 01 lets it give.

mod addresses;
mod convert;
mod damage;
mod differences;
mod lists;
mod maker;
mod run;
mod step;
mod tally;
mod typed;
mod world;

use std::process::ExitCode;
use tally::Tally;

/// With this many runs every number has to come from every step that gives it.
const ENOUGH: u64 = 1000;

fn compare(count: u64, seed: u64) -> ExitCode {
    let mut tally = Tally::new();
    for number in 1..=count {
        if let Err(difference) = run::run(seed, number, &mut tally) {
            print!("difference: seed {seed}, run {number}, {difference}");
            return ExitCode::FAILURE;
        }
    }
    println!("equal: {count} runs of seed {seed}, {}", tally.amounts());
    println!("answers {}", tally.numbers());
    verdict(count, &tally)
}

fn verdict(count: u64, tally: &Tally) -> ExitCode {
    let (strange, missing) = (tally.strange(), tally.missing());
    if !strange.is_empty() {
        println!("not one of the step's numbers: {}", strange.join("; "));
        return ExitCode::FAILURE;
    }
    if missing.is_empty() {
        println!("every step gave every number that it can give");
        return ExitCode::SUCCESS;
    }
    println!("never came: {}", missing.join("; "));
    if count < ENOUGH {
        println!("with {ENOUGH} runs or more that is a failure");
        return ExitCode::SUCCESS;
    }
    ExitCode::FAILURE
}

fn main() -> ExitCode {
    let words: Vec<String> = std::env::args().skip(1).collect();
    let number = |place: usize| words.get(place).and_then(|word| word.parse::<u64>().ok());
    match (number(0), number(1)) {
        (Some(count), Some(seed)) if words.len() == 2 => compare(count, seed),
        _ => {
            eprintln!("usage: comparison N SEED");
            ExitCode::from(2)
        }
    }
}
