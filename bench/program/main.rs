//! The program behind `bench/run`. What it does is chosen by its first word:
//!
//! - `morning` writes a script of 60,000 steps;
//! - `rehearse SCRIPT` plays the script and every case on all hosts and compares them;
//! - `time` prints the table of the cases;
//! - `turns CASE BYTES HOST` plays a case for a counter of instructions;
//! - `names` prints what can be counted, a case and a size of payload on a line;
//! - `race SCRIPT MODEL UDS...` times the two script programs.

mod cases;
mod hosts;
mod morning;
mod proved;
mod race;
mod rehearsal;
mod timing;

use std::env;
use std::error::Error;
use std::fs;
use std::io::{self, Write};
use std::process::ExitCode;

/// Why the program stops.
pub type Outcome = Result<(), Box<dyn Error>>;

fn main() -> ExitCode {
    let words: Vec<String> = env::args().skip(1).collect();
    match run(&words) {
        Ok(()) => ExitCode::SUCCESS,
        Err(error) => {
            eprintln!("bench: {error}");
            ExitCode::FAILURE
        }
    }
}

fn run(words: &[String]) -> Outcome {
    let words: Vec<&str> = words.iter().map(String::as_str).collect();
    match words[..] {
        ["morning"] => Ok(io::stdout().write_all(&morning::script())?),
        ["rehearse", script] => rehearsal::rehearse(&fs::read(script)?),
        ["time"] => timing::print_table(),
        ["turns", case, bytes, host] => timing::play(case, bytes.parse()?, host),
        ["names"] => cases::print_names(),
        ["race", script, model, ref uds @ ..] => race::race(script, model, uds),
        _ => Err("see the words at the head of main.rs".into()),
    }
}
