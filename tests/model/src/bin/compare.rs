//! `compare N SEED PROGRAM...` makes N random scripts from the seed and runs
//! each through the model and through the program, which may be several words.
//! It ends with 1 at the first difference, or when a number that scripts can
//! reach never came. `compare print NUMBER SEED` writes a single script.

use model::comparison::compare;
use model::script::{Closing, Output};
use model::scripts;
use std::collections::BTreeMap;
use std::fmt::Display;
use std::io::{self, Write};
use std::process::ExitCode;
use std::time::Duration;

const TIME_LIMIT: Duration = Duration::from_secs(120);

/// With this many scripts every number that scripts can reach has to come.
const ENOUGH: u64 = 200;

/// The numbers that scripts can reach. The others are out of reach: 1 and 2, as
/// the record and the store are the program's own; 4 and 18, as its recvfrom
/// never waits; 13, as there is an interface; 16, as its buffers are 512; 17,
/// which is said as "bad interface"; 28, as no step sets bsdcompat.
const REACHABLE: [u8; 24] = [
    0, 3, 5, 6, 7, 8, 9, 10, 11, 12, 14, 15, 20, 21, 22, 23, 24, 25, 26, 27, 29, 30, 31, 32,
];

/// How often each answer and each closing line came.
struct Tally {
    steps: usize,
    answers: BTreeMap<u8, usize>,
    closings: BTreeMap<&'static str, usize>,
}

impl Tally {
    fn new() -> Tally {
        let closings = ["bad header", "bad interface", "short", "bad"];
        Tally {
            steps: 0,
            answers: REACHABLE.iter().map(|&number| (number, 0)).collect(),
            closings: closings.iter().map(|&closing| (closing, 0)).collect(),
        }
    }

    fn add(&mut self, output: &Output) {
        self.steps += output.lines.len();
        for line in &output.lines {
            *self.answers.entry(line.answer).or_default() += 1;
        }
        let closing = match output.closing {
            Closing::Silent => return,
            Closing::BadHeader => "bad header",
            Closing::BadInterface => "bad interface",
            Closing::Short(_) => "short",
            Closing::Bad(_) => "bad",
        };
        *self.closings.entry(closing).or_default() += 1;
    }

    fn in_words(&self) -> String {
        let answers: Vec<String> = counts(&self.answers).collect();
        let closings: Vec<String> = counts(&self.closings).collect();
        format!("answers {}; {}", answers.join(", "), closings.join(", "))
    }

    fn never_came(&self) -> Vec<String> {
        let answers = self.answers.iter().filter(|(_, &count)| count == 0);
        let closings = self.closings.iter().filter(|(_, &count)| count == 0);
        answers
            .map(|(number, _)| number.to_string())
            .chain(closings.map(|(closing, _)| closing.to_string()))
            .collect()
    }
}

/// Each with how often it came.
fn counts<K: Display>(of: &BTreeMap<K, usize>) -> impl Iterator<Item = String> + '_ {
    of.iter().map(|(key, count)| format!("{key}: {count}"))
}

fn run(count: u64, seed: u64, program: &[String]) -> ExitCode {
    let mut tally = Tally::new();
    for number in 1..=count {
        let bytes = scripts::script(seed, number);
        match compare(program, &bytes, TIME_LIMIT) {
            Ok(output) => tally.add(&output),
            Err(difference) => {
                print!("difference: seed {seed}, script {number}\n{difference}");
                return ExitCode::FAILURE;
            }
        }
    }
    let steps = tally.steps;
    let in_words = tally.in_words();
    println!("equal: {count} scripts of seed {seed}, {steps} steps; {in_words}");
    verdict(count, &tally.never_came())
}

fn verdict(count: u64, never_came: &[String]) -> ExitCode {
    if count < ENOUGH || never_came.is_empty() {
        return ExitCode::SUCCESS;
    }
    println!("never reached: {}", never_came.join(", "));
    ExitCode::FAILURE
}

fn print_script(number: u64, seed: u64) -> ExitCode {
    match io::stdout().write_all(&scripts::script(seed, number)) {
        Ok(()) => ExitCode::SUCCESS,
        Err(_) => ExitCode::FAILURE,
    }
}

fn main() -> ExitCode {
    let words: Vec<String> = std::env::args().skip(1).collect();
    let number = |place: usize| words.get(place).and_then(|word| word.parse::<u64>().ok());
    match (number(0), number(1), number(2)) {
        (Some(count), Some(seed), _) if words.len() > 2 => run(count, seed, &words[2..]),
        (None, Some(which), Some(seed)) if words[0] == "print" => print_script(which, seed),
        _ => {
            eprintln!("usage: compare N SEED PROGRAM...\n       compare print NUMBER SEED");
            ExitCode::from(2)
        }
    }
}
