//! `damaged SAMPLE N SEED PROGRAM...` runs every truncation of the sample
//! script, then N random byte strings, through the model and the program. Each
//! has to end in time with status 0, the model's lines, and a last line that
//! document 01 names.

use model::comparison::compare;
use model::random::Random;
use model::script::{HEADER, STEP};
use std::process::ExitCode;
use std::time::Duration;

const TIME_LIMIT: Duration = Duration::from_secs(20);

/// Whether document 01 names such a last line. Nothing is said, and only then,
/// about a good header with no step behind it.
fn is_named(output: &[u8], input: &[u8]) -> bool {
    let text = String::from_utf8_lossy(output);
    match text.lines().last() {
        None => input.len() == HEADER,
        Some("bad header") | Some("bad interface") => text.lines().count() == 1,
        Some(line) => is_step_line(line) && text.ends_with('\n'),
    }
}

fn is_step_line(line: &str) -> bool {
    let columns: Vec<&str> = line.split(' ').collect();
    let optional = |column: &str| column == "-" || column.parse::<u16>().is_ok();
    match columns[..] {
        [step, "short"] | [step, "bad"] => step.parse::<u16>().is_ok(),
        [step, answer, descriptor, length] => {
            step.parse::<u16>().is_ok()
                && answer.parse().map_or(false, is_answer)
                && optional(descriptor)
                && optional(length)
        }
        _ => false,
    }
}

/// The numbers that document 01 gives a meaning.
fn is_answer(number: u8) -> bool {
    matches!(number, 0..=18 | 20..=32)
}

/// Runs one input; the message says what is wrong.
fn check(program: &[String], input: &[u8]) -> Result<(), String> {
    let output = compare(program, input, TIME_LIMIT)?;
    if is_named(&output.print(), input) {
        Ok(())
    } else {
        Err("the last line is none of document 01's\n".to_string())
    }
}

/// Bytes without any order, with a good header before them, or the sample with
/// some bytes changed, taken out or repeated.
fn random_input(random: &mut Random, sample: &[u8]) -> Vec<u8> {
    let length = random.below(400);
    match random.below(5) {
        0 => random.bytes(length),
        1 => behind_header(random, sample, length),
        2 => known_kinds(random, sample, length),
        3 => changed(random, sample),
        _ => moved(random, sample),
    }
}

fn behind_header(random: &mut Random, sample: &[u8], length: usize) -> Vec<u8> {
    let header = &sample[..sample.len().min(HEADER)];
    [header, &random.bytes(length)].concat()
}

/// Random steps whose kinds are good, so that more than one is run.
fn known_kinds(random: &mut Random, sample: &[u8], length: usize) -> Vec<u8> {
    let mut bytes = behind_header(random, sample, length);
    for place in (HEADER..bytes.len()).step_by(STEP) {
        bytes[place] = random.between(1, 12) as u8;
    }
    bytes
}

fn changed(random: &mut Random, sample: &[u8]) -> Vec<u8> {
    let mut bytes = sample.to_vec();
    for _ in 0..random.between(1, 8) {
        let place = random.below(bytes.len().max(1));
        let byte = random.draw() as u8;
        bytes.iter_mut().skip(place).take(1).for_each(|b| *b = byte);
    }
    bytes
}

/// A part of the sample left out or said twice, so that steps shift.
fn moved(random: &mut Random, sample: &[u8]) -> Vec<u8> {
    let one = random.below(sample.len() + 1);
    let other = random.below(sample.len() + 1);
    [&sample[..one], &sample[other..]].concat()
}

fn run(sample: &[u8], count: u64, seed: u64, program: &[String]) -> ExitCode {
    for length in 0..=sample.len() {
        if let Err(difference) = check(program, &sample[..length]) {
            print!("damaged: the sample's first {length} bytes\n{difference}");
            return ExitCode::FAILURE;
        }
    }
    for number in 1..=count {
        let input = random_input(&mut Random::new(seed, number), sample);
        if let Err(difference) = check(program, &input) {
            print!("damaged: seed {seed}, byte string {number}: {input:02x?}\n{difference}");
            return ExitCode::FAILURE;
        }
    }
    let truncations = sample.len() + 1;
    println!("equal: {truncations} truncations, {count} random byte strings of seed {seed}");
    ExitCode::SUCCESS
}

fn main() -> ExitCode {
    let words: Vec<String> = std::env::args().skip(1).collect();
    let number = |place: usize| words.get(place).and_then(|word| word.parse::<u64>().ok());
    let (count, seed) = match (number(1), number(2)) {
        (Some(count), Some(seed)) if words.len() > 3 => (count, seed),
        _ => {
            eprintln!("usage: damaged SAMPLE N SEED PROGRAM...");
            return ExitCode::from(2);
        }
    };
    match std::fs::read(&words[0]) {
        Ok(sample) => run(&sample, count, seed, &words[3..]),
        Err(error) => {
            eprintln!("damaged: cannot read {}: {error}", words[0]);
            ExitCode::FAILURE
        }
    }
}
