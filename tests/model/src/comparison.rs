//! Runs one script through the model and through the program under test, and
//! says in words where they differ.

use crate::child::{self, Ran};
use crate::script::{self, Output};
use crate::words;
use std::time::Duration;

/// More of the program's output than this beyond the model's is not read.
const EXCESS: usize = 4096;

/// Gives the model's output if the program printed the very same bytes in time
/// and ended with status 0, else the difference in words.
pub fn compare(program: &[String], bytes: &[u8], limit: Duration) -> Result<Output, String> {
    let output = script::run(bytes);
    let expected = output.print();
    let ran = child::run(program, bytes, expected.len() + EXCESS, limit)
        .map_err(|error| format!("cannot run {}: {error}\n", program.join(" ")))?;
    let differing = first_difference(&expected, &ran.output);
    let fault = fault_of(&ran, limit);
    if differing.is_none() && fault.is_none() {
        return Ok(output);
    }
    let mut text = fault.unwrap_or_default();
    if let Some(line) = differing {
        text.push_str(&both_lines(&expected, &ran.output, line));
        text.push_str("the script so far, with the model's answers:\n");
        text.push_str(&words::script(bytes, line + 1, &output.lines));
    }
    Err(text)
}

fn fault_of(ran: &Ran, limit: Duration) -> Option<String> {
    let seconds = limit.as_secs();
    match ran.status {
        Some(status) if status.success() => None,
        Some(status) => Some(format!("the program ended with {status}\n")),
        None => Some(format!(
            "the program did not end within {seconds} seconds\n"
        )),
    }
}

/// The first line, from 0, that is not the same in both.
fn first_difference(one: &[u8], other: &[u8]) -> Option<usize> {
    if one == other {
        return None;
    }
    let equal = lines(one).zip(lines(other)).take_while(|(a, b)| a == b);
    Some(equal.count())
}

/// Lines with their newlines, so that a missing one is a difference.
fn lines(output: &[u8]) -> impl Iterator<Item = &[u8]> {
    output.split_inclusive(|&byte| byte == b'\n')
}

fn both_lines(expected: &[u8], printed: &[u8], line: usize) -> String {
    format!(
        "first differing line: {}\nmodel:   {}\nprogram: {}\n",
        line + 1,
        quoted(expected, line),
        quoted(printed, line)
    )
}

fn quoted(output: &[u8], line: usize) -> String {
    match lines(output).nth(line) {
        Some(bytes) => format!("{:?}", String::from_utf8_lossy(bytes)),
        None => "(no such line)".to_string(),
    }
}
