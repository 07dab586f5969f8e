//! How often each step gave each number.

use crate::step;
use std::collections::BTreeMap;
use udphost::raw::kind;

/// A kind, or in place of one the opening, and every kind that is none.
type Row = u16;
const OPENING: Row = 256;
const NO_KIND: Row = 257;

/// What document 01 lets each step give.
const GIVEN: [(Row, &[u8]); 21] = [
    (OPENING, &[0, 2, 17]),
    (kind::SOCKET as Row, &[0, 1, 2, 3, 4, 15]),
    (kind::BIND as Row, &[0, 1, 2, 3, 4, 5, 6, 7, 8, 9]),
    (kind::CONNECT as Row, &[0, 1, 2, 3, 4, 5, 6, 13]),
    (kind::DISCONNECT as Row, &[0, 1, 2, 3, 4, 5]),
    (
        kind::SENDTO as Row,
        &[0, 1, 2, 3, 4, 5, 6, 10, 11, 12, 13, 14],
    ),
    (kind::RECVFROM as Row, &[0, 1, 2, 3, 4, 5, 10, 14, 16, 18]),
    (kind::CLOSE as Row, &[0, 1, 2, 3, 4, 5]),
    (kind::SETOPT as Row, &[0, 1, 2, 3, 4, 5, 6]),
    (kind::DATAGRAM as Row, &[1, 2, 20, 21, 22, 23, 24, 25, 26]),
    (kind::NOTICE as Row, &[1, 2, 24, 25, 27, 28, 29]),
    (
        kind::OUT_STEP as Row,
        &[1, 2, 16, 20, 21, 22, 23, 27, 28, 29, 30, 31, 32],
    ),
    (kind::EXIT as Row, &[0, 1, 2, 3, 4]),
    (kind::GETSOCKNAME as Row, &[0, 1, 2, 3, 4, 5]),
    (kind::GETPEERNAME as Row, &[0, 1, 2, 3, 4, 5, 12]),
    (kind::GETERR as Row, &[0, 1, 2, 3, 4, 5]),
    (kind::GETOPT as Row, &[0, 1, 2, 3, 4, 5, 6]),
    (kind::RESUME as Row, &[0, 1, 2, 3, 6, 10, 16, 18]),
    (kind::INTERRUPT as Row, &[0, 1, 2, 3, 6]),
    (kind::POLL as Row, &[0, 1, 2, 3, 4, 5]),
    (NO_KIND, &[1, 2, 6]),
];

#[derive(Default)]
pub struct Tally {
    given: BTreeMap<(Row, u8), usize>,
    /// Steps that the wrapper's methods made too.
    pub typed: usize,
    /// Steps on a damaged record.
    pub damaged: usize,
    /// Steps on a store of another length.
    pub other_stores: usize,
}

impl Tally {
    pub fn new() -> Tally {
        Tally::default()
    }

    pub fn add(&mut self, kind: u8, number: u8) {
        let row = match kind {
            kind::SOCKET..=kind::POLL => kind.into(),
            _ => NO_KIND,
        };
        *self.given.entry((row, number)).or_default() += 1;
    }

    pub fn add_opening(&mut self, number: u8) {
        *self.given.entry((OPENING, number)).or_default() += 1;
    }

    pub fn amounts(&self) -> String {
        let steps: usize = self.given.values().sum();
        let Tally {
            typed,
            damaged,
            other_stores,
            ..
        } = self;
        format!(
            "{steps} steps and openings; {damaged} on a damaged record, \
             {other_stores} on another store, {typed} by the methods too"
        )
    }

    /// Each number with how often it came.
    pub fn numbers(&self) -> String {
        let mut counts: BTreeMap<u8, usize> = BTreeMap::new();
        for (&(_, number), count) in &self.given {
            *counts.entry(number).or_default() += count;
        }
        let all = counts
            .iter()
            .map(|(number, count)| format!("{number}: {count}"));
        all.collect::<Vec<_>>().join(", ")
    }

    /// The steps that did not give every number, each with what is missing.
    pub fn missing(&self) -> Vec<String> {
        let lacking = |&(row, numbers): &(Row, &[u8])| {
            let came = |number: u8| self.given.contains_key(&(row, number));
            let never = numbers.iter().filter(|&&number| !came(number));
            let never: Vec<String> = never.map(u8::to_string).collect();
            (!never.is_empty()).then(|| format!("{} {}", name(row), never.join(" ")))
        };
        GIVEN.iter().filter_map(lacking).collect()
    }

    /// What came though document 01 does not have it.
    pub fn strange(&self) -> Vec<String> {
        let has = |&(row, number): &(Row, u8)| {
            let of_row = GIVEN.iter().filter(|given| given.0 == row);
            of_row.flat_map(|given| given.1).any(|&n| n == number)
        };
        let strange = self.given.keys().filter(|key| !has(key));
        strange
            .map(|&(row, number)| format!("{} {number}", name(row)))
            .collect()
    }
}

fn name(row: Row) -> String {
    match u8::try_from(row) {
        Ok(kind) => step::name(kind),
        Err(_) if row == OPENING => "opening".to_string(),
        Err(_) => "no kind".to_string(),
    }
}
