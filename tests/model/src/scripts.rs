//! Random scripts for comparing. A script comes from the seed and its number
//! alone, so that one can be made again without the others.

use crate::host::Address;
use crate::maker::{address, Maker};
use crate::random::Random;
use crate::script::{kind, Step, HEADER, STEP, STEP_LIMIT};

/// The scripts with these numbers are as long as scripts can be.
const AT_THE_LIMIT: [u64; 4] = [150, 151, 152, 153];

/// Script number `number`, from 1.
pub fn script(seed: u64, number: u64) -> Vec<u8> {
    let mut random = Random::new(seed, number);
    if AT_THE_LIMIT.contains(&number) {
        return at_the_limit(random, number);
    }
    if number % 4 == 3 {
        return malformed(random, (number / 4) as usize);
    }
    let count = match number % 40 {
        20 => random.between(2000, 6000),
        _ => random.between(10, 250),
    };
    Maker::new(random).script(count)
}

/// Exactly 60,000 steps, one more, and some bytes on either side of the end.
fn at_the_limit(mut random: Random, number: u64) -> Vec<u8> {
    let left_over = random.bytes(7);
    let maker = Maker::new(random);
    match number {
        150 => maker.script(STEP_LIMIT),
        151 => maker.script(STEP_LIMIT + 1),
        152 => joined(maker.script(STEP_LIMIT - 1), &left_over),
        _ => joined(maker.script(STEP_LIMIT), &left_over),
    }
}

/// Scripts with each closing line. `turn` goes round the ways to be malformed,
/// and each round takes the next case of every way.
fn malformed(mut random: Random, turn: usize) -> Vec<u8> {
    let count = random.between(1, 40);
    let maker = Maker::new(random);
    let round = turn / 6;
    match turn % 6 {
        0 => cut(maker.script(count), round % HEADER),
        1 => other_header(maker.script(count), round),
        2 => bad_interface(maker, round).script(count),
        3 => joined(maker.script(count), &bad_step(round)),
        4 => short(maker.script(count), round),
        _ => short_and_bad(maker, round),
    }
}

/// A place in the header's first five bytes and another byte for it: other
/// letters, and versions such as 0, 2 and 257.
const OTHER_HEADERS: [(usize, u8); 8] = [
    (0, b'u'),
    (1, 0),
    (2, b'T'),
    (3, 1),
    (4, 0),
    (4, 2),
    (3, 255),
    (4, 255),
];

fn other_header(mut bytes: Vec<u8>, round: usize) -> Vec<u8> {
    let (place, byte) = OTHER_HEADERS[round % OTHER_HEADERS.len()];
    bytes[place] = byte;
    bytes
}

const BAD_INTERFACES: [Address; 12] = [
    0,
    address(127, 0, 0, 1),
    address(224, 0, 0, 0),
    address(0, 255, 255, 255),
    address(127, 255, 255, 255),
    address(240, 0, 0, 0),
    address(127, 0, 0, 0),
    address(255, 255, 255, 255),
    address(239, 255, 255, 255),
    address(0, 0, 0, 1),
    address(127, 2, 0, 5),
    address(225, 2, 0, 5),
];

fn bad_interface(mut maker: Maker, round: usize) -> Maker {
    maker.header.address = BAD_INTERFACES[round % BAD_INTERFACES.len()];
    maker
}

const BAD_KINDS: [u8; 5] = [0, 13, 255, 14, 128];

/// A bad kind, with a good step behind it that nobody looks at.
fn bad_step(round: usize) -> Vec<u8> {
    let kinds = [BAD_KINDS[round % BAD_KINDS.len()], kind::SOCKET];
    let steps = kinds.map(|kind| Step {
        kind,
        ..Step::default()
    });
    steps.iter().flat_map(Step::encode).collect()
}

/// Cuts the last step.
fn short(bytes: Vec<u8>, round: usize) -> Vec<u8> {
    let length = bytes.len() - STEP + 1 + round % (STEP - 1);
    cut(bytes, length)
}

/// A left-over part of a bad step, which is short; or nothing left over.
fn short_and_bad(maker: Maker, round: usize) -> Vec<u8> {
    let left_over = STEP - 1 - round % STEP;
    let count = round % 4 * 5;
    joined(maker.script(count), &bad_step(round)[..left_over])
}

fn cut(mut bytes: Vec<u8>, length: usize) -> Vec<u8> {
    bytes.truncate(length);
    bytes
}

fn joined(mut first: Vec<u8>, second: &[u8]) -> Vec<u8> {
    first.extend(second);
    first
}
