//! The script program of document 01: header, steps, and the lines it prints.

use crate::host::{Address, Answer, Answered, Ends, Host, Interface, Pair, Port, Unreachable};
use crate::host::{REUSE, SLOT, STORE};

pub const MARK: &[u8; 3] = b"UDS";
pub const VERSION: u16 = 1;
pub const HEADER: usize = 13;
pub const STEP: usize = 16;
/// The step that ends a script after its own line.
pub const STEP_LIMIT: usize = 60_000;
/// No byte behind this many has a meaning, so none needs to be read.
pub const LONGEST: usize = HEADER + STEP * STEP_LIMIT;

/// The kinds of steps.
pub mod kind {
    pub const SOCKET: u8 = 1;
    pub const BIND: u8 = 2;
    pub const CONNECT: u8 = 3;
    pub const DISCONNECT: u8 = 4;
    pub const SENDTO: u8 = 5;
    pub const RECVFROM: u8 = 6;
    pub const CLOSE: u8 = 7;
    pub const SET_REUSE: u8 = 8;
    pub const DATAGRAM: u8 = 9;
    pub const NOTICE: u8 = 10;
    pub const OUT: u8 = 11;
    pub const EXIT: u8 = 12;
}

/// Address and mask of interface 1.
#[derive(Clone, Copy, Debug, PartialEq, Eq)]
pub struct Header {
    pub address: Address,
    pub mask: u32,
}

impl Header {
    /// Nothing for "bad header": under 13 bytes, other first bytes or another
    /// version.
    pub fn decode(script: &[u8]) -> Option<Header> {
        let header = script.get(..HEADER)?;
        let good = header[..3] == MARK[..] && u16_at(header, 3) == VERSION;
        good.then(|| Header {
            address: u32_at(header, 5),
            mask: u32_at(header, 9),
        })
    }

    pub fn encode(&self) -> Vec<u8> {
        let mut bytes = MARK.to_vec();
        bytes.extend(VERSION.to_be_bytes());
        bytes.extend(self.address.to_be_bytes());
        bytes.extend(self.mask.to_be_bytes());
        bytes
    }
}

/// A step's fields, named as in document 01.
#[derive(Clone, Copy, Debug, Default, PartialEq, Eq)]
pub struct Step {
    pub kind: u8,
    pub descriptor: u8,
    pub a: Address,
    pub p: Port,
    pub b: Address,
    pub q: Port,
    pub l: u16,
}

impl Step {
    /// Decodes the first 16 of the bytes.
    pub fn decode(bytes: &[u8]) -> Step {
        Step {
            kind: bytes[0],
            descriptor: bytes[1],
            a: u32_at(bytes, 2),
            p: u16_at(bytes, 6),
            b: u32_at(bytes, 8),
            q: u16_at(bytes, 12),
            l: u16_at(bytes, 14),
        }
    }

    pub fn encode(&self) -> Vec<u8> {
        let mut bytes = vec![self.kind, self.descriptor];
        bytes.extend(self.a.to_be_bytes());
        bytes.extend(self.p.to_be_bytes());
        bytes.extend(self.b.to_be_bytes());
        bytes.extend(self.q.to_be_bytes());
        bytes.extend(self.l.to_be_bytes());
        bytes
    }
}

fn u16_at(bytes: &[u8], at: usize) -> u16 {
    u16::from_be_bytes([bytes[at], bytes[at + 1]])
}

fn u32_at(bytes: &[u8], at: usize) -> u32 {
    u32::from(u16_at(bytes, at)) << 16 | u32::from(u16_at(bytes, at + 2))
}

/// A line about a step that was run.
#[derive(Clone, Copy, Debug, PartialEq, Eq)]
pub struct Line {
    pub step: usize,
    pub answer: u8,
    pub descriptor: Option<u8>,
    pub length: Option<usize>,
}

/// How a script ends.
#[derive(Clone, Copy, Debug, PartialEq, Eq)]
pub enum Closing {
    /// On a step boundary, or with step 60,000.
    Silent,
    BadHeader,
    BadInterface,
    Short(usize),
    Bad(usize),
}

/// All that a script makes the program say.
#[derive(Clone, Debug, PartialEq, Eq)]
pub struct Output {
    pub lines: Vec<Line>,
    pub closing: Closing,
}

impl Output {
    pub fn print(&self) -> Vec<u8> {
        let mut text = String::new();
        for line in &self.lines {
            print_line(&mut text, line);
        }
        text.push_str(&match self.closing {
            Closing::Silent => String::new(),
            Closing::BadHeader => "bad header\n".to_string(),
            Closing::BadInterface => "bad interface\n".to_string(),
            Closing::Short(step) => format!("{step} short\n"),
            Closing::Bad(step) => format!("{step} bad\n"),
        });
        text.into_bytes()
    }
}

fn print_line(text: &mut String, line: &Line) {
    let descriptor = column(line.descriptor.map(usize::from));
    let length = column(line.length);
    let Line { step, answer, .. } = line;
    text.push_str(&format!("{step} {answer} {descriptor} {length}\n"));
}

fn column(value: Option<usize>) -> String {
    value.map_or("-".to_string(), |number| number.to_string())
}

/// Runs a whole script.
pub fn run(script: &[u8]) -> Output {
    let mut lines = Vec::new();
    let closing = run_into(script, &mut lines);
    Output { lines, closing }
}

fn run_into(script: &[u8], lines: &mut Vec<Line>) -> Closing {
    let header = match Header::decode(script) {
        Some(header) => header,
        None => return Closing::BadHeader,
    };
    let interface = Interface::single(1, header.address, header.mask);
    let (mut host, opened) = Host::open(&[interface], vec![0; STORE]);
    if opened.is_err() {
        return Closing::BadInterface;
    }
    for (index, bytes) in script[HEADER..].chunks(STEP).take(STEP_LIMIT).enumerate() {
        let number = index + 1;
        // Short comes first, whatever the kind byte says.
        if bytes.len() < STEP {
            return Closing::Short(number);
        }
        match run_step(&mut host, &Step::decode(bytes), number) {
            Some(line) => lines.push(line),
            None => return Closing::Bad(number),
        }
    }
    Closing::Silent
}

/// Runs one step; nothing for a bad kind.
pub fn run_step(host: &mut Host, step: &Step, number: usize) -> Option<Line> {
    let answer = match call(host, step, number)? {
        Ok(answer) | Err(answer) => answer,
    };
    Some(Line {
        step: number,
        answer: answer.number,
        descriptor: descriptor_column(step.kind, &answer),
        length: length_column(step.kind, &answer),
    })
}

fn call(host: &mut Host, step: &Step, number: usize) -> Option<Answered> {
    let Step { a, p, b, q, .. } = *step;
    let descriptor = step.descriptor;
    let ends = Ends::new(Pair::new(a, p), Pair::new(b, q));
    let mut buffer = [0; SLOT];
    Some(match step.kind {
        kind::SOCKET => host.socket(),
        kind::BIND => host.bind(descriptor, a, p),
        kind::CONNECT => host.connect(descriptor, a, p),
        kind::DISCONNECT => host.disconnect(descriptor),
        kind::SENDTO => host.sendto(descriptor, a, p, &payload(step, number)),
        kind::RECVFROM => host.recvfrom(descriptor, true, &mut buffer),
        kind::CLOSE => host.close(descriptor),
        kind::SET_REUSE => host.setopt(descriptor, REUSE, p != 0),
        kind::DATAGRAM => host.arriving_datagram(ends, &payload(step, number)),
        kind::NOTICE => host.arriving_notice(Unreachable::Port, b, a, ends),
        kind::OUT => host.out(&mut buffer),
        kind::EXIT => host.exit(),
        _ => return None,
    })
}

/// L bytes, each the step number modulo 256.
fn payload(step: &Step, number: usize) -> Vec<u8> {
    vec![(number % 256) as u8; usize::from(step.l)]
}

/// Only socket with 0, and 20 and 21 wherever they come from, give one.
fn descriptor_column(kind: u8, answer: &Answer) -> Option<u8> {
    let gives = matches!((kind, answer.number), (kind::SOCKET, 0) | (_, 20 | 21));
    gives.then_some(answer.descriptor)
}

/// Only recvfrom with 0 reads, and only out with 30 emits.
fn length_column(kind: u8, answer: &Answer) -> Option<usize> {
    let gives = matches!((kind, answer.number), (kind::RECVFROM, 0) | (kind::OUT, 30));
    gives.then_some(answer.length)
}
