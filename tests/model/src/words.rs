//! A script in words, for a reader who looks for a difference.

use crate::host::{Address, Port};
use crate::script::{kind, Header, Line, Step, HEADER, STEP, STEP_LIMIT};

pub fn address(address: Address) -> String {
    let [a, b, c, d] = address.to_be_bytes();
    format!("{a}.{b}.{c}.{d}")
}

fn pair(address_part: Address, port: Port) -> String {
    format!("{}:{port}", address(address_part))
}

/// The header and the first steps, a line each, with their answers.
pub fn script(bytes: &[u8], steps: usize, lines: &[Line]) -> String {
    let header = match Header::decode(bytes) {
        Some(header) => header,
        None => return format!("  no good header in {} bytes\n", bytes.len()),
    };
    let mut text = format!(
        "  interface 1: {} mask {}\n",
        address(header.address),
        address(header.mask)
    );
    let chunks = bytes[HEADER..].chunks(STEP).take(steps.min(STEP_LIMIT));
    for (index, chunk) in chunks.enumerate() {
        let answer = lines.get(index).map_or(String::new(), answer);
        text.push_str(&format!("  {} {}{answer}\n", index + 1, any_step(chunk)));
    }
    text
}

fn answer(line: &Line) -> String {
    let descriptor = line
        .descriptor
        .map_or(String::new(), |d| format!(" descriptor {d}"));
    let length = line
        .length
        .map_or(String::new(), |l| format!(" length {l}"));
    format!(": {}{descriptor}{length}", line.answer)
}

fn any_step(chunk: &[u8]) -> String {
    match chunk.len() {
        STEP => step(&Step::decode(chunk)),
        length => format!("only {length} bytes"),
    }
}

/// A step with the fields that its kind uses.
pub fn step(step: &Step) -> String {
    let Step { a, p, b, q, l, .. } = *step;
    let d = step.descriptor;
    match step.kind {
        kind::SOCKET => "socket".to_string(),
        kind::BIND => format!("bind {d} to {}", pair(a, p)),
        kind::CONNECT => format!("connect {d} to {}", pair(a, p)),
        kind::DISCONNECT => format!("disconnect {d}"),
        kind::SENDTO => format!("sendto {d} to {}, {l} bytes", pair(a, p)),
        kind::RECVFROM => format!("recvfrom {d}"),
        kind::CLOSE => format!("close {d}"),
        kind::SET_REUSE => format!("set reuse of {d} to {}", p != 0),
        kind::DATAGRAM => format!("datagram {} to {}, {l} bytes", pair(a, p), pair(b, q)),
        kind::NOTICE => format!(
            "PORT notice from {} to {} embedding {} to {}",
            address(b),
            address(a),
            pair(a, p),
            pair(b, q)
        ),
        kind::OUT => "out".to_string(),
        kind::EXIT => "exit".to_string(),
        other => format!("kind {other}"),
    }
}
