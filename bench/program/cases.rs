//! The cases: 16 sockets on one port, one for enrolment and 15 of known laptops; then the few steps of a turn, which
//! leave the host as it was.

use crate::hosts::ADDRESS;
use crate::Outcome;
use model::script::{kind, Step};

pub const SIZES: [u16; 3] = [3, 64, 512];

pub const PORT: u16 = 7000;
pub const LAPTOP_PORT: u16 = 6000;
const LOOPBACK: u32 = 0x7f00_0001;
/// No socket has it.
pub const OTHER_PORT: u16 = 7001;

/// The last of the 15 laptops' sockets.
const LAST: u8 = 15;

#[derive(Clone)]
pub struct Case {
    pub name: &'static str,
    pub title: &'static str,
    pub steps: Vec<Step>,
    pub bytes: u16,
}

/// The laptop that socket k belongs to.
pub fn laptop(k: u8) -> u32 {
    ADDRESS + 5 + u32::from(k)
}

pub fn step(kind: u8, descriptor: u8, a: u32, p: u16) -> Step {
    Step {
        kind,
        descriptor,
        a,
        p,
        ..Step::default()
    }
}

pub fn sendto(descriptor: u8, a: u32, p: u16, l: u16) -> Step {
    Step {
        l,
        ..step(kind::SENDTO, descriptor, a, p)
    }
}

/// To our address.
pub fn datagram(a: u32, p: u16, q: u16, l: u16) -> Step {
    Step {
        b: ADDRESS,
        q,
        l,
        ..step(kind::DATAGRAM, 0, a, p)
    }
}

pub fn recvfrom(descriptor: u8) -> Step {
    step(kind::RECVFROM, descriptor, 0, 0)
}

pub fn out() -> Step {
    step(kind::OUT, 0, 0, 0)
}

/// A datagram inside the box and back to enrolment.
pub fn inside(l: u16) -> [Step; 3] {
    [sendto(0, LOOPBACK, PORT, l), out(), recvfrom(0)]
}

/// Socket 0 is enrolment on every address, each other one is of its laptop.
pub fn socket_of(k: u8) -> Vec<Step> {
    let mut steps = vec![step(kind::SOCKET, 0, 0, 0), step(kind::SET_REUSE, k, 0, 1)];
    if k == 0 {
        steps.push(step(kind::BIND, k, 0, PORT));
    } else {
        steps.push(step(kind::BIND, k, ADDRESS, PORT));
        steps.push(step(kind::CONNECT, k, laptop(k), LAPTOP_PORT));
    }
    steps
}

pub fn sixteen_sockets() -> Vec<Step> {
    (0..16).flat_map(socket_of).collect()
}

/// Every case with every size of payload.
pub fn all() -> Vec<Case> {
    let of_size = |make: fn(u16) -> Case| SIZES.map(make);
    [delivered, sent, looped, for_nobody].map(of_size).concat()
}

pub fn named(name: &str, bytes: u16) -> Option<Case> {
    all()
        .into_iter()
        .find(|case| case.name == name && case.bytes == bytes)
}

pub fn print_names() -> Outcome {
    for case in all() {
        println!("{} {} {}", case.name, case.bytes, case.title);
    }
    Ok(())
}

fn delivered(bytes: u16) -> Case {
    Case {
        name: "deliver",
        title: "datagram to the best of 16, read",
        steps: vec![
            datagram(laptop(LAST), LAPTOP_PORT, PORT, bytes),
            recvfrom(LAST),
        ],
        bytes,
    }
}

fn sent(bytes: u16) -> Case {
    Case {
        name: "send",
        title: "sendto, out step",
        steps: vec![sendto(LAST, 0, 0, bytes), out()],
        bytes,
    }
}

fn looped(bytes: u16) -> Case {
    Case {
        name: "loopback",
        title: "sendto to 127.0.0.1, out step, read",
        steps: inside(bytes).to_vec(),
        bytes,
    }
}

fn for_nobody(bytes: u16) -> Case {
    Case {
        name: "nobody",
        title: "datagram for nobody, its notice out",
        steps: vec![
            datagram(laptop(LAST), LAPTOP_PORT, OTHER_PORT, bytes),
            out(),
        ],
        bytes,
    }
}
