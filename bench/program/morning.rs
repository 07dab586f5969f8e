//! A script of 60,000 steps: a busy morning of the box, the same on every machine. Laptops speak to their own sockets
//! and are answered, strangers come to enrolment, some traffic is for nobody, some stays inside, some is refused.

use crate::cases::{datagram, inside, laptop, out, recvfrom, sendto, sixteen_sockets, socket_of};
use crate::cases::{step, LAPTOP_PORT, OTHER_PORT, PORT, SIZES};
use crate::hosts::{ADDRESS, MASK};
use model::random::Random;
use model::script::{kind, Header, Step, STEP_LIMIT};

pub fn script() -> Vec<u8> {
    let mut bytes = header().encode();
    bytes.extend(steps().iter().flat_map(Step::encode));
    bytes
}

fn header() -> Header {
    Header {
        address: ADDRESS,
        mask: MASK,
    }
}

fn steps() -> Vec<Step> {
    let mut random = Random::new(7, 0);
    let mut steps = sixteen_sockets();
    while steps.len() < STEP_LIMIT {
        steps.extend(scene(&mut random));
    }
    steps.truncate(STEP_LIMIT);
    steps
}

/// Of a hundred scenes, this many of each; every one leaves the queues empty.
fn scene(random: &mut Random) -> Vec<Step> {
    let k = random.between(1, 15) as u8;
    let l = random.pick(&SIZES);
    match random.below(100) {
        0..=51 => answered(k, l),
        52..=63 => enrolled(random, l),
        64..=73 => vec![datagram(laptop(k), LAPTOP_PORT, OTHER_PORT, l), out()],
        74..=83 => inside(l).to_vec(),
        84..=87 => burst(k, l),
        88..=91 => many_sent(random, l),
        92..=93 => unreachable(k, l),
        94 => back_again(random, k, l),
        _ => refused(random, k),
    }
}

fn answered(k: u8, l: u16) -> Vec<Step> {
    let asked = datagram(laptop(k), LAPTOP_PORT, PORT, l);
    vec![asked, recvfrom(k), sendto(k, 0, 0, l), out()]
}

fn enrolled(random: &mut Random, l: u16) -> Vec<Step> {
    let stranger = laptop(random.between(20, 200) as u8);
    let asked = datagram(stranger, LAPTOP_PORT, PORT, l);
    vec![
        asked,
        recvfrom(0),
        sendto(0, stranger, LAPTOP_PORT, l),
        out(),
    ]
}

/// The fifth finds the queue full, and the fifth read finds it empty.
fn burst(k: u8, l: u16) -> Vec<Step> {
    let mut steps = vec![datagram(laptop(k), LAPTOP_PORT, PORT, l); 5];
    steps.extend([recvfrom(k); 5]);
    steps
}

/// Up to one more than the out-queue holds.
fn many_sent(random: &mut Random, l: u16) -> Vec<Step> {
    let count = random.between(4, 17);
    let mut steps: Vec<Step> = (0..count)
        .map(|i| sendto(1 + i as u8 % 15, 0, 0, l))
        .collect();
    steps.extend(vec![out(); count]);
    steps
}

/// A notice comes back for what was sent; the next sendto tells of it.
fn unreachable(k: u8, l: u16) -> Vec<Step> {
    let notice = Step {
        b: laptop(k),
        q: LAPTOP_PORT,
        ..step(kind::NOTICE, 0, ADDRESS, PORT)
    };
    let sent = sendto(k, 0, 0, l);
    vec![sent, out(), notice, sent, sent, out()]
}

/// A laptop leaves, and its socket enrols too for a while: two match a stranger equally, and the lower one wins. Then
/// the laptop is back.
fn back_again(random: &mut Random, k: u8, l: u16) -> Vec<Step> {
    let close = step(kind::CLOSE, k, 0, 0);
    let mut steps = vec![
        close,
        step(kind::SOCKET, 0, 0, 0),
        step(kind::SET_REUSE, k, 0, 1),
        step(kind::BIND, k, 0, PORT),
    ];
    steps.extend(enrolled(random, l));
    steps.push(close);
    steps.extend(socket_of(k));
    steps
}

/// A single step that is turned down: 5, 6, 6, 6, 11, 14, 15, 24, 25, 26 or 31.
fn refused(random: &mut Random, k: u8) -> Vec<Step> {
    let elsewhere = Step {
        b: laptop(k),
        ..datagram(laptop(k), LAPTOP_PORT, PORT, 3)
    };
    vec![random.pick(&[
        recvfrom(16 + k),
        sendto(k, laptop(k), 0, 3),
        step(kind::BIND, k, 0, PORT),
        step(kind::SET_REUSE, k, 0, 0),
        sendto(k, 0, 0, 600),
        recvfrom(k),
        step(kind::SOCKET, 0, 0, 0),
        elsewhere,
        datagram(224 << 24, LAPTOP_PORT, PORT, 3),
        datagram(laptop(k), LAPTOP_PORT, PORT, 600),
        out(),
    ])]
}
