//! Random interface lists, and lengths for a store that is another.

use crate::addresses::{EDGE, LOOPBACK, MARTIAN};
use model::host::{is_loopback, is_martian, Address, STORE};
use model::maker::address;
use model::random::Random;
use model::words;
use udphost::raw::Interface;

const MASKS: [u32; 7] = [
    0xffff_ff00,
    0xffff_ff00,
    0xff00_ff00,
    0xffff_fffc,
    1,
    0,
    u32::MAX,
];

/// Some are the good length, or 0, to one who loses their upper bits.
const OTHER_LENGTHS: [usize; 8] = [
    0,
    1,
    512,
    STORE - 512,
    STORE - 1,
    STORE + 1,
    2 * STORE,
    STORE + 65_536,
];

/// A length that a store may not have.
pub fn other_length(random: &mut Random) -> usize {
    match random.below(2) {
        0 => random.pick(&OTHER_LENGTHS),
        _ => random.below(STORE),
    }
}

/// A list that opening accepts.
pub fn good_list(random: &mut Random) -> Vec<Interface> {
    let count = random.pick(&[0, 1, 1, 1, 2, 3, 4]);
    list_of(random, count)
}

fn list_of(random: &mut Random, count: usize) -> Vec<Interface> {
    let first = random.below(255);
    let mut taken = Vec::new();
    let interface = |place: usize| {
        let id = ((first + 7 * place) % 255 + 1) as u8;
        interface(random, place, id, &mut taken)
    };
    (0..count).map(interface).collect()
}

/// An interface with one address or more, none of which is taken.
fn interface(random: &mut Random, place: usize, id: u8, taken: &mut Vec<Address>) -> Interface {
    let mask = random.pick(&MASKS);
    let usual = address(10, 2 + place as u8, 0, 5);
    let primary = random.pick(&[usual, usual, usual, EDGE[place % EDGE.len()]]);
    let mut addresses = vec![primary];
    taken.push(primary);
    for _ in 0..random.pick(&[0, 0, 2, 6]) {
        let other = primary ^ (random.draw() as u32 & !mask);
        let stray = is_loopback(other) || is_martian(other);
        if addresses.len() < 4 && !stray && !taken.contains(&other) && !reserved(other) {
            addresses.push(other);
            taken.push(other);
        }
    }
    addresses.resize(4, 0);
    Interface {
        mask,
        first: addresses[0],
        second: addresses[1],
        third: addresses[2],
        fourth: addresses[3],
        id,
    }
}

/// Another interface's primary, perhaps.
fn reserved(other: Address) -> bool {
    EDGE.contains(&other) || other & 0xff00_ffff == address(10, 0, 0, 5)
}

/// A list that opening may well refuse.
pub fn any_list(random: &mut Random) -> Vec<Interface> {
    let count = random.pick(&[0, 1, 2, 3, 4, 5, 6, 8]);
    let mut list = list_of(random, count);
    for _ in 0..random.pick(&[0, 1, 1, 2]) {
        spoil(random, &mut list);
    }
    list
}

fn spoil(random: &mut Random, list: &mut [Interface]) {
    if list.is_empty() {
        return;
    }
    let other = list[random.below(list.len())];
    let place = random.below(list.len());
    let x = &mut list[place];
    let addresses = [
        0,
        other.first,
        other.second,
        x.first ^ 0x0100_0001,
        random.pick(&LOOPBACK),
        random.pick(&MARTIAN),
        random.pick(&EDGE),
    ];
    let address = random.pick(&addresses);
    match random.below(6) {
        0 => x.id = random.pick(&[0, other.id]),
        1 => x.mask = random.pick(&MASKS),
        2 => x.first = address,
        3 => x.second = address,
        4 => x.third = address,
        _ => x.fourth = address,
    }
}

pub fn in_words(list: &[Interface]) -> String {
    let line = |x: &Interface| {
        let addresses = [x.first, x.second, x.third, x.fourth].map(words::address);
        let mask = words::address(x.mask);
        format!(
            "  interface {}: {}, mask {mask}\n",
            x.id,
            addresses.join(" ")
        )
    };
    list.iter().map(line).collect()
}
