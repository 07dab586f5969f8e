//! Opening, several interfaces, and records that are not well formed.

use super::*;
use crate::host::{is_loopback, is_martian, Datagram, OutItem, Thread, Unreachable};

fn opened(interfaces: &[Interface]) -> u8 {
    number(Host::open(interfaces, vec![0; STORE]).1)
}

fn pair_of(id: u16, first: Address, second: Address, mask: u32) -> Interface {
    Interface {
        id,
        count: 2,
        addresses: [first, second, 0, 0],
        mask,
    }
}

#[test]
fn the_edges_of_martian_and_loopback() {
    assert!(!is_martian(0xdfff_ffff) && is_martian(0xe000_0000));
    assert!(is_martian(0x00ff_ffff) && !is_martian(0x0100_0000));
    assert!(is_martian(0xf000_0000) && is_martian(u32::MAX));
    assert!(!is_loopback(0x7eff_ffff) && is_loopback(0x7f00_0000));
    assert!(is_loopback(0x7fff_ffff) && !is_loopback(0x8000_0000));
}

#[test]
fn a_store_of_another_length_is_2() {
    let interfaces = [Interface::single(1, OWN, MASK)];
    for length in [0, 40_959, 40_961] {
        let (mut host, answered) = Host::open(&interfaces, vec![7; length]);
        assert_eq!(number(answered), 2);
        assert_eq!(host.thread, Thread::Ended);
        assert!(host.interfaces.is_empty());
        assert_eq!(host.store, vec![7; length]);
        assert_eq!(number(host.socket()), 2);
        assert_eq!(out(&mut host).number, 2);
    }
    let (_, answered) = Host::open(&[Interface::default()], vec![7; 40_959]);
    assert_eq!(number(answered), 2);
    let (host, answered) = Host::open(&interfaces, vec![7; 40_960]);
    assert_eq!(number(answered), 0);
    assert!(host.store.iter().all(|&byte| byte == 0));
}

#[test]
fn interfaces_are_checked() {
    let single = |id, address| Interface::single(id, address, MASK);
    assert_eq!(opened(&[]), 0);
    assert_eq!(opened(&[single(0, OWN)]), 17);
    assert_eq!(opened(&[single(255, OWN)]), 0);
    assert_eq!(opened(&[single(256, OWN)]), 17);
    assert_eq!(opened(&[single(1, LOCALHOST)]), 17);
    assert_eq!(opened(&[single(1, 0)]), 17);
    assert_eq!(opened(&[single(1, 0xe000_0000)]), 17);
    assert_eq!(opened(&[single(1, OWN), single(1, FAR)]), 17);
    assert_eq!(opened(&[single(1, OWN), single(2, OWN)]), 17);
    assert_eq!(opened(&[pair_of(1, OWN, NINE, MASK)]), 0);
    assert_eq!(opened(&[pair_of(1, OWN, FAR, MASK)]), 17);
    assert_eq!(opened(&[pair_of(1, OWN, FAR, 0)]), 0);
    assert_eq!(opened(&[pair_of(1, OWN, OWN, MASK)]), 17);
    let four: Vec<Interface> = (1..=4).map(|id| single(id, OWN + u32::from(id))).collect();
    assert_eq!(opened(&four), 0);
    assert_eq!(opened(&[four, vec![single(5, FAR)]].concat()), 17);
}

#[test]
fn unused_places_and_counts_are_checked() {
    let good = Interface::single(1, OWN, MASK);
    for count in [0, 5, 255] {
        assert_eq!(opened(&[Interface { count, ..good }]), 17);
    }
    let addresses = [OWN, 0, 0, NINE];
    assert_eq!(opened(&[Interface { addresses, ..good }]), 17);
}

#[test]
fn refused_interfaces_leave_the_store() {
    let (host, answered) = Host::open(&[Interface::single(0, OWN, MASK)], vec![7; STORE]);
    assert_eq!(given(answered).number, 17);
    assert_eq!(host.thread, Thread::Ended);
    assert!(host.store.iter().all(|&byte| byte == 7));
}

#[test]
fn the_route_decides_the_source() {
    let second = pair_of(9, 0xc000_0201, 0xc000_0202, MASK);
    let interfaces = [Interface::single(7, OWN, MASK), second];
    let (mut host, _) = Host::open(&interfaces, vec![0; STORE]);
    let mut source_to = |address| {
        let descriptor = given(host.socket()).descriptor;
        assert_eq!(number(host.connect(descriptor, address, 1)), 0);
        given(host.getsockname(descriptor)).pair.address
    };
    assert_eq!(source_to(NINE), OWN);
    assert_eq!(source_to(0xc000_02ff), 0xc000_0201);
    assert_eq!(source_to(FAR), OWN);
    assert_eq!(source_to(0x7f00_0002), LOCALHOST);
}

#[test]
fn a_datagram_carries_its_interface() {
    let second = pair_of(9, 0xc000_0201, 0xc000_0202, MASK);
    let interfaces = [Interface::single(7, OWN, MASK), second];
    let (mut host, _) = Host::open(&interfaces, vec![0; STORE]);
    assert_eq!(number(host.socket()), 0);
    assert_eq!(number(host.bind(0, 0, 7000)), 0);
    arrive(&mut host, ends(NINE, 1, 0xc000_0202, 7000), &[]);
    arrive(&mut host, ends(NINE, 1, OWN, 7000), &[]);
    let tags: Vec<u16> = host.sockets[0].queue.iter().map(|d| d.interface).collect();
    assert_eq!(tags, [9, 7]);
}

#[test]
fn without_an_interface_there_is_no_route() {
    let (mut host, answered) = Host::open(&[], vec![0; STORE]);
    assert_eq!(number(answered), 0);
    assert_eq!(number(host.socket()), 0);
    let before = host.clone();
    assert_eq!(number(host.connect(0, NINE, 1)), 13);
    assert_eq!(number(host.sendto(0, NINE, 1, &[])), 13);
    assert_eq!(host, before);
    assert_eq!(number(host.sendto(0, LOCALHOST, 1, &[])), 0);
    assert_eq!(number(host.connect(0, LOCALHOST, 1)), 0);
}

/// The number that a changed record gets from a call, an arrival and the rest.
fn changed(change: impl Fn(&mut Host)) -> u8 {
    let mut host = four_sockets();
    change(&mut host);
    let before = host.clone();
    let first = number(host.socket());
    let arrived = arrive(&mut host, ends(0, 0, 0, 0), &[]).number;
    assert_eq!(first == 1, arrived == 1);
    assert_eq!(first == 1, number(host.resume(&mut [])) == 1);
    assert_eq!(first == 1, out(&mut host).number == 1);
    assert!(first != 1 || host == before);
    first
}

#[test]
fn a_record_not_well_formed_is_1() {
    assert_eq!(changed(|_| ()), 0);
    assert_eq!(changed(|h| h.interfaces[0].id = 0), 1);
    assert_eq!(changed(|h| h.sockets[4].reuse = true), 1);
    assert_eq!(changed(|h| h.sockets[0].reuse = false), 1);
    assert_eq!(changed(|h| h.sockets[0].remote.port = 1), 1);
    assert_eq!(changed(|h| h.sockets[0].remote.address = NINE), 1);
    assert_eq!(changed(|h| h.sockets[0].local.port = 0), 0);
    assert_eq!(changed(|h| h.sockets[1].local.port = 0), 1);
    assert_eq!(changed(|h| h.sockets[1].local.address = NINE), 1);
    assert_eq!(changed(|h| h.sockets[1].local.address = LOCALHOST), 0);
    assert_eq!(changed(|h| h.sockets[1].error = 9), 1);
    assert_eq!(changed(|h| h.sockets[1].error = 10), 0);
    assert_eq!(changed(|h| h.thread = Thread::Waiting(4)), 1);
    assert_eq!(changed(|h| h.thread = Thread::Waiting(16)), 1);
    assert_eq!(changed(|h| h.thread = Thread::Waiting(3)), 4);
    assert_eq!(changed(|h| h.thread = Thread::Ended), 3);
}

#[test]
fn queues_are_part_of_the_record() {
    let of = |length| Datagram {
        length,
        ..Datagram::default()
    };
    assert_eq!(changed(|h| h.sockets[1].queue = vec![of(512); 4]), 0);
    assert_eq!(changed(|h| h.sockets[1].queue = vec![of(0); 5]), 1);
    assert_eq!(changed(|h| h.sockets[1].queue = vec![of(513)]), 1);
    let item = |source| OutItem::Notice {
        kind: Unreachable::Host,
        source,
        destination: FAR,
        embedded: Ends::default(),
    };
    assert_eq!(changed(|h| h.out_queue = vec![item(OWN); 16]), 0);
    assert_eq!(changed(|h| h.out_queue = vec![item(LOCALHOST)]), 0);
    assert_eq!(changed(|h| h.out_queue = vec![item(NINE)]), 1);
    assert_eq!(changed(|h| h.out_queue = vec![item(OWN); 17]), 1);
    let datagram = |length| OutItem::Datagram {
        ends: ends(OWN, 0, FAR, 0),
        length,
    };
    assert_eq!(changed(|h| h.out_queue = vec![datagram(512)]), 0);
    assert_eq!(changed(|h| h.out_queue = vec![datagram(513)]), 1);
}
