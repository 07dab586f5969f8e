//! Who gets a datagram or hears a notice, the out step, and the store's bytes.

use super::*;
use crate::host::{OutItem, Unreachable, BSDCOMPAT, OUT_SLOTS};

fn scores(host: &Host, arrival: Ends) -> Vec<u8> {
    let score = |k: usize| host.sockets[k].score(arrival.destination, arrival.source);
    (0..4).map(score).collect()
}

#[test]
fn the_greatest_score_wins() {
    let mut host = four_sockets();
    let cases = [
        (ends(NINE, 6000, OWN, 7000), [1, 2, 3, 4], 3),
        (ends(NINE, 6001, OWN, 7000), [1, 2, 3, 0], 2),
        (ends(EIGHT, 6000, OWN, 7000), [1, 2, 0, 0], 1),
    ];
    for (arrival, expected, winner) in cases {
        assert_eq!(scores(&host, arrival), expected);
        let answer = arrive(&mut host, arrival, &[1]);
        assert_eq!((answer.number, answer.descriptor), (20, winner));
    }
    let nobody = ends(NINE, 6000, OWN, 7001);
    assert_eq!(scores(&host, nobody), [0, 0, 0, 0]);
    assert_eq!(arrive(&mut host, nobody, &[1]).number, 22);
}

#[test]
fn the_lowest_descriptor_wins_among_equals() {
    let mut host = host_with(3);
    (0..3).for_each(|descriptor| bind_reused(&mut host, descriptor, OWN));
    assert_eq!(number(host.close(0)), 0);
    let answer = arrive(&mut host, ends(NINE, 6000, OWN, 7000), &[]);
    assert_eq!((answer.number, answer.descriptor), (20, 1));
}

#[test]
fn the_fourth_is_queued_and_the_fifth_dropped() {
    let mut host = host_with(2);
    assert_eq!(number(host.bind(1, 0, 7000)), 0);
    let arrival = ends(NINE, 6000, OWN, 7000);
    for length in 1..=4 {
        let answer = arrive(&mut host, arrival, &[9; SLOT][..length]);
        assert_eq!((answer.number, answer.descriptor), (20, 1));
    }
    let before = host.clone();
    let answer = arrive(&mut host, arrival, &[9; SLOT]);
    assert_eq!((answer.number, answer.descriptor), (21, 1));
    assert_eq!(host, before);
    for length in 1..=4 {
        assert_eq!(receive(&mut host, 1).length, length);
    }
    assert_eq!(receive(&mut host, 1).number, 14);
}

#[test]
fn arrivals_are_refused_in_order() {
    let mut host = host_with(1);
    assert_eq!(number(host.bind(0, 0, 7000)), 0);
    let before = host.clone();
    let mut number_of = |s, d, length| {
        let payload = vec![1; length];
        arrive(&mut host, ends(s, 6000, d, 7000), &payload).number
    };
    assert_eq!(number_of(LOCALHOST, NINE, 513), 24);
    assert_eq!(number_of(LOCALHOST, LOCALHOST, 513), 24);
    assert_eq!(number_of(LOCALHOST, OWN, 513), 25);
    assert_eq!(number_of(0, OWN, 513), 25);
    assert_eq!(number_of(0xe000_0000, OWN, 513), 25);
    assert_eq!(number_of(NINE, OWN, 513), 26);
    assert_eq!(host, before);
    let own = arrive(&mut host, ends(OWN, 0, OWN, 7000), &[1; 512]);
    assert_eq!(own.number, 20);
    let nobody = arrive(&mut host, ends(OWN, 0, OWN, 0), &[]);
    assert_eq!(nobody.number, 22);
}

#[test]
fn sixteen_notices_then_23() {
    let mut host = host();
    for _ in 0..16 {
        let answer = arrive(&mut host, ends(NINE, 6000, OWN, 7001), &[1; 9]);
        assert_eq!(answer.number, 22);
    }
    let before = host.clone();
    let answer = arrive(&mut host, ends(NINE, 6000, OWN, 7001), &[1; 9]);
    assert_eq!(answer.number, 23);
    assert_eq!(host, before);
    assert!(host.store.iter().all(|&byte| byte == 0));
    let emitted = out(&mut host);
    let notice = OutItem::Notice {
        kind: Unreachable::Port,
        source: OWN,
        destination: NINE,
        embedded: ends(NINE, 6000, OWN, 7001),
    };
    assert_eq!((emitted.number, emitted.length), (30, 0));
    assert_eq!(emitted.item, Some(notice));
}

#[test]
fn a_notice_is_for_the_socket_that_sent() {
    let mut host = four_sockets();
    let mut hear = |outer: (Address, Address), embedded: Ends| {
        number(host.arriving_notice(Unreachable::Port, outer.0, outer.1, embedded))
    };
    let good = ends(OWN, 7000, NINE, 6000);
    assert_eq!(hear((0, NINE), good), 24);
    assert_eq!(hear((0, LOCALHOST), good), 24);
    assert_eq!(hear((LOCALHOST, OWN), good), 25);
    assert_eq!(hear((FAR, OWN), ends(LOCALHOST, 7000, NINE, 6000)), 25);
    assert_eq!(hear((FAR, OWN), ends(OWN, 7000, 0, 6000)), 25);
    assert_eq!(hear((FAR, OWN), ends(OWN, 0, NINE, 6000)), 29);
    assert_eq!(hear((FAR, OWN), ends(NINE, 6000, OWN, 7000)), 29);
    assert_eq!(hear((FAR, OWN), good), 27);
    let errors: Vec<u8> = host.sockets.iter().map(|s| s.error).collect();
    assert_eq!(errors[..5], [0, 0, 0, 10, 0]);
}

#[test]
fn bsdcompat_without_a_remote_address_is_28() {
    for kind in [Unreachable::Port, Unreachable::Host] {
        let mut host = host_with(1);
        let embedded = ends(OWN, 7000, NINE, 6000);
        assert_eq!(number(host.setopt(0, BSDCOMPAT, true)), 0);
        assert_eq!(number(host.bind(0, 0, 7000)), 0);
        let before = host.clone();
        assert_eq!(number(host.arriving_notice(kind, NINE, OWN, embedded)), 28);
        assert_eq!(host, before);
        assert_eq!(number(host.connect(0, NINE, 0)), 0);
        assert_eq!(number(host.arriving_notice(kind, NINE, OWN, embedded)), 27);
    }
}

#[test]
fn a_loopback_sender_hears() {
    let mut host = host_with(1);
    assert_eq!(number(host.sendto(0, LOCALHOST, 9, &[1, 2])), 0);
    assert_eq!(out(&mut host).number, 22);
    assert_eq!(out(&mut host).number, 27);
    assert_eq!(out(&mut host).number, 31);
    assert_eq!(receive(&mut host, 0).number, 10);
    assert_eq!(number(host.sendto(0, LOCALHOST, 9, &[])), 0);
    assert_eq!(out(&mut host).number, 22);
    assert_eq!(number(host.close(0)), 0);
    assert_eq!(out(&mut host).number, 29);
}

#[test]
fn another_sender_does_not_hear() {
    let mut host = host_with(1);
    assert_eq!(number(host.bind(0, OWN, 7000)), 0);
    assert_eq!(number(host.sendto(0, LOCALHOST, 9, &[1, 2])), 0);
    assert_eq!(out(&mut host).number, 23);
    assert_eq!(out(&mut host).number, 31);
}

#[test]
fn a_loopback_datagram_is_delivered_inside() {
    let mut host = host_with(2);
    assert_eq!(number(host.bind(1, 0, 7000)), 0);
    for length in 0..5 {
        let sent = host.sendto(0, LOCALHOST + 8, 7000, &[3; 9][..length]);
        assert_eq!(number(sent), 0);
    }
    for _ in 0..4 {
        let answer = out(&mut host);
        assert_eq!((answer.number, answer.descriptor), (20, 1));
    }
    assert_eq!(out(&mut host).number, 21);
    assert_eq!(out(&mut host).number, 31);
    assert_eq!(host.sockets[1].queue[0].interface, 0);
    assert_eq!(receive(&mut host, 1).pair, Pair::new(LOCALHOST, 1024));
    assert_eq!(receive(&mut host, 1).length, 1);
}

#[test]
fn the_out_step_emits_or_discards() {
    let mut host = host_with(2);
    assert_eq!(number(host.bind(1, LOCALHOST, 7000)), 0);
    let mut buffer = [9; 600];
    assert_eq!(number(host.out(&mut buffer[..511])), 16);
    assert_eq!(number(host.out(&mut buffer)), 31);
    assert_eq!(number(host.sendto(0, 0xe000_0000, 6000, &[1])), 0);
    assert_eq!(number(host.sendto(0, OWN, 1024, &[2])), 0);
    assert_eq!(number(host.sendto(1, FAR, 6000, &[3; 3])), 0);
    assert_eq!(given(host.out(&mut buffer[..511])), refusal(16));
    assert_eq!(number(host.out(&mut buffer)), 32);
    assert_eq!(buffer, [9; 600]);
    assert_eq!(number(host.out(&mut buffer)), 30);
    let emitted = given(host.out(&mut buffer));
    assert_eq!((emitted.number, emitted.length), (30, 3));
    let item = OutItem::Datagram {
        ends: ends(LOCALHOST, 7000, FAR, 6000),
        length: 3,
    };
    assert_eq!(emitted.item, Some(item));
    assert_eq!(buffer[..4], [3, 3, 3, 9]);
}

fn refusal(number: u8) -> Answer {
    Answer {
        number,
        ..Answer::default()
    }
}

#[test]
fn a_removal_moves_whole_slots_down() {
    let mut host = host_with(2);
    assert_eq!(number(host.bind(1, 0, 7000)), 0);
    for byte in 1..=2 {
        arrive(&mut host, ends(NINE, 6000, OWN, 7000), &[byte; 2]);
    }
    // Bytes behind a payload move with it; slots behind the last one stay.
    host.store[2560 + 100] = 66;
    host.store[3072] = 77;
    host.store[3584] = 88;
    assert_eq!(receive(&mut host, 1).length, 2);
    let mut expected = vec![0; STORE];
    expected[2048..2050].fill(2);
    expected[2048 + 100] = 66;
    expected[3072] = 77;
    expected[3584] = 88;
    assert!(host.store == expected);
}

#[test]
fn the_out_slots_move_down_too() {
    let mut host = host_with(1);
    for byte in 1..=2 {
        assert_eq!(number(host.sendto(0, FAR, 6000, &[byte; 512])), 0);
    }
    assert_eq!(out(&mut host).number, 30);
    let mut expected = vec![0; STORE];
    expected[OUT_SLOTS..OUT_SLOTS + 512].fill(2);
    assert!(host.store == expected);
}

#[test]
fn storing_writes_zeros_behind_the_payload() {
    let mut host = host_with(1);
    assert_eq!(number(host.bind(0, 0, 7000)), 0);
    host.store.fill(7);
    assert_eq!(number(host.sendto(0, LOCALHOST, 7000, &[1])), 0);
    host.store[OUT_SLOTS + 1..OUT_SLOTS + 512].fill(8);
    assert_eq!(out(&mut host).number, 20);
    assert_eq!(host.store[0], 1);
    assert!(host.store[1..512].iter().all(|&byte| byte == 0));
    assert!(host.store[512..OUT_SLOTS].iter().all(|&byte| byte == 7));
    let (emptied, rest) = host.store[OUT_SLOTS..].split_at(512);
    assert!(emptied.iter().all(|&byte| byte == 0));
    assert!(rest.iter().all(|&byte| byte == 7));
}

#[test]
fn close_and_exit_zero_the_slots() {
    let mut host = host_with(2);
    host.store.fill(7);
    assert_eq!(number(host.close(1)), 0);
    assert!(host.store[2048..4096].iter().all(|&byte| byte == 0));
    assert_eq!(
        host.store.iter().filter(|&&byte| byte == 7).count(),
        STORE - 2048
    );
    assert_eq!(given(host.socket()).descriptor, 1);
    assert_eq!(number(host.exit()), 0);
    assert!(host.store[..OUT_SLOTS].iter().all(|&byte| byte == 0));
    assert!(host.store[OUT_SLOTS..].iter().all(|&byte| byte == 7));
}
