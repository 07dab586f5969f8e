//! The calls: their answers in order, and what they leave behind.

use super::*;
use crate::host::{Thread, Unreachable, BSDCOMPAT};

#[test]
fn sixteen_sockets_are_all() {
    let mut host = host_with(16);
    assert_eq!(number(host.socket()), 15);
    assert_eq!(number(host.close(5)), 0);
    assert_eq!(number(host.close(3)), 0);
    assert_eq!(given(host.socket()).descriptor, 3);
}

#[test]
fn ports_below_1024_are_not_for_bind() {
    let mut host = host_with(2);
    assert_eq!(number(host.bind(0, 0, 1)), 7);
    assert_eq!(number(host.bind(0, 0, 1023)), 7);
    assert_eq!(number(host.bind(0, 0, 1024)), 0);
    assert_eq!(number(host.bind(0, 0, 1025)), 6);
}

#[test]
fn addresses_overlap_when_equal_or_wildcard() {
    let mut host = host_with(3);
    assert_eq!(number(host.bind(0, 0, 7000)), 0);
    assert_eq!(number(host.bind(1, OWN, 7000)), 9);
    let mut host = host_with(3);
    assert_eq!(number(host.bind(0, OWN, 7000)), 0);
    assert_eq!(number(host.bind(1, LOCALHOST, 7000)), 0);
    assert_eq!(number(host.bind(2, OWN, 7000)), 9);
    assert_eq!(number(host.bind(2, 0, 7000)), 9);
    assert_eq!(number(host.bind(2, OWN, 7001)), 0);
}

#[test]
fn both_need_reuse() {
    let mut host = host_with(2);
    assert_eq!(number(host.setopt(1, REUSE, true)), 0);
    assert_eq!(number(host.bind(0, 0, 7000)), 0);
    assert_eq!(number(host.bind(1, 0, 7000)), 9);
}

#[test]
fn bind_takes_our_own_addresses_only() {
    let mut host = host_with(3);
    assert_eq!(number(host.bind(0, NINE, 7000)), 8);
    assert_eq!(number(host.bind(0, NINE, 1023)), 8);
    assert_eq!(number(host.bind(0, NINE, 0)), 8);
    assert_eq!(number(host.bind(0, 0x7fff_ffff, 7000)), 0);
    assert_eq!(number(host.bind(0, NINE, 0)), 6);
}

#[test]
fn autobind_takes_the_lowest_free_port() {
    let mut host = host_with(4);
    assert_eq!(number(host.bind(0, 0, 0)), 0);
    assert_eq!(given(host.getsockname(0)).pair, Pair::new(0, 1024));
    assert_eq!(number(host.bind(1, OWN, 1025)), 0);
    assert_eq!(number(host.bind(2, LOCALHOST, 0)), 0);
    assert_eq!(given(host.getsockname(2)).pair, Pair::new(LOCALHOST, 1026));
    assert_eq!(number(host.close(0)), 0);
    assert_eq!(number(host.connect(3, NINE, 0)), 0);
    assert_eq!(given(host.getsockname(3)).pair, Pair::new(OWN, 1024));
}

#[test]
fn connect_replaces_the_remote_pair() {
    let mut host = host_with(1);
    assert_eq!(number(host.getpeername(0)), 12);
    assert_eq!(number(host.connect(0, 0, 6000)), 6);
    assert_eq!(number(host.connect(0, LOCALHOST + 1, 6000)), 0);
    assert_eq!(given(host.getsockname(0)).pair, Pair::new(LOCALHOST, 1024));
    assert_eq!(number(host.connect(0, NINE, 0)), 0);
    assert_eq!(given(host.getsockname(0)).pair, Pair::new(LOCALHOST, 1024));
    assert_eq!(given(host.getpeername(0)).pair, Pair::new(NINE, 0));
    assert_eq!(number(host.disconnect(0)), 0);
    assert_eq!(number(host.disconnect(0)), 0);
    assert_eq!(number(host.getpeername(0)), 12);
    assert_eq!(given(host.getsockname(0)).pair, Pair::new(LOCALHOST, 1024));
}

#[test]
fn options_are_two() {
    let mut host = host_with(1);
    for option in [0, 3, 256] {
        assert_eq!(number(host.getopt(0, option)), 6);
        assert_eq!(number(host.setopt(0, option, true)), 6);
    }
    for option in [BSDCOMPAT, REUSE] {
        assert_eq!(given(host.getopt(0, option)).value, 0);
        assert_eq!(number(host.setopt(0, option, true)), 0);
        assert_eq!(given(host.getopt(0, option)).value, 1);
    }
    assert_eq!(number(host.bind(0, 0, 7000)), 0);
    assert_eq!(number(host.setopt(0, REUSE, true)), 6);
    assert_eq!(number(host.setopt(0, REUSE, false)), 6);
    assert_eq!(number(host.setopt(0, BSDCOMPAT, false)), 0);
}

#[test]
fn sendto_answers_in_order() {
    let mut host = host_with(1);
    let long = [0; 513];
    assert_eq!(number(host.sendto(0, NINE, 0, &long)), 6);
    assert_eq!(number(host.sendto(0, 0, 6000, &long)), 6);
    assert_eq!(number(host.sendto(0, 0, 0, &long)), 11);
    assert_eq!(number(host.sendto(0, 0, 0, &[])), 12);
    assert_eq!(number(host.sendto(0, NINE, 6000, &long)), 11);
    assert_eq!(given(host.getsockname(0)).pair, Pair::default());
    assert_eq!(number(host.sendto(0, NINE, 6000, &long[..512])), 0);
    assert_eq!(given(host.getsockname(0)).pair, Pair::new(0, 1024));
    assert_eq!(number(host.connect(0, NINE, 0)), 0);
    assert_eq!(number(host.sendto(0, 0, 0, &[])), 12);
}

#[test]
fn sendto_is_refused_before_it_autobinds() {
    let mut host = host_with(2);
    for _ in 0..16 {
        assert_eq!(number(host.sendto(0, FAR, 6000, &[1])), 0);
    }
    let before = host.clone();
    assert_eq!(number(host.sendto(1, FAR, 6000, &[1])), 14);
    assert_eq!(host, before);
}

#[test]
fn a_pending_error_comes_first_and_once() {
    for kind in [Unreachable::Port, Unreachable::Host] {
        let mut host = host_with(1);
        assert_eq!(number(host.connect(0, NINE, 6000)), 0);
        let embedded = ends(OWN, 1024, NINE, 6000);
        let hear = |host: &mut Host| host.arriving_notice(kind, FAR, OWN, embedded);
        assert_eq!(number(hear(&mut host)), 27);
        assert_eq!(number(hear(&mut host)), 27);
        assert_eq!(number(host.sendto(0, NINE, 0, &[0; 513])), 10);
        assert_eq!(number(host.sendto(0, NINE, 0, &[0; 513])), 6);
        assert_eq!(number(hear(&mut host)), 27);
        assert_eq!(receive(&mut host, 0).number, 10);
        assert_eq!(receive(&mut host, 0).number, 14);
        assert_eq!(number(hear(&mut host)), 27);
        assert_eq!(given(host.geterr(0)).value, 10);
        assert_eq!(given(host.geterr(0)), Answer::default());
    }
}

#[test]
fn recvfrom_waits_and_resume_reads() {
    let mut host = host_with(1);
    let mut buffer = [9; 8];
    assert_eq!(number(host.recvfrom(0, true, &mut buffer)), 14);
    assert_eq!(given(host.getsockname(0)).pair.port, 0);
    assert_eq!(number(host.resume(&mut buffer)), 6);
    assert_eq!(number(host.recvfrom(0, false, &mut buffer)), 18);
    assert_eq!(host.thread, Thread::Waiting(0));
    assert_eq!(number(host.socket()), 4);
    assert_eq!(number(host.close(9)), 4);
    assert_eq!(number(host.exit()), 4);
    assert_eq!(number(host.resume(&mut buffer)), 18);
    arrive(&mut host, ends(NINE, 6000, OWN, 1024), &[1, 2, 3]);
    let short = given(host.resume(&mut buffer[..2]));
    assert_eq!((short.number, short.length), (16, 3));
    assert_eq!(short.pair, Pair::default());
    assert_eq!(host.thread, Thread::Waiting(0));
    let read = given(host.resume(&mut buffer));
    assert_eq!((read.number, read.length), (0, 3));
    assert_eq!(read.pair, Pair::new(NINE, 6000));
    assert_eq!(buffer, [1, 2, 3, 9, 9, 9, 9, 9]);
    assert_eq!(host.thread, Thread::Running);
}

#[test]
fn a_buffer_of_the_very_length_is_enough() {
    let mut host = host_with(1);
    assert_eq!(number(host.bind(0, 0, 7000)), 0);
    arrive(&mut host, ends(NINE, 6000, OWN, 7000), &[1, 2, 3]);
    let before = host.clone();
    let mut buffer = [9; 3];
    let short = given(host.recvfrom(0, true, &mut buffer[..2]));
    assert_eq!((short.number, short.length), (16, 3));
    assert_eq!((&host, buffer), (&before, [9; 3]));
    assert_eq!(number(host.recvfrom(0, true, &mut buffer)), 0);
    assert_eq!(buffer, [1, 2, 3]);
}

#[test]
fn an_error_ends_the_wait() {
    let mut host = host_with(1);
    assert_eq!(number(host.recvfrom(0, false, &mut [])), 18);
    let embedded = ends(OWN, 1024, NINE, 6000);
    let heard = host.arriving_notice(Unreachable::Port, NINE, OWN, embedded);
    assert_eq!(number(heard), 27);
    assert_eq!(number(host.resume(&mut [])), 10);
    assert_eq!(host.thread, Thread::Running);
    assert_eq!(given(host.geterr(0)).value, 0);
}

#[test]
fn interrupt_ends_the_wait() {
    let mut host = host_with(1);
    assert_eq!(number(host.interrupt()), 6);
    assert_eq!(number(host.recvfrom(0, false, &mut [])), 18);
    assert_eq!(number(host.interrupt()), 0);
    assert_eq!(host.thread, Thread::Running);
    assert_eq!(number(host.exit()), 0);
    assert_eq!(number(host.interrupt()), 3);
    assert_eq!(number(host.resume(&mut [])), 3);
}

#[test]
fn poll_gives_the_ready_bits() {
    let mut host = host_with(3);
    assert_eq!(number(host.poll(0b1000, 0)), 5);
    assert_eq!(number(host.poll(0, 1 << 15)), 5);
    assert_eq!(number(host.bind(0, 0, 7000)), 0);
    assert_eq!(number(host.connect(1, NINE, 6000)), 0);
    arrive(&mut host, ends(NINE, 6000, OWN, 7000), &[]);
    let polled = given(host.poll(0b111, 0b101));
    assert_eq!((polled.to_read, polled.to_write), (0b001, 0b101));
    for _ in 0..16 {
        assert_eq!(number(host.sendto(0, FAR, 6000, &[])), 0);
    }
    let embedded = ends(OWN, 1024, NINE, 6000);
    let heard = host.arriving_notice(Unreachable::Host, NINE, OWN, embedded);
    assert_eq!(number(heard), 27);
    let polled = given(host.poll(0b111, 0b111));
    assert_eq!((polled.to_read, polled.to_write), (0b011, 0b010));
}

#[test]
fn an_ended_thread_answers_3() {
    let mut host = host_with(1);
    assert_eq!(number(host.sendto(0, FAR, 6000, &[5; 5])), 0);
    assert_eq!(number(host.exit()), 0);
    assert_eq!(number(host.exit()), 3);
    assert_eq!(number(host.socket()), 3);
    assert_eq!(number(host.close(200)), 3);
    assert_eq!(arrive(&mut host, ends(NINE, 1, OWN, 2), &[]).number, 22);
    assert_eq!(out(&mut host).length, 5);
    assert_eq!(out(&mut host).number, 30);
    assert_eq!(out(&mut host).number, 31);
}

#[test]
fn a_descriptor_not_open_is_5() {
    let mut host = host_with(1);
    for descriptor in [1, 15, 16, 255] {
        assert_eq!(number(host.bind(descriptor, 0, 7000)), 5);
        assert_eq!(number(host.getsockname(descriptor)), 5);
        assert_eq!(number(host.sendto(descriptor, 0, 0, &[0; 513])), 5);
        assert_eq!(receive(&mut host, descriptor).number, 5);
    }
}
