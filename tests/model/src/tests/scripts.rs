//! The script program's lines, and the comparer's own parts.

use super::{EIGHT, FAR, LOCALHOST, MASK, NINE, OWN};
use crate::script::{kind, run, Header, Step, HEADER, STEP, STEP_LIMIT};
use crate::{scripts, words};

const HEADER_1: Header = Header {
    address: OWN,
    mask: MASK,
};

fn step(kind: u8) -> Step {
    Step {
        kind,
        ..Step::default()
    }
}

fn bind(descriptor: u8, a: u32, p: u16) -> Step {
    Step {
        descriptor,
        a,
        p,
        ..step(kind::BIND)
    }
}

fn datagram(a: u32, p: u16, q: u16, l: u16) -> Step {
    Step {
        a,
        p,
        b: OWN,
        q,
        l,
        ..step(kind::DATAGRAM)
    }
}

fn script(steps: &[Step]) -> Vec<u8> {
    let steps = steps.iter().flat_map(Step::encode);
    HEADER_1.encode().into_iter().chain(steps).collect()
}

fn said(bytes: &[u8]) -> String {
    String::from_utf8(run(bytes).print()).expect("lines are plain text")
}

/// Document 01's example.
fn example() -> Vec<u8> {
    let steps = [
        step(kind::SOCKET),
        bind(0, 0, 7000),
        datagram(NINE, 6000, 7000, 3),
        step(kind::RECVFROM),
        step(kind::OUT),
    ];
    script(&steps)
}

#[test]
fn the_example_has_five_lines() {
    let lines = "1 0 0 -\n2 0 - -\n3 20 0 -\n4 0 - 3\n5 31 - -\n";
    assert_eq!(said(&example()), lines);
}

#[test]
fn the_example_has_document_01s_bytes() {
    let bytes = example();
    assert_eq!(bytes.len(), 13 + 5 * 16);
    assert_eq!(bytes[..13], *b"UDS\0\x01\x0a\x02\x00\x05\xff\xff\xff\0");
    let third = b"\x09\0\x0a\x02\0\x09\x17\x70\x0a\x02\0\x05\x1b\x58\0\x03";
    assert_eq!(bytes[13 + 2 * 16..13 + 3 * 16], *third);
}

#[test]
fn other_headers_are_bad() {
    let good = example();
    for length in 0..HEADER {
        assert_eq!(said(&good[..length]), "bad header\n");
    }
    assert_eq!(said(&good[..HEADER]), "");
    for place in 0..5 {
        let mut bytes = good.clone();
        bytes[place] += 1;
        assert_eq!(said(&bytes), "bad header\n");
    }
}

#[test]
fn other_interfaces_are_bad() {
    for address in [0, LOCALHOST, 0xe000_0000, 0x00ff_ffff] {
        let mask = 0;
        assert_eq!(said(&Header { address, mask }.encode()), "bad interface\n");
    }
    for address in [0x0100_0000, 0xdfff_ffff, 0x7eff_ffff, 0x8000_0000] {
        let mask = 0x00ff_00ff;
        assert_eq!(said(&Header { address, mask }.encode()), "");
    }
}

#[test]
fn a_left_over_part_is_short_whatever_its_kind() {
    for kind in [0, 1, 13, 255] {
        let bytes = script(&[step(kind::SOCKET), step(kind)]);
        for length in 1..STEP {
            let cut = &bytes[..HEADER + STEP + length];
            assert_eq!(said(cut), "1 0 0 -\n2 short\n");
        }
    }
}

#[test]
fn another_kind_is_bad_and_ends_it() {
    for kind in [0, 13, 255] {
        let bytes = script(&[step(kind::SOCKET), step(kind), step(kind::SOCKET)]);
        assert_eq!(said(&bytes), "1 0 0 -\n2 bad\n");
    }
}

#[test]
fn step_60000_ends_it() {
    let mut steps = vec![step(kind::OUT); STEP_LIMIT - 1];
    let mut bytes = script(&steps);
    assert!(said(&bytes).ends_with("59999 31 - -\n"));
    bytes.push(11);
    assert!(said(&bytes).ends_with("59999 31 - -\n60000 short\n"));
    steps.push(step(kind::SOCKET));
    assert!(said(&script(&steps)).ends_with("\n60000 0 0 -\n"));
    steps.push(step(0));
    assert!(said(&script(&steps)).ends_with("\n60000 0 0 -\n"));
}

#[test]
fn exit_does_not_end_it() {
    let steps = [
        step(kind::EXIT),
        step(kind::SOCKET),
        step(kind::EXIT),
        datagram(NINE, 6000, 7000, 0),
        step(kind::OUT),
    ];
    let lines = "1 0 - -\n2 3 - -\n3 3 - -\n4 22 - -\n5 30 - 0\n";
    assert_eq!(said(&script(&steps)), lines);
}

#[test]
fn descriptors_are_given_with_20_and_21() {
    let mut steps = vec![step(kind::SOCKET), bind(0, OWN, 7000)];
    steps.extend([datagram(FAR, 0, 7000, 512); 5]);
    let lines = said(&script(&steps));
    assert!(lines.ends_with("\n6 20 0 -\n7 21 0 -\n"));
}

#[test]
fn unused_fields_are_ignored() {
    let noisy = |kind| Step {
        kind,
        ..Step::decode(&[0xee; STEP])
    };
    let steps = [noisy(kind::SOCKET), noisy(kind::OUT), noisy(kind::EXIT)];
    assert_eq!(said(&script(&steps)), "1 0 0 -\n2 31 - -\n3 0 - -\n");
}

#[test]
fn a_notice_step_embeds_our_side_first() {
    let notice = Step {
        a: OWN,
        p: 7000,
        b: EIGHT,
        q: 6000,
        ..step(kind::NOTICE)
    };
    let steps = [
        step(kind::SOCKET),
        bind(0, 0, 7000),
        notice,
        step(kind::RECVFROM),
        step(kind::RECVFROM),
    ];
    let lines = said(&script(&steps));
    assert!(lines.ends_with("\n3 27 - -\n4 10 - -\n5 14 - -\n"));
}

#[test]
fn scripts_are_the_same_each_time() {
    for number in [1, 2, 7, 20] {
        assert!(scripts::script(5, number) == scripts::script(5, number));
        assert!(scripts::script(5, number) != scripts::script(6, number));
    }
}

#[test]
fn scripts_at_the_limit_have_their_length() {
    let length = |number| scripts::script(1, number).len() - HEADER;
    assert_eq!(length(150), 60_000 * STEP);
    assert_eq!(length(151), 60_001 * STEP);
}

#[test]
fn a_script_in_words() {
    let bytes = example();
    let words = words::script(&bytes, 4, &run(&bytes).lines);
    let expected = "  interface 1: 10.2.0.5 mask 255.255.255.0\n  \
                    1 socket: 0 descriptor 0\n  \
                    2 bind 0 to 0.0.0.0:7000: 0\n  \
                    3 datagram 10.2.0.9:6000 to 10.2.0.5:7000, 3 bytes: 20 descriptor 0\n  \
                    4 recvfrom 0: 0 length 3\n";
    assert_eq!(words, expected);
}
