//! The wrapper's own tests: each method asks the step that it is named after,
//! and gives back all that the answer has.

use crate::raw;
use crate::*;
use std::net::Ipv4Addr;

const MASK: Ipv4Addr = Ipv4Addr::new(255, 255, 255, 0);
const OWN: Ipv4Addr = Ipv4Addr::new(10, 2, 0, 5);
const PEER: Ipv4Addr = Ipv4Addr::new(10, 2, 0, 9);
const LOCAL: Endpoint = Endpoint::new(OWN, Port(7000));
const REMOTE: Endpoint = Endpoint::new(PEER, Port(6000));
const INSIDE: Endpoint = Endpoint::new(Ipv4Addr::LOCALHOST, Port(7000));
const TO_US: Flow = flow(REMOTE, LOCAL);
const NOBODYS: Flow = flow(REMOTE, Endpoint::new(OWN, Port(9)));
const ABOUT_US: Notice = Notice {
    source: PEER,
    destination: OWN,
    embedded: flow(LOCAL, REMOTE),
};

const fn flow(source: Endpoint, destination: Endpoint) -> Flow {
    Flow {
        source,
        destination,
    }
}

fn wire() -> Interface {
    Interface::new(InterfaceId(1), MASK, &[OWN]).unwrap()
}

fn fresh() -> Host {
    Host::open(&[wire()]).unwrap()
}

/// A host with one socket, which has the local pair.
fn bound() -> (Host, Descriptor) {
    let mut host = fresh();
    let socket = host.socket().unwrap();
    host.bind(socket, LOCAL).unwrap();
    (host, socket)
}

mod layout {
    use super::*;

    fn distance<A, B>(whole: &A, part: &B) -> usize {
        part as *const B as usize - whole as *const A as usize
    }

    #[test]
    fn parts_stand_where_the_header_has_them() {
        let record = raw::Record::default();
        assert_eq!(distance(&record, &record.sockets), 96);
        assert_eq!(distance(&record, &record.queues), 352);
        assert_eq!(distance(&record, &record.out), 1392);
        assert_eq!(distance(&record, &record.icount), 1652);
        assert_eq!(distance(&record, &record.awaited), 1654);
        let request = raw::Request::default();
        assert_eq!(distance(&request, &request.address), 20);
        assert_eq!(distance(&request, &request.kind), 30);
        assert_eq!(distance(&request, &request.on), 33);
        let reply = raw::Reply::default();
        assert_eq!(distance(&reply, &reply.answer), 1656);
        assert_eq!(distance(&reply.answer, &reply.answer.number), 28);
    }
}

mod types {
    use super::*;

    #[test]
    fn each_refusal_keeps_its_number_and_has_words() {
        for number in 1..=17 {
            let answer = raw::Answer {
                number,
                len: 7,
                ..raw::Answer::default()
            };
            let refusal = Refusal::from_answer(&answer).unwrap();
            assert_eq!(refusal.number(), number);
            assert!(!refusal.to_string().is_empty());
        }
        assert_eq!(Refusal::from_answer(&raw::Answer::default()), None);
    }

    #[test]
    fn each_arrival_keeps_its_number() {
        for number in 20..=29 {
            let answer = raw::Answer {
                number,
                ..raw::Answer::default()
            };
            assert_eq!(Arrival::from_answer(&answer).number(), number);
        }
    }

    #[test]
    #[should_panic(expected = "breaks its promise")]
    fn a_number_that_is_not_promised_stops_the_program() {
        Arrival::from_answer(&raw::Answer::default());
    }

    #[test]
    fn an_interface_has_one_to_four_addresses() {
        let addresses: Vec<Ipv4Addr> = (1..=5).map(|last| Ipv4Addr::new(10, 2, 0, last)).collect();
        let made = |list: &[Ipv4Addr]| Interface::new(InterfaceId(1), MASK, list);
        assert_eq!(made(&[]), Err(Refusal::InterfacesRefused));
        assert_eq!(made(&addresses), Err(Refusal::InterfacesRefused));
        assert_eq!(
            made(&[OWN, Ipv4Addr::UNSPECIFIED]),
            Err(Refusal::InterfacesRefused)
        );
        let four = made(&addresses[..4]).unwrap().to_raw();
        let places = [four.first, four.second, four.third, four.fourth];
        assert!(addresses[..4]
            .iter()
            .zip(places)
            .all(|(&a, b)| u32::from(a) == b));
    }

    #[test]
    fn a_set_of_descriptors_has_what_was_put_in() {
        let mut host = fresh();
        let all: Vec<Descriptor> = (0..16).map(|_| host.socket().unwrap()).collect();
        let some: Descriptors = [all[15], all[3]].into_iter().collect();
        assert_eq!(some.mask(), 0x8008);
        assert!(some.contains(all[3]) && !some.contains(all[4]));
        assert_eq!(some.iter().collect::<Vec<_>>(), [all[3], all[15]]);
        assert!(Descriptors::NONE.is_empty());
        assert_eq!(Descriptors::from(all[2]).mask(), 4);
    }
}

mod steps {
    use super::*;

    #[test]
    fn opening_checks_the_list() {
        let host = fresh();
        assert_eq!(host.store().len(), STORE);
        assert_eq!(host.record().interfaces[0], wire().to_raw());
        let twice = Host::open(&[wire(), wire()]);
        assert_eq!(twice.unwrap_err(), Refusal::InterfacesRefused);
    }

    #[test]
    fn names_are_given_and_taken() {
        let (mut host, socket) = bound();
        assert_eq!(host.getsockname(socket), Ok(LOCAL));
        assert_eq!(host.getpeername(socket), Err(Refusal::NoPeer));
        host.connect(socket, REMOTE).unwrap();
        assert_eq!(host.getpeername(socket), Ok(REMOTE));
        host.disconnect(socket).unwrap();
        assert_eq!(host.getpeername(socket), Err(Refusal::NoPeer));
        assert_eq!(host.bind(socket, LOCAL), Err(Refusal::BadArgument));
        let other = host.socket().unwrap();
        assert_eq!(host.bind(other, LOCAL), Err(Refusal::InUse));
        host.bind(other, Endpoint::any(Port::ANY)).unwrap();
        assert_eq!(host.getsockname(other), Ok(Endpoint::any(Port(1024))));
        host.close(other).unwrap();
        assert_eq!(host.close(other), Err(Refusal::NotOpen));
    }

    #[test]
    fn sixteen_sockets_and_no_more() {
        let mut host = fresh();
        let numbers = (0..16).map(|_| host.socket().unwrap().number());
        assert!(numbers.eq(0..16));
        assert_eq!(host.socket(), Err(Refusal::AllOpen));
    }

    #[test]
    fn options_are_kept_apart() {
        let (mut host, socket) = bound();
        let reuse = SocketOption::Reuse;
        assert_eq!(host.setopt(socket, reuse, true), Err(Refusal::BadArgument));
        host.setopt(socket, SocketOption::Bsdcompat, true).unwrap();
        assert_eq!(host.getopt(socket, SocketOption::Bsdcompat), Ok(true));
        assert_eq!(host.getopt(socket, reuse), Ok(false));
        host.setopt(socket, SocketOption::Bsdcompat, false).unwrap();
        assert_eq!(host.getopt(socket, SocketOption::Bsdcompat), Ok(false));
    }

    #[test]
    fn what_is_sent_goes_out() {
        let (mut host, socket) = bound();
        let mut buffer = [9; PAYLOAD];
        assert_eq!(host.out_step(&mut buffer), Ok(OutStep::Empty));
        assert_eq!(host.sendto(socket, None, b"hello"), Err(Refusal::NoPeer));
        host.sendto(socket, Some(REMOTE), b"hello").unwrap();
        let gone = OutStep::Emitted(Outgoing::Datagram {
            flow: flow(LOCAL, REMOTE),
            payload: b"hello",
        });
        assert_eq!(host.out_step(&mut buffer), Ok(gone));
        assert_eq!(buffer[5], 9);
        host.connect(socket, REMOTE).unwrap();
        host.sendto(socket, None, b"again").unwrap();
        assert!(matches!(
            host.out_step(&mut buffer),
            Ok(OutStep::Emitted(_))
        ));
        let martian = Endpoint::new(Ipv4Addr::new(224, 0, 0, 1), Port(1));
        host.sendto(socket, Some(martian), b"").unwrap();
        assert_eq!(host.out_step(&mut buffer), Ok(OutStep::Discarded));
    }

    #[test]
    fn what_arrives_is_read() {
        let (mut host, socket) = bound();
        let hello = Received {
            from: REMOTE,
            payload: b"hello",
        };
        let mut buffer = [0; 8];
        let landed = host.datagram(TO_US, b"hello");
        assert_eq!(landed, Ok(Arrival::Delivered(socket)));
        let short = host.recvfrom_nonblocking(socket, &mut buffer[..4]);
        assert_eq!(short, Err(Refusal::ShortBuffer { needed: 5 }));
        let read = host.recvfrom_nonblocking(socket, &mut buffer);
        assert_eq!(read, Ok(hello));
        let empty = host.recvfrom_nonblocking(socket, &mut buffer);
        assert_eq!(empty, Err(Refusal::WouldWait));
        assert_eq!(host.recvfrom(socket, &mut buffer), Ok(Read::Waiting));
        assert_eq!(host.socket(), Err(Refusal::StillWaiting));
        assert_eq!(host.resume(&mut buffer), Ok(Read::Waiting));
        host.datagram(TO_US, b"hello").unwrap();
        assert_eq!(host.resume(&mut buffer), Ok(Read::Datagram(hello)));
        assert_eq!(host.interrupt(), Err(Refusal::BadArgument));
        host.recvfrom(socket, &mut buffer).unwrap();
        assert_eq!(host.interrupt(), Ok(()));
    }

    #[test]
    fn arrivals_find_their_socket_or_nobody() {
        let (mut host, socket) = bound();
        for _ in 0..4 {
            host.datagram(TO_US, b"").unwrap();
        }
        let mut arrive = |flow, payload: &[u8]| host.datagram(flow, payload).unwrap();
        assert_eq!(arrive(TO_US, b""), Arrival::Dropped(socket));
        assert_eq!(arrive(TO_US, &[0; 513]), Arrival::TooLong);
        assert_eq!(arrive(flow(LOCAL, REMOTE), b""), Arrival::NotOurs);
        assert_eq!(arrive(flow(INSIDE, LOCAL), b""), Arrival::BadSource);
        for _ in 0..16 {
            assert_eq!(arrive(NOBODYS, b"lost"), Arrival::NoticeQueued);
        }
        assert_eq!(arrive(NOBODYS, b"lost"), Arrival::NoticeNotQueued);
        let notice = Notice {
            source: OWN,
            destination: PEER,
            embedded: NOBODYS,
        };
        let what = Unreachable::Port;
        let gone = OutStep::Emitted(Outgoing::Notice { what, notice });
        assert_eq!(host.out_step(&mut [0; PAYLOAD]), Ok(gone));
    }

    #[test]
    fn notices_are_heard_once() {
        let (mut host, socket) = bound();
        let elsewhere = Notice {
            destination: PEER,
            ..ABOUT_US
        };
        let nobodys = Notice {
            embedded: flow(NOBODYS.destination, REMOTE),
            ..ABOUT_US
        };
        assert_eq!(host.notice(elsewhere), Ok(Arrival::NotOurs));
        assert_eq!(host.notice(nobodys), Ok(Arrival::Nobody));
        assert_eq!(host.notice(ABOUT_US), Ok(Arrival::Heard));
        let refused = Err(Refusal::ConnectionRefused);
        assert_eq!(host.sendto(socket, Some(REMOTE), b""), refused);
        assert_eq!(host.geterr(socket), Ok(None));
        host.notice(ABOUT_US).unwrap();
        assert_eq!(host.geterr(socket), Ok(refused.err()));
        host.setopt(socket, SocketOption::Bsdcompat, true).unwrap();
        assert_eq!(host.notice(ABOUT_US), Ok(Arrival::NotTold));
    }

    #[test]
    fn what_goes_to_loopback_stays_inside() {
        let mut host = fresh();
        let socket = host.socket().unwrap();
        host.bind(socket, INSIDE).unwrap();
        host.sendto(socket, Some(INSIDE), b"me").unwrap();
        let inside = OutStep::Inside(Arrival::Delivered(socket));
        assert_eq!(host.out_step(&mut [0; PAYLOAD]), Ok(inside));
        let mut buffer = [0; 2];
        let read = host.recvfrom_nonblocking(socket, &mut buffer).unwrap();
        assert_eq!((read.from, read.payload), (INSIDE, &b"me"[..]));
    }

    #[test]
    fn poll_tells_readers_from_writers() {
        let (mut host, socket) = bound();
        let other = host.socket().unwrap();
        host.datagram(TO_US, b"").unwrap();
        let both: Descriptors = [socket, other].into_iter().collect();
        let ready = host.poll(both, other.into()).unwrap();
        assert_eq!(ready.readable, socket.into());
        assert_eq!(ready.writable, other.into());
        host.close(other).unwrap();
        assert_eq!(host.poll(both, Descriptors::NONE), Err(Refusal::NotOpen));
    }

    #[test]
    fn an_ended_host_still_sends_what_was_queued() {
        let (mut host, socket) = bound();
        host.sendto(socket, Some(REMOTE), b"bye").unwrap();
        host.exit().unwrap();
        assert_eq!(host.exit(), Err(Refusal::Ended));
        let gone = host.out_step(&mut [0; PAYLOAD]).map(|_| ());
        assert_eq!(gone, Ok(()));
    }

    #[test]
    fn damage_is_answered() {
        let (mut record, store) = bound().0.into_parts();
        record.thread = 3;
        let mut damaged = Host::from_parts(record, store);
        let before = damaged.clone();
        assert_eq!(damaged.socket(), Err(Refusal::NotWellFormed));
        assert_eq!(damaged, before);
        let (mut record, store) = damaged.into_parts();
        record.thread = 0;
        let mut short = Host::from_parts(record, store[1..].into());
        assert_eq!(short.socket(), Err(Refusal::OtherStore));
    }
}
