//! Makes the steps of a random script. Few addresses, ports and descriptors
//! are used, so that steps meet each other; a choice that stands several times
//! in a list is the likelier for it.

mod phrases;

use crate::host::{Address, Port};
use crate::random::Random;
use crate::script::{kind, Header, Step, STEP};
use phrases::{Phrase, PHRASES};

pub const fn address(a: u8, b: u8, c: u8, d: u8) -> Address {
    u32::from_be_bytes([a, b, c, d])
}

const LOCALHOST: Address = address(127, 0, 0, 1);

/// LOOPBACK's ends, its primary and a neighbour of that.
const LOOPBACK: [Address; 4] = [
    address(127, 0, 0, 0),
    LOCALHOST,
    address(127, 0, 0, 2),
    address(127, 255, 255, 255),
];
const MARTIAN: [Address; 7] = [
    0,
    address(0, 0, 0, 1),
    address(0, 255, 255, 255),
    address(224, 0, 0, 0),
    address(239, 255, 255, 255),
    address(240, 0, 0, 0),
    address(255, 255, 255, 255),
];
/// The neighbours of LOOPBACK and MARTIAN, themselves neither.
const EDGE: [Address; 4] = [
    address(1, 0, 0, 0),
    address(126, 255, 255, 255),
    address(128, 0, 0, 0),
    address(223, 255, 255, 255),
];
const USUAL: Address = address(10, 2, 0, 5);
const FAR: Address = address(198, 51, 100, 7);
const MASKS: [u32; 5] = [0xffff_ff00, 0xffff_ff00, 0, u32::MAX, 0xff00_ff00];

/// Ports of sockets: chosen ones, and the first that autobind takes.
const LOCAL_PORTS: [Port; 9] = [7000, 7000, 7000, 7001, 7001, 1024, 1024, 1025, 1026];
const BIND_PORTS: [Port; 8] = [0, 1, 1023, 1023, 1024, 4999, 5000, 65_535];
const PEER_PORTS: [Port; 5] = [6000, 6000, 6000, 6001, 0];
/// No socket gets this one.
const NOBODYS_PORT: Port = 9;

/// Kinds of single steps; exit is put in afterwards.
const KINDS: [u8; 25] = [
    kind::SOCKET,
    kind::SOCKET,
    kind::BIND,
    kind::BIND,
    kind::CONNECT,
    kind::CONNECT,
    kind::DISCONNECT,
    kind::SENDTO,
    kind::SENDTO,
    kind::SENDTO,
    kind::RECVFROM,
    kind::RECVFROM,
    kind::RECVFROM,
    kind::CLOSE,
    kind::CLOSE,
    kind::SET_REUSE,
    kind::SET_REUSE,
    kind::DATAGRAM,
    kind::DATAGRAM,
    kind::DATAGRAM,
    kind::NOTICE,
    kind::NOTICE,
    kind::OUT,
    kind::OUT,
    kind::OUT,
];

/// An address and a port.
type Place = (Address, Port);

pub struct Maker {
    pub header: Header,
    random: Random,
    steps: Vec<Step>,
    /// The phrase that this script says oftener than others.
    habit: Phrase,
}

impl Maker {
    pub fn new(mut random: Random) -> Maker {
        let edge = random.pick(&EDGE);
        let header = Header {
            address: random.pick(&[USUAL, USUAL, USUAL, USUAL, edge]),
            mask: random.pick(&MASKS),
        };
        let habit = random.pick(&PHRASES);
        Maker {
            header,
            random,
            steps: Vec::new(),
            habit,
        }
    }

    /// The bytes of a script with exactly this many steps.
    pub fn script(mut self, count: usize) -> Vec<u8> {
        while self.steps.len() < count {
            self.some_steps();
        }
        self.steps.truncate(count);
        self.put_in_exits();
        let steps = self.steps.iter().flat_map(Step::encode);
        self.header.encode().into_iter().chain(steps).collect()
    }

    /// A single step, the script's habit or another phrase.
    fn some_steps(&mut self) {
        match self.random.below(20) {
            0 | 1 => (self.habit)(self),
            2 | 3 => (self.random.pick(&PHRASES))(self),
            _ => self.single(),
        }
    }

    /// Puts an exit or two into some scripts, in their second half.
    fn put_in_exits(&mut self) {
        let count = self.steps.len();
        let exits = self.random.pick(&[0, 0, 0, 1, 2]);
        for _ in 0..exits.min(count) {
            let place = self.random.between(count / 2, count - 1);
            self.steps[place].kind = kind::EXIT;
        }
    }
}

/// Single choices.
impl Maker {
    fn own(&self) -> Address {
        self.header.address
    }

    /// As 10.2.0.9 is to 10.2.0.5.
    fn near(&self) -> Address {
        self.own() ^ 12
    }

    /// As 10.2.0.8 is to 10.2.0.5.
    fn near_too(&self) -> Address {
        self.own() ^ 13
    }

    fn peer(&mut self) -> Address {
        let near = self.near();
        let edge = self.random.pick(&EDGE);
        let choices = [near, near, near, self.near_too(), FAR, self.own(), edge];
        self.random.pick(&choices)
    }

    fn any_address(&mut self) -> Address {
        let loopback = self.random.pick(&LOOPBACK);
        let martian = self.random.pick(&MARTIAN);
        let choices = [self.peer(), self.peer(), LOCALHOST, loopback, martian];
        self.random.pick(&choices)
    }

    fn bind_address(&mut self) -> Address {
        let own = self.own();
        let other = self.any_address();
        let choices = [0, 0, 0, own, own, own, own, LOCALHOST, LOCALHOST, other];
        self.random.pick(&choices)
    }

    /// Where arrivals come from: seldom from where they may not.
    fn source(&mut self) -> Address {
        let lists: [&[Address]; 2] = [&LOOPBACK, &MARTIAN];
        let list = self.random.pick(&lists);
        match self.random.below(10) {
            0 => self.random.pick(list),
            _ => self.peer(),
        }
    }

    /// Where arrivals go: seldom elsewhere than to us.
    fn destination(&mut self) -> Address {
        match self.random.below(10) {
            0 => self.any_address(),
            _ => self.own(),
        }
    }

    fn local_port(&mut self) -> Port {
        self.random.pick(&LOCAL_PORTS)
    }

    fn bind_port(&mut self) -> Port {
        match self.random.below(4) {
            0 => self.random.pick(&BIND_PORTS),
            _ => self.local_port(),
        }
    }

    fn peer_port(&mut self) -> Port {
        self.random.pick(&PEER_PORTS)
    }

    fn peer_place(&mut self) -> Place {
        (self.peer(), self.peer_port())
    }

    /// Often a length of its own, so that it can be told which one was read.
    fn length(&mut self) -> u16 {
        let own = self.random.between(1, 510) as u16;
        let choices = [own, own, own, own, own, own, 0, 3, 511, 512, 513, 65_535];
        self.random.pick(&choices)
    }

    fn good_length(&mut self) -> u16 {
        self.random.between(0, 512) as u16
    }

    fn descriptor(&mut self) -> u8 {
        match self.random.below(12) {
            0 => self.random.pick(&[15, 16, 17, 255]),
            1 | 2 => self.random.below(16) as u8,
            _ => self.low_descriptor(),
        }
    }

    /// One that is likely to be open.
    fn low_descriptor(&mut self) -> u8 {
        self.random.pick(&[0, 0, 0, 0, 1, 1, 2, 3, 4])
    }

    /// Where a sendto goes: often to the remote pair, seldom with exactly one
    /// of the two 0.
    fn send_place(&mut self) -> Place {
        let address = self.any_address();
        let port = self.local_port();
        let choices = [
            (0, 0),
            (0, 0),
            (0, 0),
            (self.peer(), 6000),
            (LOCALHOST, port),
            (LOCALHOST, NOBODYS_PORT),
            (address, port),
            (address, self.peer_port()),
            (address, 0),
            (0, port),
        ];
        self.random.pick(&choices)
    }
}

/// Single steps.
impl Maker {
    /// Adds a step; whatever its kind does not use may hold anything.
    fn add(&mut self, step: Step) {
        let noise = match self.random.below(2) {
            0 => Step::default(),
            _ => Step::decode(&self.random.bytes(STEP)),
        };
        self.steps.push(with_noise(step, noise));
    }

    /// A call with no more than a descriptor.
    fn call(&mut self, kind: u8, descriptor: u8) {
        self.add(Step {
            kind,
            descriptor,
            ..Step::default()
        });
    }

    fn out(&mut self) {
        self.call(kind::OUT, 0);
    }

    fn bind(&mut self, descriptor: u8, (a, p): Place) {
        self.add(Step {
            kind: kind::BIND,
            descriptor,
            a,
            p,
            ..Step::default()
        });
    }

    fn connect(&mut self, descriptor: u8, (a, p): Place) {
        self.add(Step {
            kind: kind::CONNECT,
            descriptor,
            a,
            p,
            ..Step::default()
        });
    }

    fn set_reuse(&mut self, descriptor: u8, p: u16) {
        self.add(Step {
            kind: kind::SET_REUSE,
            descriptor,
            p,
            ..Step::default()
        });
    }

    fn sendto(&mut self, descriptor: u8, (a, p): Place, l: u16) {
        self.add(Step {
            kind: kind::SENDTO,
            descriptor,
            a,
            p,
            l,
            ..Step::default()
        });
    }

    fn datagram(&mut self, (a, p): Place, (b, q): Place, l: u16) {
        self.add(Step {
            kind: kind::DATAGRAM,
            a,
            p,
            b,
            q,
            l,
            ..Step::default()
        });
    }

    fn notice(&mut self, (a, p): Place, (b, q): Place) {
        self.add(Step {
            kind: kind::NOTICE,
            a,
            p,
            b,
            q,
            ..Step::default()
        });
    }

    fn single(&mut self) {
        let descriptor = self.descriptor();
        match self.random.pick(&KINDS) {
            kind::BIND => self.single_bind(descriptor),
            kind::CONNECT => self.single_connect(descriptor),
            kind::SENDTO => self.single_sendto(descriptor),
            kind::SET_REUSE => self.single_set_reuse(descriptor),
            kind::DATAGRAM => self.single_datagram(),
            kind::NOTICE => self.single_notice(),
            other => self.call(other, descriptor),
        }
    }

    fn single_bind(&mut self, descriptor: u8) {
        let local = (self.bind_address(), self.bind_port());
        self.bind(descriptor, local);
    }

    fn single_connect(&mut self, descriptor: u8) {
        let ports = [self.peer_port(), self.peer_port(), self.local_port()];
        let remote = (self.any_address(), self.random.pick(&ports));
        self.connect(descriptor, remote);
    }

    fn single_sendto(&mut self, descriptor: u8) {
        let place = self.send_place();
        let length = self.length();
        self.sendto(descriptor, place, length);
    }

    fn single_set_reuse(&mut self, descriptor: u8) {
        let value = self.random.pick(&[0, 1, 1, 256]);
        self.set_reuse(descriptor, value);
    }

    fn single_datagram(&mut self) {
        let from = (self.source(), self.peer_port());
        let other = self.random.pick(&BIND_PORTS);
        let ports = [self.local_port(), self.local_port(), other];
        let to = (self.destination(), self.random.pick(&ports));
        let length = self.length();
        self.datagram(from, to, length);
    }

    fn single_notice(&mut self) {
        let ours = (self.destination(), self.local_port());
        let theirs = (self.source(), self.peer_port());
        self.notice(ours, theirs);
    }
}

/// The step with the noise in every field that its kind does not use.
fn with_noise(step: Step, noise: Step) -> Step {
    let has_descriptor = matches!(step.kind, kind::BIND..=kind::SET_REUSE);
    let arrives = matches!(step.kind, kind::DATAGRAM | kind::NOTICE);
    let has_a = arrives || matches!(step.kind, kind::BIND | kind::CONNECT | kind::SENDTO);
    let has_p = has_a || step.kind == kind::SET_REUSE;
    let has_l = matches!(step.kind, kind::SENDTO | kind::DATAGRAM);
    Step {
        kind: step.kind,
        descriptor: either(has_descriptor, step.descriptor, noise.descriptor),
        a: either(has_a, step.a, noise.a),
        p: either(has_p, step.p, noise.p),
        b: either(arrives, step.b, noise.b),
        q: either(arrives, step.q, noise.q),
        l: either(has_l, step.l, noise.l),
    }
}

fn either<T>(first: bool, one: T, other: T) -> T {
    if first {
        one
    } else {
        other
    }
}
