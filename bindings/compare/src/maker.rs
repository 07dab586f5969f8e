//! Makes random steps for the state that the model is in, so that steps meet:
//! few addresses and ports, open descriptors, datagrams for sockets that are
//! there. A choice that stands several times in a list is the likelier for it.

mod choices;
mod moods;

use crate::addresses::*;
use crate::step::Step;
use model::host::{is_loopback, Address, Host, Pair, Port, Socket, Thread};
use model::random::Random;
use moods::{Mood, MOODS, WAKING};
use udphost::raw::{Flow, Interface, Request};

/// Some are a good length to one who loses their upper bits.
const LENGTHS: [usize; 9] = [0, 3, 510, 511, 512, 513, 600, 65_536, 65_539];

pub struct Maker {
    pub random: Random,
    /// The addresses of our interfaces.
    own: Vec<Address>,
    /// What this and the next steps are chosen from.
    mood: Mood,
    left: usize,
}

impl Maker {
    pub fn new(random: Random, list: &[Interface]) -> Maker {
        let addresses = list
            .iter()
            .flat_map(|i| [i.first, i.second, i.third, i.fourth]);
        Maker {
            random,
            own: addresses.filter(|&a| a != 0).collect(),
            mood: MOODS[0],
            left: 0,
        }
    }

    pub fn step(&mut self, host: &Host) -> Step {
        if self.left == 0 {
            self.mood = self.random.pick(&MOODS);
            self.left = self.random.between(3, 30);
        }
        self.left -= 1;
        if self.random.below(400) == 0 {
            return self.exit();
        }
        let waits = matches!(host.thread, Thread::Waiting(_));
        let mood = match waits && self.random.chance(60) {
            true => WAKING,
            false => self.mood,
        };
        (self.random.pick(mood))(self, host)
    }

    /// A request that may hold anything in what it does not use.
    fn noise(&mut self) -> Request {
        if self.random.chance(50) {
            return Request::default();
        }
        Request {
            flow: Flow {
                src: self.any_address(),
                dst: self.any_address(),
                sport: self.local_port(),
                dport: self.local_port(),
            },
            src: self.any_address(),
            dst: self.any_address(),
            address: self.any_address(),
            port: self.local_port(),
            readers: self.random.draw() as u16,
            writers: self.random.draw() as u16,
            kind: 0,
            descriptor: self.random.draw() as u8,
            option: self.random.draw() as u8,
            on: self.random.chance(50),
        }
    }

    /// A step that needs neither payload nor buffer, and is lent a little of both.
    fn plain(&mut self, kind: u8, request: Request) -> Step {
        let payload = self.random.below(9);
        let buffer = self.random.below(9);
        Step {
            request: Request { kind, ..request },
            payload: self.random.bytes(payload),
            buffer: self.random.bytes(buffer),
        }
    }

    fn with_payload(&mut self, kind: u8, request: Request) -> Step {
        let length = self.length();
        Step {
            payload: self.random.bytes(length),
            ..self.plain(kind, request)
        }
    }

    fn with_buffer(&mut self, kind: u8, request: Request) -> Step {
        let length = match self.random.below(3) {
            0 => self.length(),
            _ => 512,
        };
        let filling = self.random.draw() as u8;
        Step {
            buffer: vec![filling; length],
            ..self.plain(kind, request)
        }
    }
}

/// Single choices.
impl Maker {
    /// Often a length of its own, so that it can be told which one was read.
    fn length(&mut self) -> usize {
        match self.random.below(8) {
            0 => self.random.pick(&LENGTHS),
            _ => self.random.between(0, 512),
        }
    }

    pub fn own(&mut self) -> Address {
        match self.own.len() {
            0 => USUAL,
            _ => self.random.pick(&self.own),
        }
    }

    fn peer(&mut self) -> Address {
        let near = self.random.pick(&NEAR);
        let edge = self.random.pick(&EDGE);
        let choices = [NEAR[0], NEAR[0], near, near, FAR, edge, self.own()];
        self.random.pick(&choices)
    }

    pub fn any_address(&mut self) -> Address {
        let loopback = self.random.pick(&LOOPBACK);
        let martian = self.random.pick(&MARTIAN);
        let any = self.random.draw() as Address;
        let choices = [self.peer(), self.peer(), LOCALHOST, loopback, martian, any];
        self.random.pick(&choices)
    }

    fn bind_address(&mut self) -> Address {
        let own = self.own();
        let other = self.any_address();
        let choices = [0, 0, 0, own, own, own, own, LOCALHOST, LOCALHOST, other];
        self.random.pick(&choices)
    }

    /// Seldom where an arrival may not come from.
    fn source(&mut self) -> Address {
        match self.random.below(8) {
            0 => self.any_address(),
            _ => self.peer(),
        }
    }

    /// Seldom elsewhere than to us.
    fn destination(&mut self) -> Address {
        match self.random.below(8) {
            0 => self.any_address(),
            _ => self.own(),
        }
    }

    pub fn local_port(&mut self) -> Port {
        self.random.pick(&LOCAL_PORTS)
    }

    fn peer_port(&mut self) -> Port {
        self.random.pick(&PEER_PORTS)
    }

    /// An open one, mostly.
    fn descriptor(&mut self, host: &Host) -> u8 {
        let open = |k: &u8| host.sockets[usize::from(*k)].open;
        let open: Vec<u8> = (0..16).filter(open).collect();
        match self.random.below(10) {
            0 => self.random.pick(&[15, 16, 17, 32, 255]),
            1 => self.random.below(16) as u8,
            _ if open.is_empty() => self.random.below(4) as u8,
            _ => self.random.pick(&open),
        }
    }

    /// A socket with a local port, often the one that the thread waits on.
    fn bound<'h>(&mut self, host: &'h Host) -> Option<&'h Socket> {
        match host.thread {
            Thread::Waiting(k) if self.random.chance(50) => {
                return host.sockets.get(usize::from(k))
            }
            _ => {}
        }
        let bound: Vec<&Socket> = host.sockets.iter().filter(|s| s.local.port != 0).collect();
        match bound.len() {
            0 => None,
            count => Some(bound[self.random.below(count)]),
        }
    }

    /// What rivals share: our first address and a port.
    fn shared(&mut self) -> Pair {
        Pair::new(self.own.first().copied().unwrap_or(USUAL), SHARED_PORT)
    }

    /// One of the few peers that rivals have.
    fn rivals_peer(&mut self) -> Pair {
        let address = self.random.pick(&NEAR[..2]);
        Pair::new(address, self.random.pick(&[6000, 6001]))
    }

    /// A pair of ours and a pair of another that some socket has, mostly.
    fn sides(&mut self, host: &Host) -> (Pair, Pair) {
        let mut local = Pair::new(self.destination(), self.local_port());
        let mut remote = Pair::new(self.source(), self.peer_port());
        let socket = match self.bound(host) {
            Some(socket) if self.random.chance(85) => socket,
            _ => return (local, remote),
        };
        if socket.local.address != 0 && !is_loopback(socket.local.address) {
            local.address = socket.local.address;
        }
        local.port = socket.local.port;
        if socket.remote.address != 0 && self.random.chance(90) {
            remote.address = socket.remote.address;
        }
        if socket.remote.port != 0 && self.random.chance(90) {
            remote.port = socket.remote.port;
        }
        (local, remote)
    }
}

fn flow(from: Pair, to: Pair) -> Flow {
    Flow {
        src: from.address,
        dst: to.address,
        sport: from.port,
        dport: to.port,
    }
}
