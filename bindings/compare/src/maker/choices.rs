//! A function for each step that can be chosen.

use super::{flow, Maker};
use crate::addresses::*;
use crate::step::Step;
use model::host::{Host, Pair, Socket, SOCKETS};
use udphost::raw::{kind, Request};

/// Calls.
impl Maker {
    /// A call with no more than a descriptor.
    fn call(&mut self, kind: u8, host: &Host) -> Step {
        let request = Request {
            descriptor: self.descriptor(host),
            ..self.noise()
        };
        self.plain(kind, request)
    }

    pub fn socket(&mut self, _: &Host) -> Step {
        let request = self.noise();
        self.plain(kind::SOCKET, request)
    }

    pub fn bind(&mut self, host: &Host) -> Step {
        let ports = [self.local_port(), self.random.pick(&BIND_PORTS)];
        let request = Request {
            descriptor: self.descriptor(host),
            address: self.bind_address(),
            port: self.random.pick(&ports),
            ..self.noise()
        };
        self.plain(kind::BIND, request)
    }

    pub fn connect(&mut self, host: &Host) -> Step {
        let ports = [self.peer_port(), self.peer_port(), self.local_port()];
        let request = Request {
            descriptor: self.descriptor(host),
            address: self.any_address(),
            port: self.random.pick(&ports),
            ..self.noise()
        };
        self.plain(kind::CONNECT, request)
    }

    pub fn disconnect(&mut self, host: &Host) -> Step {
        self.call(kind::DISCONNECT, host)
    }

    pub fn getsockname(&mut self, host: &Host) -> Step {
        self.call(kind::GETSOCKNAME, host)
    }

    pub fn getpeername(&mut self, host: &Host) -> Step {
        self.call(kind::GETPEERNAME, host)
    }

    pub fn geterr(&mut self, host: &Host) -> Step {
        self.call(kind::GETERR, host)
    }

    pub fn getopt(&mut self, host: &Host) -> Step {
        let request = self.optional(host);
        self.plain(kind::GETOPT, request)
    }

    pub fn setopt(&mut self, host: &Host) -> Step {
        let request = self.optional(host);
        self.plain(kind::SETOPT, request)
    }

    pub fn set_reuse(&mut self, host: &Host) -> Step {
        let request = Request {
            option: 2,
            on: true,
            ..self.optional(host)
        };
        self.plain(kind::SETOPT, request)
    }

    fn optional(&mut self, host: &Host) -> Request {
        Request {
            descriptor: self.descriptor(host),
            option: self.random.pick(&[0, 1, 1, 1, 2, 2, 2, 3, 255]),
            on: self.random.chance(60),
            ..self.noise()
        }
    }

    /// Seldom a bit for a descriptor that is not open.
    pub fn poll(&mut self, host: &Host) -> Step {
        let open = (0..SOCKETS).filter(|&k| host.sockets[k].open);
        let open = open.fold(0, |mask, k| mask | 1 << k);
        let any = self.random.draw() as u16;
        let masks = [0, open, open, open & any, open & any, any];
        let request = Request {
            readers: self.random.pick(&masks),
            writers: self.random.pick(&masks),
            ..self.noise()
        };
        self.plain(kind::POLL, request)
    }

    pub fn close(&mut self, host: &Host) -> Step {
        self.call(kind::CLOSE, host)
    }

    pub fn exit(&mut self) -> Step {
        let request = self.noise();
        self.plain(kind::EXIT, request)
    }

    pub fn no_kind(&mut self, _: &Host) -> Step {
        let request = self.noise();
        let kind = self.random.pick(&[0, 20, 21, 127, 128, 255]);
        self.plain(kind, request)
    }
}

/// Rivals: sockets that share a port.
impl Maker {
    /// What the next rival lacks: to be open, reuse, a local pair, a peer.
    pub fn rival(&mut self, host: &Host) -> Step {
        let lacks_port = |s: &Socket| s.open && s.local.port == 0;
        let request = match host.sockets.iter().position(lacks_port) {
            Some(k) if host.sockets[k].reuse => return self.bind_rival(k),
            Some(k) => Request {
                descriptor: k as u8,
                option: 2,
                on: true,
                ..self.noise()
            },
            None => return self.another_rival(host),
        };
        self.plain(kind::SETOPT, request)
    }

    fn bind_rival(&mut self, k: usize) -> Step {
        let Pair { address, port } = self.shared();
        let request = Request {
            descriptor: k as u8,
            address: self.random.pick(&[0, address, address]),
            port,
            ..self.noise()
        };
        self.plain(kind::BIND, request)
    }

    fn another_rival(&mut self, host: &Host) -> Step {
        let is_rival = |k: &usize| host.sockets[*k].local.port == SHARED_PORT;
        let rivals: Vec<usize> = (0..SOCKETS).filter(is_rival).collect();
        if rivals.is_empty() || self.random.chance(50) {
            return self.socket(host);
        }
        let Pair { address, port } = self.rivals_peer();
        let request = Request {
            descriptor: self.random.pick(&rivals) as u8,
            address,
            port: self.random.pick(&[0, port]),
            ..self.noise()
        };
        self.plain(kind::CONNECT, request)
    }

    pub fn datagram_to_rivals(&mut self, _: &Host) -> Step {
        let request = Request {
            flow: flow(self.rivals_peer(), self.shared()),
            ..self.noise()
        };
        self.with_payload(kind::DATAGRAM, request)
    }

    pub fn notice_to_rivals(&mut self, _: &Host) -> Step {
        let peer = self.rivals_peer();
        let shared = self.shared();
        let request = Request {
            src: peer.address,
            dst: shared.address,
            flow: flow(shared, peer),
            ..self.noise()
        };
        self.plain(kind::NOTICE, request)
    }
}

/// Sending and reading.
impl Maker {
    /// Often to the remote pair, seldom with exactly one of the two 0.
    pub fn sendto(&mut self, host: &Host) -> Step {
        let address = self.any_address();
        let port = self.local_port();
        let places = [
            (0, 0),
            (0, 0),
            (self.peer(), 6000),
            (self.peer(), 6000),
            (self.random.pick(&MARTIAN), 6000),
            (address, port),
            (address, self.peer_port()),
            (address, 0),
            (0, port),
        ];
        let place = self.random.pick(&places);
        self.send(host, place)
    }

    /// To a socket by loopback, or to nobody.
    pub fn send_inside(&mut self, host: &Host) -> Step {
        let loopback = self.random.pick(&LOOPBACK);
        let port = match self.bound(host) {
            Some(socket) => socket.local.port,
            None => self.local_port(),
        };
        let ports = [port, port, NOBODYS_PORT];
        let address = self.random.pick(&[LOCALHOST, LOCALHOST, loopback]);
        let place = (address, self.random.pick(&ports));
        self.send(host, place)
    }

    fn send(&mut self, host: &Host, (address, port): (u32, u16)) -> Step {
        let request = Request {
            descriptor: self.descriptor(host),
            address,
            port,
            ..self.noise()
        };
        self.with_payload(kind::SENDTO, request)
    }

    pub fn recvfrom(&mut self, host: &Host) -> Step {
        let request = Request {
            descriptor: self.descriptor(host),
            on: true,
            ..self.noise()
        };
        self.with_buffer(kind::RECVFROM, request)
    }

    pub fn wait(&mut self, host: &Host) -> Step {
        let request = Request {
            descriptor: self.descriptor(host),
            on: false,
            ..self.noise()
        };
        self.with_buffer(kind::RECVFROM, request)
    }

    pub fn resume(&mut self, _: &Host) -> Step {
        let request = self.noise();
        self.with_buffer(kind::RESUME, request)
    }

    pub fn interrupt(&mut self, _: &Host) -> Step {
        let request = self.noise();
        self.plain(kind::INTERRUPT, request)
    }
}

/// Arrivals and the out step.
impl Maker {
    pub fn datagram(&mut self, host: &Host) -> Step {
        let (local, remote) = self.sides(host);
        let request = Request {
            flow: flow(remote, local),
            ..self.noise()
        };
        self.with_payload(kind::DATAGRAM, request)
    }

    pub fn datagram_to_nobody(&mut self, _: &Host) -> Step {
        let remote = Pair::new(self.source(), self.peer_port());
        let port = self.random.pick(&[NOBODYS_PORT, NOBODYS_PORT, 0]);
        let local = Pair::new(self.own(), port);
        let request = Request {
            flow: flow(remote, local),
            ..self.noise()
        };
        self.with_payload(kind::DATAGRAM, request)
    }

    /// What it embeds was sent by us, mostly.
    pub fn notice(&mut self, host: &Host) -> Step {
        let (local, remote) = self.sides(host);
        let request = Request {
            src: self.random_source(remote),
            dst: self.destination(),
            flow: flow(local, remote),
            ..self.noise()
        };
        self.plain(kind::NOTICE, request)
    }

    fn random_source(&mut self, remote: Pair) -> u32 {
        let other = self.source();
        self.random.pick(&[remote.address, remote.address, other])
    }

    pub fn out(&mut self, _: &Host) -> Step {
        let request = self.noise();
        self.with_buffer(kind::OUT_STEP, request)
    }
}
