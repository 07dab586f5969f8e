//! Phrases: several steps that lead to a rare state together.

use super::{kind, Maker, FAR, LOCALHOST, LOOPBACK, MARTIAN, NOBODYS_PORT};

pub type Phrase = fn(&mut Maker);

pub const PHRASES: [Phrase; 15] = [
    Maker::some_sockets,
    Maker::fresh_socket,
    Maker::ready_socket,
    Maker::rival_sockets,
    Maker::four_scores,
    Maker::autobinds,
    Maker::datagrams_to_one,
    Maker::datagrams_to_nobody,
    Maker::sends,
    Maker::reads,
    Maker::outs,
    Maker::closes,
    Maker::loopback_round,
    Maker::heard_notice,
    Maker::unbound_while_full,
];

/// Sockets.
impl Maker {
    fn some_sockets(&mut self) {
        for _ in 0..self.random.pick(&[2, 3, 4, 4, 4, 17]) {
            self.call(kind::SOCKET, 0);
        }
    }

    fn closes(&mut self) {
        for descriptor in 0..=self.random.pick(&[3, 15]) {
            self.call(kind::CLOSE, descriptor);
        }
    }

    /// Closes a socket and opens one, which gets the same descriptor unless a
    /// lower one is closed.
    fn reopen(&mut self, descriptor: u8) {
        self.call(kind::CLOSE, descriptor);
        self.call(kind::SOCKET, descriptor);
    }

    /// A socket that has nothing yet, and whatever may be bound or sent then.
    fn fresh_socket(&mut self) {
        let descriptor = self.low_descriptor();
        self.reopen(descriptor);
        for _ in 0..3 {
            self.single_bind(descriptor);
        }
        let martian = self.random.pick(&MARTIAN);
        self.sendto(descriptor, (martian, 6000), 3);
    }

    /// A socket that is likely to get something.
    fn ready_socket(&mut self) {
        let descriptor = self.low_descriptor();
        self.reopen(descriptor);
        self.prepare(descriptor);
    }

    fn prepare(&mut self, descriptor: u8) {
        if self.random.chance(70) {
            self.set_reuse(descriptor, 1);
        }
        if self.random.chance(80) {
            let local = (self.bind_address(), self.local_port());
            self.bind(descriptor, local);
        }
        if self.random.chance(60) {
            let remote = self.peer_place();
            self.connect(descriptor, remote);
        }
    }

    /// Sockets with reuse on one port, and datagrams that they vie for.
    fn rival_sockets(&mut self) {
        let port = self.local_port();
        for descriptor in 0..5 {
            self.reopen(descriptor);
            self.set_reuse(descriptor, 1);
            let address = self.bind_address();
            self.bind(descriptor, (address, port));
            if self.random.chance(50) {
                let remote = self.peer_place();
                self.connect(descriptor, remote);
            }
        }
        for _ in 0..self.random.between(2, 8) {
            let from = self.peer_place();
            let length = self.good_length();
            self.datagram(from, (self.own(), port), length);
        }
    }

    /// Document 01's four sockets, from another descriptor on now and then,
    /// with datagrams and notices for each.
    fn four_scores(&mut self) {
        let own = self.own();
        let first = self.random.below(4) as u8;
        let descriptors: Vec<u8> = (0..4).map(|n| (first + n) % 4).collect();
        for &descriptor in &descriptors {
            self.reopen(descriptor);
            self.set_reuse(descriptor, 1);
        }
        self.bind(descriptors[0], (0, 7000));
        for &descriptor in &descriptors[1..] {
            self.bind(descriptor, (own, 7000));
        }
        self.connect(descriptors[2], (self.near(), 0));
        self.connect(descriptors[3], (self.near(), 6000));
        let (near, near_too) = (self.near(), self.near_too());
        for from in [(near, 6000), (near, 6001), (near_too, 6000)] {
            let length = self.good_length();
            self.datagram(from, (own, 7000), length);
            self.notice((own, 7000), from);
        }
    }

    /// New sockets that take the lowest ports, and datagrams to these.
    fn autobinds(&mut self) {
        for descriptor in 0..self.random.between(2, 6) as u8 {
            self.reopen(descriptor);
            let local = (self.bind_address(), self.random.pick(&[0, 1024, 1025]));
            match self.random.below(3) {
                0 => self.bind(descriptor, local),
                1 => self.connect(descriptor, (self.near(), 6000)),
                _ => self.sendto(descriptor, (FAR, 6000), 1),
            }
        }
        for port in 1024..1030 {
            let length = self.good_length();
            self.datagram((self.near(), 6000), (self.own(), port), length);
        }
    }
}

/// Queues that fill and empty.
impl Maker {
    fn datagrams_to_one(&mut self) {
        let from = self.peer_place();
        let port = self.local_port();
        for _ in 0..self.random.between(2, 6) {
            let length = self.good_length();
            self.datagram(from, (self.own(), port), length);
        }
    }

    fn datagrams_to_nobody(&mut self) {
        for _ in 0..self.random.between(3, 18) {
            let from = self.peer_place();
            self.datagram(from, (self.own(), NOBODYS_PORT), 3);
        }
    }

    fn sends(&mut self) {
        let descriptor = self.descriptor();
        let place = self.send_place();
        for _ in 0..self.random.between(2, 18) {
            let length = self.good_length();
            self.sendto(descriptor, place, length);
        }
    }

    fn reads(&mut self) {
        let descriptor = self.low_descriptor();
        for _ in 0..self.random.between(2, 5) {
            self.call(kind::RECVFROM, descriptor);
        }
    }

    fn outs(&mut self) {
        for _ in 0..self.random.between(2, 18) {
            self.out();
        }
    }

    /// With a full out-queue a sendto is refused before it autobinds, so that
    /// the socket can still be bound.
    fn unbound_while_full(&mut self) {
        let descriptor = self.low_descriptor();
        for _ in 0..17 {
            self.datagram((FAR, 6000), (self.own(), NOBODYS_PORT), 3);
        }
        self.reopen(descriptor);
        self.sendto(descriptor, (FAR, 6000), 3);
        self.call(kind::RECVFROM, descriptor);
        self.single_bind(descriptor);
        self.outs();
    }
}

/// Loopback and notices.
impl Maker {
    /// Sends inside and takes out steps: delivered, or a notice to the sender.
    fn loopback_round(&mut self) {
        let descriptor = self.low_descriptor();
        for _ in 0..self.random.pick(&[0, 16]) {
            self.out();
        }
        self.inside_socket(descriptor);
        let port = self.random.pick(&[7000, 7000, 7001, 1024, NOBODYS_PORT]);
        let other = self.random.pick(&LOOPBACK);
        let places = [(LOCALHOST, port), (other, port), (0, 0)];
        let place = self.random.pick(&places);
        for _ in 0..self.random.between(1, 6) {
            let length = self.good_length();
            self.sendto(descriptor, place, length);
        }
        for _ in 0..self.random.between(1, 10) {
            self.out();
        }
        self.call(kind::RECVFROM, descriptor);
        self.call(kind::RECVFROM, descriptor);
    }

    /// A socket that others inside may reach.
    fn inside_socket(&mut self, descriptor: u8) {
        self.reopen(descriptor);
        if self.random.chance(70) {
            self.set_reuse(descriptor, 1);
        }
        if self.random.chance(80) {
            let addresses = [0, LOCALHOST, LOCALHOST, self.own()];
            let address = self.random.pick(&addresses);
            let port = self.random.pick(&[7000, 7001]);
            self.bind(descriptor, (address, port));
        }
        if self.random.chance(40) {
            let port = self.random.pick(&[0, 7000, 7001, 1024, NOBODYS_PORT]);
            self.connect(descriptor, (LOCALHOST, port));
        }
    }

    /// A notice for a socket, and what is asked of the socket afterwards.
    fn heard_notice(&mut self) {
        let descriptor = self.low_descriptor();
        let theirs = self.peer_place();
        let port = self.local_port();
        self.prepare(descriptor);
        self.notice((self.own(), port), theirs);
        for _ in 0..2 {
            match self.random.below(5) {
                0 => self.connect(descriptor, theirs),
                1 => self.call(kind::DISCONNECT, descriptor),
                2 => self.sendto(descriptor, theirs, 3),
                _ => self.call(kind::RECVFROM, descriptor),
            }
        }
    }
}
