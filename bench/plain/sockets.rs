//! Who gets a datagram, which port is free, where a route begins.

use crate::record::{loopback, Flow, Record, Socket};

const LOOPBACK_PRIMARY: u32 = 0x7f00_0001;
const FIRST_AUTOMATIC: u16 = 1024;

impl Socket {
    /// The score for a flow that comes in: every part that the socket has must agree, or it is 0.
    fn score(&self, flow: &Flow) -> u8 {
        if self.lport == 0 || self.lport != flow.dport {
            return 0;
        }
        if self.laddr == 0 {
            return 1;
        }
        if self.laddr != flow.dst {
            return 0;
        }
        if self.raddr == 0 {
            return 2;
        }
        if self.raddr != flow.src {
            return 0;
        }
        match self.rport {
            0 => 3,
            port if port == flow.sport => 4,
            _ => 0,
        }
    }
}

impl Record {
    /// The greatest nonzero score wins, the lowest descriptor among equals.
    pub fn winner(&self, flow: &Flow) -> Option<usize> {
        let mut best = None;
        let mut greatest = 0;
        for (k, s) in self.sockets.iter().enumerate() {
            let score = s.score(flow);
            if score > greatest {
                greatest = score;
                best = Some(k);
            }
        }
        best
    }

    /// The id of the interface that has the address.
    pub fn interface_of(&self, a: u32) -> Option<u8> {
        if a == 0 {
            return None;
        }
        let holder = self.interfaces.iter().find(|x| x.addresses.contains(&a))?;
        Some(holder.id)
    }

    pub fn route_source(&self, dst: u32) -> Option<u32> {
        if loopback(dst) {
            return Some(LOOPBACK_PRIMARY);
        }
        let used = &self.interfaces[..usize::from(self.icount)];
        let reaching = used
            .iter()
            .find(|x| x.agrees(dst))
            .or_else(|| used.first())?;
        Some(reaching.addresses[0])
    }

    /// The socket's local address, or the route's source where that is absent.
    pub fn source_for(&self, k: usize, dst: u32) -> Option<u32> {
        match self.sockets[k].laddr {
            0 => self.route_source(dst),
            a => Some(a),
        }
    }

    pub fn autobind(&mut self, k: usize) {
        if self.sockets[k].lport == 0 {
            self.sockets[k].lport = self.free_port();
        }
    }

    /// The lowest port from 1024 that no socket has: 16 sockets leave one of the first 17.
    fn free_port(&self) -> u16 {
        let mut port = FIRST_AUTOMATIC;
        while self.sockets.iter().any(|s| s.lport == port) {
            port += 1;
        }
        port
    }

    /// Whether another socket overlaps with socket k as it would be, and not both have reuse.
    pub fn in_use(&self, k: usize, bound: &Socket) -> bool {
        let clash = |t: &Socket| t.overlaps(bound) && !(t.reuse && bound.reuse);
        bound.lport != 0
            && (self.sockets[..k].iter().any(clash) || self.sockets[k + 1..].iter().any(clash))
    }
}
