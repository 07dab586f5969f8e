//! The calls, each with document 01's refusals in its order.

use crate::record::{Flow, OutItem, Queued, Record, Socket, Thread, DATAGRAM};
use crate::store::{self, Store, OUT, SLOT};
use crate::{numbered, with_descriptor, Answer, Host};

/// The option numbers.
const BSDCOMPAT: u8 = 1;
const REUSE: u8 = 2;

impl<const CHECK: bool> Host<CHECK> {
    pub fn socket(&mut self, store: &mut [u8]) -> Answer {
        if let Err(n) = self.enter(store) {
            return numbered(n);
        }
        match self.record.sockets.iter().position(|s| !s.live) {
            None => numbered(15),
            Some(k) => {
                self.record.sockets[k].live = true;
                with_descriptor(0, k)
            }
        }
    }

    pub fn bind(&mut self, store: &mut [u8], descriptor: u8, address: u32, port: u16) -> Answer {
        let k = match self.call(store, descriptor) {
            Ok((k, _)) => k,
            Err(n) => return numbered(n),
        };
        let record = &mut self.record;
        let bound = Socket {
            laddr: address,
            lport: port,
            ..record.sockets[k]
        };
        if record.sockets[k].lport != 0 {
            return numbered(6);
        }
        if address != 0 && !record.ours(address) {
            return numbered(8);
        }
        if (1..1024).contains(&port) {
            return numbered(7);
        }
        if record.in_use(k, &bound) {
            return numbered(9);
        }
        record.sockets[k] = bound;
        record.autobind(k);
        numbered(0)
    }

    pub fn connect(&mut self, store: &mut [u8], descriptor: u8, address: u32, port: u16) -> Answer {
        let k = match self.call(store, descriptor) {
            Ok((k, _)) => k,
            Err(n) => return numbered(n),
        };
        if address == 0 {
            return numbered(6);
        }
        let source = match self.record.source_for(k, address) {
            Some(source) => source,
            None => return numbered(13),
        };
        self.record.autobind(k);
        let s = &mut self.record.sockets[k];
        s.laddr = source;
        s.raddr = address;
        s.rport = port;
        numbered(0)
    }

    /// Reuse is settled once there is a local port.
    pub fn setopt(&mut self, store: &mut [u8], descriptor: u8, option: u8, on: bool) -> Answer {
        let k = match self.call(store, descriptor) {
            Ok((k, _)) => k,
            Err(n) => return numbered(n),
        };
        let s = &mut self.record.sockets[k];
        match option {
            BSDCOMPAT => s.bsdcompat = on,
            REUSE if s.lport == 0 => s.reuse = on,
            _ => return numbered(6),
        }
        numbered(0)
    }

    pub fn close(&mut self, store: &mut [u8], descriptor: u8) -> Answer {
        let (k, store) = match self.call(store, descriptor) {
            Ok(entered) => entered,
            Err(n) => return numbered(n),
        };
        self.record.sockets[k] = Socket::default();
        self.record.heads[4 * k..4 * k + 4].fill(Queued::default());
        self.record.counts[k] = 0;
        store::clear(store, k);
        numbered(0)
    }

    pub fn sendto(
        &mut self,
        store: &mut [u8],
        descriptor: u8,
        address: u32,
        port: u16,
        payload: &[u8],
    ) -> Answer {
        let (k, store) = match self.call(store, descriptor) {
            Ok(entered) => entered,
            Err(n) => return numbered(n),
        };
        if self.record.take_error(k) {
            return numbered(10);
        }
        if (address == 0) != (port == 0) {
            return numbered(6);
        }
        if payload.len() > SLOT {
            return numbered(11);
        }
        match self.record.flow_out(k, address, port) {
            Err(n) => numbered(n),
            Ok(flow) => self.record.queue_out(store, k, flow, payload),
        }
    }

    pub fn recvfrom(
        &mut self,
        store: &mut [u8],
        descriptor: u8,
        nonblocking: bool,
        buffer: &mut [u8],
    ) -> Answer {
        let (k, store) = match self.call(store, descriptor) {
            Ok(entered) => entered,
            Err(n) => return numbered(n),
        };
        if self.record.take_error(k) {
            return numbered(10);
        }
        if self.record.counts[k] != 0 {
            return self.record.read(store, k, buffer);
        }
        if nonblocking {
            return numbered(14);
        }
        self.record.autobind(k);
        self.record.thread = Thread::Waiting(descriptor);
        numbered(18)
    }
}

impl Record {
    /// 10 clears the pending error that it reports.
    fn take_error(&mut self, k: usize) -> bool {
        let pending = self.sockets[k].error != 0;
        self.sockets[k].error = 0;
        pending
    }

    /// Where a datagram comes from, its port apart, and where it goes: with both 0 the remote pair is meant.
    fn flow_out(&self, k: usize, address: u32, port: u16) -> Result<Flow, u8> {
        let s = &self.sockets[k];
        let (dst, dport) = match address {
            0 => (s.raddr, s.rport),
            _ => (address, port),
        };
        if dst == 0 || dport == 0 {
            return Err(12);
        }
        let src = self.source_for(k, dst).ok_or(13)?;
        Ok(Flow {
            src,
            dst,
            sport: 0,
            dport,
        })
    }

    fn queue_out(&mut self, store: &mut Store, k: usize, flow: Flow, payload: &[u8]) -> Answer {
        let n = usize::from(self.ocount);
        if n >= 16 {
            return numbered(14);
        }
        self.autobind(k);
        let sport = self.sockets[k].lport;
        store::write(store, OUT + SLOT * n, payload);
        self.items[n] = OutItem {
            flow: Flow { sport, ..flow },
            len: payload.len() as u16,
            kind: DATAGRAM,
        };
        self.ocount += 1;
        numbered(0)
    }

    /// Reads the oldest of at least one queued datagram, or 16 with the length needed.
    fn read(&mut self, store: &mut Store, k: usize, buffer: &mut [u8]) -> Answer {
        let Queued { flow, len, .. } = self.heads[4 * k];
        if buffer.len() < usize::from(len) {
            return Answer {
                number: 16,
                len,
                ..Answer::default()
            };
        }
        let occupied = usize::from(self.counts[k]);
        store::read(store, store::queue_of(k), buffer, usize::from(len));
        store::pop(store, store::queue_of(k), occupied);
        let heads = &mut self.heads[4 * k..4 * k + 4];
        heads.copy_within(1.., 0);
        heads[3] = Queued::default();
        self.counts[k] -= 1;
        Answer {
            address: flow.src,
            port: flow.sport,
            len,
            ..Answer::default()
        }
    }
}
