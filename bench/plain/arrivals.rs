//! Arriving datagrams and notices, and the out step.

use crate::record::{loopback, martian, Flow, OutItem, Queued, Record};
use crate::record::{DATAGRAM, PORT_NOTICE, REFUSED};
use crate::store::{self, Store, OUT, SLOT};
use crate::{numbered, with_descriptor, Answer, Host};

fn stray(a: u32) -> bool {
    martian(a) || loopback(a)
}

/// Where a payload comes from: it is lent, or it is in the out-queue's first slot.
#[derive(Clone, Copy)]
enum Payload<'p> {
    Lent(&'p [u8]),
    Inside(u16),
}

impl<const CHECK: bool> Host<CHECK> {
    pub fn datagram(&mut self, store: &mut [u8], flow: Flow, payload: &[u8]) -> Answer {
        let store = match self.ready(store) {
            Ok(store) => store,
            Err(n) => return numbered(n),
        };
        let iface = match self.record.interface_of(flow.dst) {
            Some(id) => id,
            None => return numbered(24),
        };
        if stray(flow.src) {
            return numbered(25);
        }
        if payload.len() > SLOT {
            return numbered(26);
        }
        match self.record.winner(&flow) {
            Some(k) => self
                .record
                .deliver(store, k, flow, iface, Payload::Lent(payload)),
            None => self.record.queue_notice(store, flow),
        }
    }

    /// A PORT or HOST notice; both are heard alike.
    pub fn notice(&mut self, store: &mut [u8], src: u32, dst: u32, flow: Flow) -> Answer {
        if let Err(n) = self.ready(store) {
            return numbered(n);
        }
        if self.record.interface_of(dst).is_none() {
            return numbered(24);
        }
        if stray(src) || stray(dst) || stray(flow.src) || stray(flow.dst) {
            return numbered(25);
        }
        self.record.hear(flow)
    }

    pub fn out_step(&mut self, store: &mut [u8], buffer: &mut [u8]) -> Answer {
        let store = match self.ready(store) {
            Ok(store) => store,
            Err(n) => return numbered(n),
        };
        if buffer.len() < SLOT {
            return numbered(16);
        }
        if self.record.ocount == 0 {
            return numbered(31);
        }
        let item = self.record.items[0];
        if loopback(item.destination()) {
            return self.record.handle_inside(store, item);
        }
        if martian(item.destination()) {
            self.record.drop_oldest(store);
            return numbered(32);
        }
        store::read(store, OUT, buffer, usize::from(item.len));
        self.record.drop_oldest(store);
        Answer {
            item,
            number: 30,
            ..Answer::default()
        }
    }
}

impl Record {
    fn deliver(
        &mut self,
        store: &mut Store,
        k: usize,
        flow: Flow,
        iface: u8,
        payload: Payload,
    ) -> Answer {
        let n = usize::from(self.counts[k]);
        if n >= 4 {
            return with_descriptor(21, k);
        }
        let at = store::queue_of(k) + SLOT * n;
        let len = match payload {
            Payload::Lent(bytes) => {
                store::write(store, at, bytes);
                bytes.len() as u16
            }
            Payload::Inside(len) => {
                store::write_from_out(store, at, usize::from(len));
                len
            }
        };
        self.heads[4 * k + n] = Queued { flow, len, iface };
        self.counts[k] += 1;
        with_descriptor(20, k)
    }

    /// A PORT notice back to the sender, if there is room; its slot is all zeros.
    fn queue_notice(&mut self, store: &mut Store, flow: Flow) -> Answer {
        let n = usize::from(self.ocount);
        if n >= 16 {
            return numbered(23);
        }
        store::write(store, OUT + SLOT * n, &[]);
        self.items[n] = OutItem {
            flow,
            len: 0,
            kind: PORT_NOTICE,
        };
        self.ocount += 1;
        numbered(22)
    }

    /// The socket that sent what the notice embeds is sought with the sides turned.
    fn hear(&mut self, flow: Flow) -> Answer {
        let turned = Flow {
            src: flow.dst,
            dst: flow.src,
            sport: flow.dport,
            dport: flow.sport,
        };
        let s = match self.winner(&turned) {
            Some(k) => &mut self.sockets[k],
            None => return numbered(29),
        };
        if s.raddr == 0 && s.bsdcompat {
            return numbered(28);
        }
        s.error = REFUSED;
        numbered(27)
    }

    /// The oldest item of the out-queue leaves with its slot.
    fn drop_oldest(&mut self, store: &mut Store) {
        let n = usize::from(self.ocount);
        store::pop(store, OUT, n);
        self.items.copy_within(1..n, 0);
        self.items[n - 1] = OutItem::default();
        self.ocount -= 1;
    }

    /// A loopback destination. The payload is delivered out of the item's slot, before that is given up; a notice
    /// is queued after, so it finds room.
    fn handle_inside(&mut self, store: &mut Store, item: OutItem) -> Answer {
        let flow = item.flow;
        if item.kind != DATAGRAM {
            self.drop_oldest(store);
            return self.hear(flow);
        }
        let winner = self.winner(&flow);
        let delivered = match winner {
            Some(k) => self.deliver(store, k, flow, 0, Payload::Inside(item.len)),
            None => numbered(23),
        };
        self.drop_oldest(store);
        if winner.is_none() && loopback(flow.src) {
            return self.queue_notice(store, flow);
        }
        delivered
    }
}
