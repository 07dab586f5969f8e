//! Changes a record's fields one by one, in places that are used or not.

use crate::maker::Maker;
use udphost::raw::{Flow, Interface, OutItem, Queued, Record, Socket};

/// The record with one to three fields changed.
pub fn damaged(maker: &mut Maker, record: Record) -> Record {
    let mut record = record;
    let mut hand = Hand { maker };
    for _ in 0..hand.maker.random.pick(&[1, 1, 1, 2, 3]) {
        hand.change(&mut record);
    }
    record
}

struct Hand<'m> {
    maker: &'m mut Maker,
}

impl Hand<'_> {
    fn change(&mut self, record: &mut Record) {
        match self.maker.random.below(11) {
            0 => record.icount = self.byte(),
            1 => record.thread = self.byte(),
            2 => record.awaited = self.byte(),
            3 => record.out.count = self.byte(),
            4 => {
                let k = self.place(16, 5);
                record.queues.counts[k] = self.byte();
            }
            5 | 6 => {
                let i = self.place(4, record.icount.into());
                self.interface(&mut record.interfaces[i]);
            }
            7 | 8 => {
                let k = self.place(16, 5);
                self.socket(&mut record.sockets[k]);
            }
            9 => {
                let j = self.place(64, 20);
                self.head(&mut record.queues.heads[j]);
            }
            _ => {
                let i = self.place(16, record.out.count.into());
                self.item(&mut record.out.items[i]);
            }
        }
    }

    /// A place, mostly one of the first few, as these are in use.
    fn place(&mut self, places: usize, few: usize) -> usize {
        let few = few.clamp(1, places);
        match self.maker.random.below(4) {
            0 => self.maker.random.below(places),
            _ => self.maker.random.below(few),
        }
    }

    fn byte(&mut self) -> u8 {
        let any = self.maker.random.draw() as u8;
        let bytes = [0, 1, 2, 3, 4, 5, 10, 15, 16, 17, 255, any];
        self.maker.random.pick(&bytes)
    }

    fn number(&mut self) -> u16 {
        let any = self.maker.random.draw() as u16;
        let port = self.maker.local_port();
        let numbers = [0, 1, 511, 512, 513, 1024, port, port, 65_535, any];
        self.maker.random.pick(&numbers)
    }

    fn address(&mut self) -> u32 {
        let any = self.maker.random.draw() as u32;
        let own = self.maker.own();
        let other = self.maker.any_address();
        self.maker.random.pick(&[0, own, own, other, other, any])
    }

    fn interface(&mut self, x: &mut Interface) {
        match self.maker.random.below(6) {
            0 => x.mask = self.maker.random.pick(&[0, 0xffff_ff00, u32::MAX, 1]),
            1 => x.first = self.address(),
            2 => x.second = self.address(),
            3 => x.third = self.address(),
            4 => x.fourth = self.address(),
            _ => x.id = self.byte(),
        }
    }

    fn socket(&mut self, s: &mut Socket) {
        match self.maker.random.below(8) {
            0 => s.laddr = self.address(),
            1 => s.raddr = self.address(),
            2 => s.lport = self.number(),
            3 => s.rport = self.number(),
            4 => s.live = !s.live,
            5 => s.error = self.byte(),
            6 => s.bsdcompat = !s.bsdcompat,
            _ => s.reuse = !s.reuse,
        }
    }

    fn head(&mut self, h: &mut Queued) {
        match self.maker.random.below(3) {
            0 => h.len = self.number(),
            1 => h.iface = self.byte(),
            _ => self.flow(&mut h.flow),
        }
    }

    fn item(&mut self, x: &mut OutItem) {
        match self.maker.random.below(3) {
            0 => x.len = self.number(),
            1 => x.kind = self.byte(),
            _ => self.flow(&mut x.flow),
        }
    }

    fn flow(&mut self, f: &mut Flow) {
        match self.maker.random.below(4) {
            0 => f.src = self.address(),
            1 => f.dst = self.address(),
            2 => f.sport = self.number(),
            _ => f.dport = self.number(),
        }
    }
}
