//! The record as flat arrays, and its check as one would write it in Rust: early returns, derived equality, one pass
//! over the sockets. The pieces are laid out as C has them, so that the proved host's record can be made of them too.
//! Only core is used: `check.rs` is built without std.

pub const SLOT: u16 = 512;
pub const REFUSED: u8 = 10;

/// An out-item that is a datagram, and one that is a PORT notice; 2 is a HOST notice.
pub const DATAGRAM: u8 = 0;
pub const PORT_NOTICE: u8 = 1;

#[repr(C)]
#[derive(Clone, Copy, Debug, PartialEq, Default)]
pub struct Flow {
    pub src: u32,
    pub dst: u32,
    pub sport: u16,
    pub dport: u16,
}

/// An address that is 0 is absent; the first is the primary one.
#[repr(C)]
#[derive(Clone, Copy, Debug, PartialEq, Default)]
pub struct Interface {
    pub mask: u32,
    pub addresses: [u32; 4],
    pub id: u8,
}

#[repr(C)]
#[derive(Clone, Copy, Debug, PartialEq, Default)]
pub struct Socket {
    pub laddr: u32,
    pub raddr: u32,
    pub lport: u16,
    pub rport: u16,
    pub live: bool,
    pub error: u8,
    pub bsdcompat: bool,
    pub reuse: bool,
}

/// The head of a queued datagram; its bytes are in the store.
#[repr(C)]
#[derive(Clone, Copy, Debug, PartialEq, Default)]
pub struct Queued {
    pub flow: Flow,
    pub len: u16,
    pub iface: u8,
}

/// A notice goes back along the flow that it embeds, so one flow serves all kinds.
#[repr(C)]
#[derive(Clone, Copy, Debug, PartialEq, Default)]
pub struct OutItem {
    pub flow: Flow,
    pub len: u16,
    pub kind: u8,
}

#[derive(Clone, Copy, Debug, PartialEq)]
pub enum Thread {
    Running,
    Waiting(u8),
    Ended,
}

#[derive(Clone, Copy, Debug, PartialEq)]
pub struct Record {
    pub interfaces: [Interface; 4],
    pub sockets: [Socket; 16],
    /// Socket k's heads are the four from 4k, oldest first.
    pub heads: [Queued; 64],
    pub counts: [u8; 16],
    pub items: [OutItem; 16],
    pub ocount: u8,
    pub thread: Thread,
    pub icount: u8,
}

pub fn loopback(a: u32) -> bool {
    a >> 24 == 127
}

pub fn martian(a: u32) -> bool {
    a >> 24 == 0 || a >> 24 >= 224
}

impl Interface {
    /// Whether the primary agrees with the address under the mask.
    pub fn agrees(&self, a: u32) -> bool {
        a & self.mask == self.addresses[0] & self.mask
    }
}

impl Socket {
    /// Whether the two have one local port and overlapping local addresses.
    pub fn overlaps(&self, other: &Socket) -> bool {
        self.lport == other.lport
            && (self.laddr == other.laddr || self.laddr == 0 || other.laddr == 0)
    }

    /// Every part implies the one before it.
    fn parts_agree(&self) -> bool {
        (self.rport == 0 || self.raddr != 0)
            && (self.raddr == 0 || self.laddr != 0)
            && (self.laddr == 0 || self.lport != 0)
    }
}

impl OutItem {
    /// A notice goes from the destination of what it embeds.
    pub fn source(&self) -> u32 {
        if self.kind == DATAGRAM {
            self.flow.src
        } else {
            self.flow.dst
        }
    }

    /// And to its source.
    pub fn destination(&self) -> u32 {
        if self.kind == DATAGRAM {
            self.flow.dst
        } else {
            self.flow.src
        }
    }
}

impl Record {
    /// A running host with one interface, no socket open and nothing queued.
    pub fn with_interface(interface: Interface) -> Record {
        let mut record = Record {
            interfaces: [Interface::default(); 4],
            sockets: [Socket::default(); 16],
            heads: [Queued::default(); 64],
            counts: [0; 16],
            items: [OutItem::default(); 16],
            ocount: 0,
            thread: Thread::Running,
            icount: 1,
        };
        record.interfaces[0] = interface;
        record
    }

    /// Our own addresses, 127/8 included.
    pub fn ours(&self, a: u32) -> bool {
        loopback(a) || a != 0 && self.interfaces.iter().any(|x| x.addresses.contains(&a))
    }
}

/// The check that every step begins with.
impl Record {
    pub fn well_formed(&self) -> bool {
        self.interfaces_fit() && self.sockets_fit() && self.items_fit() && self.thread_fits()
    }

    fn interfaces_fit(&self) -> bool {
        let n = self.icount as usize;
        if n > 4 {
            return false;
        }
        for i in 0..4 {
            if i >= n {
                if self.interfaces[i] != Interface::default() {
                    return false;
                }
            } else if !self.interface_fits(i) {
                return false;
            }
        }
        true
    }

    fn interface_fits(&self, i: usize) -> bool {
        let x = &self.interfaces[i];
        if x.id == 0 || x.addresses[0] == 0 {
            return false;
        }
        for p in 0..4 {
            if x.addresses[p] != 0 {
                if !self.address_fits(i, p) {
                    return false;
                }
            } else if p < 3 && x.addresses[p + 1] != 0 {
                return false;
            }
        }
        self.interfaces[..i].iter().all(|y| y.id != x.id)
    }

    /// Address p of interface i: no stray one, agreeing with the primary, unlike every earlier one.
    fn address_fits(&self, i: usize, p: usize) -> bool {
        let x = &self.interfaces[i];
        let a = x.addresses[p];
        if loopback(a) || martian(a) || !x.agrees(a) || x.addresses[..p].contains(&a) {
            return false;
        }
        for y in &self.interfaces[..i] {
            if y.addresses.contains(&a) {
                return false;
            }
        }
        true
    }

    fn sockets_fit(&self) -> bool {
        for k in 0..16 {
            if !self.socket_fits(k) || !self.queue_fits(k) {
                return false;
            }
        }
        true
    }

    fn socket_fits(&self, k: usize) -> bool {
        let s = &self.sockets[k];
        if !s.live {
            return *s == Socket::default() && self.counts[k] == 0;
        }
        if !s.parts_agree() || s.laddr != 0 && !self.ours(s.laddr) {
            return false;
        }
        if s.error != 0 && s.error != REFUSED {
            return false;
        }
        if s.lport != 0 {
            for t in &self.sockets[..k] {
                if s.overlaps(t) && !(s.reuse && t.reuse) {
                    return false;
                }
            }
        }
        true
    }

    fn queue_fits(&self, k: usize) -> bool {
        let n = self.counts[k] as usize;
        if n > 4 {
            return false;
        }
        for i in 0..4 {
            let h = &self.heads[4 * k + i];
            if i < n {
                if h.len > SLOT {
                    return false;
                }
            } else if *h != Queued::default() {
                return false;
            }
        }
        true
    }

    fn items_fit(&self) -> bool {
        let n = self.ocount as usize;
        if n > 16 {
            return false;
        }
        for i in 0..16 {
            let x = &self.items[i];
            if i >= n {
                if *x != OutItem::default() {
                    return false;
                }
            } else if !self.item_fits(x) {
                return false;
            }
        }
        true
    }

    fn item_fits(&self, x: &OutItem) -> bool {
        x.kind <= 2 && x.len <= SLOT && (x.kind == DATAGRAM || x.len == 0) && self.ours(x.source())
    }

    fn thread_fits(&self) -> bool {
        match self.thread {
            Thread::Waiting(d) => {
                (d as usize) < 16
                    && self.sockets[d as usize].live
                    && self.sockets[d as usize].lport != 0
            }
            _ => true,
        }
    }
}
