//! The library's own structs and its two functions, as `udphost.h` has them.
//!
//! Both functions are safe here: every value of every argument has an answer,
//! and a slice is valid and overlaps no other.

use std::mem::size_of;

/// Where a datagram comes from and where it goes.
#[repr(C)]
#[derive(Clone, Copy, Debug, Default, PartialEq, Eq)]
pub struct Flow {
    pub src: u32,
    pub dst: u32,
    pub sport: u16,
    pub dport: u16,
}

/// An address that is 0 is absent, the first one is primary.
#[repr(C)]
#[derive(Clone, Copy, Debug, Default, PartialEq, Eq)]
pub struct Interface {
    pub mask: u32,
    pub first: u32,
    pub second: u32,
    pub third: u32,
    pub fourth: u32,
    pub id: u8,
}

/// A closed socket is all zeros.
#[repr(C)]
#[derive(Clone, Copy, Debug, Default, PartialEq, Eq)]
pub struct Socket {
    pub laddr: u32,
    pub raddr: u32,
    pub lport: u16,
    pub rport: u16,
    pub live: bool,
    pub error: u8,
    pub bsdcompat: bool,
    pub reuse: bool,
}

/// The head of a queued datagram; its bytes are in the store.
#[repr(C)]
#[derive(Clone, Copy, Debug, Default, PartialEq, Eq)]
pub struct Queued {
    pub flow: Flow,
    pub len: u16,
    pub iface: u8,
}

/// Socket k's queue is the heads from 4 * k, oldest first.
#[repr(C)]
#[derive(Clone, Copy, Debug, PartialEq, Eq)]
pub struct Queues {
    pub heads: [Queued; 64],
    pub counts: [u8; 16],
}

impl Default for Queues {
    fn default() -> Queues {
        Queues {
            heads: [Queued::default(); 64],
            counts: [0; 16],
        }
    }
}

/// Kind 0 is a datagram, 1 a PORT notice, 2 a HOST notice; a notice embeds the
/// flow and goes back along it.
#[repr(C)]
#[derive(Clone, Copy, Debug, Default, PartialEq, Eq)]
pub struct OutItem {
    pub flow: Flow,
    pub len: u16,
    pub kind: u8,
}

/// Oldest first.
#[repr(C)]
#[derive(Clone, Copy, Debug, Default, PartialEq, Eq)]
pub struct OutQueue {
    pub items: [OutItem; 16],
    pub count: u8,
}

/// All that the host is, but for the payloads. The thread is 0 running, 1
/// waiting on the descriptor awaited, 2 ended.
#[repr(C)]
#[derive(Clone, Copy, Debug, Default, PartialEq, Eq)]
pub struct Record {
    pub interfaces: [Interface; 4],
    pub sockets: [Socket; 16],
    pub queues: Queues,
    pub out: OutQueue,
    pub icount: u8,
    pub thread: u8,
    pub awaited: u8,
}

/// A step with its arguments; what its kind does not use is ignored.
#[repr(C)]
#[derive(Clone, Copy, Debug, Default, PartialEq, Eq)]
pub struct Request {
    pub flow: Flow,
    pub src: u32,
    pub dst: u32,
    pub address: u32,
    pub port: u16,
    pub readers: u16,
    pub writers: u16,
    pub kind: u8,
    pub descriptor: u8,
    pub option: u8,
    pub on: bool,
}

/// A field that an answer does not use is 0.
#[repr(C)]
#[derive(Clone, Copy, Debug, Default, PartialEq, Eq)]
pub struct Answer {
    pub item: OutItem,
    pub address: u32,
    pub port: u16,
    pub len: u16,
    pub readable: u16,
    pub writable: u16,
    pub number: u8,
    pub descriptor: u8,
    pub value: u8,
}

/// The record for the next step, and the answer.
#[repr(C)]
#[derive(Clone, Copy, Debug, Default, PartialEq, Eq)]
pub struct Reply {
    pub next: Record,
    pub answer: Answer,
}

const _: () = assert!(size_of::<Flow>() == 12);
const _: () = assert!(size_of::<Interface>() == 24);
const _: () = assert!(size_of::<Socket>() == 16);
const _: () = assert!(size_of::<Queued>() == 16);
const _: () = assert!(size_of::<Queues>() == 1040);
const _: () = assert!(size_of::<OutItem>() == 16);
const _: () = assert!(size_of::<OutQueue>() == 260);
const _: () = assert!(size_of::<Record>() == 1656);
const _: () = assert!(size_of::<Request>() == 36);
const _: () = assert!(size_of::<Answer>() == 32);
const _: () = assert!(size_of::<Reply>() == 1688);

/// A request's kind.
pub mod kind {
    pub const SOCKET: u8 = 1;
    pub const BIND: u8 = 2;
    pub const CONNECT: u8 = 3;
    pub const DISCONNECT: u8 = 4;
    pub const SENDTO: u8 = 5;
    pub const RECVFROM: u8 = 6;
    pub const CLOSE: u8 = 7;
    pub const SETOPT: u8 = 8;
    pub const DATAGRAM: u8 = 9;
    pub const NOTICE: u8 = 10;
    pub const OUT_STEP: u8 = 11;
    pub const EXIT: u8 = 12;
    pub const GETSOCKNAME: u8 = 13;
    pub const GETPEERNAME: u8 = 14;
    pub const GETERR: u8 = 15;
    pub const GETOPT: u8 = 16;
    pub const RESUME: u8 = 17;
    pub const INTERRUPT: u8 = 18;
    pub const POLL: u8 = 19;
}

/// All the code that is not safe: the calls of the linked library.
#[allow(unsafe_code)]
mod linked {
    use super::{Interface, Record, Reply, Request};

    extern "C" {
        fn udphost_open(
            list: *const Interface,
            count: usize,
            store: *mut u8,
            store_len: usize,
        ) -> Reply;

        fn udphost_step(
            kept: Record,
            store: *mut u8,
            store_len: usize,
            request: Request,
            payload: *const u8,
            payload_len: usize,
            buffer: *mut u8,
            buffer_len: usize,
        ) -> Reply;
    }

    /// Opens a host: 0, 2 or 17.
    #[inline]
    pub fn open(list: &[Interface], store: &mut [u8]) -> Reply {
        // SAFETY: both slices are valid for their lengths and not null.
        unsafe { udphost_open(list.as_ptr(), list.len(), store.as_mut_ptr(), store.len()) }
    }

    /// One step, as the request's kind says. Inline, since the record is large.
    #[inline]
    pub fn step(
        kept: Record,
        store: &mut [u8],
        request: Request,
        payload: &[u8],
        buffer: &mut [u8],
    ) -> Reply {
        // SAFETY: the three slices are valid for their lengths, not null, and
        // apart, as two of them are borrowed to be changed.
        unsafe {
            udphost_step(
                kept,
                store.as_mut_ptr(),
                store.len(),
                request,
                payload.as_ptr(),
                payload.len(),
                buffer.as_mut_ptr(),
                buffer.len(),
            )
        }
    }
}

pub use linked::{open, step};
