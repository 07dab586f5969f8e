//! The host of document 01 as one would write it in plain Rust for speed: flat arrays that are changed in place, early
//! returns, no allocation. It has the steps that the cases of `bench/run` need. With `CHECK` every step begins with
//! the record's check, as the proved host's steps do; without it the caller is trusted to have kept the record.

mod arrivals;
mod calls;
pub mod record;
mod sockets;
mod store;

use record::{Interface, OutItem, Record, Thread};
use store::Store;

pub use store::STORE;

/// The number of document 01, and what some answers give; a field that an answer does not use is 0.
#[derive(Clone, Copy, Debug, Default, PartialEq)]
pub struct Answer {
    pub item: OutItem,
    pub address: u32,
    pub port: u16,
    pub len: u16,
    pub number: u8,
    pub descriptor: u8,
}

fn numbered(number: u8) -> Answer {
    Answer {
        number,
        ..Answer::default()
    }
}

fn with_descriptor(number: u8, k: usize) -> Answer {
    Answer {
        number,
        descriptor: k as u8,
        ..Answer::default()
    }
}

pub struct Host<const CHECK: bool> {
    pub record: Record,
}

/// A number from 1 to 5, which the checks before a step's own give.
type Entry<T> = Result<T, u8>;

impl<const CHECK: bool> Host<CHECK> {
    pub fn with_interface(interface: Interface) -> Self {
        Host {
            record: Record::with_interface(interface),
        }
    }

    /// 1 and 2, all that arrivals and the out step share with the calls. The store's length is known from here on.
    fn ready<'s>(&self, store: &'s mut [u8]) -> Entry<&'s mut Store> {
        if CHECK && !self.record.well_formed() {
            return Err(1);
        }
        store.try_into().map_err(|_| 2)
    }

    /// 1 to 4.
    fn enter<'s>(&self, store: &'s mut [u8]) -> Entry<&'s mut Store> {
        let store = self.ready(store)?;
        match self.record.thread {
            Thread::Running => Ok(store),
            Thread::Waiting(_) => Err(4),
            Thread::Ended => Err(3),
        }
    }

    /// 1 to 5; gives the socket's place with the store.
    fn call<'s>(&self, store: &'s mut [u8], descriptor: u8) -> Entry<(usize, &'s mut Store)> {
        let store = self.enter(store)?;
        match self.record.sockets.get(usize::from(descriptor)) {
            Some(s) if s.live => Ok((usize::from(descriptor), store)),
            _ => Err(5),
        }
    }
}
