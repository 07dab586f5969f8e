//! What a step answers, as types.

use crate::raw;
use crate::types::{Descriptor, Descriptors, Endpoint, Flow, Notice, Unreachable};
use std::error::Error;
use std::fmt;
use std::net::Ipv4Addr;

/// Why a call was refused.
#[derive(Clone, Copy, Debug, PartialEq, Eq, Hash)]
pub enum Refusal {
    /// Never of a host that was opened here.
    NotWellFormed,
    /// Never of a host that was opened here.
    OtherStore,
    Ended,
    /// Only resume and interrupt go on from here.
    StillWaiting,
    NotOpen,
    BadArgument,
    LowPort,
    NotOurAddress,
    InUse,
    /// The pending error, which this has cleared.
    ConnectionRefused,
    PayloadTooLong,
    NoPeer,
    NoRoute,
    /// Nothing to read, or the out-queue is full.
    WouldWait,
    AllOpen,
    ShortBuffer {
        needed: usize,
    },
    InterfacesRefused,
}

impl Refusal {
    /// None for the numbers that are no refusal.
    pub(crate) fn from_answer(answer: &raw::Answer) -> Option<Refusal> {
        let needed = answer.len.into();
        Some(match answer.number {
            1 => Refusal::NotWellFormed,
            2 => Refusal::OtherStore,
            3 => Refusal::Ended,
            4 => Refusal::StillWaiting,
            5 => Refusal::NotOpen,
            6 => Refusal::BadArgument,
            7 => Refusal::LowPort,
            8 => Refusal::NotOurAddress,
            9 => Refusal::InUse,
            10 => Refusal::ConnectionRefused,
            11 => Refusal::PayloadTooLong,
            12 => Refusal::NoPeer,
            13 => Refusal::NoRoute,
            14 => Refusal::WouldWait,
            15 => Refusal::AllOpen,
            16 => Refusal::ShortBuffer { needed },
            17 => Refusal::InterfacesRefused,
            _ => return None,
        })
    }

    /// The number that the host gave.
    pub fn number(self) -> u8 {
        match self {
            Refusal::NotWellFormed => 1,
            Refusal::OtherStore => 2,
            Refusal::Ended => 3,
            Refusal::StillWaiting => 4,
            Refusal::NotOpen => 5,
            Refusal::BadArgument => 6,
            Refusal::LowPort => 7,
            Refusal::NotOurAddress => 8,
            Refusal::InUse => 9,
            Refusal::ConnectionRefused => 10,
            Refusal::PayloadTooLong => 11,
            Refusal::NoPeer => 12,
            Refusal::NoRoute => 13,
            Refusal::WouldWait => 14,
            Refusal::AllOpen => 15,
            Refusal::ShortBuffer { .. } => 16,
            Refusal::InterfacesRefused => 17,
        }
    }

    fn in_words(self) -> &'static str {
        match self {
            Refusal::NotWellFormed => "the record is not well formed",
            Refusal::OtherStore => "the store has another length",
            Refusal::Ended => "the thread has ended",
            Refusal::StillWaiting => "the thread is waiting",
            Refusal::NotOpen => "the descriptor is not open",
            Refusal::BadArgument => "a bad argument or moment",
            Refusal::LowPort => "the port is one of 1 to 1023",
            Refusal::NotOurAddress => "the address is not our own",
            Refusal::InUse => "the address is in use",
            Refusal::ConnectionRefused => "connection refused",
            Refusal::PayloadTooLong => "the payload is over 512 bytes",
            Refusal::NoPeer => "there is no peer",
            Refusal::NoRoute => "there is no route",
            Refusal::WouldWait => "the call would wait",
            Refusal::AllOpen => "16 sockets are open",
            Refusal::ShortBuffer { .. } => "the buffer is too short",
            Refusal::InterfacesRefused => "the interfaces are refused",
        }
    }
}

impl fmt::Display for Refusal {
    fn fmt(&self, f: &mut fmt::Formatter<'_>) -> fmt::Result {
        f.write_str(self.in_words())?;
        match self {
            Refusal::ShortBuffer { needed } => write!(f, ": {needed} bytes are needed"),
            _ => Ok(()),
        }
    }
}

impl Error for Refusal {}

/// A datagram that was read; its payload stands in the lent buffer.
#[derive(Clone, Copy, Debug, PartialEq, Eq)]
pub struct Received<'b> {
    pub from: Endpoint,
    pub payload: &'b [u8],
}

impl<'b> Received<'b> {
    pub(crate) fn from_answer(answer: &raw::Answer, buffer: &'b [u8]) -> Received<'b> {
        Received {
            from: Endpoint::from_raw(answer.address, answer.port),
            payload: &buffer[..answer.len.into()],
        }
    }
}

/// What recvfrom and resume give.
#[derive(Clone, Copy, Debug, PartialEq, Eq)]
pub enum Read<'b> {
    Datagram(Received<'b>),
    /// Nothing yet: the thread waits until resume or interrupt.
    Waiting,
}

impl<'b> Read<'b> {
    pub(crate) fn from_answer(answer: &raw::Answer, buffer: &'b [u8]) -> Read<'b> {
        match answer.number {
            0 => Read::Datagram(Received::from_answer(answer, buffer)),
            18 => Read::Waiting,
            number => not_promised(number),
        }
    }
}

/// Which of the polled descriptors are ready.
#[derive(Clone, Copy, Debug, PartialEq, Eq)]
pub struct Ready {
    pub readable: Descriptors,
    pub writable: Descriptors,
}

/// What became of a datagram (the first seven) or of a notice.
#[derive(Clone, Copy, Debug, PartialEq, Eq)]
pub enum Arrival {
    Delivered(Descriptor),
    /// This one's queue is full.
    Dropped(Descriptor),
    /// Nobody's: a PORT notice will go out.
    NoticeQueued,
    /// Nobody's, and no notice will go out.
    NoticeNotQueued,
    /// Its destination is not our own.
    NotOurs,
    /// An address of it is martian or loopback.
    BadSource,
    TooLong,
    /// A socket has a pending error now.
    Heard,
    /// A socket's, which has bsdcompat and no peer.
    NotTold,
    /// No socket's.
    Nobody,
}

impl Arrival {
    pub(crate) fn from_answer(answer: &raw::Answer) -> Arrival {
        match answer.number {
            20 => Arrival::Delivered(Descriptor::from_answer(answer)),
            21 => Arrival::Dropped(Descriptor::from_answer(answer)),
            22 => Arrival::NoticeQueued,
            23 => Arrival::NoticeNotQueued,
            24 => Arrival::NotOurs,
            25 => Arrival::BadSource,
            26 => Arrival::TooLong,
            27 => Arrival::Heard,
            28 => Arrival::NotTold,
            29 => Arrival::Nobody,
            number => not_promised(number),
        }
    }

    /// The number that the host gave.
    pub fn number(self) -> u8 {
        match self {
            Arrival::Delivered(_) => 20,
            Arrival::Dropped(_) => 21,
            Arrival::NoticeQueued => 22,
            Arrival::NoticeNotQueued => 23,
            Arrival::NotOurs => 24,
            Arrival::BadSource => 25,
            Arrival::TooLong => 26,
            Arrival::Heard => 27,
            Arrival::NotTold => 28,
            Arrival::Nobody => 29,
        }
    }
}

/// What is to go out on the wire.
#[derive(Clone, Copy, Debug, PartialEq, Eq)]
pub enum Outgoing<'b> {
    Datagram { flow: Flow, payload: &'b [u8] },
    Notice { what: Unreachable, notice: Notice },
}

impl<'b> Outgoing<'b> {
    fn from_item(item: &raw::OutItem, buffer: &'b [u8]) -> Outgoing<'b> {
        let flow = Flow::from_raw(item.flow);
        let what = match item.kind {
            0 => {
                let payload = &buffer[..item.len.into()];
                return Outgoing::Datagram { flow, payload };
            }
            1 => Unreachable::Port,
            _ => Unreachable::Host,
        };
        let notice = Notice {
            source: Ipv4Addr::from(item.flow.dst),
            destination: Ipv4Addr::from(item.flow.src),
            embedded: flow,
        };
        Outgoing::Notice { what, notice }
    }
}

/// What the out step did with the oldest item.
#[derive(Clone, Copy, Debug, PartialEq, Eq)]
pub enum OutStep<'b> {
    Emitted(Outgoing<'b>),
    /// There was none.
    Empty,
    /// Its destination was martian.
    Discarded,
    /// Its destination was loopback, so it was handled here.
    Inside(Arrival),
}

impl<'b> OutStep<'b> {
    pub(crate) fn from_answer(answer: &raw::Answer, buffer: &'b [u8]) -> OutStep<'b> {
        match answer.number {
            30 => OutStep::Emitted(Outgoing::from_item(&answer.item, buffer)),
            31 => OutStep::Empty,
            32 => OutStep::Discarded,
            _ => OutStep::Inside(Arrival::from_answer(answer)),
        }
    }
}

/// The host's promises leave no other number to a step.
fn not_promised(number: u8) -> ! {
    panic!("the linked library breaks its promise: it answers {number} here")
}
