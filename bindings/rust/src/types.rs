//! What goes into a step and comes out of it.

use crate::answers::Refusal;
use crate::{raw, ADDRESSES};
use std::iter::FromIterator;
use std::net::Ipv4Addr;

/// A port; 0 is absent.
#[derive(Clone, Copy, Debug, PartialEq, Eq, PartialOrd, Ord, Hash)]
pub struct Port(pub u16);

impl Port {
    /// No port: bind and connect choose a local one, and a peer may have any.
    pub const ANY: Port = Port(0);
}

/// An interface's id, 1 to 255.
#[derive(Clone, Copy, Debug, PartialEq, Eq, PartialOrd, Ord, Hash)]
pub struct InterfaceId(pub u8);

/// A socket's descriptor. Only the host gives one.
#[derive(Clone, Copy, Debug, PartialEq, Eq, PartialOrd, Ord, Hash)]
pub struct Descriptor(u8);

impl Descriptor {
    pub(crate) fn from_answer(answer: &raw::Answer) -> Descriptor {
        Descriptor(answer.descriptor)
    }

    pub fn number(self) -> u8 {
        self.0
    }
}

/// A set of descriptors.
#[derive(Clone, Copy, Debug, Default, PartialEq, Eq)]
pub struct Descriptors(u16);

impl Descriptors {
    pub const NONE: Descriptors = Descriptors(0);

    pub(crate) fn from_mask(mask: u16) -> Descriptors {
        Descriptors(mask)
    }

    /// Bit k is descriptor k.
    pub fn mask(self) -> u16 {
        self.0
    }

    pub fn contains(self, descriptor: Descriptor) -> bool {
        self.0 >> descriptor.0 & 1 == 1
    }

    pub fn is_empty(self) -> bool {
        self.0 == 0
    }

    /// The lowest first.
    pub fn iter(self) -> impl Iterator<Item = Descriptor> {
        (0..16).map(Descriptor).filter(move |&d| self.contains(d))
    }
}

impl FromIterator<Descriptor> for Descriptors {
    fn from_iter<I: IntoIterator<Item = Descriptor>>(from: I) -> Descriptors {
        let bits = from.into_iter().map(|descriptor| 1 << descriptor.0);
        Descriptors(bits.fold(0, |mask, bit: u16| mask | bit))
    }
}

impl From<Descriptor> for Descriptors {
    fn from(descriptor: Descriptor) -> Descriptors {
        Descriptors(1 << descriptor.0)
    }
}

/// An address with a port; 0.0.0.0 is absent or wildcard.
#[derive(Clone, Copy, Debug, PartialEq, Eq, Hash)]
pub struct Endpoint {
    pub address: Ipv4Addr,
    pub port: Port,
}

impl Endpoint {
    pub const ABSENT: Endpoint = Endpoint::any(Port::ANY);

    pub const fn new(address: Ipv4Addr, port: Port) -> Endpoint {
        Endpoint { address, port }
    }

    /// The port on every address.
    pub const fn any(port: Port) -> Endpoint {
        Endpoint::new(Ipv4Addr::UNSPECIFIED, port)
    }

    pub(crate) fn from_raw(address: u32, port: u16) -> Endpoint {
        Endpoint::new(Ipv4Addr::from(address), Port(port))
    }
}

/// Where a datagram comes from and where it goes.
#[derive(Clone, Copy, Debug, PartialEq, Eq, Hash)]
pub struct Flow {
    pub source: Endpoint,
    pub destination: Endpoint,
}

impl Flow {
    pub(crate) fn from_raw(flow: raw::Flow) -> Flow {
        Flow {
            source: Endpoint::from_raw(flow.src, flow.sport),
            destination: Endpoint::from_raw(flow.dst, flow.dport),
        }
    }

    pub(crate) fn to_raw(self) -> raw::Flow {
        raw::Flow {
            src: self.source.address.into(),
            dst: self.destination.address.into(),
            sport: self.source.port.0,
            dport: self.destination.port.0,
        }
    }
}

/// An unreachable notice: whence and whither it goes, and what it is about.
#[derive(Clone, Copy, Debug, PartialEq, Eq, Hash)]
pub struct Notice {
    pub source: Ipv4Addr,
    pub destination: Ipv4Addr,
    pub embedded: Flow,
}

/// What could not be reached.
#[derive(Clone, Copy, Debug, PartialEq, Eq, Hash)]
pub enum Unreachable {
    Port,
    Host,
}

#[derive(Clone, Copy, Debug, PartialEq, Eq, Hash)]
pub enum SocketOption {
    /// A socket without a peer does not hear of notices.
    Bsdcompat,
    /// Others may have the same local pair, if they have it too.
    Reuse,
}

impl SocketOption {
    pub fn number(self) -> u8 {
        match self {
            SocketOption::Bsdcompat => 1,
            SocketOption::Reuse => 2,
        }
    }
}

/// An interface with its addresses, the first one primary.
#[derive(Clone, Copy, Debug, PartialEq, Eq)]
pub struct Interface(raw::Interface);

impl Interface {
    /// Refuses what an interface has no place for: no address, more than 4, or
    /// 0.0.0.0. The rest of the check is the opening's.
    pub fn new(
        id: InterfaceId,
        mask: Ipv4Addr,
        addresses: &[Ipv4Addr],
    ) -> Result<Interface, Refusal> {
        let fits = (1..=ADDRESSES).contains(&addresses.len());
        if !fits || addresses.contains(&Ipv4Addr::UNSPECIFIED) {
            return Err(Refusal::InterfacesRefused);
        }
        let address = |place: usize| addresses.get(place).map_or(0, |&a| a.into());
        Ok(Interface(raw::Interface {
            mask: mask.into(),
            first: address(0),
            second: address(1),
            third: address(2),
            fourth: address(3),
            id: id.0,
        }))
    }

    pub(crate) fn to_raw(self) -> raw::Interface {
        self.0
    }
}
