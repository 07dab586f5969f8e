//! The proved UDP host as a Rust type.
//!
//! A [`Host`] owns its record and its store. A call that is refused gives a
//! [`Refusal`]; after one the host is as it was, but that
//! [`Refusal::ConnectionRefused`] clears the pending error and ends a wait. A
//! descriptor comes from a socket that was opened or that got a datagram, never
//! from a number.
//!
//! ```
//! use std::net::Ipv4Addr;
//! use udphost::{Endpoint, Host, Interface, InterfaceId, Port};
//!
//! let own = Ipv4Addr::new(10, 2, 0, 5);
//! let mask = Ipv4Addr::new(255, 255, 255, 0);
//! let mut host = Host::open(&[Interface::new(InterfaceId(1), mask, &[own])?])?;
//! let socket = host.socket()?;
//! host.bind(socket, Endpoint::new(own, Port(7000)))?;
//! # Ok::<(), udphost::Refusal>(())
//! ```
//!
//! [`raw`] has the library's own structs and functions.

#![deny(unsafe_code)]

mod answers;
mod host;
pub mod raw;
mod types;

#[cfg(test)]
mod tests;

pub use answers::{Arrival, OutStep, Outgoing, Read, Ready, Received, Refusal};
pub use host::Host;
pub use types::{
    Descriptor, Descriptors, Endpoint, Flow, Interface, InterfaceId, Notice, Port, SocketOption,
    Unreachable,
};

/// Bytes in the store.
pub const STORE: usize = 40_960;
/// The longest payload.
pub const PAYLOAD: usize = 512;
/// Addresses that an interface has at most.
pub const ADDRESSES: usize = 4;
