//! The host: a method for each step.

use crate::answers::{Arrival, OutStep, Read, Ready, Received, Refusal};
use crate::raw::{self, kind, Request};
use crate::types::{Descriptor, Descriptors, Endpoint, Flow, Interface, Notice, SocketOption};
use crate::{PAYLOAD, STORE};

/// A host with its record and its store.
#[derive(Clone, Debug, PartialEq, Eq)]
pub struct Host {
    record: raw::Record,
    store: Box<[u8]>,
}

/// Opening, and how steps are made.
impl Host {
    /// `InterfacesRefused` if the list fails the opening check.
    pub fn open(interfaces: &[Interface]) -> Result<Host, Refusal> {
        let list: Vec<raw::Interface> = interfaces.iter().map(|i| i.to_raw()).collect();
        let mut store = vec![0; STORE].into_boxed_slice();
        let reply = raw::open(&list, &mut store);
        match Refusal::from_answer(&reply.answer) {
            Some(refusal) => Err(refusal),
            None => Ok(Host::from_parts(reply.next, store)),
        }
    }

    /// A host that was kept elsewhere. Every step checks both parts, so that
    /// damage is answered with `NotWellFormed` or `OtherStore`.
    pub fn from_parts(record: raw::Record, store: Box<[u8]>) -> Host {
        Host { record, store }
    }

    pub fn into_parts(self) -> (raw::Record, Box<[u8]>) {
        (self.record, self.store)
    }

    pub fn record(&self) -> &raw::Record {
        &self.record
    }

    pub fn store(&self) -> &[u8] {
        &self.store
    }

    fn make(
        &mut self,
        request: Request,
        payload: &[u8],
        buffer: &mut [u8],
    ) -> Result<raw::Answer, Refusal> {
        let reply = raw::step(self.record, &mut self.store, request, payload, buffer);
        self.record = reply.next;
        match Refusal::from_answer(&reply.answer) {
            Some(refusal) => Err(refusal),
            None => Ok(reply.answer),
        }
    }

    /// A step that is lent neither payload nor buffer.
    fn ask(&mut self, request: Request) -> Result<raw::Answer, Refusal> {
        self.make(request, &[], &mut [])
    }
}

fn request(kind: u8) -> Request {
    Request {
        kind,
        ..Request::default()
    }
}

fn request_of(kind: u8, descriptor: Descriptor) -> Request {
    Request {
        descriptor: descriptor.number(),
        ..request(kind)
    }
}

fn request_with(kind: u8, descriptor: Descriptor, endpoint: Endpoint) -> Request {
    Request {
        address: endpoint.address.into(),
        port: endpoint.port.0,
        ..request_of(kind, descriptor)
    }
}

/// Sockets and their names.
impl Host {
    /// Opens the socket with the lowest closed descriptor.
    pub fn socket(&mut self) -> Result<Descriptor, Refusal> {
        let answer = self.ask(request(kind::SOCKET))?;
        Ok(Descriptor::from_answer(&answer))
    }

    /// Gives the socket a local pair. [`Port::ANY`](crate::Port::ANY) takes the
    /// lowest free port from 1024.
    pub fn bind(&mut self, descriptor: Descriptor, local: Endpoint) -> Result<(), Refusal> {
        self.ask(request_with(kind::BIND, descriptor, local))?;
        Ok(())
    }

    /// Gives the socket a peer, of one port or of any, and a local pair if it
    /// has none.
    pub fn connect(&mut self, descriptor: Descriptor, remote: Endpoint) -> Result<(), Refusal> {
        self.ask(request_with(kind::CONNECT, descriptor, remote))?;
        Ok(())
    }

    pub fn disconnect(&mut self, descriptor: Descriptor) -> Result<(), Refusal> {
        self.ask(request_of(kind::DISCONNECT, descriptor))?;
        Ok(())
    }

    /// The local pair; what is absent is 0.
    pub fn getsockname(&mut self, descriptor: Descriptor) -> Result<Endpoint, Refusal> {
        let answer = self.ask(request_of(kind::GETSOCKNAME, descriptor))?;
        Ok(Endpoint::from_raw(answer.address, answer.port))
    }

    /// The remote pair; `NoPeer` if it has no address.
    pub fn getpeername(&mut self, descriptor: Descriptor) -> Result<Endpoint, Refusal> {
        let answer = self.ask(request_of(kind::GETPEERNAME, descriptor))?;
        Ok(Endpoint::from_raw(answer.address, answer.port))
    }

    /// Drops what the socket holds.
    pub fn close(&mut self, descriptor: Descriptor) -> Result<(), Refusal> {
        self.ask(request_of(kind::CLOSE, descriptor))?;
        Ok(())
    }

    /// Closes every socket and ends the thread. What is to go out stays.
    pub fn exit(&mut self) -> Result<(), Refusal> {
        self.ask(request(kind::EXIT))?;
        Ok(())
    }
}

/// Errors, options and readiness.
impl Host {
    /// The pending error, which this clears: `ConnectionRefused` or none.
    pub fn geterr(&mut self, descriptor: Descriptor) -> Result<Option<Refusal>, Refusal> {
        let answer = self.ask(request_of(kind::GETERR, descriptor))?;
        Ok((answer.value != 0).then_some(Refusal::ConnectionRefused))
    }

    pub fn getopt(
        &mut self,
        descriptor: Descriptor,
        option: SocketOption,
    ) -> Result<bool, Refusal> {
        let answer = self.ask(Request {
            option: option.number(),
            ..request_of(kind::GETOPT, descriptor)
        })?;
        Ok(answer.value != 0)
    }

    /// Reuse can be set only while there is no local port.
    pub fn setopt(
        &mut self,
        descriptor: Descriptor,
        option: SocketOption,
        on: bool,
    ) -> Result<(), Refusal> {
        self.ask(Request {
            option: option.number(),
            on,
            ..request_of(kind::SETOPT, descriptor)
        })?;
        Ok(())
    }

    /// Which of these can be read from, and which can be sent from.
    pub fn poll(&mut self, readers: Descriptors, writers: Descriptors) -> Result<Ready, Refusal> {
        let answer = self.ask(Request {
            readers: readers.mask(),
            writers: writers.mask(),
            ..request(kind::POLL)
        })?;
        Ok(Ready {
            readable: Descriptors::from_mask(answer.readable),
            writable: Descriptors::from_mask(answer.writable),
        })
    }
}

/// Sending and reading.
impl Host {
    /// Queues a datagram to go out, to the peer if no one is named.
    pub fn sendto(
        &mut self,
        descriptor: Descriptor,
        to: Option<Endpoint>,
        payload: &[u8],
    ) -> Result<(), Refusal> {
        let to = to.unwrap_or(Endpoint::ABSENT);
        let request = request_with(kind::SENDTO, descriptor, to);
        self.make(request, payload, &mut [])?;
        Ok(())
    }

    /// Reads the oldest datagram, or waits for one.
    pub fn recvfrom<'b>(
        &mut self,
        descriptor: Descriptor,
        buffer: &'b mut [u8],
    ) -> Result<Read<'b>, Refusal> {
        let answer = self.make(request_of(kind::RECVFROM, descriptor), &[], buffer)?;
        Ok(Read::from_answer(&answer, buffer))
    }

    /// Reads the oldest datagram; `WouldWait` if there is none.
    pub fn recvfrom_nonblocking<'b>(
        &mut self,
        descriptor: Descriptor,
        buffer: &'b mut [u8],
    ) -> Result<Received<'b>, Refusal> {
        let request = Request {
            on: true,
            ..request_of(kind::RECVFROM, descriptor)
        };
        let answer = self.make(request, &[], buffer)?;
        Ok(Received::from_answer(&answer, buffer))
    }

    /// What recvfrom waits for. `BadArgument` if the thread does not wait.
    pub fn resume<'b>(&mut self, buffer: &'b mut [u8]) -> Result<Read<'b>, Refusal> {
        let answer = self.make(request(kind::RESUME), &[], buffer)?;
        Ok(Read::from_answer(&answer, buffer))
    }

    /// Ends the wait. `BadArgument` if the thread does not wait.
    pub fn interrupt(&mut self) -> Result<(), Refusal> {
        self.ask(request(kind::INTERRUPT))?;
        Ok(())
    }
}

/// Arrivals and the out step: the thread is not asked. Of a host that was
/// opened here they are never refused.
impl Host {
    pub fn datagram(&mut self, flow: Flow, payload: &[u8]) -> Result<Arrival, Refusal> {
        let request = Request {
            flow: flow.to_raw(),
            ..request(kind::DATAGRAM)
        };
        let answer = self.make(request, payload, &mut [])?;
        Ok(Arrival::from_answer(&answer))
    }

    /// PORT and HOST notices are heard alike.
    pub fn notice(&mut self, notice: Notice) -> Result<Arrival, Refusal> {
        let answer = self.ask(Request {
            src: notice.source.into(),
            dst: notice.destination.into(),
            flow: notice.embedded.to_raw(),
            ..request(kind::NOTICE)
        })?;
        Ok(Arrival::from_answer(&answer))
    }

    /// Takes the oldest item of the out-queue.
    pub fn out_step<'b>(&mut self, buffer: &'b mut [u8; PAYLOAD]) -> Result<OutStep<'b>, Refusal> {
        let answer = self.make(request(kind::OUT_STEP), &[], buffer)?;
        Ok(OutStep::from_answer(&answer, buffer))
    }
}
