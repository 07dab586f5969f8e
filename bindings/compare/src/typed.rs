//! The same step by the wrapper's methods, and what they give as an answer
//! again: nothing may be lost on the way.

use crate::differences::{same_answer, same_bytes, METHOD};
use crate::step::Step;
use crate::world::Made;
use model::host::{BSDCOMPAT, REUSE};
use std::net::Ipv4Addr;
use udphost::raw::{self, kind};
use udphost::{Arrival, Descriptor, Descriptors, Endpoint, Flow, Host, Notice, OutStep};
use udphost::{Outgoing, Port, Read, Received, Refusal, SocketOption, Unreachable};

/// All sixteen descriptors, got from a host as anyone has to.
pub struct Methods {
    descriptors: Vec<Descriptor>,
}

impl Methods {
    pub fn new() -> Methods {
        let mut host = Host::open(&[]).expect("a host needs no interface");
        let sockets = (0..16).map(|_| host.socket().expect("16 sockets"));
        Methods {
            descriptors: sockets.collect(),
        }
    }

    /// Whether a method could make the step. Then it has to give what the
    /// library gave.
    pub fn make(&self, host: &mut Host, step: &Step, made: &Made) -> Result<bool, String> {
        let mut buffer = step.buffer.clone();
        let said = match self.said(host, step, &mut buffer) {
            Some(said) => said,
            None => return Ok(false),
        };
        same_answer(METHOD, &said, &made.answer)?;
        same_bytes(METHOD, "the buffer", &buffer, &made.buffer)?;
        Ok(true)
    }

    fn said(&self, host: &mut Host, step: &Step, buffer: &mut [u8]) -> Option<raw::Answer> {
        match step.request.kind {
            kind::SOCKET | kind::EXIT | kind::INTERRUPT | kind::POLL => self.of_all(host, step),
            kind::DATAGRAM | kind::NOTICE => Some(arrived(host, step)),
            kind::OUT_STEP => out_step(host, buffer),
            kind::RESUME => Some(answer(host.resume(buffer), read)),
            kind::SENDTO | kind::RECVFROM => self.lent(host, step, buffer),
            kind::SETOPT | kind::GETOPT => self.optional(host, step),
            kind::BIND..=kind::GETERR => self.named(host, step),
            _ => None,
        }
    }

    fn descriptor(&self, step: &Step) -> Option<Descriptor> {
        let place = usize::from(step.request.descriptor);
        self.descriptors.get(place).copied()
    }

    fn set(&self, mask: u16) -> Descriptors {
        let named = |d: &&Descriptor| mask >> d.number() & 1 == 1;
        self.descriptors.iter().filter(named).copied().collect()
    }

    fn of_all(&self, host: &mut Host, step: &Step) -> Option<raw::Answer> {
        let q = &step.request;
        Some(match q.kind {
            kind::SOCKET => answer(host.socket(), |d| with_descriptor(0, d)),
            kind::EXIT => answer(host.exit(), done),
            kind::INTERRUPT => answer(host.interrupt(), done),
            _ => {
                let ready = host.poll(self.set(q.readers), self.set(q.writers));
                answer(ready, |ready| raw::Answer {
                    readable: ready.readable.mask(),
                    writable: ready.writable.mask(),
                    ..number(0)
                })
            }
        })
    }

    fn named(&self, host: &mut Host, step: &Step) -> Option<raw::Answer> {
        let d = self.descriptor(step)?;
        let place = endpoint(step);
        Some(match step.request.kind {
            kind::BIND => answer(host.bind(d, place), done),
            kind::CONNECT => answer(host.connect(d, place), done),
            kind::DISCONNECT => answer(host.disconnect(d), done),
            kind::CLOSE => answer(host.close(d), done),
            kind::GETSOCKNAME => answer(host.getsockname(d), with_endpoint),
            kind::GETPEERNAME => answer(host.getpeername(d), with_endpoint),
            _ => answer(host.geterr(d), |error| {
                with_value(error.map_or(0, Refusal::number))
            }),
        })
    }

    fn optional(&self, host: &mut Host, step: &Step) -> Option<raw::Answer> {
        let d = self.descriptor(step)?;
        let option = match step.request.option.into() {
            BSDCOMPAT => SocketOption::Bsdcompat,
            REUSE => SocketOption::Reuse,
            _ => return None,
        };
        Some(match step.request.kind {
            kind::GETOPT => answer(host.getopt(d, option), |on| with_value(on.into())),
            _ => answer(host.setopt(d, option, step.request.on), done),
        })
    }

    fn lent(&self, host: &mut Host, step: &Step, buffer: &mut [u8]) -> Option<raw::Answer> {
        let d = self.descriptor(step)?;
        let place = endpoint(step);
        let to = (place != Endpoint::ABSENT).then_some(place);
        Some(match (step.request.kind, step.request.on) {
            (kind::SENDTO, _) => answer(host.sendto(d, to, &step.payload), done),
            (_, true) => answer(host.recvfrom_nonblocking(d, buffer), received),
            (_, false) => answer(host.recvfrom(d, buffer), read),
        })
    }
}

/// The method lends exactly as much as any payload needs.
fn out_step(host: &mut Host, buffer: &mut [u8]) -> Option<raw::Answer> {
    let buffer = buffer.try_into().ok()?;
    Some(answer(host.out_step(buffer), |step| match step {
        OutStep::Emitted(outgoing) => raw::Answer {
            item: item(outgoing),
            ..number(30)
        },
        OutStep::Empty => number(31),
        OutStep::Discarded => number(32),
        OutStep::Inside(arrival) => landed(arrival),
    }))
}

fn item(outgoing: Outgoing<'_>) -> raw::OutItem {
    match outgoing {
        Outgoing::Datagram { flow, payload } => raw::OutItem {
            flow: raw_flow(flow),
            len: payload.len() as u16,
            kind: 0,
        },
        Outgoing::Notice { what, notice } => raw::OutItem {
            flow: raw::Flow {
                src: notice.destination.into(),
                dst: notice.source.into(),
                ..raw_flow(notice.embedded)
            },
            len: 0,
            kind: match what {
                Unreachable::Port => 1,
                Unreachable::Host => 2,
            },
        },
    }
}

fn arrived(host: &mut Host, step: &Step) -> raw::Answer {
    let q = &step.request;
    let flow = Flow {
        source: Endpoint::new(Ipv4Addr::from(q.flow.src), Port(q.flow.sport)),
        destination: Endpoint::new(Ipv4Addr::from(q.flow.dst), Port(q.flow.dport)),
    };
    if q.kind == kind::DATAGRAM {
        return answer(host.datagram(flow, &step.payload), landed);
    }
    let notice = Notice {
        source: Ipv4Addr::from(q.src),
        destination: Ipv4Addr::from(q.dst),
        embedded: flow,
    };
    answer(host.notice(notice), landed)
}

fn landed(arrival: Arrival) -> raw::Answer {
    match arrival {
        Arrival::Delivered(d) | Arrival::Dropped(d) => with_descriptor(arrival.number(), d),
        other => number(other.number()),
    }
}

fn answer<T>(result: Result<T, Refusal>, give: impl FnOnce(T) -> raw::Answer) -> raw::Answer {
    match result {
        Ok(given) => give(given),
        Err(Refusal::ShortBuffer { needed }) => raw::Answer {
            len: needed as u16,
            ..number(16)
        },
        Err(refusal) => number(refusal.number()),
    }
}

fn number(number: u8) -> raw::Answer {
    raw::Answer {
        number,
        ..raw::Answer::default()
    }
}

fn done(_: ()) -> raw::Answer {
    number(0)
}

fn with_descriptor(given: u8, descriptor: Descriptor) -> raw::Answer {
    raw::Answer {
        descriptor: descriptor.number(),
        ..number(given)
    }
}

fn with_value(value: u8) -> raw::Answer {
    raw::Answer { value, ..number(0) }
}

fn with_endpoint(endpoint: Endpoint) -> raw::Answer {
    raw::Answer {
        address: endpoint.address.into(),
        port: endpoint.port.0,
        ..number(0)
    }
}

fn received(received: Received<'_>) -> raw::Answer {
    raw::Answer {
        len: received.payload.len() as u16,
        ..with_endpoint(received.from)
    }
}

fn read(read: Read<'_>) -> raw::Answer {
    match read {
        Read::Datagram(datagram) => received(datagram),
        Read::Waiting => number(18),
    }
}

fn endpoint(step: &Step) -> Endpoint {
    let q = &step.request;
    Endpoint::new(Ipv4Addr::from(q.address), Port(q.port))
}

fn raw_flow(flow: Flow) -> raw::Flow {
    raw::Flow {
        src: flow.source.address.into(),
        dst: flow.destination.address.into(),
        sport: flow.source.port.0,
        dport: flow.destination.port.0,
    }
}
