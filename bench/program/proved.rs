//! The proved host, by its static library, through the structs and the one function of `bindings/rust` that make a step.
//! The record crosses by value, in and out.

use crate::hosts::{interface, soiled_store};
use model::script::{kind, Step};
use plain::record::{self, Flow, Interface, OutItem, Queued, Socket, Thread};
use plain::Answer;
use udphost::raw;

const REUSE: u8 = 2;

pub struct Proved {
    record: raw::Record,
    pub store: Vec<u8>,
}

impl Proved {
    /// Opening zeroes the store, so it is soiled afterwards.
    pub fn open() -> Proved {
        let x = interface();
        let list = [raw::Interface {
            mask: x.mask,
            first: x.addresses[0],
            id: x.id,
            ..raw::Interface::default()
        }];
        Proved {
            record: raw::open(&list, &mut soiled_store()).next,
            store: soiled_store(),
        }
    }

    pub fn make(&mut self, step: &Step, payload: &[u8], buffer: &mut [u8]) -> Answer {
        let reply = raw::step(
            self.record,
            &mut self.store,
            request_of(step),
            payload,
            buffer,
        );
        self.record = reply.next;
        let answer = reply.answer;
        Answer {
            item: item_of(answer.item),
            address: answer.address,
            port: answer.port,
            len: answer.len,
            number: answer.number,
            descriptor: answer.descriptor,
        }
    }

    /// The record as the plain host has it.
    pub fn record(&self) -> record::Record {
        let kept = self.record;
        record::Record {
            interfaces: kept.interfaces.map(interface_of),
            sockets: kept.sockets.map(socket_of),
            heads: kept.queues.heads.map(head_of),
            counts: kept.queues.counts,
            items: kept.out.items.map(item_of),
            ocount: kept.out.count,
            thread: match kept.thread {
                0 => Thread::Running,
                1 => Thread::Waiting(kept.awaited),
                _ => Thread::Ended,
            },
            icount: kept.icount,
        }
    }
}

fn interface_of(x: raw::Interface) -> Interface {
    Interface {
        mask: x.mask,
        addresses: [x.first, x.second, x.third, x.fourth],
        id: x.id,
    }
}

fn socket_of(s: raw::Socket) -> Socket {
    Socket {
        laddr: s.laddr,
        raddr: s.raddr,
        lport: s.lport,
        rport: s.rport,
        live: s.live,
        error: s.error,
        bsdcompat: s.bsdcompat,
        reuse: s.reuse,
    }
}

fn flow_of(f: raw::Flow) -> Flow {
    Flow {
        src: f.src,
        dst: f.dst,
        sport: f.sport,
        dport: f.dport,
    }
}

fn head_of(h: raw::Queued) -> Queued {
    Queued {
        flow: flow_of(h.flow),
        len: h.len,
        iface: h.iface,
    }
}

fn item_of(x: raw::OutItem) -> OutItem {
    OutItem {
        flow: flow_of(x.flow),
        len: x.len,
        kind: x.kind,
    }
}

/// A script's reads never wait, its only option is reuse, and its notice goes from B to A.
fn request_of(step: &Step) -> raw::Request {
    raw::Request {
        flow: raw::Flow {
            src: step.a,
            dst: step.b,
            sport: step.p,
            dport: step.q,
        },
        src: step.b,
        dst: step.a,
        address: step.a,
        port: step.p,
        kind: step.kind,
        descriptor: step.descriptor,
        option: REUSE,
        on: step.kind == kind::RECVFROM || step.p != 0,
        ..raw::Request::default()
    }
}
