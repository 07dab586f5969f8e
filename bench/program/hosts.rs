//! The hosts that are compared, each playing the steps of a script.

use crate::proved::Proved;
use model::host as modelled;
use model::host::{Answered, Ends, Pair, Unreachable};
use model::script::{kind, Step};
use plain::record::{Flow, Interface, OutItem, Record};
use plain::{Answer, Host, STORE};

/// The one interface of every case.
pub const ADDRESS: u32 = 0x0a02_0005;
pub const MASK: u32 = 0xffff_ff00;

const REUSE: u8 = 2;

/// The bytes of a store are never checked, so these may be in it at first. A slot that was not zeroed then shows.
pub fn soiled_store() -> Vec<u8> {
    vec![0xee; STORE]
}

pub fn interface() -> Interface {
    Interface {
        mask: MASK,
        addresses: [ADDRESS, 0, 0, 0],
        id: 1,
    }
}

pub fn flow_of(step: &Step) -> Flow {
    Flow {
        src: step.a,
        dst: step.b,
        sport: step.p,
        dport: step.q,
    }
}

/// A host with its store. A step's kind and fields are those of a script.
pub trait Player {
    fn step(&mut self, step: &Step, payload: &[u8], buffer: &mut [u8]) -> Answer;
    fn store(&self) -> &[u8];
    /// Nothing where the record has another shape.
    fn record(&self) -> Option<Record>;
}

/// The plain host, with the record's check at every step or without.
pub struct Plain<const CHECK: bool> {
    host: Host<CHECK>,
    store: Vec<u8>,
}

impl<const CHECK: bool> Plain<CHECK> {
    pub fn open() -> Self {
        Plain {
            host: Host::with_interface(interface()),
            store: soiled_store(),
        }
    }
}

impl<const CHECK: bool> Player for Plain<CHECK> {
    fn step(&mut self, step: &Step, payload: &[u8], buffer: &mut [u8]) -> Answer {
        let Step {
            descriptor,
            a,
            p,
            b,
            ..
        } = *step;
        let (host, store) = (&mut self.host, &mut self.store[..]);
        match step.kind {
            kind::SOCKET => host.socket(store),
            kind::BIND => host.bind(store, descriptor, a, p),
            kind::CONNECT => host.connect(store, descriptor, a, p),
            kind::SENDTO => host.sendto(store, descriptor, a, p, payload),
            kind::RECVFROM => host.recvfrom(store, descriptor, true, buffer),
            kind::CLOSE => host.close(store, descriptor),
            kind::SET_REUSE => host.setopt(store, descriptor, REUSE, p != 0),
            kind::DATAGRAM => host.datagram(store, flow_of(step), payload),
            kind::NOTICE => host.notice(store, b, a, flow_of(step)),
            kind::OUT => host.out_step(store, buffer),
            other => panic!("the plain host has no step of kind {other}"),
        }
    }

    fn store(&self) -> &[u8] {
        &self.store
    }

    fn record(&self) -> Option<Record> {
        Some(self.host.record)
    }
}

impl Player for Proved {
    fn step(&mut self, step: &Step, payload: &[u8], buffer: &mut [u8]) -> Answer {
        self.make(step, payload, buffer)
    }

    fn store(&self) -> &[u8] {
        &self.store
    }

    fn record(&self) -> Option<Record> {
        Some(self.record())
    }
}

/// The model of the tests.
pub struct Modelled(modelled::Host);

impl Modelled {
    pub fn open() -> Modelled {
        let interface = modelled::Interface::single(1, ADDRESS, MASK);
        let (mut host, _) = modelled::Host::open(&[interface], soiled_store());
        host.store = soiled_store();
        Modelled(host)
    }

    fn answered(&mut self, step: &Step, payload: &[u8], buffer: &mut [u8]) -> Answered {
        let Step {
            descriptor,
            a,
            p,
            b,
            q,
            ..
        } = *step;
        let ends = Ends::new(Pair::new(a, p), Pair::new(b, q));
        let host = &mut self.0;
        match step.kind {
            kind::SOCKET => host.socket(),
            kind::BIND => host.bind(descriptor, a, p),
            kind::CONNECT => host.connect(descriptor, a, p),
            kind::SENDTO => host.sendto(descriptor, a, p, payload),
            kind::RECVFROM => host.recvfrom(descriptor, true, buffer),
            kind::CLOSE => host.close(descriptor),
            kind::SET_REUSE => host.setopt(descriptor, REUSE.into(), p != 0),
            kind::DATAGRAM => host.arriving_datagram(ends, payload),
            kind::NOTICE => host.arriving_notice(Unreachable::Port, b, a, ends),
            kind::OUT => host.out(buffer),
            other => panic!("no case has a step of kind {other}"),
        }
    }
}

impl Player for Modelled {
    fn step(&mut self, step: &Step, payload: &[u8], buffer: &mut [u8]) -> Answer {
        match self.answered(step, payload, buffer) {
            Ok(answer) | Err(answer) => in_common(answer),
        }
    }

    fn store(&self) -> &[u8] {
        &self.0.store
    }

    fn record(&self) -> Option<Record> {
        None
    }
}

/// An emitted item has its length in itself, a read beside it.
fn in_common(answer: modelled::Answer) -> Answer {
    let len = match answer.item {
        Some(_) => 0,
        None => answer.length as u16,
    };
    Answer {
        item: answer.item.map(item_in_common).unwrap_or_default(),
        address: answer.pair.address,
        port: answer.pair.port,
        len,
        number: answer.number,
        descriptor: answer.descriptor,
    }
}

fn item_in_common(item: modelled::OutItem) -> OutItem {
    let (ends, kind) = match item {
        modelled::OutItem::Datagram { ends, .. } => (ends, 0),
        modelled::OutItem::Notice { embedded, kind, .. } => match kind {
            Unreachable::Port => (embedded, 1),
            Unreachable::Host => (embedded, 2),
        },
    };
    let flow = Flow {
        src: ends.source.address,
        dst: ends.destination.address,
        sport: ends.source.port,
        dport: ends.destination.port,
    };
    let len = item.length() as u16;
    OutItem { flow, len, kind }
}
