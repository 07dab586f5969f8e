//! From the proved host's record to the model's, and from the model's answer to
//! the proved host's.

use model::host::{Answer, Datagram, Ends, Host, Interface, OutItem, Pair, Socket, Thread};
use model::host::{Unreachable, OUT_LIMIT, QUEUE_LIMIT, SOCKETS};
use udphost::raw;

/// The model's host but for the store; no two records give the same. None where
/// the model has no room for what the record holds: a count over its limit,
/// something in an unused place, a kind of item or of thread that there isn't.
/// Such a record is not well formed.
pub fn host(record: &raw::Record) -> Option<Host> {
    let interfaces = used(&record.interfaces, record.icount)?;
    let items = used(&record.out.items, record.out.count)?;
    let sockets = (0..SOCKETS).map(|k| socket(record, k));
    let sockets: Vec<Socket> = sockets.collect::<Option<_>>()?;
    Some(Host {
        interfaces: interfaces.iter().map(interface).collect(),
        sockets: sockets.try_into().ok()?,
        out_queue: items.iter().map(out_item).collect::<Option<_>>()?,
        thread: thread(record)?,
        store: Vec::new(),
    })
}

/// The places in use, if all others are zero.
fn used<T: Default + PartialEq>(places: &[T], count: u8) -> Option<&[T]> {
    let count = usize::from(count);
    let unused = places.get(count..)?;
    let zero = T::default();
    unused
        .iter()
        .all(|place| *place == zero)
        .then(|| &places[..count])
}

/// As many addresses as stand before the first 0; one behind that makes the
/// interface a bad one in the model too.
pub fn interface(from: &raw::Interface) -> Interface {
    let addresses = [from.first, from.second, from.third, from.fourth];
    Interface {
        id: from.id.into(),
        count: addresses.iter().take_while(|&&a| a != 0).count(),
        addresses,
        mask: from.mask,
    }
}

fn socket(record: &raw::Record, k: usize) -> Option<Socket> {
    let from = &record.sockets[k];
    let places = &record.queues.heads[k * QUEUE_LIMIT..(k + 1) * QUEUE_LIMIT];
    let heads = used(places, record.queues.counts[k])?;
    Some(Socket {
        open: from.live,
        local: Pair::new(from.laddr, from.lport),
        remote: Pair::new(from.raddr, from.rport),
        error: from.error,
        bsdcompat: from.bsdcompat,
        reuse: from.reuse,
        queue: heads.iter().map(datagram).collect(),
    })
}

fn datagram(head: &raw::Queued) -> Datagram {
    Datagram {
        interface: head.iface.into(),
        ends: ends(&head.flow),
        length: head.len.into(),
    }
}

pub fn ends(flow: &raw::Flow) -> Ends {
    Ends::new(
        Pair::new(flow.src, flow.sport),
        Pair::new(flow.dst, flow.dport),
    )
}

fn out_item(from: &raw::OutItem) -> Option<OutItem> {
    let embedded = ends(&from.flow);
    let notice = |kind| OutItem::Notice {
        kind,
        source: from.flow.dst,
        destination: from.flow.src,
        embedded,
    };
    match (from.kind, from.len) {
        (0, len) => Some(OutItem::Datagram {
            ends: embedded,
            length: len.into(),
        }),
        (1, 0) => Some(notice(Unreachable::Port)),
        (2, 0) => Some(notice(Unreachable::Host)),
        _ => None,
    }
}

fn thread(record: &raw::Record) -> Option<Thread> {
    match (record.thread, record.awaited) {
        (0, 0) => Some(Thread::Running),
        (1, descriptor) => Some(Thread::Waiting(descriptor)),
        (2, 0) => Some(Thread::Ended),
        _ => None,
    }
}

/// An emitted item has its length in itself.
pub fn answer(from: &Answer) -> raw::Answer {
    let item = from.item.as_ref().map(raw_item);
    raw::Answer {
        item: item.unwrap_or_default(),
        address: from.pair.address,
        port: from.pair.port,
        len: if item.is_some() {
            0
        } else {
            from.length as u16
        },
        readable: from.to_read,
        writable: from.to_write,
        number: from.number,
        descriptor: from.descriptor,
        value: from.value,
    }
}

fn raw_item(from: &OutItem) -> raw::OutItem {
    let (ends, kind) = match from {
        OutItem::Datagram { ends, .. } => (ends, 0),
        OutItem::Notice { kind, embedded, .. } => match kind {
            Unreachable::Port => (embedded, 1),
            Unreachable::Host => (embedded, 2),
        },
    };
    raw::OutItem {
        flow: raw_flow(ends),
        len: from.length() as u16,
        kind,
    }
}

pub fn raw_flow(ends: &Ends) -> raw::Flow {
    raw::Flow {
        src: ends.source.address,
        dst: ends.destination.address,
        sport: ends.source.port,
        dport: ends.destination.port,
    }
}

const _: () = assert!(OUT_LIMIT == 16 && SOCKETS == 16 && QUEUE_LIMIT == 4);
