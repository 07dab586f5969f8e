//! A step for both hosts.

use crate::convert;
use model::host::{Address, Answer, Answered, Host, Port, Unreachable, STORE};
use model::words;
use udphost::raw::{kind, Request};

/// A request with what is lent to it.
#[derive(Clone, Debug)]
pub struct Step {
    pub request: Request,
    pub payload: Vec<u8>,
    pub buffer: Vec<u8>,
}

impl Step {
    /// The model's answer. It changes the model, and the buffer where the model
    /// would.
    pub fn on_model(&self, host: &mut Host, buffer: &mut [u8]) -> Answer {
        match self.answered(host, buffer) {
            Ok(answer) | Err(answer) => answer,
        }
    }

    fn answered(&self, host: &mut Host, buffer: &mut [u8]) -> Answered {
        let q = &self.request;
        let d = q.descriptor;
        let ends = convert::ends(&q.flow);
        match q.kind {
            kind::SOCKET => host.socket(),
            kind::BIND => host.bind(d, q.address, q.port),
            kind::CONNECT => host.connect(d, q.address, q.port),
            kind::DISCONNECT => host.disconnect(d),
            kind::SENDTO => host.sendto(d, q.address, q.port, &self.payload),
            kind::RECVFROM => host.recvfrom(d, q.on, buffer),
            kind::CLOSE => host.close(d),
            kind::SETOPT => host.setopt(d, q.option.into(), q.on),
            kind::DATAGRAM => host.arriving_datagram(ends, &self.payload),
            kind::NOTICE => host.arriving_notice(Unreachable::Port, q.src, q.dst, ends),
            kind::OUT_STEP => host.out(buffer),
            kind::EXIT => host.exit(),
            kind::GETSOCKNAME => host.getsockname(d),
            kind::GETPEERNAME => host.getpeername(d),
            kind::GETERR => host.geterr(d),
            kind::GETOPT => host.getopt(d, q.option.into()),
            kind::RESUME => host.resume(buffer),
            kind::INTERRUPT => host.interrupt(),
            kind::POLL => host.poll(q.readers, q.writers),
            _ => Ok(no_step(host)),
        }
    }

    pub fn in_words(&self) -> String {
        let q = &self.request;
        let d = q.descriptor;
        let to = pair(q.address, q.port);
        let payload = self.payload.len();
        let buffer = self.buffer.len();
        match q.kind {
            kind::BIND => format!("bind {d} to {to}"),
            kind::CONNECT => format!("connect {d} to {to}"),
            kind::SENDTO => format!("sendto {d} to {to}, {payload} bytes"),
            kind::RECVFROM => format!("recvfrom {d}, nonblocking {}, buffer {buffer}", q.on),
            kind::SETOPT => format!("setopt {d}, option {} to {}", q.option, q.on),
            kind::GETOPT => format!("getopt {d}, option {}", q.option),
            kind::DATAGRAM => format!("datagram {}, {payload} bytes", self.flow_in_words()),
            kind::NOTICE => format!(
                "notice from {} to {} embedding {}",
                words::address(q.src),
                words::address(q.dst),
                self.flow_in_words()
            ),
            kind::OUT_STEP | kind::RESUME => format!("{}, buffer {buffer}", name(q.kind)),
            kind::POLL => format!(
                "poll {:#06x} to read, {:#06x} to write",
                q.readers, q.writers
            ),
            kind::SOCKET | kind::EXIT | kind::INTERRUPT => name(q.kind),
            other => format!("{} {d}", name(other)),
        }
    }

    fn flow_in_words(&self) -> String {
        let flow = &self.request.flow;
        let from = pair(flow.src, flow.sport);
        format!("{from} to {}", pair(flow.dst, flow.dport))
    }
}

fn pair(address: Address, port: Port) -> String {
    format!("{}:{port}", words::address(address))
}

/// A kind that is none: 1 and 2 as of every step, then 6.
fn no_step(host: &Host) -> Answer {
    let number = match (host.well_formed(), host.store.len()) {
        (false, _) => 1,
        (true, STORE) => 6,
        (true, _) => 2,
    };
    Answer {
        number,
        ..Answer::default()
    }
}

/// The step's name; a number for what is none.
pub fn name(kind: u8) -> String {
    const NAMES: [&str; 19] = [
        "socket",
        "bind",
        "connect",
        "disconnect",
        "sendto",
        "recvfrom",
        "close",
        "setopt",
        "datagram",
        "notice",
        "out step",
        "exit",
        "getsockname",
        "getpeername",
        "geterr",
        "getopt",
        "resume",
        "interrupt",
        "poll",
    ];
    match NAMES.get(usize::from(kind).wrapping_sub(1)) {
        Some(name) => name.to_string(),
        None => format!("kind {kind}"),
    }
}
