//! Document 01's cases, run: both sides of each line, and the rules around them.

mod calls;
mod queues;
mod records;
mod scripts;

use crate::host::{Address, Answer, Answered, Ends, Host, Interface, Pair, Port};
use crate::host::{REUSE, SLOT, STORE};

const OWN: Address = 0x0a02_0005;
const NINE: Address = 0x0a02_0009;
const EIGHT: Address = 0x0a02_0008;
const FAR: Address = 0xc633_6407;
const LOCALHOST: Address = 0x7f00_0001;
const MASK: u32 = 0xffff_ff00;

/// Document 01's host: one interface, id 1, 10.2.0.5 in 255.255.255.0.
fn host() -> Host {
    let (host, opened) = Host::open(&[Interface::single(1, OWN, MASK)], vec![7; STORE]);
    assert_eq!(number(opened), 0);
    host
}

/// Document 01's host with so many new sockets.
fn host_with(sockets: u8) -> Host {
    let mut host = host();
    for descriptor in 0..sockets {
        assert_eq!(given(host.socket()).descriptor, descriptor);
    }
    host
}

fn given(answered: Answered) -> Answer {
    match answered {
        Ok(answer) | Err(answer) => answer,
    }
}

fn number(answered: Answered) -> u8 {
    given(answered).number
}

fn ends(s: Address, sp: Port, d: Address, dp: Port) -> Ends {
    Ends::new(Pair::new(s, sp), Pair::new(d, dp))
}

fn arrive(host: &mut Host, ends: Ends, payload: &[u8]) -> Answer {
    given(host.arriving_datagram(ends, payload))
}

fn out(host: &mut Host) -> Answer {
    given(host.out(&mut [0; SLOT]))
}

fn receive(host: &mut Host, descriptor: u8) -> Answer {
    given(host.recvfrom(descriptor, true, &mut [0; SLOT]))
}

fn bind_reused(host: &mut Host, descriptor: u8, address: Address) {
    assert_eq!(number(host.setopt(descriptor, REUSE, true)), 0);
    assert_eq!(number(host.bind(descriptor, address, 7000)), 0);
}

/// Document 01's sockets 0 to 3.
fn four_sockets() -> Host {
    let mut host = host_with(4);
    bind_reused(&mut host, 0, 0);
    (1..4).for_each(|descriptor| bind_reused(&mut host, descriptor, OWN));
    assert_eq!(number(host.connect(2, NINE, 0)), 0);
    assert_eq!(number(host.connect(3, NINE, 6000)), 0);
    host
}
