//! The box and the laptop that wakes at eleven. One socket enrols laptops that
//! nobody knows yet, another on the same port belongs to a laptop that is known.
//! Every answer is checked; the status is 0 only if all are as promised.

use std::error::Error;
use std::net::Ipv4Addr;
use udphost::{Arrival, Descriptor, Endpoint, Flow, Host, Interface, InterfaceId, Port};
use udphost::{Refusal, SocketOption, PAYLOAD};

type Checked = Result<(), Box<dyn Error>>;

const BOX: Endpoint = Endpoint::new(Ipv4Addr::new(10, 2, 0, 5), Port(7000));
const LAPTOP: Endpoint = Endpoint::new(Ipv4Addr::new(10, 2, 0, 9), Port(6000));
const STRANGER: Endpoint = Endpoint::new(Ipv4Addr::new(10, 2, 0, 8), Port(6000));

fn expect(right: bool, what: &str) -> Checked {
    if right {
        Ok(())
    } else {
        Err(format!("wrong: {what}").into())
    }
}

fn open_box() -> Result<Host, Refusal> {
    let mask = Ipv4Addr::new(255, 255, 255, 0);
    let wire = Interface::new(InterfaceId(1), mask, &[BOX.address])?;
    Host::open(&[wire])
}

/// A socket on the port that both share; reuse has to be on before the bind.
fn open_socket(host: &mut Host, local: Endpoint) -> Result<Descriptor, Refusal> {
    let socket = host.socket()?;
    host.setopt(socket, SocketOption::Reuse, true)?;
    host.bind(socket, local)?;
    Ok(socket)
}

/// A datagram comes in, and exactly this socket has to get it.
fn arrive(host: &mut Host, source: Endpoint, text: &str, whose: Descriptor) -> Checked {
    let flow = Flow {
        source,
        destination: BOX,
    };
    let landed = host.datagram(flow, text.as_bytes())?;
    expect(landed == Arrival::Delivered(whose), "the right socket")?;
    println!("\"{text}\" goes to socket {}", whose.number());
    Ok(())
}

fn read_back(host: &mut Host, socket: Descriptor, text: &str, from: Endpoint) -> Checked {
    let mut buffer = [0; PAYLOAD];
    let received = host.recvfrom_nonblocking(socket, &mut buffer)?;
    expect(received.from == from, "the sender")?;
    expect(received.payload == text.as_bytes(), "the payload")?;
    let read = String::from_utf8_lossy(received.payload);
    println!("socket {} reads \"{read}\"", socket.number());
    Ok(())
}

fn main() -> Checked {
    let mut host = open_box()?;
    println!("the box is open");
    let enrolment = open_socket(&mut host, Endpoint::any(BOX.port))?;
    let known = open_socket(&mut host, BOX)?;
    host.connect(known, LAPTOP)?;
    let numbers = (enrolment.number(), known.number());
    println!(
        "socket {} enrols, socket {} is the known laptop's",
        numbers.0, numbers.1
    );

    arrive(&mut host, STRANGER, "who are you", enrolment)?;
    println!("eleven o'clock: the laptop wakes");
    arrive(&mut host, LAPTOP, "good morning", known)?;

    read_back(&mut host, known, "good morning", LAPTOP)?;
    read_back(&mut host, enrolment, "who are you", STRANGER)?;
    let nothing = host.recvfrom_nonblocking(known, &mut []);
    expect(nothing == Err(Refusal::WouldWait), "nothing more")?;
    println!("all as it should be");
    Ok(())
}
