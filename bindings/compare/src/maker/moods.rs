//! Lists of choices; a mood lasts for several steps, so that queues fill and
//! sockets are set up.

use super::Maker;
use crate::step::Step;
use model::host::Host;

pub type Choice = fn(&mut Maker, &Host) -> Step;
pub type Mood = &'static [Choice];

pub const MOODS: [Mood; 12] = [
    SETTING_UP,
    SETTING_UP,
    RIVALS,
    RIVALS,
    ASKING,
    FILLING,
    FILLING_OUT,
    FILLING_FROM_INSIDE,
    DRAINING,
    INSIDE,
    WAKING,
    ANYTHING,
];

const SETTING_UP: Mood = &[
    Maker::socket,
    Maker::socket,
    Maker::socket,
    Maker::set_reuse,
    Maker::set_reuse,
    Maker::setopt,
    Maker::bind,
    Maker::bind,
    Maker::bind,
    Maker::connect,
    Maker::connect,
];
/// Sockets that share a port, and datagrams and notices that several match.
const RIVALS: Mood = &[
    Maker::rival,
    Maker::rival,
    Maker::rival,
    Maker::rival,
    Maker::rival,
    Maker::datagram_to_rivals,
    Maker::datagram_to_rivals,
    Maker::notice_to_rivals,
    Maker::recvfrom,
];
const ASKING: Mood = &[
    Maker::getsockname,
    Maker::getpeername,
    Maker::geterr,
    Maker::getopt,
    Maker::poll,
    Maker::poll,
    Maker::notice,
];
const FILLING: Mood = &[
    Maker::datagram,
    Maker::datagram,
    Maker::datagram,
    Maker::notice,
];
const FILLING_OUT: Mood = &[
    Maker::datagram_to_nobody,
    Maker::datagram_to_nobody,
    Maker::sendto,
    Maker::sendto,
    Maker::send_inside,
    Maker::poll,
];
/// Fills the out-queue of a host without interfaces too.
const FILLING_FROM_INSIDE: Mood = &[
    Maker::send_inside,
    Maker::send_inside,
    Maker::send_inside,
    Maker::send_inside,
    Maker::sendto,
];
const DRAINING: Mood = &[
    Maker::out,
    Maker::out,
    Maker::out,
    Maker::recvfrom,
    Maker::recvfrom,
];
const INSIDE: Mood = &[
    Maker::send_inside,
    Maker::send_inside,
    Maker::send_inside,
    Maker::out,
    Maker::out,
    Maker::out,
    Maker::setopt,
    Maker::close,
];
/// For a thread that waits, or is to.
pub const WAKING: Mood = &[
    Maker::wait,
    Maker::resume,
    Maker::resume,
    Maker::resume,
    Maker::interrupt,
    Maker::datagram,
    Maker::datagram,
    Maker::notice,
];
const ANYTHING: Mood = &[
    Maker::socket,
    Maker::socket,
    Maker::bind,
    Maker::connect,
    Maker::disconnect,
    Maker::getsockname,
    Maker::getpeername,
    Maker::geterr,
    Maker::getopt,
    Maker::setopt,
    Maker::sendto,
    Maker::send_inside,
    Maker::recvfrom,
    Maker::wait,
    Maker::resume,
    Maker::interrupt,
    Maker::poll,
    Maker::close,
    Maker::datagram,
    Maker::datagram_to_nobody,
    Maker::notice,
    Maker::out,
    Maker::no_kind,
];
