//! The addresses and ports that steps use.

use model::host::{Address, Port};
use model::maker::address;

pub const LOCALHOST: Address = address(127, 0, 0, 1);
/// LOOPBACK's ends, its primary and a neighbour of that.
pub const LOOPBACK: [Address; 4] = [
    address(127, 0, 0, 0),
    LOCALHOST,
    address(127, 0, 0, 2),
    address(127, 255, 255, 255),
];
pub const MARTIAN: [Address; 7] = [
    0,
    address(0, 0, 0, 1),
    address(0, 255, 255, 255),
    address(224, 0, 0, 0),
    address(239, 255, 255, 255),
    address(240, 0, 0, 0),
    address(255, 255, 255, 255),
];
/// The neighbours of LOOPBACK and MARTIAN, themselves neither.
pub const EDGE: [Address; 4] = [
    address(1, 0, 0, 0),
    address(126, 255, 255, 255),
    address(128, 0, 0, 0),
    address(223, 255, 255, 255),
];
pub const USUAL: Address = address(10, 2, 0, 5);
pub const NEAR: [Address; 3] = [
    address(10, 2, 0, 9),
    address(10, 2, 0, 8),
    address(10, 3, 0, 9),
];
pub const FAR: Address = address(198, 51, 100, 7);

/// The port of sockets that share one.
pub const SHARED_PORT: Port = 7000;
pub const LOCAL_PORTS: [Port; 8] = [7000, 7000, 7000, 7001, 7001, 1024, 1025, 1026];
pub const BIND_PORTS: [Port; 9] = [0, 0, 1, 1023, 1023, 1024, 4999, 5000, 65_535];
pub const PEER_PORTS: [Port; 5] = [6000, 6000, 6000, 6001, 0];
/// No socket gets this one.
pub const NOBODYS_PORT: Port = 9;
