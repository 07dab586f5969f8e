//! The host of document 01: the record, the lent store, the calls, the
//! arrivals and the out step.
//!
//! A call gives `Ok` for the answers 0, 18 and 20 to 32, and `Err` for the
//! refusals 1 to 17. Everything that can refuse stands before the first change,
//! so a refusal changes nothing, apart from 10, which clears the pending error.

pub type Address = u32;
pub type Port = u16;

/// Bytes in a slot, and so the longest payload.
pub const SLOT: usize = 512;
/// Bytes in the lent store.
pub const STORE: usize = 40_960;
/// Where the out-queue's slots begin in the store.
pub const OUT_SLOTS: usize = 32_768;
pub const SOCKETS: usize = 16;
pub const QUEUE_LIMIT: usize = 4;
pub const OUT_LIMIT: usize = 16;
pub const INTERFACE_LIMIT: usize = 4;
pub const ADDRESS_LIMIT: usize = 4;

/// The option numbers of getopt and setopt.
pub const BSDCOMPAT: u32 = 1;
pub const REUSE: u32 = 2;

/// The primary address of interface 0.
pub const LOOPBACK_PRIMARY: Address = 0x7f00_0001;
/// The pending error "connection refused".
pub const REFUSED: u8 = 10;

const AUTOBIND_FIRST: Port = 1024;
const AUTOBIND_LAST: Port = 4999;

/// LOOPBACK is 127/8.
pub fn is_loopback(address: Address) -> bool {
    address >> 24 == 127
}

/// MARTIAN is 0/8, 224/4 and 240/4.
pub fn is_martian(address: Address) -> bool {
    let first = address >> 24;
    first == 0 || first >= 224
}

fn is_martian_or_loopback(address: Address) -> bool {
    is_martian(address) || is_loopback(address)
}

/// An interface record as the caller lends it; the first address is primary.
/// The id is wider than a byte, so that 256 can be refused.
#[derive(Clone, Debug, Default, PartialEq, Eq)]
pub struct Interface {
    pub id: u16,
    pub count: usize,
    pub addresses: [Address; ADDRESS_LIMIT],
    pub mask: u32,
}

impl Interface {
    /// An interface with one address.
    pub fn single(id: u16, address: Address, mask: u32) -> Interface {
        Interface {
            id,
            count: 1,
            addresses: [address, 0, 0, 0],
            mask,
        }
    }

    pub fn primary(&self) -> Address {
        self.addresses[0]
    }

    fn used(&self) -> &[Address] {
        &self.addresses[..self.count]
    }

    fn passes(&self) -> bool {
        (1..=255).contains(&self.id)
            && (1..=ADDRESS_LIMIT).contains(&self.count)
            && self.addresses[self.count..].iter().all(|&a| a == 0)
            && self.used().iter().all(|&a| !is_martian_or_loopback(a))
            && self.used().iter().all(|&a| self.agrees(a))
    }

    /// Whether the primary agrees with the address under the mask.
    fn agrees(&self, address: Address) -> bool {
        self.primary() & self.mask == address & self.mask
    }
}

/// The opening check of document 01; any mask is accepted.
pub fn opening_check(interfaces: &[Interface]) -> bool {
    interfaces.len() <= INTERFACE_LIMIT
        && interfaces.iter().all(Interface::passes)
        && distinct(interfaces.iter().map(|i| i.id.into()))
        && distinct(interfaces.iter().flat_map(|i| i.used().iter().copied()))
}

fn distinct(values: impl Iterator<Item = u32>) -> bool {
    let mut seen = Vec::new();
    for value in values {
        if seen.contains(&value) {
            return false;
        }
        seen.push(value);
    }
    true
}

/// An address and a port; 0 is absent or wildcard.
#[derive(Clone, Copy, Debug, Default, PartialEq, Eq)]
pub struct Pair {
    pub address: Address,
    pub port: Port,
}

impl Pair {
    pub fn new(address: Address, port: Port) -> Pair {
        Pair { address, port }
    }
}

/// Source (s, sp) and destination (d, dp).
#[derive(Clone, Copy, Debug, Default, PartialEq, Eq)]
pub struct Ends {
    pub source: Pair,
    pub destination: Pair,
}

impl Ends {
    pub fn new(source: Pair, destination: Pair) -> Ends {
        Ends {
            source,
            destination,
        }
    }
}

/// A queued datagram; its payload lies in the store.
#[derive(Clone, Copy, Debug, Default, PartialEq, Eq)]
pub struct Datagram {
    pub interface: u16,
    pub ends: Ends,
    pub length: usize,
}

/// A socket; a closed one is all zeros.
#[derive(Clone, Debug, Default, PartialEq, Eq)]
pub struct Socket {
    pub open: bool,
    pub local: Pair,
    pub remote: Pair,
    pub error: u8,
    pub bsdcompat: bool,
    pub reuse: bool,
    pub queue: Vec<Datagram>,
}

impl Socket {
    /// Every part that the socket has must agree, or the score is 0.
    pub fn score(&self, local: Pair, remote: Pair) -> u8 {
        if self.local.port == 0 || self.local.port != local.port {
            return 0;
        }
        let further = [
            (self.local.address, local.address),
            (self.remote.address, remote.address),
            (self.remote.port.into(), remote.port.into()),
        ];
        let mut score = 1;
        for (own, given) in further {
            if own != 0 && own != given {
                return 0;
            }
            if own != 0 {
                score += 1;
            }
        }
        score
    }

    fn overlaps(&self, local: Pair) -> bool {
        let either_wildcard = self.local.address == 0 || local.address == 0;
        self.open
            && local.port != 0
            && self.local.port == local.port
            && (either_wildcard || self.local.address == local.address)
    }

    fn parts_well_formed(&self) -> bool {
        let implied = |part: bool, other: bool| !part || other;
        (self.open || *self == Socket::default())
            && self.queue.len() <= QUEUE_LIMIT
            && self.queue.iter().all(|d| d.length <= SLOT)
            && implied(self.remote.port != 0, self.remote.address != 0)
            && implied(self.remote.address != 0, self.local.address != 0)
            && implied(self.local.address != 0, self.local.port != 0)
            && (self.error == 0 || self.error == REFUSED)
    }
}

#[derive(Clone, Copy, Debug, PartialEq, Eq)]
pub enum Unreachable {
    Port,
    Host,
}

#[derive(Clone, Copy, Debug, PartialEq, Eq)]
pub enum OutItem {
    Datagram {
        ends: Ends,
        length: usize,
    },
    Notice {
        kind: Unreachable,
        source: Address,
        destination: Address,
        embedded: Ends,
    },
}

impl OutItem {
    pub fn source(&self) -> Address {
        match self {
            OutItem::Datagram { ends, .. } => ends.source.address,
            OutItem::Notice { source, .. } => *source,
        }
    }

    pub fn destination(&self) -> Address {
        match self {
            OutItem::Datagram { ends, .. } => ends.destination.address,
            OutItem::Notice { destination, .. } => *destination,
        }
    }

    /// The payload's length, 0 for a notice.
    pub fn length(&self) -> usize {
        match self {
            OutItem::Datagram { length, .. } => *length,
            OutItem::Notice { .. } => 0,
        }
    }
}

#[derive(Clone, Copy, Debug, PartialEq, Eq)]
pub enum Thread {
    Running,
    Waiting(u8),
    Ended,
}

/// A number given back and the other result fields; unused ones are 0.
#[derive(Clone, Copy, Debug, Default, PartialEq, Eq)]
pub struct Answer {
    pub number: u8,
    pub descriptor: u8,
    pub pair: Pair,
    pub length: usize,
    pub value: u8,
    pub to_read: u16,
    pub to_write: u16,
    pub item: Option<OutItem>,
}

pub type Answered = Result<Answer, Answer>;

fn plain(number: u8) -> Answer {
    Answer {
        number,
        ..Answer::default()
    }
}

fn with_descriptor(number: u8, k: usize) -> Answer {
    Answer {
        descriptor: k as u8,
        ..plain(number)
    }
}

fn with_pair(pair: Pair) -> Answer {
    Answer { pair, ..plain(0) }
}

fn with_value(value: u8) -> Answer {
    Answer { value, ..plain(0) }
}

fn refuse_if(condition: bool, number: u8) -> Result<(), Answer> {
    if condition {
        Err(plain(number))
    } else {
        Ok(())
    }
}

/// The record and the store lent with it.
#[derive(Clone, Debug, PartialEq, Eq)]
pub struct Host {
    pub interfaces: Vec<Interface>,
    pub sockets: [Socket; SOCKETS],
    pub out_queue: Vec<OutItem>,
    pub thread: Thread,
    pub store: Vec<u8>,
}

/// Opening and the checks that every call begins with.
impl Host {
    /// Opens a host: 2, then 17; after either the host is an ended one with no
    /// interface and the store is as it was lent.
    pub fn open(interfaces: &[Interface], store: Vec<u8>) -> (Host, Answered) {
        let mut host = Host {
            interfaces: Vec::new(),
            sockets: Default::default(),
            out_queue: Vec::new(),
            thread: Thread::Ended,
            store,
        };
        let answered = host.start(interfaces);
        (host, answered)
    }

    fn start(&mut self, interfaces: &[Interface]) -> Answered {
        refuse_if(self.store.len() != STORE, 2)?;
        refuse_if(!opening_check(interfaces), 17)?;
        self.interfaces = interfaces.to_vec();
        self.thread = Thread::Running;
        self.store.fill(0);
        Ok(plain(0))
    }

    /// Document 01's whole list. Unused places have no room in this record,
    /// but for a closed socket's fields and an interface's addresses.
    pub fn well_formed(&self) -> bool {
        opening_check(&self.interfaces)
            && self.sockets.iter().all(Socket::parts_well_formed)
            && self.sockets.iter().all(|s| self.may_be_local(s.local))
            && self.overlaps_have_reuse()
            && self.out_queue.len() <= OUT_LIMIT
            && self.out_queue.iter().all(|i| i.length() <= SLOT)
            && self.out_queue.iter().all(|i| self.is_own(i.source()))
            && self.waiting_has_port()
    }

    fn may_be_local(&self, local: Pair) -> bool {
        local.address == 0 || self.is_own(local.address)
    }

    fn overlaps_have_reuse(&self) -> bool {
        (0..SOCKETS).all(|k| {
            let one = &self.sockets[k];
            !one.open || !self.in_use(k, one.local)
        })
    }

    fn waiting_has_port(&self) -> bool {
        match self.thread {
            Thread::Waiting(descriptor) => match self.sockets.get(usize::from(descriptor)) {
                Some(socket) => socket.open && socket.local.port != 0,
                None => false,
            },
            Thread::Running | Thread::Ended => true,
        }
    }

    /// 1 and 2, all that arrivals and the out step share with the calls.
    fn check_record(&self) -> Result<(), Answer> {
        refuse_if(!self.well_formed(), 1)?;
        refuse_if(self.store.len() != STORE, 2)
    }

    /// 1, 2 and 3, where resume and interrupt stop.
    fn check_not_ended(&self) -> Result<(), Answer> {
        self.check_record()?;
        refuse_if(self.thread == Thread::Ended, 3)
    }

    /// 1 to 4, for calls without a descriptor.
    fn check_running(&self) -> Result<(), Answer> {
        self.check_not_ended()?;
        refuse_if(self.thread != Thread::Running, 4)
    }

    /// 1 to 5; gives the socket's place.
    fn check_call(&self, descriptor: u8) -> Result<usize, Answer> {
        self.check_running()?;
        let k = usize::from(descriptor);
        refuse_if(k >= SOCKETS || !self.sockets[k].open, 5)?;
        Ok(k)
    }

    fn check_waiting(&self) -> Result<usize, Answer> {
        self.check_not_ended()?;
        match self.thread {
            Thread::Waiting(descriptor) => Ok(usize::from(descriptor)),
            Thread::Running | Thread::Ended => Err(plain(6)),
        }
    }

    /// 10 clears the pending error that it reports.
    fn take_error(&mut self, k: usize) -> Result<(), Answer> {
        let error = std::mem::take(&mut self.sockets[k].error);
        refuse_if(error != 0, error)
    }
}

/// Addresses, ports and routes.
impl Host {
    fn interface_of(&self, address: Address) -> Option<&Interface> {
        self.interfaces.iter().find(|i| i.used().contains(&address))
    }

    /// Our own addresses, 127/8 included.
    fn is_own(&self, address: Address) -> bool {
        is_loopback(address) || self.interface_of(address).is_some()
    }

    fn route_source(&self, destination: Address) -> Result<Address, Answer> {
        if is_loopback(destination) {
            return Ok(LOOPBACK_PRIMARY);
        }
        self.interfaces
            .iter()
            .find(|i| i.agrees(destination))
            .or_else(|| self.interfaces.first())
            .map(Interface::primary)
            .ok_or_else(|| plain(13))
    }

    /// Whether a socket other than k holds this port with overlapping
    /// addresses, and not both have reuse.
    fn in_use(&self, k: usize, local: Pair) -> bool {
        (0..SOCKETS).any(|other| {
            let both_reuse = self.sockets[other].reuse && self.sockets[k].reuse;
            other != k && self.sockets[other].overlaps(local) && !both_reuse
        })
    }

    /// The lowest port of 1024 to 4999 that no socket has, whatever its address.
    fn free_port(&self) -> Port {
        (AUTOBIND_FIRST..=AUTOBIND_LAST)
            .find(|&port| self.sockets.iter().all(|s| s.local.port != port))
            .expect("16 sockets can't exhaust it")
    }

    fn autobind(&mut self, k: usize) {
        if self.sockets[k].local.port == 0 {
            self.sockets[k].local.port = self.free_port();
        }
    }
}

/// The store's bytes.
impl Host {
    fn socket_slot(k: usize, place: usize) -> usize {
        (k * QUEUE_LIMIT + place) * SLOT
    }

    fn out_slot(place: usize) -> usize {
        OUT_SLOTS + place * SLOT
    }

    /// Stores a payload with zeros behind it.
    fn fill_slot(&mut self, start: usize, payload: &[u8]) {
        let slot = &mut self.store[start..start + SLOT];
        slot.fill(0);
        slot[..payload.len()].copy_from_slice(payload);
    }

    /// Moves the occupied slots behind the first one down and zeroes the last
    /// occupied one; slots behind that stay as they are.
    fn drop_first_slot(&mut self, start: usize, occupied: usize) {
        let end = start + occupied * SLOT;
        self.store.copy_within(start + SLOT..end, start);
        self.store[end - SLOT..end].fill(0);
    }

    fn close_at(&mut self, k: usize) {
        self.sockets[k] = Socket::default();
        let from = Host::socket_slot(k, 0);
        let behind = Host::socket_slot(k + 1, 0);
        self.store[from..behind].fill(0);
    }

    fn push_out(&mut self, item: OutItem, payload: &[u8]) {
        self.fill_slot(Host::out_slot(self.out_queue.len()), payload);
        self.out_queue.push(item);
    }

    /// Removes the oldest out-item and gives it with its payload.
    fn pop_out(&mut self) -> (OutItem, Vec<u8>) {
        let start = Host::out_slot(0);
        let occupied = self.out_queue.len();
        let item = self.out_queue.remove(0);
        let payload = self.store[start..start + item.length()].to_vec();
        self.drop_first_slot(start, occupied);
        (item, payload)
    }
}

/// The calls, in document 01's order.
impl Host {
    pub fn socket(&mut self) -> Answered {
        self.check_running()?;
        let lowest = self.sockets.iter().position(|s| !s.open);
        let k = lowest.ok_or_else(|| plain(15))?;
        self.sockets[k].open = true;
        Ok(with_descriptor(0, k))
    }

    pub fn bind(&mut self, descriptor: u8, address: Address, port: Port) -> Answered {
        let k = self.check_call(descriptor)?;
        refuse_if(self.sockets[k].local.port != 0, 6)?;
        refuse_if(address != 0 && !self.is_own(address), 8)?;
        refuse_if((1..=1023).contains(&port), 7)?;
        refuse_if(self.in_use(k, Pair::new(address, port)), 9)?;
        self.sockets[k].local = Pair::new(address, port);
        self.autobind(k);
        Ok(plain(0))
    }

    pub fn connect(&mut self, descriptor: u8, address: Address, port: Port) -> Answered {
        let k = self.check_call(descriptor)?;
        refuse_if(address == 0, 6)?;
        if self.sockets[k].local.address == 0 {
            self.sockets[k].local.address = self.route_source(address)?;
        }
        self.autobind(k);
        self.sockets[k].remote = Pair::new(address, port);
        Ok(plain(0))
    }

    /// Clears the remote pair only, and never refuses for want of one.
    pub fn disconnect(&mut self, descriptor: u8) -> Answered {
        let k = self.check_call(descriptor)?;
        self.sockets[k].remote = Pair::default();
        Ok(plain(0))
    }

    pub fn getsockname(&self, descriptor: u8) -> Answered {
        let k = self.check_call(descriptor)?;
        Ok(with_pair(self.sockets[k].local))
    }

    pub fn getpeername(&self, descriptor: u8) -> Answered {
        let k = self.check_call(descriptor)?;
        refuse_if(self.sockets[k].remote.address == 0, 12)?;
        Ok(with_pair(self.sockets[k].remote))
    }

    pub fn geterr(&mut self, descriptor: u8) -> Answered {
        let k = self.check_call(descriptor)?;
        Ok(with_value(std::mem::take(&mut self.sockets[k].error)))
    }

    pub fn getopt(&self, descriptor: u8, option: u32) -> Answered {
        let k = self.check_call(descriptor)?;
        match option {
            BSDCOMPAT => Ok(with_value(self.sockets[k].bsdcompat.into())),
            REUSE => Ok(with_value(self.sockets[k].reuse.into())),
            _ => Err(plain(6)),
        }
    }

    /// Reuse is settled once there is a local port: a later change could leave
    /// old neighbours overlapping.
    pub fn setopt(&mut self, descriptor: u8, option: u32, value: bool) -> Answered {
        let k = self.check_call(descriptor)?;
        match option {
            BSDCOMPAT => self.sockets[k].bsdcompat = value,
            REUSE => {
                refuse_if(self.sockets[k].local.port != 0, 6)?;
                self.sockets[k].reuse = value;
            }
            _ => return Err(plain(6)),
        }
        Ok(plain(0))
    }

    pub fn sendto(
        &mut self,
        descriptor: u8,
        address: Address,
        port: Port,
        payload: &[u8],
    ) -> Answered {
        let k = self.check_call(descriptor)?;
        self.take_error(k)?;
        refuse_if((address == 0) != (port == 0), 6)?;
        refuse_if(payload.len() > SLOT, 11)?;
        let destination = self.meant(k, Pair::new(address, port))?;
        let source = self.source_to(k, destination.address)?;
        refuse_if(self.out_queue.len() >= OUT_LIMIT, 14)?;
        self.autobind(k);
        let from = Pair::new(source, self.sockets[k].local.port);
        let item = OutItem::Datagram {
            ends: Ends::new(from, destination),
            length: payload.len(),
        };
        self.push_out(item, payload);
        Ok(plain(0))
    }

    /// With both 0 the remote pair is meant.
    fn meant(&self, k: usize, given: Pair) -> Result<Pair, Answer> {
        if given != Pair::default() {
            return Ok(given);
        }
        let remote = self.sockets[k].remote;
        refuse_if(remote.address == 0 || remote.port == 0, 12)?;
        Ok(remote)
    }

    /// The local address, or the route's source where that is absent.
    fn source_to(&self, k: usize, destination: Address) -> Result<Address, Answer> {
        match self.sockets[k].local.address {
            0 => self.route_source(destination),
            address => Ok(address),
        }
    }

    pub fn recvfrom(&mut self, descriptor: u8, nonblocking: bool, buffer: &mut [u8]) -> Answered {
        let k = self.check_call(descriptor)?;
        self.take_error(k)?;
        if !self.sockets[k].queue.is_empty() {
            return self.read(k, buffer);
        }
        refuse_if(nonblocking, 14)?;
        self.autobind(k);
        self.thread = Thread::Waiting(descriptor);
        Ok(plain(18))
    }

    /// Reads the oldest of at least one queued datagram, or 16 with the length
    /// needed.
    fn read(&mut self, k: usize, buffer: &mut [u8]) -> Answered {
        let Datagram { ends, length, .. } = self.sockets[k].queue[0];
        if buffer.len() < length {
            let needed = plain(16);
            return Err(Answer { length, ..needed });
        }
        let start = Host::socket_slot(k, 0);
        buffer[..length].copy_from_slice(&self.store[start..start + length]);
        let occupied = self.sockets[k].queue.len();
        self.drop_first_slot(start, occupied);
        self.sockets[k].queue.remove(0);
        Ok(Answer {
            length,
            ..with_pair(ends.source)
        })
    }

    pub fn resume(&mut self, buffer: &mut [u8]) -> Answered {
        let k = self.check_waiting()?;
        if let Err(refused) = self.take_error(k) {
            self.thread = Thread::Running;
            return Err(refused);
        }
        if self.sockets[k].queue.is_empty() {
            return Ok(plain(18));
        }
        let answer = self.read(k, buffer)?;
        self.thread = Thread::Running;
        Ok(answer)
    }

    pub fn interrupt(&mut self) -> Answered {
        self.check_waiting()?;
        self.thread = Thread::Running;
        Ok(plain(0))
    }

    pub fn poll(&self, to_read: u16, to_write: u16) -> Answered {
        self.check_running()?;
        let named = to_read | to_write;
        refuse_if(named & !self.mask_of(|s| s.open) != 0, 5)?;
        let room = self.out_queue.len() < OUT_LIMIT;
        Ok(Answer {
            to_read: to_read & self.mask_of(|s| !s.queue.is_empty() || s.error != 0),
            to_write: to_write & self.mask_of(|s| room || s.error != 0),
            ..plain(0)
        })
    }

    /// A bit for each descriptor whose socket meets the condition.
    fn mask_of(&self, condition: impl Fn(&Socket) -> bool) -> u16 {
        (0..SOCKETS)
            .filter(|&k| condition(&self.sockets[k]))
            .fold(0, |mask, k| mask | 1 << k)
    }

    pub fn close(&mut self, descriptor: u8) -> Answered {
        let k = self.check_call(descriptor)?;
        self.close_at(k);
        Ok(plain(0))
    }

    /// Closes every socket and ends the thread; the out-queue stays.
    pub fn exit(&mut self) -> Answered {
        self.check_running()?;
        (0..SOCKETS).for_each(|k| self.close_at(k));
        self.thread = Thread::Ended;
        Ok(plain(0))
    }
}

/// Arrivals and the out step.
impl Host {
    /// The greatest nonzero score wins, the lowest descriptor among equals.
    fn winner(&self, local: Pair, remote: Pair) -> Option<usize> {
        let mut best = None;
        let mut greatest = 0;
        for (k, socket) in self.sockets.iter().enumerate() {
            let score = socket.score(local, remote);
            if score > greatest {
                greatest = score;
                best = Some(k);
            }
        }
        best
    }

    pub fn arriving_datagram(&mut self, ends: Ends, payload: &[u8]) -> Answered {
        self.check_record()?;
        let tag = match self.interface_of(ends.destination.address) {
            Some(interface) => interface.id,
            None => return Ok(plain(24)),
        };
        if is_martian_or_loopback(ends.source.address) {
            return Ok(plain(25));
        }
        if payload.len() > SLOT {
            return Ok(plain(26));
        }
        let room = self.out_queue.len() < OUT_LIMIT;
        Ok(self.deliver(tag, ends, payload, room))
    }

    /// 20 or 21 with the winner's descriptor; with no winner 22 where a notice
    /// may be queued, else 23.
    fn deliver(&mut self, tag: u16, ends: Ends, payload: &[u8], notice: bool) -> Answer {
        match self.winner(ends.destination, ends.source) {
            Some(k) => self.deliver_to(k, tag, ends, payload),
            None if notice => self.queue_notice(ends),
            None => plain(23),
        }
    }

    fn deliver_to(&mut self, k: usize, tag: u16, ends: Ends, payload: &[u8]) -> Answer {
        let held = self.sockets[k].queue.len();
        if held >= QUEUE_LIMIT {
            return with_descriptor(21, k);
        }
        self.fill_slot(Host::socket_slot(k, held), payload);
        self.sockets[k].queue.push(Datagram {
            interface: tag,
            ends,
            length: payload.len(),
        });
        with_descriptor(20, k)
    }

    /// Queues a PORT notice from d to s; its slot is all zeros.
    fn queue_notice(&mut self, embedded: Ends) -> Answer {
        let notice = OutItem::Notice {
            kind: Unreachable::Port,
            source: embedded.destination.address,
            destination: embedded.source.address,
            embedded,
        };
        self.push_out(notice, &[]);
        plain(22)
    }

    /// Both kinds of notice act alike, so the kind is not looked at.
    pub fn arriving_notice(
        &mut self,
        _kind: Unreachable,
        source: Address,
        destination: Address,
        embedded: Ends,
    ) -> Answered {
        self.check_record()?;
        if self.interface_of(destination).is_none() {
            return Ok(plain(24));
        }
        let inner = [embedded.source.address, embedded.destination.address];
        let mut addresses = [source, destination].into_iter().chain(inner);
        if addresses.any(is_martian_or_loopback) {
            return Ok(plain(25));
        }
        Ok(self.hear(embedded))
    }

    /// The embedded source is the local side here: our socket sent it.
    fn hear(&mut self, embedded: Ends) -> Answer {
        let k = match self.winner(embedded.source, embedded.destination) {
            Some(k) => k,
            None => return plain(29),
        };
        let socket = &mut self.sockets[k];
        if socket.remote.address == 0 && socket.bsdcompat {
            return plain(28);
        }
        socket.error = REFUSED;
        plain(27)
    }

    /// The out step. Only 30 writes the buffer, and only the payload's bytes.
    pub fn out(&mut self, buffer: &mut [u8]) -> Answered {
        self.check_record()?;
        refuse_if(buffer.len() < SLOT, 16)?;
        if self.out_queue.is_empty() {
            return Ok(plain(31));
        }
        let (item, payload) = self.pop_out();
        if is_martian(item.destination()) {
            return Ok(plain(32));
        }
        if is_loopback(item.destination()) {
            return Ok(self.handle_inside(item, &payload));
        }
        buffer[..payload.len()].copy_from_slice(&payload);
        Ok(Answer {
            length: payload.len(),
            item: Some(item),
            ..plain(30)
        })
    }

    /// The item has left the queue, so a notice finds room; only a sender with
    /// a loopback address is sent one.
    fn handle_inside(&mut self, item: OutItem, payload: &[u8]) -> Answer {
        match item {
            OutItem::Datagram { ends, .. } => {
                let notice = is_loopback(ends.source.address);
                self.deliver(0, ends, payload, notice)
            }
            OutItem::Notice { embedded, .. } => self.hear(embedded),
        }
    }
}
