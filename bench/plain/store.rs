//! The lent store: slots of 512 bytes, four for each socket and then 16 for the out-queue.

pub const STORE: usize = 40_960;
pub const SLOT: usize = 512;
/// Where the out-queue's slots begin.
pub const OUT: usize = 32_768;

pub type Store = [u8; STORE];

/// Where socket k's slots begin.
pub fn queue_of(k: usize) -> usize {
    4 * SLOT * k
}

/// Writes the payload, and zeros behind it, into the slot at this byte.
pub fn write(store: &mut Store, at: usize, payload: &[u8]) {
    fill(&mut store[at..at + SLOT], payload);
}

/// Writes the oldest out-item's first bytes, and zeros behind them, into a socket's slot at this byte.
pub fn write_from_out(store: &mut Store, at: usize, len: usize) {
    let (queues, out) = store.split_at_mut(OUT);
    fill(&mut queues[at..at + SLOT], &out[..len]);
}

fn fill(slot: &mut [u8], payload: &[u8]) {
    let (front, behind) = slot.split_at_mut(payload.len());
    front.copy_from_slice(payload);
    behind.fill(0);
}

/// Removes the first of the occupied slots from this byte: the others move down, and the last is zeroed.
pub fn pop(store: &mut Store, at: usize, occupied: usize) {
    let slots = &mut store[at..at + occupied * SLOT];
    slots.copy_within(SLOT.., 0);
    slots[(occupied - 1) * SLOT..].fill(0);
}

/// Copies the first bytes of the slot at this byte into the buffer.
pub fn read(store: &Store, at: usize, buffer: &mut [u8], len: usize) {
    buffer[..len].copy_from_slice(&store[at..at + len]);
}

/// Zeroes socket k's four slots.
pub fn clear(store: &mut Store, k: usize) {
    store[queue_of(k)..queue_of(k + 1)].fill(0);
}
