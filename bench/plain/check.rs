//! One check of the record, n times, for `bench/check`: the same functions as the proved probe has.
#![no_std]

mod record;

use record::{Interface, Record, Socket};

#[panic_handler]
fn panic(_: &core::panic::PanicInfo) -> ! {
    loop {}
}

/// One interface; the first sockets open, on one port with reuse; nothing queued.
fn with_open(count: usize) -> Record {
    let mut record = Record::with_interface(Interface {
        mask: 0xffff_ff00,
        addresses: [0x0a02_0005, 0, 0, 0],
        id: 1,
    });
    for s in &mut record.sockets[..count] {
        *s = Socket {
            lport: 7000,
            live: true,
            reuse: true,
            ..Default::default()
        };
    }
    record
}

/// A turn's result goes into the record that the next one checks, so no turn can be left out.
#[inline(never)]
fn again(mut record: Record, n: u64, icount: u8) -> u8 {
    for _ in 0..n {
        let ok = record.well_formed();
        record.icount = if ok { icount } else { 0 };
    }
    record.icount
}

#[no_mangle]
pub extern "C" fn check_few(n: u64, icount: u8) -> u8 {
    again(with_open(4), n, icount)
}

#[no_mangle]
pub extern "C" fn check_all(n: u64, icount: u8) -> u8 {
    again(with_open(16), n, icount)
}
