//! A queue for calls.cpp: its loops that are timed, as those of loops.hpp, and its calls one by one. With the feature
//! `bare` no byte is written, and the value that is got is the buffer's number.

#[cfg_attr(feature = "array", path = "array.rs")]
#[cfg_attr(feature = "one", path = "one.rs")]
#[cfg_attr(feature = "channel", path = "channel.rs")]
#[cfg_attr(feature = "ring", path = "ring.rs")]
#[cfg_attr(feature = "scq", path = "scq.rs")]
mod queue;

use queue::Port;
use std::hint::spin_loop;
use std::sync::atomic::{AtomicI32, Ordering::SeqCst};

#[repr(C)]
pub struct Seen {
    puts: u64,
    put_sum: u64,
    gets: u64,
    got_sum: u64,
}

impl Seen {
    #[inline(always)]
    fn put(&mut self, port: &Apart) -> bool {
        if !queue::put(&port.0, self.puts) {
            return false;
        }
        self.put_sum += self.puts;
        self.puts += 1;
        true
    }
    #[inline(always)]
    fn get(&mut self, port: &Apart) -> bool {
        let Some(value) = queue::get(&port.0) else { return false };
        self.gets += 1;
        self.got_sum += value;
        true
    }
}

#[repr(C, align(128))]
pub struct Apart(Port);

#[no_mangle]
pub extern "C" fn rust_make(order: u32, threads: usize) -> *const Apart {
    let ports: Vec<_> = queue::make(order, threads).into_iter().map(Apart).collect();
    ports.leak().as_ptr()
}

#[no_mangle]
pub extern "C" fn rust_put(port: &Apart, value: u64) -> bool {
    queue::put(&port.0, value)
}

#[no_mangle]
pub extern "C" fn rust_get(port: &Apart, value: &mut u64) -> bool {
    queue::get(&port.0).map(|got| *value = got).is_some()
}

#[no_mangle]
pub extern "C" fn put_many(port: &&Apart, many: u64, seen: &mut Seen) {
    while seen.puts < many {
        if !seen.put(port) {
            spin_loop();
        }
    }
}

#[no_mangle]
pub extern "C" fn get_all(port: &&Apart, putting: &AtomicI32, seen: &mut Seen) {
    let are_putting = || {
        spin_loop();
        putting.load(SeqCst) != 0
    };
    while seen.get(port) || are_putting() {}
    while seen.get(port) {}
}

#[no_mangle]
pub extern "C" fn both_many(port: &&Apart, many: u64, seen: &mut Seen) {
    while seen.gets < many {
        seen.put(port);
        seen.get(port);
    }
}

#[no_mangle]
pub extern "C" fn get_none(port: &&Apart, many: u64, seen: &mut Seen) {
    seen.got_sum = (0..many).map(|_| u64::from(queue::get(&port.0).is_none())).sum();
}
