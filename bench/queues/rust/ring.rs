//! A ring of values of this repository's crate, in which numbers stand.

use scq::{Handle, Ring};

pub type Port = Handle<u64>;

#[inline(always)]
pub fn put(port: &Port, value: u64) -> bool {
    port.push(value).is_ok()
}

#[inline(always)]
pub fn get(port: &Port) -> Option<u64> {
    port.pop()
}

pub fn make(order: u32, threads: usize) -> Vec<Port> {
    let ring = Ring::new(order, threads).unwrap();
    (0..threads).map(|_| ring.handle().unwrap()).collect()
}
