//! One of crossbeam-channel's bounded channels, in which numbers stand.

use crossbeam_channel::{bounded, Receiver, Sender};

pub type Port = (Sender<u64>, Receiver<u64>);

#[inline(always)]
pub fn put(port: &Port, value: u64) -> bool {
    port.0.try_send(value).is_ok()
}

#[inline(always)]
pub fn get(port: &Port) -> Option<u64> {
    port.1.try_recv().ok()
}

pub fn make(order: u32, threads: usize) -> Vec<Port> {
    vec![bounded(1 << order); threads]
}
