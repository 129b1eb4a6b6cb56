//! One of crossbeam's `ArrayQueue`, in which numbers stand.

use crossbeam_queue::ArrayQueue;

pub type Port = &'static ArrayQueue<u64>;

#[inline(always)]
pub fn put(port: &Port, value: u64) -> bool {
    port.push(value).is_ok()
}

#[inline(always)]
pub fn get(port: &Port) -> Option<u64> {
    port.pop()
}

pub fn make(order: u32, threads: usize) -> Vec<Port> {
    vec![Box::leak(Box::new(ArrayQueue::new(1 << order))); threads]
}
