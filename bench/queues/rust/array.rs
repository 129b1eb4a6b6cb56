//! Two of crossbeam's `ArrayQueue`, one with the free buffers and one with those that were sent.

use crossbeam_queue::ArrayQueue;

#[repr(align(64))]
pub struct Buffer([u64; 8]);

pub struct Two {
    free: ArrayQueue<Box<Buffer>>,
    sent: ArrayQueue<Box<Buffer>>,
}

pub type Port = &'static Two;

#[inline(always)]
pub fn put(port: &Port, value: u64) -> bool {
    let Some(mut buffer) = port.free.pop() else { return false };
    if !cfg!(feature = "bare") {
        buffer.0[0] = value;
    }
    port.sent.push(buffer).is_ok() || panic!("no room to send")
}

#[inline(always)]
pub fn get(port: &Port) -> Option<u64> {
    let buffer = port.sent.pop()?;
    let value = buffer.0[0];
    assert!(port.free.push(buffer).is_ok(), "no room to give back");
    Some(value)
}

pub fn make(order: u32, threads: usize) -> Vec<Port> {
    let n = 1 << order;
    let two = Two { free: ArrayQueue::new(n), sent: ArrayQueue::new(n) };
    for number in 0..n as u64 {
        assert!(two.free.push(Box::new(Buffer([number; 8]))).is_ok());
    }
    vec![Box::leak(Box::new(two)); threads]
}
