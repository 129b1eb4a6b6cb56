//! The library's calls, as `bindings/c/scq.h` declares them.
#![allow(non_camel_case_types)]
// Some answers this crate is never given.
#![allow(dead_code)]

#[repr(C)]
#[derive(Clone, Copy)]
pub struct scq_memory {
    pub base: *mut u8,
    pub stride: usize,
    pub len: usize,
    pub block: *mut u8,
}

#[repr(C)]
pub struct scq_port {
    pub at: *mut u8,
    pub memory: scq_memory,
}

#[repr(C)]
pub struct scq_held {
    pub at: *mut u8,
    pub len: usize,
    pub place: u64,
    pub index: u32,
}

#[repr(C)]
pub struct scq_counts {
    pub sent: u64,
    pub taken: u64,
    pub full: u64,
}

#[repr(C)]
pub struct scq_ended {
    pub last: u32,
}

impl scq_port {
    pub const NONE: scq_port = scq_port {
        at: std::ptr::null_mut(),
        memory: scq_memory {
            base: std::ptr::null_mut(),
            stride: 0,
            len: 0,
            block: std::ptr::null_mut(),
        },
    };
}

impl scq_held {
    pub const NONE: scq_held = scq_held { at: std::ptr::null_mut(), len: 0, place: 0, index: 0 };
}

extern "C" {
    pub fn scq_open_over(
        order: u32,
        topics: u32,
        hold: u32,
        limit: u64,
        memory: *const scq_memory,
        ports: *mut scq_port,
        n: usize,
    ) -> u32;
    pub fn scq_lend_index(port: *mut scq_port, out: *mut scq_held) -> u32;
    pub fn scq_take_index(port: *mut scq_port, topic: u32, out: *mut scq_held) -> u32;
    pub fn scq_send(port: *mut scq_port, index: u32, topic: u32, place: *mut u64) -> u32;
    pub fn scq_give_back(port: *mut scq_port, index: u32) -> u32;
    pub fn scq_lend_index_many(
        port: *mut scq_port,
        out: *mut scq_held,
        n: usize,
        done: *mut usize,
    ) -> u32;
    pub fn scq_take_index_many(
        port: *mut scq_port,
        topic: u32,
        out: *mut scq_held,
        n: usize,
        done: *mut usize,
    ) -> u32;
    pub fn scq_send_many(
        port: *mut scq_port,
        held: *mut scq_held,
        n: usize,
        topic: u32,
        done: *mut usize,
    ) -> u32;
    pub fn scq_give_back_many(
        port: *mut scq_port,
        held: *const scq_held,
        n: usize,
        done: *mut usize,
    ) -> u32;
    pub fn scq_retire(port: *mut scq_port) -> u32;
    pub fn scq_retired(port: *mut scq_port) -> u32;
    pub fn scq_capacity(port: *mut scq_port, out: *mut u32) -> u32;
    pub fn scq_count(port: *mut scq_port, topic: u32, out: *mut u32) -> u32;
    pub fn scq_counts_of(port: *mut scq_port, out: *mut scq_counts) -> u32;
    pub fn scq_spent(port: *mut scq_port, ticket: *mut u64) -> u32;
    pub fn scq_end(
        port: *mut scq_port,
        out: *mut scq_ended,
        counts: *mut scq_counts,
        n: usize,
    ) -> u32;
    pub fn scq_version() -> u32;
}

/// The version of the library that this crate is written for.
pub const VERSION: u32 = 3;

pub const OK: u32 = 0;
pub const EMPTY: u32 = 1;
pub const FULL: u32 = 2;
pub const SPENT: u32 = 3;
pub const CLOSED: u32 = 4;
pub const NOT_HELD: u32 = 5;
pub const NO_TOPIC: u32 = 6;
pub const NO_ROOM: u32 = 7;
pub const NO_MEMORY: u32 = 8;
pub const BAD_ORDER: u32 = 9;
pub const BAD_TOPICS: u32 = 10;
pub const BAD_PORTS: u32 = 11;
pub const BAD_LIMIT: u32 = 12;
pub const BAD_SIZE: u32 = 13;
pub const BAD_HOLD: u32 = 14;
pub const IS_OPEN: u32 = 15;
pub const RETIRED: u32 = 16;
pub const ENDED: u32 = 30;
pub const BAD_VERSION: u32 = 31;
