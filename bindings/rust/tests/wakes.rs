//! How often who sends or receives calls the system to wake another: each call of `futex` that this
//! program makes is counted, as the standard library makes them by `syscall`, for which one stands
//! here. Who calls the system to sleep, and is rung just before, counts as one that sleeps.
#![cfg(all(target_os = "linux", target_arch = "x86_64"))]
#![deny(unsafe_op_in_unsafe_fn)]

use scq::{bounded_for, Bell, Queue, Role, Setup};
use std::arch::asm;
use std::os::raw::{c_int, c_long};
use std::sync::atomic::{AtomicU64, Ordering::SeqCst};
use std::thread;

/// How many messages go each time.
const MESSAGES: usize = 40_000;
/// The number of `futex`, and what it is asked to do, without its flags.
const FUTEX: c_long = 202;
const WAIT: usize = 0;
const WAKE: usize = 1;
const WAIT_BITSET: usize = 9;
const WAKE_BITSET: usize = 10;

static SLEEPS: AtomicU64 = AtomicU64::new(0);
static WAKES: AtomicU64 = AtomicU64::new(0);

extern "C" {
    fn __errno_location() -> *mut c_int;
}

/// The system's call, which the standard library makes by this name.
///
/// # Safety
///
/// As of the C library's `syscall`.
#[no_mangle]
pub unsafe extern "C" fn syscall(
    number: c_long,
    first: usize,
    second: usize,
    third: usize,
    fourth: usize,
    fifth: usize,
    sixth: usize,
) -> c_long {
    let answer: c_long;
    // SAFETY: as the caller upholds; the registers are those of a call of the system.
    unsafe {
        asm!(
            "syscall",
            inlateout("rax") number => answer,
            in("rdi") first, in("rsi") second, in("rdx") third,
            in("r10") fourth, in("r8") fifth, in("r9") sixth,
            lateout("rcx") _, lateout("r11") _,
        );
    }
    if number == FUTEX {
        match second & 0x7f {
            WAIT | WAIT_BITSET => SLEEPS.fetch_add(1, SeqCst),
            WAKE | WAKE_BITSET => WAKES.fetch_add(1, SeqCst),
            _ => 0,
        };
    }
    if answer >= 0 {
        return answer;
    }
    // SAFETY: the C library answers where this thread's number of an error stands.
    unsafe { *__errno_location() = -answer as c_int };
    -1
}

/// Wakes for each sleep while this is done: at most 1.5, beside one in a hundred messages, since a
/// lock of the standard library at which two threads meet may wake where nobody sleeps.
fn wakes(name: &str, threads: usize, act: impl FnOnce()) {
    let before = (SLEEPS.load(SeqCst), WAKES.load(SeqCst));
    act();
    let (sleeps, wakes) = (SLEEPS.load(SeqCst) - before.0, WAKES.load(SeqCst) - before.1);
    println!("{name}, {threads}+{threads}: {sleeps} sleeps and {wakes} wakes");
    // (The start and the end of threads make some of their own.)
    let most = sleeps + sleeps / 2 + (8 * threads + MESSAGES / 100) as u64;
    assert!(wakes <= most, "{name}, {threads}+{threads}: {sleeps} sleeps, {wakes} wakes");
}

fn by_a_channel(threads: usize, capacity: usize) {
    let (sender, receiver) = bounded_for(capacity, 2 * threads + 2).unwrap();
    thread::scope(|scope| {
        for _ in 0..threads {
            let (sender, receiver) = (sender.clone(), receiver.clone());
            scope.spawn(move || {
                for number in 0..MESSAGES / threads {
                    sender.send(number).unwrap();
                }
            });
            scope.spawn(move || receiver.into_iter().count());
        }
        drop((sender, receiver));
    });
}

fn by_ports(threads: usize, order: u32) {
    let bell = Bell::new();
    let setup = Setup { order, ..Setup::default() };
    let mut ports = Queue::new(setup, 2 * threads).unwrap().into_iter();
    thread::scope(|scope| {
        for _ in 0..threads {
            let sends = bell.tie(ports.next().unwrap(), Role::Sends);
            let takes = bell.tie(ports.next().unwrap(), Role::Takes);
            scope.spawn(move || {
                for _ in 0..MESSAGES / threads {
                    sends.lend().unwrap().send(0).unwrap();
                }
            });
            scope.spawn(move || while takes.take(0).is_ok() {});
        }
    });
}

/// One after the other, as all count in the same place.
#[test]
fn a_sleep_is_ended_by_one_wake() {
    for threads in [1, 4, 16, 64] {
        for order in [1, 6] {
            wakes("a channel", threads, || by_a_channel(threads, 1 << order));
            wakes("ports", threads, || by_ports(threads, order));
        }
    }
    assert!(SLEEPS.load(SeqCst) > MESSAGES as u64 / 10, "calls of the system aren't counted");
}
