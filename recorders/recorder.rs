//! A recorder of the calls that threads make of first-in-first-out queues. It needs no crate but `std`. What it writes `scq judge`
//! reads: a file for each thread, in its head the number of the run, and then a line for each event, with its stamp in front.
//!
//! How to use it:
//! 1. One `Recorder` for all threads. One `Seat` for each thread, made by `Recorder::seat` with a number of its own and room for
//!    all events that it will make: two for each call.
//! 2. The queue carries `u64` values, which the recorder gives: `let value = seat.put_start(queue)`, then put the value, then
//!    `seat.put_done()`, or `seat.put_refused()` where the queue was full. A value that was refused is not put again: each try is a
//!    put of its own, with a number of its own. A queue of other values carries this one beside its own.
//! 3. `seat.get_start(queue)`, then get, then `seat.get_got(value)` or `seat.get_nothing()`.
//! 4. After the run `seat.write("1.log")` for each seat, and `scq judge 1.log 2.log ..`.
//!
//! A queue that may hang or crash (on Linux): `Recorder::open` in place of `Recorder::seat`, and `seat.close()` at the end. Such a seat
//! writes its file whenever its room is full, and what is left when it is dropped, at `exit`, at `abort`, and at nine signals (SIGINT
//! and such). Until then the last line of the file is unfinished, so that `scq judge` refuses what SIGKILL or `_exit` has cut. A child of
//! `fork` leaves the files of its parent alone. A seat with events that is dropped and was never written is told on stderr.
//!
//! A queue that isn't empty at the start: it holds the values `opening(0)`, `opening(1)`, .. in this order, and
//! `write_openings("0.log", count)` writes the file that stands first among those of `scq judge`.
//!
//! Calls that move several values at once: `Recorder::seat_of_lanes`, and `puts_start`, `puts_end`, `gets_start`, `gets_end` around
//! the one call. Each lane is a seat of its own for the judge, so that the numbers from `seat` on are taken.
//!
//! Stamps. `Recorder::new()` stamps by a counter that all threads share: a full barrier, which makes a call's stores seen before
//! its End, and so hides what a missing barrier does. `Recorder::by_clock()` stamps by the processor's clock, where it is constant and no
//! reading at the start ran backwards, and else by the counter. A reading waits for the call's loads, and not until its
//! stores are seen by others; of equal readings a Start comes before an End.

// A program takes the calls that its queue needs.
#![allow(dead_code)]

use std::cell::UnsafeCell;
use std::fs::File;
use std::io::{BufWriter, Error, ErrorKind, Write};
use std::path::Path;
use std::sync::atomic::{AtomicBool, AtomicU64, AtomicUsize, Ordering};
use std::sync::{Arc, OnceLock};
use std::time::SystemTime;

/// A value is the number of its put, and above these bits its seat: seats are below 2^24 - 1, puts of a seat below 2^40. The seat
/// 2^24 - 1 stands for the opening tokens.
const NUMBER_BITS: u32 = 40;
const OPENING_SEAT: u64 = (1 << 24) - 1;

/// A stamp of the clock is its reading, then a bit that is set at an End, then the lane, of which a recorder gives out so many.
const LANE_BITS: u32 = 12;

/// The most bytes of a line.
const LINE: usize = 128;

/// An End's line without so many bytes is none, and neither is the head.
const HELD: usize = 2;

/// What stamps the events of all threads. The counter has lines of the cache of its own.
#[repr(align(128))]
#[derive(Default)]
pub struct Recorder {
    next: AtomicU64,
    rest: Shared,
}

#[repr(align(128))]
#[derive(Default)]
struct Shared {
    lanes: AtomicU64,
    /// The reading of the clock that counts as none; 0 where stamps are of the counter.
    first: u64,
    /// The number of the run.
    run: OnceLock<u64>,
}

#[derive(Clone, Copy)]
enum What {
    Put(u32),
    Get(u32),
    Done,
    Refused,
    Got(u64),
    Nothing,
}

#[derive(Clone, Copy)]
struct Event {
    stamp: u64,
    lane: u32,
    what: What,
}

/// The events of a seat, with how many there are for a signal's handler to read.
struct Log {
    seat: u32,
    events: UnsafeCell<Vec<Event>>,
    count: AtomicUsize,
    file: Option<File>,
    last_written: AtomicU64,
    bad: AtomicBool,
    writing: AtomicBool,
    was_written: AtomicBool,
    process: u32,
    held: UnsafeCell<Held>,
}

/// The last bytes of what was written, which a file under way lacks.
struct Held {
    bytes: [u8; LINE],
    count: usize,
}

// Only the seat's thread writes events, and a handler reads those that `count` says. Who writes the file has what is held back.
unsafe impl Sync for Log {}
unsafe impl Send for Log {}

/// What one thread records.
#[repr(align(128))]
pub struct Seat<'a> {
    recorder: &'a Recorder,
    log: Arc<Log>,
    room: usize,
    first_lane: u64,
    puts: Vec<u64>,
    /// The last stamp of the clock.
    last: u64,
}

/// What it means that a call got fewer values than it asked for.
#[derive(Clone, Copy)]
pub enum Fewer {
    /// The queue was empty then.
    Nothing,
    /// No such thing, as of a call that gets all or none.
    Refused,
}

/// The value of the opening token of this number, from 0. Opening tokens stand in queue 0.
pub fn opening(number: u32) -> u64 {
    OPENING_SEAT << NUMBER_BITS | u64::from(number)
}

/// Writes the file of so many opening tokens, which stands first among those that are judged.
pub fn write_openings(name: impl AsRef<Path>, count: u32) -> Result<(), Error> {
    let mut file = BufWriter::new(File::create(name)?);
    for _ in 0..count {
        file.write_all(b"opening -\n")?;
    }
    file.flush()
}

impl Recorder {
    /// Stamps by the shared counter.
    pub const fn new() -> Recorder {
        Recorder {
            next: AtomicU64::new(0),
            rest: Shared {
                lanes: AtomicU64::new(0),
                first: 0,
                run: OnceLock::new(),
            },
        }
    }

    /// Stamps by the processor's clock. Where that can't be used they are of the counter, and stderr says why.
    pub fn by_clock() -> Recorder {
        let mut recorder = Recorder::new();
        match clock::first() {
            Ok(first) => recorder.rest.first = first,
            Err(fault) => eprintln!("scq recorder: stamps are of the shared counter, since {fault}"),
        }
        recorder
    }

    /// A seat of this number, with room for so many events. Every page of the room is written, so that a run meets none for
    /// the first time.
    pub fn seat(&self, seat: u32, room: usize) -> Seat<'_> {
        self.seat_of_lanes(seat, 1, room)
    }

    /// A seat for calls that move up to so many values. It takes as many numbers, from this one on.
    pub fn seat_of_lanes(&self, seat: u32, lanes: u32, room: usize) -> Seat<'_> {
        self.make(seat, lanes, room, None)
    }

    /// A seat whose events go to this file: whenever its room is full, at the end of a call, and when it is dropped or the program ends
    /// by `exit`, `abort` or one of nine signals. SIGKILL leaves out what wasn't written yet.
    #[cfg(target_os = "linux")]
    pub fn open(&self, seat: u32, lanes: u32, room: usize, name: impl AsRef<Path>) -> Result<Seat<'_>, Error> {
        let mut file = File::create(name)?;
        let head = self.head();
        let (now, later) = head.as_bytes().split_at(HELD);
        file.write_all(now)?;
        let made = self.make(seat, lanes, room.max(4 * lanes as usize), Some(file));
        let held = unsafe { &mut *made.log.held.get() };
        held.bytes[..later.len()].copy_from_slice(later);
        held.count = later.len();
        ending::list(&made.log);
        Ok(made)
    }

    // The head of each file. The number of the run is of microseconds, and behind them three digits of the process's number.
    fn head(&self) -> String {
        let run = self.rest.run.get_or_init(|| {
            let since = SystemTime::now().duration_since(SystemTime::UNIX_EPOCH).unwrap_or_default();
            since.as_micros() as u64 * 1000 + u64::from(std::process::id()) % 1000
        });
        format!("run {run}\n")
    }

    fn make(&self, seat: u32, lanes: u32, room: usize, file: Option<File>) -> Seat<'_> {
        assert!(lanes > 0 && u64::from(seat) + u64::from(lanes) <= OPENING_SEAT, "no such seat");
        let first_lane = self.rest.lanes.fetch_add(u64::from(lanes), Ordering::SeqCst);
        assert!(first_lane + u64::from(lanes) <= 1 << LANE_BITS, "more than 4096 lanes");
        let nothing = Event { stamp: 0, lane: 0, what: What::Nothing };
        let mut events = vec![nothing; room];
        events.clear();
        let log = Log {
            seat,
            events: UnsafeCell::new(events),
            count: AtomicUsize::new(0),
            file,
            last_written: AtomicU64::new(0),
            bad: AtomicBool::new(false),
            writing: AtomicBool::new(false),
            was_written: AtomicBool::new(false),
            process: std::process::id(),
            held: UnsafeCell::new(Held { bytes: [0; LINE], count: 0 }),
        };
        Seat {
            recorder: self,
            log: Arc::new(log),
            room,
            first_lane,
            puts: vec![0; lanes as usize],
            last: 0,
        }
    }
}

impl Seat<'_> {
    // The stamp of the first lane.
    #[inline(always)]
    fn stamp(&mut self, is_end: bool) -> u64 {
        let first = self.recorder.rest.first;
        if first == 0 {
            return self.recorder.next.fetch_add(self.puts.len() as u64, Ordering::SeqCst);
        }
        loop {
            let reading = if is_end { clock::after() } else { clock::before() };
            let tick = reading.wrapping_sub(first);
            let stamp = (tick << 1 | u64::from(is_end)) << LANE_BITS | self.first_lane;
            if stamp > self.last {
                self.last = stamp;
                return stamp;
            }
        }
    }

    #[inline(always)]
    fn note(&mut self, stamp: u64, lane: usize, what: What) {
        let event = Event { stamp: stamp + lane as u64, lane: lane as u32, what };
        let events = unsafe { &mut *self.log.events.get() };
        events.push(event);
        self.log.count.store(events.len(), Ordering::Release);
    }

    #[inline(always)]
    fn start(&mut self, what: What) {
        let stamp = self.stamp(false);
        self.note(stamp, 0, what);
    }

    #[inline(always)]
    fn end(&mut self, what: What) {
        let stamp = self.stamp(true);
        self.note(stamp, 0, what);
        self.ended();
    }

    // Behind the end of a call: makes room for the next.
    #[inline(always)]
    fn ended(&mut self) {
        let count = self.log.count.load(Ordering::Relaxed);
        if self.log.file.is_some() && self.room - count < 2 * self.puts.len() {
            self.log.empty(false);
        }
    }

    #[inline(always)]
    fn next_value(&mut self, lane: usize) -> u64 {
        self.puts[lane] += 1;
        (u64::from(self.log.seat) + lane as u64) << NUMBER_BITS | self.puts[lane]
    }

    /// A put into the queue begins. The value to put.
    #[inline(always)]
    pub fn put_start(&mut self, queue: u32) -> u64 {
        let value = self.next_value(0);
        self.start(What::Put(queue));
        value
    }

    #[inline(always)]
    pub fn put_done(&mut self) {
        self.end(What::Done);
    }

    #[inline(always)]
    pub fn put_refused(&mut self) {
        self.end(What::Refused);
    }

    #[inline(always)]
    pub fn get_start(&mut self, queue: u32) {
        self.start(What::Get(queue));
    }

    #[inline(always)]
    pub fn get_got(&mut self, value: u64) {
        self.end(What::Got(value));
    }

    #[inline(always)]
    pub fn get_nothing(&mut self) {
        self.end(What::Nothing);
    }

    /// A call begins that puts these values, which are written here: at most as many as the seat has lanes.
    pub fn puts_start(&mut self, queue: u32, values: &mut [u64]) {
        for (lane, value) in values.iter_mut().enumerate() {
            *value = self.next_value(lane);
        }
        let stamp = self.stamp(false);
        for lane in 0..values.len() {
            self.note(stamp, lane, What::Put(queue));
        }
    }

    /// It has put the first `taken` of `count`, and the others were refused.
    pub fn puts_end(&mut self, count: usize, taken: usize) {
        let stamp = self.stamp(true);
        for lane in 0..count {
            self.note(stamp, lane, if lane < taken { What::Done } else { What::Refused });
        }
        self.ended();
    }

    /// A call begins that gets up to so many values.
    pub fn gets_start(&mut self, queue: u32, count: usize) {
        let stamp = self.stamp(false);
        for lane in 0..count {
            self.note(stamp, lane, What::Get(queue));
        }
    }

    /// It has got these of `count`.
    pub fn gets_end(&mut self, values: &[u64], count: usize, fewer: Fewer) {
        let stamp = self.stamp(true);
        for lane in 0..count {
            let what = match (values.get(lane), fewer) {
                (Some(value), _) => What::Got(*value),
                (None, Fewer::Nothing) => What::Nothing,
                (None, Fewer::Refused) => What::Refused,
            };
            self.note(stamp, lane, what);
        }
        self.ended();
    }

    /// Writes the events of a seat that has no file open. One that was opened has most events there already, and is closed.
    pub fn write(&self, name: impl AsRef<Path>) -> Result<(), Error> {
        if self.log.file.is_some() {
            return Err(Error::new(ErrorKind::InvalidInput, "the seat has its file open: it has to be closed"));
        }
        let events = unsafe { &*self.log.events.get() };
        let mut file = File::create(name)?;
        file.write_all(self.recorder.head().as_bytes())?;
        self.log.was_written.store(true, Ordering::Relaxed);
        let mut none = Held { bytes: [0; LINE], count: 0 };
        write_events(file, self.log.seat, events, &mut none, true)
    }

    /// Writes the rest of a seat that has its file open. Whether all was written.
    pub fn close(self) -> bool {
        self.log.empty(true);
        !self.log.bad.load(Ordering::Relaxed)
    }
}

impl Drop for Seat<'_> {
    fn drop(&mut self) {
        let log = &self.log;
        let count = log.count.load(Ordering::Relaxed);
        if log.file.is_none() && count > 0 && !log.was_written.load(Ordering::Relaxed) {
            eprintln!("scq recorder: of seat {}, {count} events were never written", log.seat);
        }
        log.empty(true);
    }
}

impl Log {
    // Writes what it holds, where a file is open that is this process's.
    fn empty(&self, is_last: bool) {
        #[cfg(not(target_os = "linux"))]
        let _ = is_last;
        #[cfg(target_os = "linux")]
        if let Some(file) = &self.file {
            if self.process != std::process::id() {
                self.bad.store(true, Ordering::Relaxed);
                unsafe { &mut *self.events.get() }.clear();
                self.count.store(0, Ordering::SeqCst);
                return;
            }
            ending::locked_out(&self.writing, || {
                let events = unsafe { &mut *self.events.get() };
                if let Some(last) = events.last() {
                    self.last_written.store(last.stamp, Ordering::SeqCst);
                }
                let held = unsafe { &mut *self.held.get() };
                if write_events(file, self.seat, events, held, is_last).is_err() {
                    self.bad.store(true, Ordering::Relaxed);
                }
                events.clear();
                self.count.store(0, Ordering::SeqCst);
            });
        }
    }

    #[cfg(target_os = "linux")]
    fn so_far(&self) -> &[Event] {
        let count = self.count.load(Ordering::SeqCst);
        unsafe { std::slice::from_raw_parts((*self.events.get()).as_ptr(), count) }
    }
}

// The lines of events behind what was held back, by a buffer on the stack; but for the last bytes, where more may come. The content is `-`:
// which put a value is from is all that it says.
fn write_events(mut file: impl Write, seat: u32, events: &[Event], held: &mut Held, is_last: bool) -> Result<(), Error> {
    let mut buffer = [0; 64 * LINE];
    let mut used = held.count;
    buffer[..used].copy_from_slice(&held.bytes[..used]);
    held.count = 0;
    for event in events {
        if used > buffer.len() - LINE {
            file.write_all(&buffer[..used])?;
            used = 0;
        }
        used += write_line(&mut buffer[used..], seat, event)?;
    }
    if !is_last && used >= HELD {
        used -= HELD;
        held.bytes[..HELD].copy_from_slice(&buffer[used..used + HELD]);
        held.count = HELD;
    }
    file.write_all(&buffer[..used])
}

// One line, and how many bytes it has.
fn write_line(buffer: &mut [u8], seat: u32, event: &Event) -> Result<usize, Error> {
    let room = buffer.len();
    let mut at = buffer;
    let (stamp, seat) = (event.stamp, seat + event.lane);
    match event.what {
        What::Put(queue) => writeln!(at, "{stamp} start {seat} put {queue} -"),
        What::Get(queue) => writeln!(at, "{stamp} start {seat} get {queue}"),
        What::Done => writeln!(at, "{stamp} end {seat} done"),
        What::Refused => writeln!(at, "{stamp} end {seat} spent"),
        What::Got(value) => {
            let (by, number) = (value >> NUMBER_BITS, value & ((1 << NUMBER_BITS) - 1));
            if by == OPENING_SEAT {
                writeln!(at, "{stamp} end {seat} got o {number} -")
            } else {
                writeln!(at, "{stamp} end {seat} got {by} {number} -")
            }
        }
        What::Nothing => writeln!(at, "{stamp} end {seat} nothing"),
    }?;
    Ok(room - at.len())
}

/// The processor's clock, where it is known.
#[cfg(all(any(target_arch = "x86_64", target_arch = "aarch64"), target_os = "linux"))]
mod clock {
    use std::arch::asm;
    #[cfg(target_arch = "x86_64")]
    use std::arch::x86_64::{__cpuid, __get_cpuid_max};
    use std::sync::atomic::{AtomicU64, Ordering};
    use std::thread;

    const PROCESSORS: usize = 1024;
    const ROUNDS: u64 = 32;
    type Set = [u64; PROCESSORS / 64];

    extern "C" {
        fn sched_getaffinity(thread: i32, size: usize, set: *mut u64) -> i32;
        fn sched_setaffinity(thread: i32, size: usize, set: *const u64) -> i32;
    }

    /// A reading that comes before all later loads and stores.
    #[cfg(target_arch = "x86_64")]
    #[inline(always)]
    pub fn before() -> u64 {
        let (low, high): (u64, u64);
        unsafe { asm!("rdtsc", "lfence", out("rax") low, out("rdx") high, options(nostack)) };
        high << 32 | low
    }

    /// A reading that comes after all earlier loads, and after earlier stores were made, though maybe not seen.
    #[cfg(target_arch = "x86_64")]
    #[inline(always)]
    pub fn after() -> u64 {
        let (low, high): (u64, u64);
        unsafe { asm!("lfence", "rdtsc", out("rax") low, out("rdx") high, options(nostack)) };
        high << 32 | low
    }

    /// The same of the generic timer: `isb` lets nothing behind it begin before what stands in front of it is done.
    #[cfg(target_arch = "aarch64")]
    #[inline(always)]
    pub fn before() -> u64 {
        let reading: u64;
        unsafe { asm!("mrs {}, cntvct_el0", "isb", out(reg) reading, options(nostack)) };
        reading
    }

    /// `dsb ishld` waits for the loads alone.
    #[cfg(target_arch = "aarch64")]
    #[inline(always)]
    pub fn after() -> u64 {
        let reading: u64;
        unsafe { asm!("dsb ishld", "isb", "mrs {}, cntvct_el0", out(reg) reading, options(nostack)) };
        reading
    }

    /// The reading that counts as none: a little before now, since another processor's may be less.
    pub fn first() -> Result<u64, &'static str> {
        if !is_constant() {
            return Err("the processor's clock isn't constant");
        }
        if !agree() {
            return Err("the clocks of two processors contradict each other");
        }
        Ok(before().wrapping_sub(1 << 20).max(1))
    }

    // The architecture has it so.
    #[cfg(target_arch = "aarch64")]
    fn is_constant() -> bool {
        true
    }

    #[cfg(target_arch = "x86_64")]
    #[allow(unused_unsafe)]
    fn is_constant() -> bool {
        unsafe { __get_cpuid_max(0x8000_0000).0 >= 0x8000_0007 && __cpuid(0x8000_0007).edx >> 8 & 1 == 1 }
    }

    // Whether no reading is less than one that was taken before it on another processor.
    fn agree() -> bool {
        let mut allowed: Set = [0; PROCESSORS / 64];
        let size = std::mem::size_of::<Set>();
        if unsafe { sched_getaffinity(0, size, allowed.as_mut_ptr()) } != 0 {
            return false;
        }
        let (turn, reading) = (AtomicU64::new(0), AtomicU64::new(0));
        let processors: Vec<usize> =
            (0..PROCESSORS).filter(|p| allowed[p / 64] >> (p % 64) & 1 == 1).collect();
        let turns = processors.len() as u64 * ROUNDS;
        thread::scope(|scope| {
            let other = scope.spawn(|| {
                (0..turns).fold(true, |good, t| {
                    let p = processors[(t / ROUNDS) as usize];
                    let mut only: Set = [0; PROCESSORS / 64];
                    only[p / 64] = 1 << (p % 64);
                    unsafe { sched_setaffinity(0, size, only.as_ptr()) };
                    take(&turn, &reading, 2 * t + 1) && good
                })
            });
            let here = (0..turns).fold(true, |good, t| take(&turn, &reading, 2 * t) && good);
            here && other.join().unwrap_or(false)
        })
    }

    // One reading in this turn: whether it isn't less than the other's before it.
    fn take(turn: &AtomicU64, reading: &AtomicU64, mine: u64) -> bool {
        while turn.load(Ordering::SeqCst) != mine {
            thread::yield_now();
        }
        let good = before() >= reading.load(Ordering::Relaxed);
        reading.store(after(), Ordering::Relaxed);
        turn.store(mine + 1, Ordering::SeqCst);
        good
    }
}

#[cfg(not(all(any(target_arch = "x86_64", target_arch = "aarch64"), target_os = "linux")))]
mod clock {
    pub fn before() -> u64 {
        0
    }

    pub fn after() -> u64 {
        0
    }

    pub fn first() -> Result<u64, &'static str> {
        Err("there is no clock that this recorder knows")
    }
}

/// What is done at the end of the program, however it comes.
#[cfg(target_os = "linux")]
mod ending {
    use super::{write_events, Log};
    use std::sync::atomic::{AtomicBool, AtomicPtr, AtomicU64, AtomicU8, AtomicUsize, Ordering};
    use std::sync::{Arc, Once};
    use std::{process, ptr, thread, time::Duration};

    type Signals = [u64; 16];
    const BLOCK: i32 = 0;
    const SET: i32 = 2;
    const IGNORED: usize = 1;

    /// SIGHUP, SIGINT, SIGQUIT, SIGILL, SIGABRT, SIGBUS, SIGFPE, SIGSEGV and SIGTERM.
    const SIGNALS: [i32; 9] = [1, 2, 3, 4, 6, 7, 8, 11, 15];

    extern "C" {
        fn atexit(call: extern "C" fn()) -> i32;
        fn signal(number: i32, handler: usize) -> usize;
        fn raise(number: i32) -> i32;
        fn sigfillset(set: *mut Signals) -> i32;
        fn pthread_sigmask(how: i32, set: *const Signals, before: *mut Signals) -> i32;
    }

    struct Node {
        log: Arc<Log>,
        next: *mut Node,
    }

    static OPEN: AtomicPtr<Node> = AtomicPtr::new(ptr::null_mut());
    /// How far the end of the program is: what is left is being written, and it was.
    static ENDING: AtomicU8 = AtomicU8::new(RUNS);
    const RUNS: u8 = 0;
    const ENDS: u8 = 1;
    const ENDED: u8 = 2;
    static WATCH: Once = Once::new();
    #[allow(clippy::declare_interior_mutable_const)]
    const NONE: AtomicUsize = AtomicUsize::new(0);
    static BEFORE: [AtomicUsize; 16] = [NONE; 16];

    /// Makes the log one that is written at the end. It is kept till then.
    pub fn list(log: &Arc<Log>) {
        WATCH.call_once(watch);
        let node = Box::into_raw(Box::new(Node { log: log.clone(), next: ptr::null_mut() }));
        let mut head = OPEN.load(Ordering::SeqCst);
        loop {
            unsafe { (*node).next = head };
            match OPEN.compare_exchange(head, node, Ordering::SeqCst, Ordering::SeqCst) {
                Ok(_) => return,
                Err(now) => head = now,
            }
        }
    }

    /// Writes while no signal is taken by this thread. Where the program's end has begun it waits in place of that until what is left
    /// is written.
    pub fn locked_out(writing: &AtomicBool, write: impl FnOnce()) {
        let (mut all, mut before): (Signals, Signals) = ([0; 16], [0; 16]);
        unsafe { sigfillset(&mut all) };
        unsafe { pthread_sigmask(BLOCK, &all, &mut before) };
        writing.store(true, Ordering::SeqCst);
        let runs = ENDING.load(Ordering::SeqCst) == RUNS;
        if runs {
            write();
        }
        writing.store(false, Ordering::SeqCst);
        unsafe { pthread_sigmask(SET, &before, ptr::null_mut()) };
        while !runs && ENDING.load(Ordering::SeqCst) != ENDED {
            thread::yield_now();
        }
    }

    fn watch() {
        unsafe { atexit(write_rest) };
        for number in SIGNALS {
            let before = unsafe { signal(number, on_signal as extern "C" fn(i32) as usize) };
            BEFORE[number as usize].store(before, Ordering::SeqCst);
            if before == IGNORED {
                unsafe { signal(number, before) };
            }
        }
    }

    extern "C" fn on_signal(number: i32) {
        write_rest();
        unsafe { signal(number, BEFORE[number as usize].load(Ordering::SeqCst)) };
        unsafe { raise(number) };
    }

    fn each(call: impl Fn(&Log)) {
        let mut at = OPEN.load(Ordering::SeqCst);
        while let Some(node) = unsafe { at.as_ref() } {
            call(&node.log);
            at = node.next;
        }
    }

    fn last_stamp(log: &Log) -> u64 {
        log.so_far().last().map_or(log.last_written.load(Ordering::SeqCst), |event| event.stamp)
    }

    // Waits for a thread that writes, for two seconds at most.
    fn wait_for_writer(log: &Log) {
        for _ in 0..2000 {
            if !log.writing.load(Ordering::SeqCst) {
                return;
            }
            thread::sleep(Duration::from_millis(1));
        }
    }

    // Writes what is left of each log, once, up to one moment: what was stamped later may be missing elsewhere.
    extern "C" fn write_rest() {
        if ENDING.swap(ENDS, Ordering::SeqCst) != RUNS {
            return;
        }
        let until = AtomicU64::new(0);
        each(|log| {
            wait_for_writer(log);
            until.fetch_max(last_stamp(log), Ordering::SeqCst);
        });
        let until = until.into_inner();
        each(|log| {
            let events = log.so_far();
            let count = events.iter().take_while(|event| event.stamp <= until).count();
            if let (Some(file), true) = (&log.file, log.process == process::id()) {
                let held = unsafe { &mut *log.held.get() };
                let _ = write_events(file, log.seat, &events[..count], held, true);
            }
        });
        ENDING.store(ENDED, Ordering::SeqCst);
    }
}
