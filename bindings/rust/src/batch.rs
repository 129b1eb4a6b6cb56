//! Several buffers in the hands of a port.
use crate::bell::Bell;
use crate::lines::{Lines, FREE};
use crate::port::Port;
use crate::{sys, told};
use std::error::Error;
use std::fmt;
use std::slice;

/// Why a call of several ended before all: what the first that was refused was answered.
#[derive(Clone, Copy, Debug, PartialEq, Eq, Hash)]
pub enum Stopped {
    /// No buffer was free.
    Full,
    /// The topic had nothing.
    Empty,
    /// The port holds as many buffers as it may.
    NoRoom,
    /// There are not so many topics.
    NoTopic,
    /// The port has retired.
    Retired,
    /// The topic was [finished](crate::Bell::finish), in a send by that bell.
    Ended,
    /// Tickets have run out at the limit: [`Port::spent`] has the ticket.
    Spent,
}

impl fmt::Display for Stopped {
    fn fmt(&self, f: &mut fmt::Formatter<'_>) -> fmt::Result {
        f.write_str(match self {
            Stopped::Full => "no buffer is free",
            Stopped::Empty => "the topic is empty",
            Stopped::NoRoom => "the port holds as many buffers as it may",
            Stopped::NoTopic => "there are not so many topics",
            Stopped::Retired => "the port has retired",
            Stopped::Ended => "the topic was finished",
            Stopped::Spent => "tickets have run out at the queue's limit",
        })
    }
}

impl Error for Stopped {}

/// How many buffers, or values, went, and why the next didn't, where one didn't.
#[derive(Clone, Copy, Debug, PartialEq, Eq, Hash)]
#[must_use = "it says how many went"]
pub struct Several {
    /// How many went.
    pub done: usize,
    /// Why not all did.
    pub stopped: Option<Stopped>,
}

impl Several {
    fn of(done: usize, answer: u32) -> Several {
        let stopped = match answer {
            sys::OK => None,
            sys::FULL => Some(Stopped::Full),
            sys::EMPTY => Some(Stopped::Empty),
            sys::NO_ROOM => Some(Stopped::NoRoom),
            sys::NO_TOPIC => Some(Stopped::NoTopic),
            sys::RETIRED => Some(Stopped::Retired),
            sys::ENDED => Some(Stopped::Ended),
            sys::SPENT => Some(Stopped::Spent),
            answer => unreachable!("a call of several answered {}", answer),
        };
        Several { done, stopped }
    }

    /// How many went, if all did that were to go.
    ///
    /// # Errors
    ///
    /// Why the next didn't. Those before it went.
    pub fn all(self) -> Result<usize, Stopped> {
        self.stopped.map_or(Ok(self.done), Err)
    }
}

/// Up to `N` buffers that a port holds, which are got, sent and given back together: as many calls
/// of the queue as buffers, and one into the library. It takes no memory. Dropped, they are given
/// back.
///
/// ```
/// use scq::{Batch, Queue, Setup, Stopped};
///
/// let setup = Setup { hold: 8, ..Setup::default() };
/// let mut ports = Queue::new(setup, 2)?.into_ports();
/// let (one, two) = (ports.remove(0), ports.remove(0));
///
/// let mut batch: Batch<'_, 8> = Batch::new(&one);
/// batch.lend(3).all()?;
/// for (number, bytes) in (1..).zip(batch.iter_mut()) {
///     bytes[0] = number;
/// }
/// batch.send(0).all()?;
///
/// let mut batch: Batch<'_, 8> = Batch::new(&two);
/// let took = batch.take(0, 8);
/// assert_eq!((took.done, took.stopped), (3, Some(Stopped::Empty)));
/// assert_eq!(batch.iter().map(|bytes| u32::from(bytes[0])).sum::<u32>(), 6);
/// # Ok::<(), Box<dyn std::error::Error>>(())
/// ```
pub struct Batch<'p, const N: usize> {
    port: &'p Port,
    /// What is rung where a buffer goes.
    bell: Option<&'p Bell>,
    held: [sys::scq_held; N],
    len: usize,
}

impl<'p, const N: usize> Batch<'p, N> {
    /// One without buffers.
    pub fn new(port: &'p Port) -> Batch<'p, N> {
        Batch { port, bell: None, held: [sys::scq_held::NONE; N], len: 0 }
    }

    /// One without buffers, which rings by this bell, once for each buffer that it sends or gives
    /// back.
    pub fn by(bell: &'p Bell, port: &'p Port) -> Batch<'p, N> {
        let mut batch = Batch::new(port);
        batch.bell = Some(bell);
        batch
    }

    /// How many buffers there are.
    pub fn len(&self) -> usize {
        self.len
    }

    /// Whether there are none.
    pub fn is_empty(&self) -> bool {
        self.len == 0
    }

    /// Is lent up to `count` buffers more, but no more than there is room for in the batch.
    ///
    /// Stopped as [`Port::lend`] is refused.
    pub fn lend(&mut self, count: usize) -> Several {
        let port = self.port;
        let (done, answer) = port.lend_many(self.room(count));
        self.got(done, answer)
    }

    /// Takes up to `count` buffers more off a topic, but no more than there is room for in the
    /// batch.
    ///
    /// Stopped as [`Port::take`] is refused.
    pub fn take(&mut self, topic: u32, count: usize) -> Several {
        let port = self.port;
        let (done, answer) = port.take_many(topic, self.room(count));
        self.got(done, answer)
    }

    /// Sends all buffers on a topic, in their order. Those that were sent are gone from the batch;
    /// the others stay, in their order.
    ///
    /// Stopped as [`Lent::send`](crate::Lent::send) is refused, and where it rings as a
    /// [`Rung`](crate::Rung)'s is.
    pub fn send(&mut self, topic: u32) -> Several {
        if topic < FREE && self.bell.map_or(false, |bell| bell.has_ended(Lines::of(topic))) {
            return Several::of(0, sys::ENDED);
        }
        self.release();
        let (done, answer) = self.port.send_many(&mut self.held[..self.len], topic);
        self.went(done, answer, topic)
    }

    /// Gives all buffers back. Where tickets have run out some stay.
    pub fn give_back(&mut self) -> Several {
        self.release();
        let (done, answer) = self.port.give_back_many(&self.held[..self.len]);
        self.went(done, answer, FREE)
    }

    /// The bytes of the buffers, in their order.
    pub fn iter(&self) -> impl Iterator<Item = &[u8]> + '_ {
        self.held[..self.len].iter().map(move |held| {
            // SAFETY: the port holds the buffer as long as it stands here, and no other value is
            // over it.
            unsafe { slice::from_raw_parts(held.at, held.len) }
        })
    }

    /// The same, to be written.
    pub fn iter_mut(&mut self) -> impl Iterator<Item = &mut [u8]> + '_ {
        self.held[..self.len].iter_mut().map(|held| {
            // SAFETY: as for `iter`; and no two of them are of one buffer.
            unsafe { slice::from_raw_parts_mut(held.at, held.len) }
        })
    }

    /// The places at which the buffers were taken, in their order: 0 where one was lent.
    pub fn places(&self) -> impl Iterator<Item = u64> + '_ {
        self.held[..self.len].iter().map(|held| held.place)
    }

    fn room(&mut self, count: usize) -> &mut [sys::scq_held] {
        let end = N.min(self.len.saturating_add(count));
        &mut self.held[self.len..end]
    }

    // So many came, behind those that are there.
    fn got(&mut self, done: usize, answer: u32) -> Several {
        for held in &mut self.held[self.len..self.len + done] {
            self.port.locate(held);
            told::acquire(held.at);
        }
        self.len += done;
        Several::of(done, answer)
    }

    // The first of them went, to a line.
    fn went(&mut self, done: usize, answer: u32, line: u32) -> Several {
        if let Some(bell) = self.bell {
            (0..done).for_each(|_| bell.ring_line(line));
        }
        self.held[..self.len].rotate_left(done);
        self.len -= done;
        Several::of(done, answer)
    }

    fn release(&self) {
        for held in &self.held[..self.len] {
            told::release(held.at);
        }
    }
}

impl<const N: usize> Drop for Batch<'_, N> {
    fn drop(&mut self) {
        if !self.is_empty() {
            // Where that is refused the port keeps them.
            let _ = self.give_back();
        }
    }
}

impl<const N: usize> fmt::Debug for Batch<'_, N> {
    fn fmt(&self, f: &mut fmt::Formatter<'_>) -> fmt::Result {
        f.debug_struct("Batch").field("len", &self.len).finish_non_exhaustive()
    }
}
