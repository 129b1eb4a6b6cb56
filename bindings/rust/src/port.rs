//! Ports: what a thread makes its calls with.
use crate::error::{LendError, SendRefusal, Spent, TakeError};
use crate::held::{Held, Lent, OwnedLent, OwnedTaken, Taken};
use crate::{memory, sys, told};
use std::cell::{Cell, UnsafeCell};
use std::fmt;
use std::ops::Deref;
use std::ptr::NonNull;
use std::sync::Arc;

/// What a port did so far.
#[derive(Clone, Copy, Debug, Default, PartialEq, Eq, Hash)]
#[repr(C)]
pub struct Counts {
    /// How many buffers it sent.
    pub sent: u64,
    /// How many buffers it took.
    pub taken: u64,
    /// How often no buffer was free.
    pub full: u64,
}

/// What a thread makes its calls with. It may go to another thread, but two threads can't share it.
///
/// Dropped, it gives back the buffers that it still holds. The last port of a queue that is dropped
/// frees the queue, with what stands on its topics.
///
/// A port can't be shared:
///
/// ```compile_fail,E0277
/// let port = scq::Queue::new(scq::Setup::default(), 1).unwrap().into_ports().pop().unwrap();
/// std::thread::scope(|scope| {
///     scope.spawn(|| port.lend().is_ok());
/// });
/// ```
///
/// and it can't end while a buffer of it is in use:
///
/// ```compile_fail,E0505
/// let port = scq::Queue::new(scq::Setup::default(), 1).unwrap().into_ports().pop().unwrap();
/// let lent = port.lend().unwrap();
/// drop(port);
/// println!("{}", lent.len());
/// ```
pub struct Port {
    handle: UnsafeCell<sys::scq_port>,
    /// Whether it counts among those that may take.
    may_take: Cell<bool>,
}

// SAFETY: the library's handle may go from thread to thread, which is proved of it; and a port is
// moved only where nothing borrows it.
unsafe impl Send for Port {}

impl Port {
    /// The port of a handle that was opened.
    pub(crate) fn new(handle: sys::scq_port) -> Port {
        Port { handle: UnsafeCell::new(handle), may_take: Cell::new(true) }
    }

    /// The handle. A port isn't `Sync`, and no call comes back into this crate, so one call at a
    /// time is made with it.
    fn handle(&self) -> *mut sys::scq_port {
        self.handle.get()
    }

    /// Where the buffers of the port's queue lie.
    #[inline]
    fn memory(&self) -> sys::scq_memory {
        // SAFETY: no call is made with the handle meanwhile.
        unsafe { (*self.handle()).memory }
    }

    /// Whether it wasn't closed.
    pub(crate) fn is_open(&self) -> bool {
        !self.memory().base.is_null()
    }

    /// Says that the port takes no more: it sends, or is about to close. Answers whether it was the
    /// last of its queue that might. (Those of a ring have no queue where that is counted.)
    pub(crate) fn stop_taking(&self) -> bool {
        let memory = self.memory();
        // SAFETY: the memory was taken for the queue's ports, of which this one is open, and this
        // is said once.
        !memory.block.is_null()
            && self.may_take.replace(false)
            && unsafe { memory::stop_taking(memory) }
    }

    /// Whether a port of the queue may take.
    pub(crate) fn is_any_taking(&self) -> bool {
        let memory = self.memory();
        // SAFETY: as for `stop_taking`.
        memory.block.is_null() || unsafe { memory::is_any_taking(memory) }
    }

    /// Is lent the number of a buffer that nobody holds.
    #[inline]
    pub(crate) fn lend_index(&self) -> Result<sys::scq_held, LendError> {
        let mut out = sys::scq_held::NONE;
        // SAFETY: one call at a time is made with the handle, and `out` is apart from it.
        match unsafe { sys::scq_lend_index(self.handle(), &mut out) } {
            sys::OK => {
                // (What a port lets go of that is dropped was released there.)
                told::acquire(self.memory().base);
                Ok(out)
            }
            sys::FULL => Err(LendError::Full { head: out.place }),
            sys::NO_ROOM => Err(LendError::NoRoom),
            sys::SPENT => Err(LendError::Spent { ticket: out.place }),
            answer => unreachable!("scq_lend_index answered {}", answer),
        }
    }

    /// Takes the number of a buffer off a topic, with the place at which it was sent.
    #[inline]
    pub(crate) fn take_index(&self, topic: u32) -> Result<sys::scq_held, TakeError> {
        let mut out = sys::scq_held::NONE;
        // SAFETY: one call at a time is made with the handle, and `out` is apart from it.
        match unsafe { sys::scq_take_index(self.handle(), topic, &mut out) } {
            sys::OK => Ok(out),
            sys::EMPTY => Err(TakeError::Empty { head: out.place }),
            sys::NO_ROOM => Err(TakeError::NoRoom),
            sys::NO_TOPIC => Err(TakeError::NoTopic),
            sys::SPENT => Err(TakeError::Spent { ticket: out.place }),
            answer => unreachable!("scq_take_index answered {}", answer),
        }
    }

    /// Sends the buffer of a number that the port holds.
    #[inline]
    pub(crate) fn send_index(&self, index: u32, topic: u32) -> Result<u64, SendRefusal> {
        let mut place = 0;
        // SAFETY: one call at a time is made with the handle, and `place` is apart from it.
        match unsafe { sys::scq_send(self.handle(), index, topic, &mut place) } {
            sys::OK => Ok(place),
            sys::NO_TOPIC => Err(SendRefusal::NoTopic),
            sys::RETIRED => Err(SendRefusal::Retired),
            sys::SPENT => Err(SendRefusal::Spent { ticket: place }),
            answer => unreachable!("scq_send answered {}", answer),
        }
    }

    /// Gives the buffer of a number that the port holds back.
    #[inline]
    pub(crate) fn give_back_index(&self, index: u32) -> Result<(), Spent> {
        // SAFETY: one call at a time is made with the handle.
        match unsafe { sys::scq_give_back(self.handle(), index) } {
            sys::OK => Ok(()),
            sys::SPENT => Err(Spent { ticket: self.spent().unwrap_or_default() }),
            answer => unreachable!("scq_give_back answered {}", answer),
        }
    }

    /// Is lent the numbers of buffers, one for each slot: how many came, and the last answer.
    pub(crate) fn lend_many(&self, into: &mut [sys::scq_held]) -> (usize, u32) {
        let mut done = 0;
        // SAFETY: one call at a time is made with the handle; the slots and `done` are apart from
        // it.
        let answer = unsafe {
            sys::scq_lend_index_many(self.handle(), into.as_mut_ptr(), into.len(), &mut done)
        };
        // (What a port lets go of that is dropped was released there.)
        told::acquire(self.memory().base);
        (done, answer)
    }

    /// Takes the numbers of buffers off a topic, one into each slot, with their places.
    pub(crate) fn take_many(&self, topic: u32, into: &mut [sys::scq_held]) -> (usize, u32) {
        let mut done = 0;
        let (first, n) = (into.as_mut_ptr(), into.len());
        // SAFETY: as for `lend_many`.
        let answer = unsafe { sys::scq_take_index_many(self.handle(), topic, first, n, &mut done) };
        (done, answer)
    }

    /// Sends the buffers of these slots, which the port holds, and tells their places there.
    pub(crate) fn send_many(&self, held: &mut [sys::scq_held], topic: u32) -> (usize, u32) {
        let mut done = 0;
        let (first, n) = (held.as_mut_ptr(), held.len());
        // SAFETY: as for `lend_many`.
        let answer = unsafe { sys::scq_send_many(self.handle(), first, n, topic, &mut done) };
        (done, answer)
    }

    /// Gives the buffers of these slots back, which the port holds.
    pub(crate) fn give_back_many(&self, held: &[sys::scq_held]) -> (usize, u32) {
        let mut done = 0;
        // SAFETY: as for `lend_many`.
        let answer =
            unsafe { sys::scq_give_back_many(self.handle(), held.as_ptr(), held.len(), &mut done) };
        (done, answer)
    }

    /// Writes to a slot where the buffer of its number lies, which the port was given.
    #[inline]
    pub(crate) fn locate(&self, held: &mut sys::scq_held) {
        let memory = self.memory();
        // SAFETY: there are more buffers than the index says.
        held.at = unsafe { memory.base.add(held.index as usize * memory.stride) };
        held.len = memory.len;
    }

    /// The buffer of a number that this port was given, and who keeps the port there meanwhile.
    #[inline]
    fn held<P: Deref<Target = Port>>(port: P, index: u32) -> Held<P> {
        let memory = port.memory();
        // SAFETY: there are more buffers than the index says, and none lies at null.
        let at = unsafe { NonNull::new_unchecked(memory.base.add(index as usize * memory.stride)) };
        told::acquire(at.as_ptr());
        Held::new(port, index, at, memory.len)
    }

    /// Is lent a buffer that nobody holds, with whatever bytes stand in it.
    ///
    /// # Errors
    ///
    /// [`LendError::Full`] where no buffer is free, which is right: there was a moment in the call
    /// at which each buffer that had been given back was lent again, or was being lent.
    #[inline]
    pub fn lend(&self) -> Result<Lent<'_>, LendError> {
        self.lend_index().map(|out| Lent::new(Port::held(self, out.index)))
    }

    /// Takes a buffer off a topic.
    ///
    /// # Errors
    ///
    /// [`TakeError::Empty`] where the topic has nothing, which is right: there was a moment in the
    /// call at which each buffer whose send had ended was taken, or was being taken.
    #[inline]
    pub fn take(&self, topic: u32) -> Result<Taken<'_>, TakeError> {
        self.take_index(topic).map(|out| Taken::new(Port::held(self, out.index), out.place))
    }

    /// The same port for [`lend_owned`](Port::lend_owned) and [`take_owned`](Port::take_owned),
    /// whose buffers keep it open as long as they live: so a port and its buffers may be in one
    /// struct. As two threads can't share a port, all of them stay in one thread.
    ///
    /// ```
    /// use scq::{OwnedLent, Port, Queue, Setup};
    /// use std::sync::Arc;
    ///
    /// struct Batch {
    ///     port: Arc<Port>,
    ///     lent: Vec<OwnedLent>,
    /// }
    ///
    /// let port = Queue::new(Setup::default(), 1)?.into_ports().remove(0);
    /// let mut batch = Batch { port: port.into_shared(), lent: Vec::new() };
    /// batch.lent.push(batch.port.lend_owned()?);
    /// batch.lent.push(batch.port.lend_owned()?);
    /// for lent in batch.lent.drain(..) {
    ///     lent.send(0)?;
    /// }
    /// assert!(batch.port.take(0).is_ok());
    /// # Ok::<(), Box<dyn std::error::Error>>(())
    /// ```
    #[allow(clippy::arc_with_non_send_sync, unknown_lints)]
    pub fn into_shared(self) -> Arc<Port> {
        Arc::new(self)
    }

    /// As [`lend`](Port::lend), with a buffer that keeps the port open.
    ///
    /// # Errors
    ///
    /// As [`lend`](Port::lend).
    pub fn lend_owned(self: &Arc<Port>) -> Result<OwnedLent, LendError> {
        self.lend_index().map(|out| OwnedLent::new(Port::held(Arc::clone(self), out.index)))
    }

    /// As [`take`](Port::take), with a buffer that keeps the port open.
    ///
    /// # Errors
    ///
    /// As [`take`](Port::take).
    pub fn take_owned(self: &Arc<Port>, topic: u32) -> Result<OwnedTaken, TakeError> {
        let out = self.take_index(topic)?;
        Ok(OwnedTaken::new(Port::held(Arc::clone(self), out.index), out.place))
    }

    /// Retires the port: it sends no more, on any topic. It still lends, takes and gives back. A
    /// port that is dropped retires too.
    pub fn retire(&self) {
        told::release(self.memory().base);
        // SAFETY: one call at a time is made with the handle.
        match unsafe { sys::scq_retire(self.handle()) } {
            sys::OK => (),
            answer => unreachable!("scq_retire answered {}", answer),
        }
    }

    /// Whether all ports of the queue have retired, this one among them. Ask first, and then take:
    /// a topic that is found empty then has ended. Once the answer is true, it always is.
    #[must_use]
    pub fn all_retired(&self) -> bool {
        // SAFETY: one call at a time is made with the handle.
        match unsafe { sys::scq_retired(self.handle()) } {
            sys::RETIRED => {
                told::acquire(self.memory().base);
                true
            }
            sys::OK => false,
            answer => unreachable!("scq_retired answered {}", answer),
        }
    }

    /// How many buffers the queue has: 2^[`order`](crate::Setup::order).
    pub fn capacity(&self) -> usize {
        let mut out = 0;
        // SAFETY: one call at a time is made with the handle, and `out` is apart from it.
        match unsafe { sys::scq_capacity(self.handle(), &mut out) } {
            sys::OK => out as usize,
            answer => unreachable!("scq_capacity answered {}", answer),
        }
    }

    /// About how many buffers stand on a topic, if there is such a topic. It is a hint, for a gauge
    /// or to share out work, and never above [`capacity`](Port::capacity): others send and take
    /// meanwhile, and places that were drawn and not used count too. Only [`take`](Port::take)
    /// tells whether a topic is empty.
    ///
    /// ```
    /// let port = scq::Queue::new(scq::Setup::default(), 1)?.into_ports().remove(0);
    /// port.lend()?.send(0)?;
    /// assert_eq!((port.count(0), port.count(1), port.capacity()), (Some(1), None, 64));
    /// # Ok::<(), Box<dyn std::error::Error>>(())
    /// ```
    pub fn count(&self, topic: u32) -> Option<usize> {
        let mut out = 0;
        // SAFETY: one call at a time is made with the handle, and `out` is apart from it.
        match unsafe { sys::scq_count(self.handle(), topic, &mut out) } {
            sys::OK => Some(out as usize),
            sys::NO_TOPIC => None,
            answer => unreachable!("scq_count answered {}", answer),
        }
    }

    /// How many sends, takes and [`LendError::Full`] the port had.
    pub fn counts(&self) -> Counts {
        let mut out = sys::scq_counts { sent: 0, taken: 0, full: 0 };
        // SAFETY: one call at a time is made with the handle, and `out` is apart from it.
        match unsafe { sys::scq_counts_of(self.handle(), &mut out) } {
            sys::OK => Counts { sent: out.sent, taken: out.taken, full: out.full },
            answer => unreachable!("scq_counts_of answered {}", answer),
        }
    }

    /// The ticket at or past the limit that the port has drawn, where it has: each later lend,
    /// take, send and give-back is refused.
    pub fn spent(&self) -> Option<u64> {
        let mut ticket = 0;
        // SAFETY: one call at a time is made with the handle, and `ticket` is apart from it.
        match unsafe { sys::scq_spent(self.handle(), &mut ticket) } {
            sys::OK => None,
            sys::SPENT => Some(ticket),
            answer => unreachable!("scq_spent answered {}", answer),
        }
    }
}

impl Port {
    /// Closes the port, as dropping it does, and says whether it was the queue's last (that a last
    /// one hears so is tested). Where it says so, there stands in `counts` what each port of the
    /// queue did, in the order in which they were opened, as far as there is room.
    pub fn end(mut self, counts: &mut [Counts]) -> bool {
        self.close(counts)
    }

    /// Closes the port, where it is open: as `end`.
    pub(crate) fn close(&mut self, counts: &mut [Counts]) -> bool {
        if !self.is_open() {
            return false;
        }
        self.stop_taking();
        let memory = self.memory();
        // It may hold buffers, which it gives back.
        told::release(memory.base);
        let mut ended = sys::scq_ended { last: 0 };
        // SAFETY: nothing borrows the port, and `ended` and `counts` are apart from it; a `Counts`
        // lies as an `scq_counts`.
        match unsafe {
            sys::scq_end(self.handle(), &mut ended, counts.as_mut_ptr().cast(), counts.len())
        } {
            sys::OK => *self.handle.get_mut() = sys::scq_port::NONE,
            answer => unreachable!("scq_end answered {}", answer),
        }
        if !memory.block.is_null() {
            // SAFETY: the port was opened over this memory, and its buffers are in nobody's hands.
            unsafe { memory::leave(memory) };
        }
        ended.last == 1
    }
}

impl fmt::Debug for Port {
    fn fmt(&self, f: &mut fmt::Formatter<'_>) -> fmt::Result {
        f.debug_struct("Port").finish_non_exhaustive()
    }
}

impl Drop for Port {
    fn drop(&mut self) {
        self.close(&mut []);
    }
}
