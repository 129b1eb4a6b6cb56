//! Handles of a ring that are tied to a bell for their life.
use crate::batch::{Several, Stopped};
use crate::bell::{Bell, WaitError};
use crate::error::{Refused, Spent};
use crate::lines::{Lines, FREE};
use crate::ring::{each_of, up_to, Handle};
use crate::ring_wait::{Pushing, VALUES};
use crate::tied::Role;
use std::fmt;
use std::ops::Deref;
use std::sync::atomic::{AtomicUsize, Ordering::AcqRel, Ordering::Relaxed};
use std::time::Duration;

/// A [`Handle`] of a ring that is tied to the ring's [`Bell`] for its life, by
/// [`Bell::tie_handle`], or by [`TiedHandle::by`] where the bell is in an `Arc`. It waits, it rings
/// for what it pushes and pops, and its end is told, however it comes: with the last that pushes
/// the values end, and with the last that pops who waits for room is told.
///
/// Tie all handles before the first thread is started: an end isn't taken back. A
/// [`Sender`](crate::Sender) and a [`Receiver`](crate::Receiver) can be cloned later on.
#[must_use = "a handle that is dropped has ended"]
pub struct TiedHandle<B: Deref<Target = Bell>, T> {
    bell: B,
    handle: Handle<T>,
    role: Role,
}

impl Bell {
    /// Ties a handle of this bell's ring to it, for its life.
    ///
    /// ```
    /// use scq::{Bell, Ring, Role, WaitError};
    /// use std::thread;
    ///
    /// let (bell, ring) = (Bell::new(), Ring::new(4, 2)?);
    /// let pushes = bell.tie_handle(ring.handle().expect("one of two"), Role::Sends);
    /// let pops = bell.tie_handle(ring.handle().expect("one of two"), Role::Takes);
    /// thread::scope(|scope| {
    ///     scope.spawn(move || pushes.push("hello").is_ok());
    ///     assert_eq!(pops.pop(), Ok("hello"));
    ///     assert_eq!(pops.pop(), Err(WaitError::Ended));
    /// });
    /// # Ok::<(), scq::OpenError>(())
    /// ```
    pub fn tie_handle<T>(&self, handle: Handle<T>, role: Role) -> TiedHandle<&Bell, T> {
        TiedHandle::by(self, handle, role)
    }
}

impl<B: Deref<Target = Bell>, T> TiedHandle<B, T> {
    /// Ties a handle to the bell of its ring that this leads to, for its life.
    pub fn by(bell: B, handle: Handle<T>, role: Role) -> TiedHandle<B, T> {
        if role.sends() {
            bell.pushers.fetch_add(1, Relaxed);
        }
        if role.takes() {
            bell.poppers.fetch_add(1, Relaxed);
        }
        TiedHandle { bell, handle, role }
    }

    /// Puts a value at the end of the ring, and waits until there is room.
    ///
    /// # Errors
    ///
    /// As [`Bell::push`].
    pub fn push(&self, value: T) -> Pushing<T> {
        self.bell.push(&self.handle, value)
    }

    /// Puts a value at the end of the ring, and waits that long at most.
    ///
    /// # Errors
    ///
    /// As [`Bell::push_for`].
    pub fn push_for(&self, value: T, most: Duration) -> Pushing<T> {
        self.bell.push_for(&self.handle, value, most)
    }

    /// Puts a value at the end of the ring where there is room at once.
    ///
    /// # Errors
    ///
    /// As [`Bell::push_for`] without time.
    pub fn try_push(&self, value: T) -> Pushing<T> {
        self.bell.push_now(&self.handle, value)
    }

    /// Puts values at the end of the ring as far as there is room at once, as
    /// [`Handle::push_many`]; stopped by [`Stopped::Ended`] too, where nobody is to push any more.
    pub fn try_push_many(&self, values: &mut Vec<T>) -> Several {
        each_of(values, |value| {
            self.try_push(value)
                .map_err(|Refused { held, why }| (held, stopped(why, Stopped::Full)))
        })
    }

    /// Takes the first value off the ring, and waits until there is one.
    ///
    /// # Errors
    ///
    /// As [`Bell::pop`].
    pub fn pop(&self) -> Result<T, WaitError<Spent>> {
        self.bell.pop(&self.handle)
    }

    /// Takes the first value off the ring, and waits that long at most.
    ///
    /// # Errors
    ///
    /// As [`Bell::pop_for`].
    pub fn pop_for(&self, most: Duration) -> Result<T, WaitError<Spent>> {
        self.bell.pop_for(&self.handle, most)
    }

    /// Takes the first value off the ring where there is one at once.
    ///
    /// # Errors
    ///
    /// [`WaitError::TimedOut`] where there was none; [`Spent`] where tickets have run out.
    pub fn try_pop(&self) -> Result<T, WaitError<Spent>> {
        self.bell.pop_now(&self.handle)
    }

    /// Takes up to so many values off the front of the ring that are there at once, as
    /// [`Handle::pop_many`].
    pub fn try_pop_many(&self, into: &mut Vec<T>, most: usize) -> Several {
        up_to(into, most, || self.try_pop().map_err(|why| stopped(why, Stopped::Empty)))
    }

    /// The handle. What is done with it alone rings nobody.
    pub fn handle(&self) -> &Handle<T> {
        &self.handle
    }

    /// The bell.
    pub fn bell(&self) -> &Bell {
        &self.bell
    }

    /// One of those counted here goes; the last one ends the line.
    fn leave(&self, count: &AtomicUsize, line: u32) {
        if count.fetch_sub(1, AcqRel) == 1 {
            self.bell.finish_lines(Lines::of(line));
        }
    }
}

/// Why one of several was refused: for this where there may be something later.
fn stopped(why: WaitError<Spent>, later: Stopped) -> Stopped {
    match why {
        WaitError::TimedOut => later,
        WaitError::Ended => Stopped::Ended,
        WaitError::Refused(_) => Stopped::Spent,
    }
}

impl<B: Deref<Target = Bell>, T> fmt::Debug for TiedHandle<B, T> {
    fn fmt(&self, f: &mut fmt::Formatter<'_>) -> fmt::Result {
        f.debug_struct("TiedHandle").field("role", &self.role).finish_non_exhaustive()
    }
}

impl<B: Deref<Target = Bell>, T> Drop for TiedHandle<B, T> {
    fn drop(&mut self) {
        if self.role.sends() {
            self.leave(&self.bell.pushers, VALUES);
        }
        if self.role.takes() {
            self.leave(&self.bell.poppers, FREE);
        }
    }
}
