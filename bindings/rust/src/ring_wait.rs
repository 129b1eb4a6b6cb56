//! Waiting for a ring of values, by a bell.
use crate::bell::{moment_in, Bell, WaitError};
use crate::error::{Refused, Spent};
use crate::lines::{Lines, FREE};
use crate::ring::Handle;
use std::time::{Duration, Instant};

/// The line of values that stand in a ring.
pub(crate) const VALUES: u32 = 0;

/// What [`Bell::push`] answers: the value comes back where it was refused.
pub type Pushing<T> = Result<(), Refused<T, WaitError<Spent>>>;

/// For a [`Ring`](crate::Ring) of values. The bell is of this ring alone, and whoever pushes or
/// pops does so by it, where somebody waits; or calls [`ring(0)`](Bell::ring) behind a push, and
/// [`ring_free`](Bell::ring_free) behind a pop. A [`Sender`](crate::Sender) and a
/// [`Receiver`](crate::Receiver) do all of this themselves.
///
/// ```
/// use scq::{Bell, Ring};
/// use std::thread;
///
/// let (bell, ring) = (Bell::new(), Ring::new(1, 2)?);
/// let sum: u64 = thread::scope(|scope| {
///     scope.spawn(|| {
///         let handle = ring.handle().expect("one of two");
///         for number in 1..=100 {
///             bell.push(&handle, Box::new(number)).expect("there is room in the end");
///         }
///         bell.finish(&[0]);
///     });
///     let handle = ring.handle().expect("one of two");
///     std::iter::from_fn(|| bell.pop(&handle).ok()).map(|number| *number).sum()
/// });
/// assert_eq!(sum, 5050);
/// # Ok::<(), scq::OpenError>(())
/// ```
impl Bell {
    /// Puts a value at the end of a ring, and waits until there is room.
    ///
    /// # Errors
    ///
    /// The value comes back: [`WaitError::Ended`] where line 0 was [finished](Bell::finish), and
    /// where there is no room and [`Lines::FREE`] was; what [`Handle::push`] refuses as tickets
    /// have run out.
    pub fn push<T>(&self, handle: &Handle<T>, value: T) -> Pushing<T> {
        self.push_until(handle, value, None)
    }

    /// The same, and waits that long at most.
    ///
    /// # Errors
    ///
    /// As [`push`](Bell::push); [`WaitError::TimedOut`] where there was no room then.
    pub fn push_for<T>(&self, handle: &Handle<T>, value: T, most: Duration) -> Pushing<T> {
        self.push_until(handle, value, moment_in(most))
    }

    /// Takes the first value off a ring, and waits until there is one.
    ///
    /// # Errors
    ///
    /// [`WaitError::Ended`] where there is none and line 0 was [finished](Bell::finish);
    /// [`Spent`] where tickets have run out.
    pub fn pop<T>(&self, handle: &Handle<T>) -> Result<T, WaitError<Spent>> {
        self.pop_until(handle, None)
    }

    /// The same, and waits that long at most.
    ///
    /// # Errors
    ///
    /// As [`pop`](Bell::pop); [`WaitError::TimedOut`] where there was none then.
    pub fn pop_for<T>(&self, handle: &Handle<T>, most: Duration) -> Result<T, WaitError<Spent>> {
        self.pop_until(handle, moment_in(most))
    }

    /// Puts a value at the end of a ring where there is room at once, or says that the time is
    /// over.
    pub(crate) fn push_now<T>(&self, handle: &Handle<T>, value: T) -> Pushing<T> {
        if self.has_ended(Lines::of(VALUES)) {
            return Err(Refused { held: value, why: WaitError::Ended });
        }
        handle.push(value).map_err(|held| Refused { held, why: why(handle) })?;
        self.ring_line(VALUES);
        Ok(())
    }

    /// Takes the first value off a ring where there is one at once, or says that the time is over.
    pub(crate) fn pop_now<T>(&self, handle: &Handle<T>) -> Result<T, WaitError<Spent>> {
        let popped = handle.pop().ok_or_else(|| why(handle))?;
        self.ring_line(FREE);
        Ok(popped)
    }

    fn push_until<T>(&self, handle: &Handle<T>, value: T, until: Option<Instant>) -> Pushing<T> {
        let mut kept = Some(value);
        let waited = self.wait(Lines::FREE, until, nobody_else, || {
            let pushed = kept.take().map_or(Ok(()), |value| self.push_now(handle, value));
            let pushed = pushed.map_err(|Refused { held, why }| {
                kept = Some(held);
                why
            });
            let left = left_out(&pushed, Lines::FREE);
            (pushed, left)
        });
        match (kept, waited) {
            (Some(held), Err(why)) => Err(Refused { held, why }),
            _ => Ok(()),
        }
    }

    fn pop_until<T>(
        &self,
        handle: &Handle<T>,
        until: Option<Instant>,
    ) -> Result<T, WaitError<Spent>> {
        self.wait(Lines::of(VALUES), until, nobody_else, || {
            let popped = self.pop_now(handle);
            let left = left_out(&popped, Lines::of(VALUES));
            (popped, left)
        })
    }
}

/// Where a look was refused it didn't come to the line.
fn left_out<V>(found: &Result<V, WaitError<Spent>>, line: Lines) -> Lines {
    match found {
        Ok(_) | Err(WaitError::TimedOut) => Lines::NONE,
        Err(WaitError::Ended | WaitError::Refused(_)) => line,
    }
}

/// Of a ring nobody but its bell says that a line has ended.
pub(crate) fn nobody_else() -> Lines {
    Lines::NONE
}

/// Why a look found nothing: there may be something later, or not.
fn why<T>(handle: &Handle<T>) -> WaitError<Spent> {
    handle.spent().map_or(WaitError::TimedOut, WaitError::Refused)
}
