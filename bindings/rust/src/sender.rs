//! Senders: the ends of a channel that values go in by.
use crate::bell::{moment_in, WaitError};
use crate::channel::End;
use crate::channel_error::{SendError, SendTimeoutError, TrySendError};
use crate::lines::{Lines, FREE};
use crate::listener::Listener;
use crate::ring_wait::{nobody_else, VALUES};
use std::convert::Infallible;
use std::fmt;
use std::panic::{RefUnwindSafe, UnwindSafe};
use std::time::{Duration, Instant};

/// An end of a channel that values go in by: from [`bounded`](crate::bounded). It is cloned for the
/// next thread, or shared; the end of the last one, however it comes, is told to each receiver.
///
/// ```
/// let (sender, receiver) = scq::bounded(8)?;
/// let other = sender.clone();
/// std::thread::spawn(move || {
///     other.send("one").unwrap();
///     panic!("a thread that ends in the middle");
/// });
/// drop(sender);
/// assert_eq!(receiver.recv(), Ok("one"));
/// assert_eq!(receiver.recv(), Err(scq::RecvError));
/// # Ok::<(), scq::OpenError>(())
/// ```
pub struct Sender<T> {
    end: End<T>,
}

impl<T> Sender<T> {
    /// The end, which is counted.
    pub(crate) fn new(end: End<T>) -> Sender<T> {
        Sender { end }
    }

    /// Sends a value, and waits until there is room.
    ///
    /// # Errors
    ///
    /// The value comes back where there is no receiver any more, or tickets have run out.
    ///
    /// ```
    /// let (sender, receiver) = scq::bounded(8)?;
    /// assert_eq!(sender.send(1), Ok(()));
    /// drop(receiver);
    /// assert_eq!(sender.send(2), Err(scq::SendError(2)));
    /// # Ok::<(), scq::OpenError>(())
    /// ```
    pub fn send(&self, value: T) -> Result<(), SendError<T>> {
        self.send_until(value, None).map_err(|error| SendError(error.into_inner()))
    }

    /// Sends a value, and waits that long at most.
    ///
    /// # Errors
    ///
    /// As [`send`](Sender::send), and where there was no room then.
    ///
    /// ```
    /// use scq::SendTimeoutError;
    /// use std::time::Duration;
    ///
    /// let (sender, receiver) = scq::bounded(2)?;
    /// let soon = Duration::from_millis(1);
    /// assert_eq!(sender.send_timeout(1, soon), Ok(()));
    /// assert_eq!(sender.send_timeout(2, soon), Ok(()));
    /// assert_eq!(sender.send_timeout(3, soon), Err(SendTimeoutError::Timeout(3)));
    /// drop(receiver);
    /// assert_eq!(sender.send_timeout(3, soon), Err(SendTimeoutError::Disconnected(3)));
    /// # Ok::<(), scq::OpenError>(())
    /// ```
    pub fn send_timeout(&self, value: T, most: Duration) -> Result<(), SendTimeoutError<T>> {
        self.send_until(value, moment_in(most))
    }

    /// Sends a value where there is room at once.
    ///
    /// # Errors
    ///
    /// The value comes back where there is none, and as of [`send`](Sender::send).
    ///
    /// ```
    /// use scq::TrySendError;
    ///
    /// let (sender, receiver) = scq::bounded(2)?;
    /// assert_eq!((sender.try_send(1), sender.try_send(2)), (Ok(()), Ok(())));
    /// assert_eq!(sender.try_send(3), Err(TrySendError::Full(3)));
    /// drop(receiver);
    /// assert_eq!(sender.try_send(3), Err(TrySendError::Disconnected(3)));
    /// # Ok::<(), scq::OpenError>(())
    /// ```
    pub fn try_send(&self, value: T) -> Result<(), TrySendError<T>> {
        if self.end.has_ended(FREE) {
            return Err(TrySendError::Disconnected(value));
        }
        match self.end.push(value) {
            Ok(()) => {
                self.end.channel.bell.ring_line(VALUES);
                // The last receiver that went meanwhile may have dropped what stood there before.
                if self.end.has_ended(FREE) {
                    self.end.drain();
                }
                Ok(())
            }
            Err((value, false)) => Err(TrySendError::Full(value)),
            Err((value, true)) => {
                self.end.end_all();
                Err(TrySendError::Disconnected(value))
            }
        }
    }

    fn send_until(&self, value: T, until: Option<Instant>) -> Result<(), SendTimeoutError<T>> {
        let mut refused = Some(value);
        let bell = &self.end.channel.bell;
        let waited = bell.wait(Lines::FREE, until, nobody_else, || {
            let tried: Result<(), WaitError<Infallible>> =
                match refused.take().map(|value| self.try_send(value)) {
                    Some(Err(TrySendError::Full(value))) => {
                        refused = Some(value);
                        Err(WaitError::TimedOut)
                    }
                    Some(Err(TrySendError::Disconnected(value))) => {
                        refused = Some(value);
                        Err(WaitError::Ended)
                    }
                    Some(Ok(())) | None => Ok(()),
                };
            (tried, Lines::NONE)
        });
        match (refused, waited) {
            (None, _) => Ok(()),
            (Some(value), Err(WaitError::TimedOut)) => Err(SendTimeoutError::Timeout(value)),
            (Some(value), _) => Err(SendTimeoutError::Disconnected(value)),
        }
    }

    /// Enters the list of those who wait for room, for a task that looks once more by
    /// [`try_send`](Sender::try_send), and awaits the [`Listener`] where that finds none.
    pub fn listen(&self) -> Listener<'_> {
        self.end.channel.bell.listen(Lines::FREE)
    }

    /// How many values there is room for.
    pub fn capacity(&self) -> usize {
        self.end.channel.ring.capacity()
    }

    /// Whether both are of one channel.
    pub fn same_channel(&self, other: &Sender<T>) -> bool {
        self.end.is_of_the_channel_of(&other.end)
    }
}

/// Another of the same channel. It doesn't fail.
impl<T> Clone for Sender<T> {
    fn clone(&self) -> Sender<T> {
        Sender { end: self.end.another(&self.end.channel.senders) }
    }
}

impl<T> Drop for Sender<T> {
    fn drop(&mut self) {
        self.end.leave(&self.end.channel.senders, VALUES);
    }
}

impl<T> fmt::Debug for Sender<T> {
    fn fmt(&self, f: &mut fmt::Formatter<'_>) -> fmt::Result {
        f.debug_struct("Sender").field("capacity", &self.capacity()).finish_non_exhaustive()
    }
}

// No code of the caller's runs while a value goes in or out: a panic leaves nothing half done.
impl<T> UnwindSafe for Sender<T> {}
impl<T> RefUnwindSafe for Sender<T> {}
