//! Receivers: the ends of a channel that values come out of.
use crate::bell::{moment_in, WaitError};
use crate::channel::End;
use crate::channel_error::{RecvError, RecvTimeoutError, TryRecvError};
use crate::lines::{Lines, FREE};
use crate::listener::Listener;
use crate::ring_wait::{nobody_else, VALUES};
use std::convert::Infallible;
use std::fmt;
use std::iter::FusedIterator;
use std::panic::{RefUnwindSafe, UnwindSafe};
use std::time::{Duration, Instant};

/// An end of a channel that values come out of: from [`bounded`](crate::bounded). It is cloned for
/// the next thread, or shared; each value comes once. The end of the last one, however it comes, is
/// told to each sender, and what is left in the channel is dropped with it.
///
/// ```
/// let (sender, receiver) = scq::bounded(8)?;
/// std::thread::spawn(move || {
///     for number in 0..100 {
///         sender.send(number).unwrap();
///     }
/// });
/// let mut sum = 0;
/// for number in &receiver {
///     sum += number;
/// }
/// assert_eq!(sum, 4950);
/// # Ok::<(), scq::OpenError>(())
/// ```
pub struct Receiver<T> {
    end: End<T>,
}

impl<T> Receiver<T> {
    /// The end, which is counted.
    pub(crate) fn new(end: End<T>) -> Receiver<T> {
        Receiver { end }
    }

    /// Receives a value, and waits until there is one.
    ///
    /// # Errors
    ///
    /// Where there is none, and no sender any more, or tickets have run out.
    ///
    /// ```
    /// let (sender, receiver) = scq::bounded(8)?;
    /// sender.send(1).unwrap();
    /// drop(sender);
    /// assert_eq!(receiver.recv(), Ok(1));
    /// assert_eq!(receiver.recv(), Err(scq::RecvError));
    /// # Ok::<(), scq::OpenError>(())
    /// ```
    pub fn recv(&self) -> Result<T, RecvError> {
        self.recv_until(None).map_err(|_| RecvError)
    }

    /// Receives a value, and waits that long at most.
    ///
    /// # Errors
    ///
    /// As [`recv`](Receiver::recv), and where there was none then.
    ///
    /// ```
    /// use scq::RecvTimeoutError;
    /// use std::time::Duration;
    ///
    /// let (sender, receiver) = scq::bounded(8)?;
    /// let soon = Duration::from_millis(1);
    /// assert_eq!(receiver.recv_timeout(soon), Err(RecvTimeoutError::Timeout));
    /// sender.send(1).unwrap();
    /// assert_eq!(receiver.recv_timeout(soon), Ok(1));
    /// drop(sender);
    /// assert_eq!(receiver.recv_timeout(soon), Err(RecvTimeoutError::Disconnected));
    /// # Ok::<(), scq::OpenError>(())
    /// ```
    pub fn recv_timeout(&self, most: Duration) -> Result<T, RecvTimeoutError> {
        self.recv_until(moment_in(most))
    }

    /// Receives a value where there is one at once.
    ///
    /// # Errors
    ///
    /// Where there is none, and as of [`recv`](Receiver::recv).
    ///
    /// ```
    /// use scq::TryRecvError;
    ///
    /// let (sender, receiver) = scq::bounded(8)?;
    /// assert_eq!(receiver.try_recv(), Err(TryRecvError::Empty));
    /// sender.send(1).unwrap();
    /// drop(sender);
    /// assert_eq!(receiver.try_recv(), Ok(1));
    /// assert_eq!(receiver.try_recv(), Err(TryRecvError::Disconnected));
    /// # Ok::<(), scq::OpenError>(())
    /// ```
    pub fn try_recv(&self) -> Result<T, TryRecvError> {
        // Asked before: what was sent before the last sender went is found.
        let is_over = self.end.has_ended(VALUES);
        match self.end.pop() {
            Ok(value) => {
                self.end.channel.bell.ring_line(FREE);
                Ok(value)
            }
            Err(false) if !is_over => Err(TryRecvError::Empty),
            Err(false) => Err(TryRecvError::Disconnected),
            Err(true) => {
                self.end.end_all();
                Err(TryRecvError::Disconnected)
            }
        }
    }

    fn recv_until(&self, until: Option<Instant>) -> Result<T, RecvTimeoutError> {
        let look = || {
            let tried: Result<T, WaitError<Infallible>> =
                self.try_recv().map_err(|error| match error {
                    TryRecvError::Empty => WaitError::TimedOut,
                    TryRecvError::Disconnected => WaitError::Ended,
                });
            (tried, Lines::NONE)
        };
        let bell = &self.end.channel.bell;
        bell.wait(Lines::of(VALUES), until, nobody_else, look).map_err(|why| match why {
            WaitError::TimedOut => RecvTimeoutError::Timeout,
            WaitError::Ended | WaitError::Refused(_) => RecvTimeoutError::Disconnected,
        })
    }

    /// The values, each waited for, until no sender is left.
    ///
    /// ```
    /// let (sender, receiver) = scq::bounded(8)?;
    /// std::thread::spawn(move || (1..=3).for_each(|number| sender.send(number).unwrap()));
    /// assert_eq!(receiver.iter().collect::<Vec<_>>(), [1, 2, 3]);
    /// # Ok::<(), scq::OpenError>(())
    /// ```
    pub fn iter(&self) -> Iter<'_, T> {
        Iter { receiver: self }
    }

    /// The values that are there at once: it ends where there is none.
    ///
    /// ```
    /// let (sender, receiver) = scq::bounded(8)?;
    /// (1..=3).for_each(|number| sender.send(number).unwrap());
    /// assert_eq!(receiver.try_iter().collect::<Vec<_>>(), [1, 2, 3]);
    /// assert_eq!(receiver.try_iter().next(), None);
    /// # Ok::<(), scq::OpenError>(())
    /// ```
    pub fn try_iter(&self) -> TryIter<'_, T> {
        TryIter { receiver: self }
    }

    /// Enters the list of those who wait for a value, for a task that looks once more by
    /// [`try_recv`](Receiver::try_recv), and awaits the [`Listener`] where that finds none.
    ///
    /// ```
    /// use scq::{Receiver, TryRecvError};
    ///
    /// async fn recv<T>(receiver: &Receiver<T>) -> Option<T> {
    ///     loop {
    ///         let listener = receiver.listen();
    ///         match receiver.try_recv() {
    ///             Ok(value) => break Some(value),
    ///             Err(TryRecvError::Disconnected) => break None,
    ///             Err(TryRecvError::Empty) => listener.await,
    ///         }
    ///     }
    /// }
    /// # let _: fn(&'static Receiver<u8>) -> _ = recv;
    /// ```
    pub fn listen(&self) -> Listener<'_> {
        self.end.channel.bell.listen(Lines::of(VALUES))
    }

    /// How many values there is room for.
    pub fn capacity(&self) -> usize {
        self.end.channel.ring.capacity()
    }

    /// Whether both are of one channel.
    pub fn same_channel(&self, other: &Receiver<T>) -> bool {
        self.end.is_of_the_channel_of(&other.end)
    }
}

/// Another of the same channel. It doesn't fail.
impl<T> Clone for Receiver<T> {
    fn clone(&self) -> Receiver<T> {
        Receiver { end: self.end.another(&self.end.channel.receivers) }
    }
}

impl<T> Drop for Receiver<T> {
    fn drop(&mut self) {
        if self.end.leave(&self.end.channel.receivers, FREE) {
            self.end.drain();
        }
    }
}

impl<T> fmt::Debug for Receiver<T> {
    fn fmt(&self, f: &mut fmt::Formatter<'_>) -> fmt::Result {
        f.debug_struct("Receiver").field("capacity", &self.capacity()).finish_non_exhaustive()
    }
}

// No code of the caller's runs while a value goes in or out: a panic leaves nothing half done.
impl<T> UnwindSafe for Receiver<T> {}
impl<T> RefUnwindSafe for Receiver<T> {}

/// What [`Receiver::iter`] answers.
#[derive(Debug)]
pub struct Iter<'r, T> {
    receiver: &'r Receiver<T>,
}

/// What [`Receiver::try_iter`] answers.
#[derive(Debug)]
pub struct TryIter<'r, T> {
    receiver: &'r Receiver<T>,
}

/// The values of a [`Receiver`] that it owns, each waited for, until no sender is left.
#[derive(Debug)]
pub struct IntoIter<T> {
    receiver: Receiver<T>,
}

impl<T> Iterator for Iter<'_, T> {
    type Item = T;

    fn next(&mut self) -> Option<T> {
        self.receiver.recv().ok()
    }
}

impl<T> Iterator for TryIter<'_, T> {
    type Item = T;

    fn next(&mut self) -> Option<T> {
        self.receiver.try_recv().ok()
    }
}

impl<T> Iterator for IntoIter<T> {
    type Item = T;

    fn next(&mut self) -> Option<T> {
        self.receiver.recv().ok()
    }
}

// Where no sender is left none comes back.
impl<T> FusedIterator for Iter<'_, T> {}
impl<T> FusedIterator for IntoIter<T> {}

impl<'r, T> IntoIterator for &'r Receiver<T> {
    type Item = T;
    type IntoIter = Iter<'r, T>;

    fn into_iter(self) -> Iter<'r, T> {
        self.iter()
    }
}

impl<T> IntoIterator for Receiver<T> {
    type Item = T;
    type IntoIter = IntoIter<T>;

    fn into_iter(self) -> IntoIter<T> {
        IntoIter { receiver: self }
    }
}
