//! Why a call did nothing.
use crate::held::{Lent, OwnedLent, OwnedTaken, Taken};
use std::error::Error;
use std::fmt;

/// Why a queue was not made. Ranges are those of [`Setup`](crate::Setup).
#[derive(Clone, Copy, Debug, PartialEq, Eq, Hash)]
pub enum OpenError {
    /// No memory was found; nothing is left of the queue.
    NoMemory,
    /// `order` is out of range.
    Order,
    /// `topics` is out of range.
    Topics,
    /// The number of ports is out of range.
    Ports,
    /// `limit` is out of range.
    Limit,
    /// `size` is out of range.
    Size,
    /// `hold` is out of range.
    Hold,
    /// The capacity of a channel isn't from 1 to 65,536.
    Capacity,
    /// The library that was linked is of another version than this crate.
    Version {
        /// The library's.
        found: u32,
    },
}

impl fmt::Display for OpenError {
    fn fmt(&self, f: &mut fmt::Formatter<'_>) -> fmt::Result {
        match self {
            OpenError::NoMemory => f.write_str("no memory for the queue"),
            OpenError::Order => f.write_str("the order isn't from 1 to 16"),
            OpenError::Topics => f.write_str("the topics aren't from 1 to 31"),
            OpenError::Ports => f.write_str("the ports aren't from 1 to 4096"),
            OpenError::Limit => f.write_str("the limit isn't from 8 times the buffers to 2^60"),
            OpenError::Size => f.write_str("a buffer has no bytes"),
            OpenError::Hold => {
                f.write_str("what a port may hold isn't from 1 to the number of buffers")
            }
            OpenError::Capacity => f.write_str("the capacity isn't from 1 to 65,536"),
            OpenError::Version { found } => write!(f, "libscq.a is of version {found}"),
        }
    }
}

impl Error for OpenError {}

/// Why no buffer was lent.
#[derive(Clone, Copy, Debug, PartialEq, Eq, Hash)]
pub enum LendError {
    /// No buffer was free.
    Full {
        /// The head of the stock of free buffers: each one that was given back at a place below it
        /// has been lent, or is being lent.
        head: u64,
    },
    /// The port holds as many buffers as it may.
    NoRoom,
    /// Tickets have run out at the limit.
    Spent {
        /// The ticket at or past the limit, which the port keeps.
        ticket: u64,
    },
}

impl fmt::Display for LendError {
    fn fmt(&self, f: &mut fmt::Formatter<'_>) -> fmt::Result {
        f.write_str(match self {
            LendError::Full { .. } => "no buffer is free",
            LendError::NoRoom => NO_ROOM,
            LendError::Spent { .. } => SPENT,
        })
    }
}

impl Error for LendError {}

/// Why no buffer was taken.
#[derive(Clone, Copy, Debug, PartialEq, Eq, Hash)]
pub enum TakeError {
    /// The topic had nothing.
    Empty {
        /// The topic's head: each buffer that was sent at a place below it has been taken, or is
        /// being taken.
        head: u64,
    },
    /// The port holds as many buffers as it may.
    NoRoom,
    /// There are not so many topics.
    NoTopic,
    /// Tickets have run out at the limit.
    Spent {
        /// The ticket at or past the limit, which the port keeps.
        ticket: u64,
    },
}

impl fmt::Display for TakeError {
    fn fmt(&self, f: &mut fmt::Formatter<'_>) -> fmt::Result {
        f.write_str(match self {
            TakeError::Empty { .. } => "the topic is empty",
            TakeError::NoRoom => NO_ROOM,
            TakeError::NoTopic => NO_TOPIC,
            TakeError::Spent { .. } => SPENT,
        })
    }
}

impl Error for TakeError {}

/// Why a buffer was not sent.
#[derive(Clone, Copy, Debug, PartialEq, Eq, Hash)]
pub enum SendRefusal {
    /// There are not so many topics.
    NoTopic,
    /// The port has retired.
    Retired,
    /// The topic was [finished](crate::Bell::finish), in a send by that bell.
    Ended,
    /// Tickets have run out at the limit.
    Spent {
        /// The ticket at or past the limit, which the port keeps.
        ticket: u64,
    },
}

impl fmt::Display for SendRefusal {
    fn fmt(&self, f: &mut fmt::Formatter<'_>) -> fmt::Result {
        f.write_str(match self {
            SendRefusal::NoTopic => NO_TOPIC,
            SendRefusal::Retired => "the port has retired",
            SendRefusal::Ended => "the topic was finished",
            SendRefusal::Spent { .. } => SPENT,
        })
    }
}

impl Error for SendRefusal {}

/// Tickets have run out at the limit.
#[derive(Clone, Copy, Debug, PartialEq, Eq, Hash)]
pub struct Spent {
    /// The ticket at or past the limit, which the port keeps.
    pub ticket: u64,
}

impl fmt::Display for Spent {
    fn fmt(&self, f: &mut fmt::Formatter<'_>) -> fmt::Result {
        f.write_str(SPENT)
    }
}

impl Error for Spent {}

/// A buffer was refused, and comes back as it was: a [`Lent`](crate::Lent) or a
/// [`Taken`](crate::Taken), or one that owns its port, and why; or a value, by
/// [`Bell::push`](crate::Bell::push).
///
/// `?` gives the buffer back, as dropping it does, and hands on why it was refused: into that error
/// itself, and into a `Box<dyn Error>`. With another error use `map_err(|refused| refused.why)`.
///
/// ```
/// # use scq::{Port, SendRefusal};
/// fn hello(port: &Port, topic: u32) -> Result<u64, Box<dyn std::error::Error>> {
///     let mut lent = port.lend()?;
///     lent[..5].copy_from_slice(b"hello");
///     Ok(lent.send(topic)?)
/// }
/// # let port = scq::Queue::new(scq::Setup::default(), 1)?.into_ports().remove(0);
/// assert!(hello(&port, 0).is_ok());
/// assert!(hello(&port, 1).unwrap_err().is::<SendRefusal>());
///
/// // Or the buffer is kept.
/// let lent = port.lend()?.send(1).unwrap_err().into_lent();
/// lent.send(0)?;
/// # Ok::<(), Box<dyn std::error::Error>>(())
/// ```
#[derive(Clone, Copy, PartialEq, Eq)]
pub struct Refused<G, E> {
    /// The buffer, or the value.
    pub held: G,
    /// Why it was refused.
    pub why: E,
}

impl<'p, E> Refused<Lent<'p>, E> {
    /// The buffer that was lent.
    pub fn into_lent(self) -> Lent<'p> {
        self.held
    }
}

impl<'p, E> Refused<Taken<'p>, E> {
    /// The buffer that was taken.
    pub fn into_taken(self) -> Taken<'p> {
        self.held
    }
}

impl<E> Refused<OwnedLent, E> {
    /// The buffer that was lent.
    pub fn into_lent(self) -> OwnedLent {
        self.held
    }
}

impl<E> Refused<OwnedTaken, E> {
    /// The buffer that was taken.
    pub fn into_taken(self) -> OwnedTaken {
        self.held
    }
}

impl<G, E: fmt::Debug> fmt::Debug for Refused<G, E> {
    fn fmt(&self, f: &mut fmt::Formatter<'_>) -> fmt::Result {
        f.debug_struct("Refused").field("why", &self.why).finish_non_exhaustive()
    }
}

impl<G, E: fmt::Display> fmt::Display for Refused<G, E> {
    fn fmt(&self, f: &mut fmt::Formatter<'_>) -> fmt::Result {
        self.why.fmt(f)
    }
}

// It isn't an `Error` itself: then std's own conversion into a box would stand in place of these,
// and ask for a buffer that borrows nothing.

/// For `?`, which gives the buffer back.
impl<G, E: Error + 'static> From<Refused<G, E>> for Box<dyn Error> {
    fn from(refused: Refused<G, E>) -> Box<dyn Error> {
        Box::new(refused.why)
    }
}

/// For `?`, which gives the buffer back.
impl<G, E: Error + Send + Sync + 'static> From<Refused<G, E>> for Box<dyn Error + Send + Sync> {
    fn from(refused: Refused<G, E>) -> Box<dyn Error + Send + Sync> {
        Box::new(refused.why)
    }
}

/// For `?`, which gives the buffer back.
impl<G> From<Refused<G, SendRefusal>> for SendRefusal {
    fn from(refused: Refused<G, SendRefusal>) -> SendRefusal {
        refused.why
    }
}

/// For `?`, where the port keeps the buffer.
impl<G> From<Refused<G, Spent>> for Spent {
    fn from(refused: Refused<G, Spent>) -> Spent {
        refused.why
    }
}

const NO_ROOM: &str = "the port holds as many buffers as it may";
const NO_TOPIC: &str = "there are not so many topics";
const SPENT: &str = "tickets have run out at the queue's limit";
