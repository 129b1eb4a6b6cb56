//! Ports that are tied to a bell for their life.
use crate::batch::Batch;
use crate::bell::Bell;
use crate::error::{LendError, TakeError};
use crate::held::{Lent, Taken};
use crate::port::{Counts, Port};
use crate::port_wait::{Lending, Taking, TakingAny};
use crate::rung::Rung;
use std::fmt;
use std::ops::Deref;
use std::time::Duration;

/// What a port, or a handle of a ring, does that is tied to a bell, so that others are told when
/// nobody is left who does it.
#[derive(Clone, Copy, Debug, PartialEq, Eq, Hash)]
pub enum Role {
    /// It is lent buffers and sends them, and takes none: once only such ports are left, who waits
    /// for a buffer is told the end.
    Sends,
    /// It takes, and retires at once: once all ports have retired, who waits for a topic is told
    /// the end.
    Takes,
    /// It does both.
    Both,
}

impl Role {
    pub(crate) fn sends(self) -> bool {
        self != Role::Takes
    }

    pub(crate) fn takes(self) -> bool {
        self != Role::Sends
    }
}

/// A [`Port`] that is tied to a [`Bell`] for its life, by [`Bell::tie`], or by [`Tied::by`] where
/// the bell is in an `Arc`. What is got through it rings where it goes, its waits are the bell's,
/// and its end rings, however it comes: who waits learns of a thread that returned early or
/// panicked.
///
/// ```
/// use scq::{Bell, Queue, Role, Setup, Tied, WaitError};
/// use std::sync::Arc;
/// use std::thread;
///
/// let bell = Arc::new(Bell::new());
/// let mut ports = Queue::new(Setup::default(), 2)?.into_ports();
/// let sends = Tied::by(Arc::clone(&bell), ports.remove(0), Role::Sends);
/// let takes = Tied::by(bell, ports.remove(0), Role::Takes);
/// thread::spawn(move || {
///     sends.lend().unwrap().send(0).unwrap();
///     panic!("a thread that ends in the middle");
/// });
/// assert!(takes.take(0).is_ok());
/// assert_eq!(takes.take(0).map(drop), Err(WaitError::Ended));
/// # Ok::<(), scq::OpenError>(())
/// ```
///
/// A port that was forgotten (`std::mem::forget`), or whose thread was killed, neither ends nor
/// rings.
#[must_use = "a port that is dropped is closed"]
pub struct Tied<B: Deref<Target = Bell>> {
    bell: B,
    port: Port,
}

impl Bell {
    /// Ties a port to this bell, for its life.
    ///
    /// ```
    /// use scq::{Bell, Queue, Role, Setup, WaitError};
    ///
    /// let bell = Bell::new();
    /// let setup = Setup { order: 1, ..Setup::default() };
    /// let mut ports = Queue::new(setup, 2)?.into_ports();
    /// let sends = bell.tie(ports.remove(0), Role::Sends);
    /// let takes = bell.tie(ports.remove(0), Role::Takes);
    /// for _ in 0..2 {
    ///     sends.lend()?.send(0)?;
    /// }
    /// drop(takes); // there is nobody who would take, and so free a buffer
    /// assert_eq!(sends.lend().map(drop), Err(WaitError::Ended));
    /// # Ok::<(), Box<dyn std::error::Error>>(())
    /// ```
    pub fn tie(&self, port: Port, role: Role) -> Tied<&Bell> {
        Tied::by(self, port, role)
    }
}

impl<B: Deref<Target = Bell>> Tied<B> {
    /// Ties a port to the bell that this leads to, for its life.
    pub fn by(bell: B, port: Port, role: Role) -> Tied<B> {
        match role {
            Role::Takes => bell.retire(&port),
            Role::Sends => {
                if port.stop_taking() {
                    bell.finish_lending();
                }
            }
            Role::Both => {}
        }
        Tied { bell, port }
    }

    /// Is lent a buffer, and waits until one is free.
    ///
    /// # Errors
    ///
    /// As [`Bell::lend`].
    pub fn lend(&self) -> Lending<'_, '_> {
        self.bell.lend(&self.port)
    }

    /// Is lent a buffer, and waits that long at most.
    ///
    /// # Errors
    ///
    /// As [`Bell::lend_for`].
    pub fn lend_for(&self, most: Duration) -> Lending<'_, '_> {
        self.bell.lend_for(&self.port, most)
    }

    /// Is lent a buffer where one is free at once.
    ///
    /// # Errors
    ///
    /// As [`Port::lend`].
    pub fn try_lend(&self) -> Result<Rung<'_, Lent<'_>>, LendError> {
        self.port.lend().map(|lent| Rung::by(&self.bell, lent))
    }

    /// Takes a buffer off a topic, and waits until there is one.
    ///
    /// # Errors
    ///
    /// As [`Bell::take`].
    pub fn take(&self, topic: u32) -> Taking<'_, '_> {
        self.bell.take(&self.port, topic)
    }

    /// Takes a buffer off a topic, and waits that long at most.
    ///
    /// # Errors
    ///
    /// As [`Bell::take_for`].
    pub fn take_for(&self, topic: u32, most: Duration) -> Taking<'_, '_> {
        self.bell.take_for(&self.port, topic, most)
    }

    /// Takes a buffer off a topic where there is one at once.
    ///
    /// # Errors
    ///
    /// As [`Port::take`].
    pub fn try_take(&self, topic: u32) -> Result<Rung<'_, Taken<'_>>, TakeError> {
        self.port.take(topic).map(|taken| Rung::by(&self.bell, taken))
    }

    /// Takes a buffer off the first of several topics that has one, in the order in which they
    /// stand here; answers the topic too. Waits until there is one.
    ///
    /// # Errors
    ///
    /// As [`Bell::take_any`].
    pub fn take_any(&self, topics: &[u32]) -> TakingAny<'_, '_> {
        self.bell.take_any(&self.port, topics)
    }

    /// The same, and waits that long at most.
    ///
    /// # Errors
    ///
    /// As [`Bell::take_any_for`].
    pub fn take_any_for(&self, topics: &[u32], most: Duration) -> TakingAny<'_, '_> {
        self.bell.take_any_for(&self.port, topics, most)
    }

    /// A batch without buffers, which rings once for each buffer that it sends or gives back.
    pub fn batch<const N: usize>(&self) -> Batch<'_, N> {
        Batch::by(&self.bell, &self.port)
    }

    /// Retires the port, as [`Bell::retire`]: it takes from now on.
    pub fn retire(&self) {
        self.bell.retire(&self.port);
    }

    /// The port. What is got through it alone rings nobody.
    pub fn port(&self) -> &Port {
        &self.port
    }

    /// The bell.
    pub fn bell(&self) -> &Bell {
        &self.bell
    }

    /// Closes the port, as dropping it does, and answers and writes out what [`Port::end`] does.
    pub fn end(mut self, counts: &mut [Counts]) -> bool {
        self.bell.end_here(&mut self.port, counts)
    }
}

impl<B: Deref<Target = Bell>> fmt::Debug for Tied<B> {
    fn fmt(&self, f: &mut fmt::Formatter<'_>) -> fmt::Result {
        f.debug_struct("Tied").field("port", &self.port).finish_non_exhaustive()
    }
}

impl<B: Deref<Target = Bell>> Drop for Tied<B> {
    fn drop(&mut self) {
        if self.port.is_open() {
            self.bell.end_here(&mut self.port, &mut []);
        }
    }
}
