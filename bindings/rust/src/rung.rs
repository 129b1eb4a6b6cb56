//! Buffers that ring where they go.
use crate::bell::Bell;
use crate::error::{Refused, SendRefusal, Spent};
use crate::held::{Lent, OwnedLent, OwnedTaken, Taken};
use crate::lines::{Lines, FREE};
use std::fmt;
use std::ops::{Deref, DerefMut};

/// What [`Lent`] and [`Taken`] can both.
pub trait Guard: Sized {
    #[doc(hidden)]
    fn send_on(self, topic: u32) -> Result<u64, Refused<Self, SendRefusal>>;
    #[doc(hidden)]
    fn give_it_back(self) -> Result<(), Refused<Self, Spent>>;
}

macro_rules! guards {
    ($($guard:ty),*) => {$(
        impl Guard for $guard {
            fn send_on(self, topic: u32) -> Result<u64, Refused<Self, SendRefusal>> {
                self.send(topic)
            }

            fn give_it_back(self) -> Result<(), Refused<Self, Spent>> {
                self.give_back()
            }
        }
    )*};
}

guards!(Lent<'_>, Taken<'_>, OwnedLent, OwnedTaken);

/// A [`Lent`] or a [`Taken`] that rings: where it is sent for the topic, and where it is given back
/// or dropped for a buffer.
#[must_use = "a buffer that is dropped is given back"]
pub struct Rung<'b, G: Guard> {
    bell: &'b Bell,
    /// There is one until this ends.
    guard: Option<G>,
}

impl<'b, G: Guard> Rung<'b, G> {
    pub(crate) fn new(bell: &'b Bell, guard: G) -> Rung<'b, G> {
        Rung { bell, guard: Some(guard) }
    }

    /// Rings by this bell for a buffer that was got without it.
    pub fn by(bell: &'b Bell, guard: G) -> Rung<'b, G> {
        Rung::new(bell, guard)
    }

    fn end<V, E>(
        mut self,
        act: impl FnOnce(G) -> Result<V, Refused<G, E>>,
        line: u32,
    ) -> Result<V, Refused<Rung<'b, G>, E>> {
        let bell = self.bell;
        match self.guard.take().map(act) {
            Some(Ok(value)) => {
                bell.ring_line(line);
                Ok(value)
            }
            Some(Err(Refused { held, why })) => Err(Refused { held: Rung::new(bell, held), why }),
            None => unreachable!("there is a guard"),
        }
    }

    /// Sends the buffer on a topic, and wakes one that waits for it.
    ///
    /// # Errors
    ///
    /// As [`Lent::send`], and [`SendRefusal::Ended`] where the topic was [finished](Bell::finish).
    pub fn send(self, topic: u32) -> Result<u64, Refused<Rung<'b, G>, SendRefusal>> {
        if topic < FREE && self.bell.has_ended(Lines::of(topic)) {
            return Err(Refused { held: self, why: SendRefusal::Ended });
        }
        self.end(|guard| guard.send_on(topic), topic)
    }

    /// Gives the buffer back, and wakes one that waits for a buffer.
    ///
    /// # Errors
    ///
    /// As [`Lent::give_back`].
    pub fn give_back(self) -> Result<(), Refused<Rung<'b, G>, Spent>> {
        self.end(G::give_it_back, FREE)
    }
}

impl<G: Guard> Deref for Rung<'_, G> {
    type Target = G;

    fn deref(&self) -> &G {
        self.guard.as_ref().expect("there is a guard")
    }
}

impl<G: Guard> DerefMut for Rung<'_, G> {
    fn deref_mut(&mut self) -> &mut G {
        self.guard.as_mut().expect("there is a guard")
    }
}

impl<G: Guard + fmt::Debug> fmt::Debug for Rung<'_, G> {
    fn fmt(&self, f: &mut fmt::Formatter<'_>) -> fmt::Result {
        self.guard.fmt(f)
    }
}

impl<G: Guard> Drop for Rung<'_, G> {
    fn drop(&mut self) {
        let given_back = self.guard.take().map(|guard| guard.give_it_back().is_ok());
        if given_back == Some(true) {
            self.bell.ring_free();
        }
    }
}
