//! Waiting for a topic or a buffer, with a port and by a bell; and ends that ring.
use crate::bell::{moment_in, Bell, WaitError};
use crate::error::{LendError, TakeError};
use crate::held::{Lent, Taken};
use crate::lines::Lines;
use crate::port::{Counts, Port};
use crate::rung::Rung;
use std::time::{Duration, Instant};

/// What [`Bell::lend`] answers.
pub type Lending<'b, 'p> = Result<Rung<'b, Lent<'p>>, WaitError<LendError>>;
/// What [`Bell::take`] answers.
pub type Taking<'b, 'p> = Result<Rung<'b, Taken<'p>>, WaitError<TakeError>>;
/// What [`Bell::take_any`] answers, with the topic.
pub type TakingAny<'b, 'p> = Result<(u32, Rung<'b, Taken<'p>>), WaitError<TakeError>>;

/// With a [`Port`], which is tied to the bell or not.
impl Bell {
    /// Is lent a buffer, and waits until one is free.
    ///
    /// # Errors
    ///
    /// [`WaitError::Ended`] where none is free, and lending was [finished](Bell::finish) or no port
    /// is left that takes: each has closed, or is [tied](Bell::tie) as one that sends; what
    /// [`Port::lend`] refuses otherwise.
    pub fn lend<'b, 'p>(&'b self, port: &'p Port) -> Lending<'b, 'p> {
        self.lend_until(port, None)
    }

    /// Is lent a buffer, and waits that long at most.
    ///
    /// # Errors
    ///
    /// As [`lend`](Bell::lend); [`WaitError::TimedOut`] where none was free then.
    pub fn lend_for<'b, 'p>(&'b self, port: &'p Port, most: Duration) -> Lending<'b, 'p> {
        self.lend_until(port, moment_in(most))
    }

    /// Takes a buffer off a topic, and waits until there is one.
    ///
    /// # Errors
    ///
    /// [`WaitError::Ended`] where there is none, and the topic was [finished](Bell::finish) or all
    /// ports of the queue have retired; what [`Port::take`] refuses otherwise.
    pub fn take<'b, 'p>(&'b self, port: &'p Port, topic: u32) -> Taking<'b, 'p> {
        self.take_any(port, &[topic]).map(|(_, taken)| taken)
    }

    /// Takes a buffer off a topic, and waits that long at most.
    ///
    /// # Errors
    ///
    /// As [`take`](Bell::take); [`WaitError::TimedOut`] where there was none then.
    pub fn take_for<'b, 'p>(
        &'b self,
        port: &'p Port,
        topic: u32,
        most: Duration,
    ) -> Taking<'b, 'p> {
        self.take_any_for(port, &[topic], most).map(|(_, taken)| taken)
    }

    /// Takes a buffer off the first of several topics that has one, in the order in which they
    /// stand here; answers the topic too. Waits until there is one.
    ///
    /// # Errors
    ///
    /// As [`take`](Bell::take), [`WaitError::Ended`] where all topics have ended;
    /// [`TakeError::NoTopic`] where there are none.
    pub fn take_any<'b, 'p>(&'b self, port: &'p Port, topics: &[u32]) -> TakingAny<'b, 'p> {
        self.take_until(port, topics, None)
    }

    /// The same, and waits that long at most.
    ///
    /// # Errors
    ///
    /// As [`take_any`](Bell::take_any); [`WaitError::TimedOut`] where there was none then.
    pub fn take_any_for<'b, 'p>(
        &'b self,
        port: &'p Port,
        topics: &[u32],
        most: Duration,
    ) -> TakingAny<'b, 'p> {
        self.take_until(port, topics, moment_in(most))
    }

    /// Retires a port, as [`Port::retire`]; where all ports of the queue have retired by then, all
    /// topics are finished. A port that only takes retires before it waits.
    pub fn retire(&self, port: &Port) {
        port.retire();
        if port.all_retired() {
            self.finish_lines(Lines::ALL_TOPICS);
        }
    }

    /// Closes a port, as dropping it does, and rings for what that changes: all who wait for a
    /// buffer are woken, as there may be several that it held; where all ports of the queue have
    /// retired then, all topics are finished; and where it was the last that may take, lending is.
    ///
    /// ```
    /// use scq::{Bell, Queue, Setup};
    /// use std::thread;
    /// use std::time::Duration;
    ///
    /// let bell = Bell::new();
    /// let setup = Setup { order: 1, ..Setup::default() };
    /// let mut ports = Queue::new(setup, 2)?.into_ports();
    /// let (first, second) = (ports.remove(0), ports.remove(0));
    /// std::mem::forget((first.lend()?, first.lend()?));
    /// thread::scope(|scope| {
    ///     let bell = &bell;
    ///     scope.spawn(move || bell.lend_for(&second, Duration::from_secs(60)).map(drop).unwrap());
    ///     bell.close(first);
    /// });
    /// # Ok::<(), Box<dyn std::error::Error>>(())
    /// ```
    pub fn close(&self, port: Port) {
        self.end(port, &mut []);
    }

    /// The same, and answers and writes out what [`Port::end`] does.
    pub fn end(&self, mut port: Port, counts: &mut [Counts]) -> bool {
        self.end_here(&mut port, counts)
    }

    /// The same of a port that stays where it is.
    pub(crate) fn end_here(&self, port: &mut Port, counts: &mut [Counts]) -> bool {
        self.retire(port);
        let was_last_taker = port.stop_taking();
        let was_last = port.close(counts);
        self.ring_all(Lines::FREE);
        if was_last_taker {
            self.finish_lines(Lines::FREE);
        }
        was_last
    }

    fn lend_until<'b, 'p>(&'b self, port: &'p Port, until: Option<Instant>) -> Lending<'b, 'p> {
        let over = || if port.is_any_taking() { Lines::NONE } else { Lines::FREE };
        self.wait(Lines::FREE, until, over, || match port.lend() {
            Ok(lent) => (Ok(Rung::new(self, lent)), Lines::NONE),
            Err(LendError::Full { .. }) => (Err(WaitError::TimedOut), Lines::NONE),
            Err(why) => (Err(WaitError::Refused(why)), Lines::FREE),
        })
    }

    fn take_until<'b, 'p>(
        &'b self,
        port: &'p Port,
        topics: &[u32],
        until: Option<Instant>,
    ) -> TakingAny<'b, 'p> {
        if topics.is_empty() {
            return Err(WaitError::Refused(TakeError::NoTopic));
        }
        let over = || if port.all_retired() { Lines::ALL_TOPICS } else { Lines::NONE };
        self.wait(topics.into(), until, over, || {
            for (at, &topic) in topics.iter().enumerate() {
                match port.take(topic) {
                    Ok(taken) => {
                        return (Ok((topic, Rung::new(self, taken))), topics[at + 1..].into());
                    }
                    Err(TakeError::Empty { .. }) => {}
                    Err(why) => return (Err(WaitError::Refused(why)), topics[at..].into()),
                }
            }
            (Err(WaitError::TimedOut), Lines::NONE)
        })
    }
}
