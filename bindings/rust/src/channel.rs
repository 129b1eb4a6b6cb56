//! Channels: what the senders and receivers of a ring of values share.
use crate::bell::Bell;
use crate::error::OpenError;
use crate::lines::Lines;
use crate::queue::Setup;
use crate::receiver::Receiver;
use crate::ring::{Handle, Ring};
use crate::sender::Sender;
use std::sync::atomic::{AtomicUsize, Ordering::AcqRel, Ordering::Relaxed};
use std::sync::{Arc, Mutex, PoisonError};

/// How many ends of a channel have a handle of their own, where nothing else is asked for.
const ENDS: usize = 16;

/// Makes a channel for at least so many values, from 1 to 65,536, as `std::sync::mpsc` and
/// `crossbeam-channel` have them: its first [`Sender`] and its first [`Receiver`], of which both
/// are cloned. There is room for the next power of two, and for two values at least.
///
/// Its first 16 ends have a handle of the ring each, and call without a lock that another end
/// takes; an end that is cloned past these shares the handle of the one that it is a clone of.
///
/// # Errors
///
/// [`OpenError::Capacity`] where the capacity is out of range; [`OpenError::Version`];
/// [`OpenError::NoMemory`].
///
/// ```
/// use std::thread;
///
/// let (sender, receiver) = scq::bounded(100)?;
/// for first in 0..4 {
///     let sender = sender.clone();
///     thread::spawn(move || {
///         for number in (first..1000).step_by(4) {
///             sender.send(Box::new(number)).unwrap();
///         }
///     });
/// }
/// drop(sender); // this one sends nothing
/// assert_eq!(receiver.iter().map(|number| *number).sum::<u64>(), 499_500);
/// # Ok::<(), scq::OpenError>(())
/// ```
pub fn bounded<T>(capacity: usize) -> Result<(Sender<T>, Receiver<T>), OpenError> {
    bounded_for(capacity, ENDS)
}

/// The same with a handle of its own for each of the first `ends` ends, from 2 to 4,096. A handle
/// takes some 1,860 bytes, and 9 for each value that there is room for: where channels are made
/// often, as one for each answer, 2 make it the cheapest.
///
/// # Errors
///
/// As [`bounded`], and [`OpenError::Ports`] where `ends` is out of range.
pub fn bounded_for<T>(capacity: usize, ends: usize) -> Result<(Sender<T>, Receiver<T>), OpenError> {
    if !(1..=1 << Setup::MAX_ORDER).contains(&capacity) {
        return Err(OpenError::Capacity);
    }
    let order = capacity.next_power_of_two().trailing_zeros().max(1);
    over(Ring::new(order, ends)?)
}

/// The ends of a ring that nobody has a handle of.
pub(crate) fn over<T>(ring: Ring<T>) -> Result<(Sender<T>, Receiver<T>), OpenError> {
    let seat = || ring.handle().map(Mutex::new).map(Arc::new).ok_or(OpenError::Ports);
    let (first, second) = (seat()?, seat()?);
    let channel = Arc::new(Channel {
        bell: Bell::new(),
        ring,
        senders: AtomicUsize::new(1),
        receivers: AtomicUsize::new(1),
    });
    let sender = Sender::new(End { channel: Arc::clone(&channel), seat: first });
    Ok((sender, Receiver::new(End { channel, seat: second })))
}

/// What all ends share. Line 0 of the bell is of values, and ends with the last sender; the line of
/// room ends with the last receiver.
pub(crate) struct Channel<T> {
    pub(crate) bell: Bell,
    pub(crate) ring: Ring<T>,
    pub(crate) senders: AtomicUsize,
    pub(crate) receivers: AtomicUsize,
}

/// An end: the channel, and a handle of its ring, which several ends share where handles are rare.
/// So an end may be used by several threads at a time.
pub(crate) struct End<T> {
    pub(crate) channel: Arc<Channel<T>>,
    seat: Arc<Mutex<Handle<T>>>,
}

impl<T> End<T> {
    /// Another end of the same channel, which is counted here.
    pub(crate) fn another(&self, count: &AtomicUsize) -> End<T> {
        count.fetch_add(1, Relaxed);
        let seat = match self.channel.ring.handle() {
            Some(handle) => Arc::new(Mutex::new(handle)),
            None => Arc::clone(&self.seat),
        };
        End { channel: Arc::clone(&self.channel), seat }
    }

    /// This end goes. The last one that is counted here ends the line.
    pub(crate) fn leave(&self, count: &AtomicUsize, line: u32) -> bool {
        let is_last = count.fetch_sub(1, AcqRel) == 1;
        if is_last {
            self.channel.bell.finish_lines(Lines::of(line));
        }
        is_last
    }

    /// Puts a value into the ring, or has it back, and whether tickets have run out.
    pub(crate) fn push(&self, value: T) -> Result<(), (T, bool)> {
        let handle = self.seat.lock().unwrap_or_else(PoisonError::into_inner);
        handle.push(value).map_err(|value| (value, handle.is_spent()))
    }

    /// Takes a value off the ring, or says whether tickets have run out.
    pub(crate) fn pop(&self) -> Result<T, bool> {
        let handle = self.seat.lock().unwrap_or_else(PoisonError::into_inner);
        handle.pop().ok_or_else(|| handle.is_spent())
    }

    /// Whether both are of one channel.
    pub(crate) fn is_of_the_channel_of(&self, other: &End<T>) -> bool {
        Arc::ptr_eq(&self.channel, &other.channel)
    }

    /// Whether the other side has gone.
    #[inline]
    pub(crate) fn has_ended(&self, line: u32) -> bool {
        self.channel.bell.has_ended(Lines::of(line))
    }

    /// Tickets have run out, as they will for all: nobody waits any longer.
    #[cold]
    pub(crate) fn end_all(&self) {
        self.channel.bell.finish_lines(Lines::ALL);
    }

    /// Drops what stands in the ring, where no receiver is left to get it.
    pub(crate) fn drain(&self) {
        while let Ok(value) = self.pop() {
            drop(value);
        }
    }
}

#[cfg(test)]
mod tests {
    use super::over;
    use crate::{Ring, TryRecvError, TrySendError};

    /// Where tickets have run out both sides are told, and nobody waits for ever.
    #[test]
    fn tickets_that_run_out_end_a_channel() {
        for waits in [false, true] {
            let (sender, receiver) = over(Ring::with_limit(1, 3, 16).unwrap()).unwrap();
            let waiting = std::thread::spawn({
                let receiver = receiver.clone();
                move || receiver.into_iter().count()
            });
            let mut sent = 0;
            let refused = loop {
                let tried = match waits {
                    true => sender.send(sent).map_err(TrySendError::from),
                    false => sender.try_send(sent),
                };
                match tried {
                    Ok(()) => sent += 1,
                    Err(TrySendError::Full(_)) => {}
                    Err(TrySendError::Disconnected(value)) => break value,
                }
            };
            assert_eq!(refused, sent);
            assert!(sent > 0 && waiting.join().unwrap() <= sent);
            assert_eq!(sender.try_send(0), Err(TrySendError::Disconnected(0)));
            while receiver.try_recv().is_ok() {}
            assert_eq!(receiver.try_recv(), Err(TryRecvError::Disconnected));
        }
    }
}
