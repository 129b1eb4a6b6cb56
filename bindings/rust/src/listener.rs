//! Who sleeps by a bell: a thread that parks, or a task.
use crate::bell::{Bell, Sleeper};
use crate::lines::Lines;
use std::fmt;
use std::future::Future;
use std::pin::Pin;
use std::sync::atomic::{AtomicBool, Ordering::SeqCst};
use std::sync::Arc;
use std::task::{Context, Poll, Wake, Waker};
use std::thread::{self, Thread};
use std::time::{Duration, Instant};

/// A place on the list of those who sleep by a bell: a future, which is ready when it is rung for
/// one of its lines. It holds no port, so a task of any thread may await it.
///
/// Whoever asked for it looks once more, and awaits it where that finds nothing; when it is ready
/// he looks again. Dropped before it is ready, it leaves a ring that came for it to the next
/// sleeper. Where it is forgotten (`std::mem::forget`) before it was awaited, it keeps no ring from
/// another; forgotten after that, it keeps one.
///
/// ```
/// # use scq::{Bell, Port, TakeError};
/// async fn take_byte(bell: &Bell, port: Port) -> Result<u8, TakeError> {
///     loop {
///         let listener = bell.listen(&[0]);
///         match port.take(0) {
///             Ok(taken) => break Ok(taken[0]),
///             Err(TakeError::Empty { .. }) => {}
///             Err(why) => break Err(why),
///         }
///         listener.await;
///     }
/// }
/// # fn is_send<T: Send>(_: T) {}
/// # let port = scq::Queue::new(scq::Setup::default(), 1).unwrap().into_ports().remove(0);
/// # is_send(take_byte(&Bell::new(), port));
/// ```
#[must_use = "who listens looks once more, and then waits"]
pub struct Listener<'b> {
    bell: &'b Bell,
    number: u64,
    lines: Lines,
    /// Whether it may be on the list yet: it isn't once it was seen that it was rung.
    is_on_list: bool,
}

impl<'b> Listener<'b> {
    /// The place with this number, which stands on the bell's list where it is for a line.
    pub(crate) fn new(bell: &'b Bell, number: u64, lines: Lines) -> Listener<'b> {
        Listener { bell, number, lines, is_on_list: !lines.is_empty() }
    }

    /// Leaves the list, with what stands there; or there is nothing, where it was rung.
    fn leave(&mut self) -> Option<Sleeper> {
        self.is_on_list = false;
        let mut sleepers = self.bell.lock();
        let at = sleepers.list.iter().position(|sleeper| sleeper.number == self.number);
        at.map(|at| self.bell.remove(&mut sleepers, at))
    }

    /// Says who is to be woken. Answers whether it was rung already.
    fn is_rung(&mut self, waker: Waker) -> bool {
        let mut sleepers = self.bell.lock();
        // (A waker is dropped outside of the lock, as it may be the last of its task.)
        let last = match sleepers.list.iter_mut().find(|sleeper| sleeper.number == self.number) {
            Some(sleeper) => sleeper.waker.replace(waker),
            None => {
                self.is_on_list = false;
                Some(waker)
            }
        };
        drop(sleepers);
        drop(last);
        !self.is_on_list
    }

    /// Sleeps until it is rung, by this signal of the thread, or the moment comes. Answers whether
    /// it was rung.
    pub(crate) fn sleep(mut self, signal: &Signal, until: Option<Instant>) -> bool {
        while !signal.is_rung.swap(false, SeqCst) {
            match until.map(|until| until.saturating_duration_since(Instant::now())) {
                None => thread::park(),
                Some(Duration::ZERO) => return self.leave().is_none(),
                Some(left) => thread::park_timeout(left),
            }
        }
        self.is_on_list = false;
        true
    }
}

impl Future for Listener<'_> {
    type Output = ();

    fn poll(mut self: Pin<&mut Self>, context: &mut Context<'_>) -> Poll<()> {
        if !self.is_on_list || self.is_rung(context.waker().clone()) {
            // Of several lines he may leave one out that was rung.
            if self.lines.count() > 1 {
                self.bell.pass(self.lines);
            }
            return Poll::Ready(());
        }
        Poll::Pending
    }
}

impl Drop for Listener<'_> {
    fn drop(&mut self) {
        if self.is_on_list && self.leave().is_none() {
            self.bell.pass(self.lines);
        }
    }
}

impl fmt::Debug for Listener<'_> {
    fn fmt(&self, f: &mut fmt::Formatter<'_>) -> fmt::Result {
        f.debug_struct("Listener").finish_non_exhaustive()
    }
}

/// What wakes a thread that parks.
pub(crate) struct Signal {
    thread: Thread,
    is_rung: AtomicBool,
}

impl Signal {
    /// One for this thread.
    pub(crate) fn new() -> Arc<Signal> {
        Arc::new(Signal { thread: thread::current(), is_rung: AtomicBool::new(false) })
    }
}

impl Wake for Signal {
    fn wake(self: Arc<Signal>) {
        self.is_rung.store(true, SeqCst);
        self.thread.unpark();
    }
}
