//! Waiting: a bell that threads and tasks sleep by, and that who sends or gives back rings.
//!
//! Why no wake is lost. Who waits enters the list of sleepers and is counted (W), looks once more
//! (L), and sleeps where that finds nothing. Who changes something does so (C), and reads whether
//! anybody is counted (R); where one is he takes the first sleeper off the list and the count, and
//! wakes him then (K): who rings next finds one sleeper less, and wakes nobody twice. W and R are
//! sequentially consistent, and so is each step of the queue in C and L, so that all stand in one
//! order, those of a thread as the thread makes them: that is why R can be a load, with no fence
//! before it. If R finds nobody it stands before W, and so C before L: the look sees the change, or
//! another thread has it. Else K finds him on the list, as he enters it in one with W; or he was
//! taken off it for another change.
//!
//! So who was taken off the list owes a look, or a ring. He looks before he sleeps again or goes,
//! also where his time is over; a line at which that look didn't come he rings again, and all of
//! his lines where he found something before he slept, or unwinds. So as long as something is there
//! for a line, or it has ended, and one sleeps for it, another is on his way: between his change
//! and his ring, or off the list and before his look or ring.
//!
//! A listener that isn't awaited yet may have been forgotten: a ring takes it off the list, and
//! wakes the next sleeper too.
use crate::lines::{Lines, FREE, LINES};
use crate::listener::{Listener, Signal};
use std::error::Error;
use std::fmt;
use std::sync::atomic::{AtomicU32, AtomicUsize, Ordering::Relaxed, Ordering::SeqCst};
use std::sync::{Mutex, MutexGuard};
use std::task::Waker;
use std::thread;
use std::time::{Duration, Instant};

/// A bell for a queue, by which calls can wait. It is shared by the threads that use the queue.
///
/// Where somebody waits for a topic, whoever sends on it does so by a [`Rung`](crate::Rung), or
/// calls [`ring`](Bell::ring) behind the send; where somebody waits for a buffer, whoever gives one
/// back does so by dropping a [`Rung`](crate::Rung), or calls [`ring_free`](Bell::ring_free) behind
/// it. A port that is [tied](Bell::tie) to the bell rings for all that it does, and at its end. A
/// ring for which nobody waits is one load. A call that waits takes a lock and memory, where it
/// finds nothing at first.
///
/// This is plain Rust, tested and not proved.
///
/// ```
/// use scq::{Bell, Queue, Role, Setup, WaitError};
/// use std::thread;
///
/// let bell = Bell::new();
/// let mut ports = Queue::new(Setup::default(), 2).unwrap().into_ports();
/// let first = bell.tie(ports.remove(0), Role::Sends);
/// let second = bell.tie(ports.remove(0), Role::Takes);
/// thread::scope(|scope| {
///     scope.spawn(move || {
///         for number in 0..100 {
///             let mut lent = first.lend().unwrap();
///             lent[0] = number;
///             lent.send(0).unwrap();
///         }
///     });
///     let mut sum = 0;
///     let end = loop {
///         match second.take(0) {
///             Ok(taken) => sum += u32::from(taken[0]),
///             Err(end) => break end,
///         }
///     };
///     assert_eq!((sum, end), (4950, WaitError::Ended));
/// });
/// ```
pub struct Bell {
    /// The set of lines on which nothing comes any more.
    ended: AtomicU32,
    /// How many sleepers are on the list for each line.
    waiting: [AtomicU32; LINES],
    /// How many handles of a ring are tied to it that push; and that pop.
    pub(crate) pushers: AtomicUsize,
    pub(crate) poppers: AtomicUsize,
    sleepers: Mutex<Sleepers>,
}

/// Who sleeps, who came first standing first; and how many did so far.
pub(crate) struct Sleepers {
    pub(crate) list: Vec<Sleeper>,
    count: u64,
}

pub(crate) struct Sleeper {
    pub(crate) number: u64,
    lines: Lines,
    pub(crate) waker: Option<Waker>,
}

impl Bell {
    /// A bell for which nobody waits.
    pub fn new() -> Bell {
        Bell {
            ended: AtomicU32::new(0),
            waiting: Default::default(),
            pushers: AtomicUsize::new(0),
            poppers: AtomicUsize::new(0),
            sleepers: Mutex::new(Sleepers { list: Vec::new(), count: 0 }),
        }
    }

    /// Says that nothing is sent on these topics any more, behind the last send on each; of
    /// [`Lines::FREE`], that who waits for a buffer is to give up. Who waits for nothing but such
    /// lines is woken, and takes what is left before his wait ends; a send by this bell on such a
    /// topic is refused. It can't be taken back.
    ///
    /// ```
    /// use scq::{Bell, Lines, Queue, SendRefusal, Setup, WaitError};
    ///
    /// let bell = Bell::new();
    /// let port = Queue::new(Setup::default(), 1)?.into_ports().remove(0);
    /// bell.finish(Lines::topic(0));
    /// assert_eq!(bell.take(&port, 0).map(drop), Err(WaitError::Ended));
    /// let refused = bell.lend(&port)?.send(0).unwrap_err();
    /// assert_eq!(refused.why, SendRefusal::Ended);
    /// # Ok::<(), Box<dyn std::error::Error>>(())
    /// ```
    pub fn finish(&self, lines: impl Into<Lines>) {
        self.finish_lines(lines.into());
    }

    /// Says that who waits for a buffer is to give up: [`finish`](Bell::finish) of [`Lines::FREE`].
    pub fn finish_lending(&self) {
        self.finish_lines(Lines::FREE);
    }

    /// Whether each of these lines was finished. Who asks, and then finds them empty, is through.
    pub fn is_finished(&self, lines: impl Into<Lines>) -> bool {
        self.has_ended(lines.into())
    }

    /// Rings for a topic, behind a send on it that was made without the bell. Where no queue has so
    /// many topics, nothing happens.
    #[inline]
    pub fn ring(&self, topic: u32) {
        if topic < FREE {
            self.ring_line(topic);
        }
    }

    /// Rings for a buffer, behind one that was given back without the bell.
    #[inline]
    pub fn ring_free(&self) {
        self.ring_line(FREE);
    }

    /// Enters the list of sleepers, for whoever looks once more and then awaits the [`Listener`].
    /// For no line it is ready at once.
    pub fn listen(&self, lines: impl Into<Lines>) -> Listener<'_> {
        self.enter(lines.into(), None)
    }

    /// The same, for a buffer.
    pub fn listen_free(&self) -> Listener<'_> {
        self.enter(Lines::FREE, None)
    }

    /// Looks, and sleeps between the looks until one finds something or the moment comes. A look
    /// answers which lines it didn't come to, and says that the time is over where it found
    /// nothing. Before it sleeps it asks which lines have ended though nobody said so here.
    pub(crate) fn wait<V, E>(
        &self,
        lines: Lines,
        until: Option<Instant>,
        over: impl Fn() -> Lines,
        mut find: impl FnMut() -> (Result<V, WaitError<E>>, Lines),
    ) -> Result<V, WaitError<E>> {
        let mut look = || {
            // Asked before: what is sent before the end is found.
            let has_ended = self.has_ended(lines);
            match find() {
                (Err(WaitError::TimedOut), left) if has_ended => (Err(WaitError::Ended), left),
                found => found,
            }
        };
        let (found, _) = look();
        if !matches!(found, Err(WaitError::TimedOut)) {
            return found;
        }
        let_others_run();
        let (found, _) = look();
        if !matches!(found, Err(WaitError::TimedOut)) {
            return found;
        }
        let signal = Signal::new();
        loop {
            self.finish_lines(over());
            let listener = self.enter(lines, Some(signal.clone().into()));
            let (found, _) = look();
            if !matches!(found, Err(WaitError::TimedOut)) {
                return found;
            }
            let was_rung = listener.sleep(&signal, until);
            let mut owed = Owed { bell: self, lines: Lines::NONE };
            if was_rung {
                owed.lines = lines;
            }
            let (found, left) = look();
            owed.lines = owed.lines.and(left);
            drop(owed);
            let is_over = until.map_or(false, |until| Instant::now() >= until);
            if is_over || !matches!(found, Err(WaitError::TimedOut)) {
                return found;
            }
        }
    }

    /// Ends these lines, and wakes all who sleep for one.
    pub(crate) fn finish_lines(&self, lines: Lines) {
        if !self.has_ended(lines) {
            self.ended.fetch_or(lines.bits(), SeqCst);
            self.ring_all(lines);
        }
    }

    /// Whether each of these lines has ended.
    #[inline]
    pub(crate) fn has_ended(&self, lines: Lines) -> bool {
        Lines::of_bits(self.ended.load(SeqCst)).contains(lines)
    }

    #[inline]
    pub(crate) fn is_awaited(&self, line: u32) -> bool {
        self.waiting[line as usize].load(SeqCst) != 0
    }

    #[inline]
    pub(crate) fn ring_line(&self, line: u32) {
        if self.is_awaited(line) {
            self.wake_one(Lines::of(line), u64::MAX);
        }
    }

    /// Rings each of these lines: who was woken and doesn't look at them leaves that to another.
    pub(crate) fn pass(&self, lines: Lines) {
        lines.each().for_each(|line| self.ring_line(line));
    }

    /// Wakes all who sleep for one of these lines by now.
    #[cold]
    pub(crate) fn ring_all(&self, lines: Lines) {
        let last = self.lock().count;
        while self.wake_one(lines, last) {}
    }

    /// Takes the first one that sleeps for one of these lines off the list and wakes him, of those
    /// with numbers up to `last`. Answers whether there is one.
    #[cold]
    fn wake_one(&self, lines: Lines, last: u64) -> bool {
        let mut sleepers = self.lock();
        let fits =
            |sleeper: &Sleeper| !sleeper.lines.and(lines).is_empty() && sleeper.number <= last;
        let waker = loop {
            match sleepers.list.iter().position(fits).map(|at| self.remove(&mut sleepers, at)) {
                // He looks before he sleeps, or was forgotten.
                Some(Sleeper { waker: None, .. }) => {}
                woken => break woken.and_then(|sleeper| sleeper.waker),
            }
        };
        drop(sleepers);
        match waker {
            Some(waker) => {
                waker.wake();
                true
            }
            None => false,
        }
    }

    /// Puts one that waits for these lines on the list, with what wakes him where that is known.
    fn enter(&self, lines: Lines, waker: Option<Waker>) -> Listener<'_> {
        let mut sleepers = self.lock();
        sleepers.count += 1;
        let number = sleepers.count;
        if !lines.is_empty() {
            sleepers.list.push(Sleeper { number, lines, waker });
        }
        lines.each().for_each(|line| {
            self.waiting[line as usize].fetch_add(1, SeqCst);
        });
        Listener::new(self, number, lines)
    }

    pub(crate) fn remove(&self, sleepers: &mut Sleepers, at: usize) -> Sleeper {
        let sleeper = sleepers.list.remove(at);
        sleeper.lines.each().for_each(|line| {
            self.waiting[line as usize].fetch_sub(1, SeqCst);
        });
        sleeper
    }

    /// The list. Nothing that is done with it panics half way.
    pub(crate) fn lock(&self) -> MutexGuard<'_, Sleepers> {
        self.sleepers.lock().unwrap_or_else(|poisoned| poisoned.into_inner())
    }
}

impl Default for Bell {
    fn default() -> Bell {
        Bell::new()
    }
}

impl fmt::Debug for Bell {
    fn fmt(&self, f: &mut fmt::Formatter<'_>) -> fmt::Result {
        f.debug_struct("Bell")
            .field("ended", &Lines::of_bits(self.ended.load(SeqCst)))
            .finish_non_exhaustive()
    }
}

/// The moment that is so far from now; none where it never comes.
pub(crate) fn moment_in(most: Duration) -> Option<Instant> {
    Instant::now().checked_add(most)
}

/// Lets other threads run once, before one sleeps: where those that could have something had no
/// processor they have it then, and that is a call of the system in place of two, and of the list.
/// Where it took long other programs ran; so it is left out for a while.
fn let_others_run() {
    static LEFT_OUT: AtomicU32 = AtomicU32::new(0);
    /// Less than a slice that another program gets.
    const LONG: Duration = Duration::from_millis(2);
    /// How many are left out then.
    const WHILE: u32 = 1000;
    let left_out = LEFT_OUT.load(Relaxed);
    if left_out > 0 {
        LEFT_OUT.store(left_out - 1, Relaxed);
        return;
    }
    let from = Instant::now();
    thread::yield_now();
    if from.elapsed() > LONG {
        LEFT_OUT.store(WHILE, Relaxed);
    }
}

/// Lines that who was woken owes a look or a ring: rung where this ends, also by unwinding.
struct Owed<'b> {
    bell: &'b Bell,
    lines: Lines,
}

impl Drop for Owed<'_> {
    fn drop(&mut self) {
        self.bell.pass(self.lines);
    }
}

/// Why a wait ended with nothing.
#[derive(Clone, Copy, Debug, PartialEq, Eq, Hash)]
pub enum WaitError<E> {
    /// Nothing comes any more.
    Ended,
    /// The time was over, and there was nothing.
    TimedOut,
    /// The queue's call was refused.
    Refused(E),
}

impl<E: fmt::Display> fmt::Display for WaitError<E> {
    fn fmt(&self, f: &mut fmt::Formatter<'_>) -> fmt::Result {
        match self {
            WaitError::Ended => f.write_str("nothing comes any more"),
            WaitError::TimedOut => f.write_str("the time is over"),
            WaitError::Refused(why) => why.fmt(f),
        }
    }
}

impl<E: Error> Error for WaitError<E> {}
