//! Ends that ring by themselves: a thread ends at a random call, by a panic or an early return, and
//! whoever waits is told within 100 ms. `RUNS` of the environment says how many runs there are, and
//! `AT_MOST` within how many milliseconds, as on a machine that does other things too.
use scq::{
    bounded, Bell, Lines, OpenError, Port, Queue, Refused, Ring, Role, Setup, Tied, WaitError,
};
use std::cell::Cell;
use std::panic::{catch_unwind, resume_unwind, AssertUnwindSafe};
use std::sync::atomic::{AtomicU64, Ordering::SeqCst};
use std::sync::{Arc, Mutex};
use std::thread;
use std::time::{Duration, Instant};

/// In what time one who waits is told, in milliseconds.
const AT_MOST: u64 = 100;
/// How often a run is made again in which one was told later.
const TRIES: u64 = 10;
/// How many messages a sender has, of which it sends all in some runs.
const MESSAGES: u64 = 300;
/// What a thread panics with that is to.
const AT_A_RANDOM_CALL: &str = "at a random call";
/// The topic of the runs, and one on which nothing comes.
const TOPICS: [u32; 2] = [1, 0];

fn number(name: &str, default: u64) -> u64 {
    std::env::var(name).map_or(default, |text| text.parse().expect("a number"))
}

/// Numbers that look random.
struct Dice(u64);

impl Dice {
    fn new(seed: u64) -> Dice {
        let mut dice = Dice(0x9e37_79b9_7f4a_7c15 ^ seed);
        // The first numbers of seeds that are alike are alike.
        for _ in 0..8 {
            dice.below(2);
        }
        dice
    }

    fn below(&mut self, bound: u64) -> u64 {
        self.0 ^= self.0 << 13;
        self.0 ^= self.0 >> 7;
        self.0 ^= self.0 << 17;
        self.0 % bound
    }
}

/// How many calls a thread still makes, and whether it pauses and panics then.
struct Fuse {
    left: Cell<u64>,
    pauses: bool,
    panics: bool,
}

impl Fuse {
    /// A call is about to be made: none where the thread is to return instead.
    fn step(&self) -> Option<()> {
        if self.left.get() == 0 {
            if self.pauses {
                // The others fall asleep meanwhile.
                thread::sleep(Duration::from_micros(500));
            }
            if self.panics {
                // As a panic, but nothing is printed.
                resume_unwind(Box::new(AT_A_RANDOM_CALL));
            }
            return None;
        }
        self.left.set(self.left.get() - 1);
        Some(())
    }
}

/// When the threads of a side ended, the last of them; and when those of the other were told.
#[derive(Default)]
struct Side {
    ended: Mutex<Option<Instant>>,
    told: Mutex<Vec<Instant>>,
}

impl Side {
    fn told(&self) {
        self.told.lock().unwrap().push(Instant::now());
    }

    /// How long each that was told that the other side had ended waited for it.
    fn waited(&self, other: &Side) -> Vec<Duration> {
        let ended = other.ended.lock().unwrap().unwrap_or_else(Instant::now);
        let told = self.told.lock().unwrap();
        told.iter().map(|told| told.saturating_duration_since(ended)).collect()
    }
}

/// Notes when a thread ends, whatever way: stands behind what rings.
struct Noted<'s>(&'s Side);

impl Drop for Noted<'_> {
    fn drop(&mut self) {
        // Every thread may be the last.
        *self.0.ended.lock().unwrap() = Some(Instant::now());
    }
}

/// A work of one thread, up to its end by a fuse.
type Work<'w> = Box<dyn FnOnce(&Fuse) + Send + 'w>;

/// Runs the works at the same time. One or two of them, or all of a side, end at a random call.
fn run_all(dice: &mut Dice, senders: Vec<Work<'_>>, takers: Vec<Work<'_>>) {
    let doomed_side = dice.below(3);
    let fuse = |dice: &mut Dice, side: u64| {
        let is_doomed = doomed_side == side || dice.below(4) == 0;
        let left = if is_doomed { dice.below(MESSAGES) } else { u64::MAX };
        let (pauses, panics) = (dice.below(2) == 0, dice.below(2) == 0);
        Fuse { left: Cell::new(left), pauses, panics }
    };
    let sides = [(0, senders), (1, takers)];
    thread::scope(|scope| {
        for (side, works) in sides {
            for work in works {
                let fuse = fuse(dice, side);
                scope.spawn(move || {
                    let ended = catch_unwind(AssertUnwindSafe(|| work(&fuse)));
                    if let Err(panic) = ended {
                        assert_eq!(panic.downcast_ref(), Some(&AT_A_RANDOM_CALL));
                    }
                });
            }
        }
    });
}

/// Ends the program where a run takes more than a minute, as one that hangs does.
fn watch(made: Arc<AtomicU64>, last: u64) {
    thread::spawn(move || {
        let mut before = u64::MAX;
        while made.load(SeqCst) < last {
            if made.load(SeqCst) == before {
                eprintln!("run {before} hangs");
                std::process::abort();
            }
            before = made.load(SeqCst);
            thread::sleep(Duration::from_secs(60));
        }
    });
}

/// Makes so many runs, each of which answers how long each one who was told waited for it. Fails
/// where that was too long: the machine may have done other things, so such a run is made again.
fn runs(mut run: impl FnMut(&mut Dice) -> Vec<Duration>) {
    let (made, last) = (Arc::new(AtomicU64::new(0)), number("RUNS", 1000));
    watch(Arc::clone(&made), last);
    let at_most = Duration::from_millis(number("AT_MOST", AT_MOST));
    let (mut told, mut again, mut longest) = (0, 0, Duration::ZERO);
    while made.load(SeqCst) < last {
        let mut tries = 0;
        let took = loop {
            let took = run(&mut Dice::new(made.load(SeqCst) + 1));
            told += took.len() as u64;
            let most = took.into_iter().max().unwrap_or_default();
            if most <= at_most || tries == TRIES {
                break most;
            }
            tries += 1;
        };
        again += tries;
        longest = longest.max(took);
        made.fetch_add(1, SeqCst);
    }
    println!("{last} runs, {told} were told, the last within {longest:?}, {again} runs again");
    assert!(told > last / 2, "{told} were told");
    assert!(longest <= at_most, "one was told within {longest:?}");
}

/// Sends a number, or answers that nobody receives; receives one, or answers that nobody sends.
type Sends<'w> = Box<dyn Fn(u64) -> bool + Send + 'w>;
type Receives<'w> = Box<dyn Fn() -> bool + Send + 'w>;

/// A run with these senders and receivers, each of which goes with its thread.
fn run_values(
    dice: &mut Dice,
    senders: Vec<Sends<'_>>,
    receivers: Vec<Receives<'_>>,
) -> Vec<Duration> {
    let (sending, receiving) = (Side::default(), Side::default());
    let senders = senders.into_iter().map(|send| -> Work<'_> {
        Box::new(|fuse| {
            let send = send;
            let _noted = Noted(&sending);
            for number in 0..MESSAGES {
                if fuse.step().is_none() {
                    return;
                }
                if !send(number) {
                    return sending.told();
                }
            }
        })
    });
    let receivers = receivers.into_iter().map(|receive| -> Work<'_> {
        Box::new(|fuse| {
            let receive = receive;
            let _noted = Noted(&receiving);
            while fuse.step().is_some() {
                if !receive() {
                    return receiving.told();
                }
            }
        })
    });
    let (senders, receivers) = (senders.collect(), receivers.collect());
    run_all(dice, senders, receivers);
    [sending.waited(&receiving), receiving.waited(&sending)].concat()
}

#[test]
fn a_channel_that_ends_at_a_random_call() {
    runs(|dice| {
        let (sender, receiver) = bounded(1 + dice.below(16) as usize).unwrap();
        let senders = (0..1 + dice.below(3)).map(|_| -> Sends<'_> {
            let sender = sender.clone();
            Box::new(move |number| sender.send(Box::new(number)).is_ok())
        });
        let senders = senders.collect();
        let receivers = (0..1 + dice.below(3)).map(|_| -> Receives<'_> {
            let receiver = receiver.clone();
            Box::new(move || receiver.recv().is_ok())
        });
        let receivers = receivers.collect();
        drop((sender, receiver));
        run_values(dice, senders, receivers)
    });
}

#[test]
fn handles_that_end_at_a_random_call() {
    runs(|dice| {
        let (bell, ring) = (Bell::new(), Ring::new(1 + dice.below(4) as u32, 6).unwrap());
        let tied = |role| bell.tie_handle(ring.handle().expect("one of six"), role);
        let senders = (0..1 + dice.below(3)).map(|_| -> Sends<'_> {
            let handle = tied(Role::Sends);
            Box::new(move |number| handle.push(Box::new(number)).is_ok())
        });
        let senders = senders.collect();
        let receivers = (0..1 + dice.below(3)).map(|_| -> Receives<'_> {
            let handle = tied(Role::Takes);
            Box::new(move || handle.pop().is_ok())
        });
        let receivers = receivers.collect();
        run_values(dice, senders, receivers)
    });
}

/// Sends by a tied port until its messages are out, its fuse is, or nobody takes any more; with
/// what it holds by then.
fn send_all(port: &Tied<&Bell>, fuse: &Fuse) -> Option<WaitError<scq::LendError>> {
    for _ in 0..MESSAGES {
        fuse.step()?;
        let lent = match port.lend() {
            Ok(lent) => lent,
            Err(why) => return Some(why),
        };
        fuse.step()?;
        lent.send(TOPICS[0]).unwrap();
    }
    None
}

/// Takes by a tied port until its fuse is out or nobody sends any more.
fn take_all(port: &Tied<&Bell>, fuse: &Fuse) -> Option<WaitError<scq::TakeError>> {
    loop {
        fuse.step()?;
        let taken = match port.take_any(&TOPICS) {
            Ok((_, taken)) => taken,
            Err(why) => return Some(why),
        };
        fuse.step()?;
        if taken.index() % 4 == 0 {
            // A guard that is forgotten: the port's end gives its buffer back.
            std::mem::forget(taken);
            fuse.left.set(fuse.left.get().min(1));
        }
    }
}

#[test]
fn ports_that_end_at_a_random_call() {
    runs(|dice| {
        let bell = Bell::new();
        let setup = Setup { order: 1 + dice.below(4) as u32, topics: 2, ..Setup::default() };
        let (senders, takers) = (1 + dice.below(3), 1 + dice.below(3));
        let mut ports = Queue::new(setup, (senders + takers) as usize).unwrap().into_iter();
        let (sending, taking) = (Side::default(), Side::default());
        let tied = |port: Option<Port>, role| bell.tie(port.unwrap(), role);
        let senders = (0..senders).map(|_| {
            let (port, sending) = (tied(ports.next(), Role::Sends), &sending);
            let work: Work<'_> = Box::new(move |fuse| {
                let port = port;
                let _noted = Noted(sending);
                match send_all(&port, fuse) {
                    Some(WaitError::Ended) => sending.told(),
                    Some(why) => panic!("{why}"),
                    None => {}
                }
            });
            work
        });
        let senders = senders.collect();
        let takers = (0..takers).map(|_| {
            let (port, taking) = (tied(ports.next(), Role::Takes), &taking);
            let work: Work<'_> = Box::new(move |fuse| {
                let port = port;
                let _noted = Noted(taking);
                match take_all(&port, fuse) {
                    Some(WaitError::Ended) => taking.told(),
                    Some(why) => panic!("{why}"),
                    None => {}
                }
            });
            work
        });
        let takers = takers.collect();
        run_all(dice, senders, takers);
        [sending.waited(&taking), taking.waited(&sending)].concat()
    });
}

/// So many ports of a queue of two buffers.
fn two_buffers(ports: usize) -> Result<std::vec::IntoIter<Port>, OpenError> {
    let setup = Setup { order: 1, topics: 2, ..Setup::default() };
    Ok(Queue::new(setup, ports)?.into_ports().into_iter())
}

/// Runs what waits, ends what it waits for while it sleeps, and answers what it was told.
fn told_asleep<T: Send>(wait: impl FnOnce() -> T + Send, end: impl FnOnce()) -> T {
    thread::scope(|scope| {
        let waiting = scope.spawn(wait);
        thread::sleep(Duration::from_millis(5));
        let from = Instant::now();
        end();
        let told = waiting.join().unwrap();
        assert!(from.elapsed() < Duration::from_secs(30), "{:?}", from.elapsed());
        told
    })
}

/// Who sleeps is told the end of the last on the other side, and not before.
#[test]
fn who_sleeps_is_told_the_end() {
    let bell = Bell::new();
    let mut ports = two_buffers(3).unwrap();
    let mut tied = |role| bell.tie(ports.next().unwrap(), role);
    let (sends, also, takes) = (tied(Role::Sends), tied(Role::Both), tied(Role::Takes));
    drop(sends);
    assert!(!bell.is_finished(&[0]));
    let told = told_asleep(move || takes.take(1).map(drop), || drop(also));
    assert_eq!((told, bell.is_finished(Lines::ALL_TOPICS)), (Err(WaitError::Ended), true));

    let bell = Bell::new();
    let mut ports = two_buffers(3).unwrap();
    let mut tied = |role| bell.tie(ports.next().unwrap(), role);
    let (sends, takes, also) = (tied(Role::Sends), tied(Role::Takes), tied(Role::Both));
    (0..2).for_each(|_| assert!(sends.lend().unwrap().send(0).is_ok()));
    drop(takes);
    assert!(!bell.is_finished(Lines::FREE));
    let told = told_asleep(move || sends.lend().map(drop), || drop(also));
    assert_eq!((told, bell.is_finished(Lines::FREE)), (Err(WaitError::Ended), true));

    let (bell, ring) = (Bell::new(), Ring::new(1, 3).unwrap());
    let tied = |role| bell.tie_handle(ring.handle().unwrap(), role);
    let (sends, also, takes) = (tied(Role::Sends), tied(Role::Both), tied(Role::Takes));
    assert_eq!((sends.try_push(1), sends.push(2)), (Ok(()), Ok(())));
    assert_eq!(sends.try_push(3), Err(Refused { held: 3, why: WaitError::TimedOut }));
    assert_eq!((takes.try_pop(), takes.pop()), (Ok(1), Ok(2)));
    assert_eq!(takes.try_pop(), Err(WaitError::TimedOut));
    drop(sends);
    assert!(!bell.is_finished(&[0]));
    assert_eq!(told_asleep(move || takes.pop(), || drop(also)), Err(WaitError::Ended));
    assert!(bell.is_finished(Lines::topic(0) | Lines::FREE));

    let (sender, receiver) = bounded::<u8>(2).unwrap();
    drop(sender.clone());
    assert!(told_asleep(|| receiver.recv().is_err(), || drop(sender)));
    let (sender, receiver) = bounded::<u8>(2).unwrap();
    drop(receiver.clone());
    (0..2).for_each(|number| sender.send(number).unwrap());
    assert!(told_asleep(|| sender.send(2).is_err(), || drop(receiver)));
}

/// What a port held that ends frees one who waits for a buffer.
#[test]
fn what_an_end_frees_is_told() {
    for way in 0..4 {
        let bell = Bell::new();
        let mut ports = two_buffers(2).unwrap();
        let (holder, lender) = (ports.next().unwrap(), ports.next().unwrap());
        std::mem::forget((holder.lend().unwrap(), holder.lend().unwrap()));
        thread::scope(|scope| {
            let bell = &bell;
            let waiting = scope.spawn(move || {
                let from = Instant::now();
                let one = bell.lend_for(&lender, Duration::from_secs(60)).map(drop);
                (one, from.elapsed())
            });
            thread::sleep(Duration::from_millis(5));
            match way {
                0 => bell.close(holder),
                1 => drop(bell.tie(holder, Role::Both)),
                2 => assert!(!bell.tie(holder, Role::Both).end(&mut [])),
                _ => {
                    let tied = Tied::by(bell, holder, Role::Takes);
                    let ended = catch_unwind(AssertUnwindSafe(move || {
                        let _tied = tied;
                        resume_unwind(Box::new("unwinds"));
                    }));
                    assert!(ended.is_err());
                }
            }
            let (lent, took) = waiting.join().unwrap();
            assert_eq!(lent, Ok(()));
            assert!(took < Duration::from_secs(30), "{took:?}");
        });
    }
}

/// A take that is made after all ports have retired is answered at once, though nobody rang.
#[test]
fn a_take_behind_the_end_is_answered_at_once() {
    let bell = Bell::new();
    let mut ports = two_buffers(2).unwrap();
    let (first, second) = (ports.next().unwrap(), ports.next().unwrap());
    first.lend().unwrap().send(1).unwrap();
    drop(first);
    second.retire();
    assert!(bell.take_any(&second, &[0, 1]).is_ok());
    assert_eq!(bell.take_for(&second, 1, Duration::MAX).map(drop), Err(WaitError::Ended));
    assert!(bell.is_finished(Lines::ALL_TOPICS) && !bell.is_finished(Lines::FREE));
}

/// So is a lend, where no port is left that takes.
#[test]
fn a_lend_that_nobody_takes_from_is_answered_at_once() {
    let bell = Bell::new();
    let mut ports = two_buffers(3).unwrap();
    let sends = bell.tie(ports.next().unwrap(), Role::Sends);
    let also = bell.tie(ports.next().unwrap(), Role::Sends);
    let taker = ports.next().unwrap();
    for _ in 0..2 {
        sends.lend().unwrap().send(0).unwrap();
    }
    let soon = Duration::from_millis(5);
    assert_eq!(also.lend_for(soon).map(drop), Err(WaitError::TimedOut));
    drop(taker); // which is tied to nothing
    assert_eq!(also.lend_for(Duration::MAX).map(drop), Err(WaitError::Ended));
    assert!(sends.try_lend().is_err());
}

/// A port that does both is one that may take, until it has ended.
#[test]
fn the_last_that_may_take_ends_lending() {
    let bell = Arc::new(Bell::new());
    let mut ports = two_buffers(3).unwrap();
    let sends = Tied::by(Arc::clone(&bell), ports.next().unwrap(), Role::Sends);
    let both = Tied::by(Arc::clone(&bell), ports.next().unwrap(), Role::Both);
    let takes = Tied::by(Arc::clone(&bell), ports.next().unwrap(), Role::Takes);
    for _ in 0..2 {
        sends.lend().unwrap().send(0).unwrap();
    }
    let waiting = thread::spawn(move || sends.lend().map(drop));
    let (topic, taken) = takes.take_any_for(&TOPICS, Duration::MAX).unwrap();
    assert_eq!(topic, 0);
    std::mem::forget(taken);
    drop(takes);
    assert_eq!(waiting.join().unwrap(), Ok(()));
    assert!(!bell.is_finished(Lines::FREE));
    assert!(both.take_for(0, Duration::MAX).is_ok());
    both.lend().unwrap().send(0).unwrap();
    both.retire();
    assert!(both.try_take(0).is_ok());
    assert_eq!(both.take(0).map(drop), Err(WaitError::Ended));
    assert!(both.port().all_retired() && both.end(&mut []));
    assert!(bell.is_finished(Lines::ALL));
}

/// A batch of a tied port rings once for each buffer.
#[test]
fn a_batch_rings_for_each_buffer() {
    let bell = Bell::new();
    let mut ports = two_buffers(4).unwrap();
    let sends = bell.tie(ports.next().unwrap(), Role::Both);
    thread::scope(|scope| {
        let mut waiting = Vec::new();
        for port in ports.by_ref().take(2) {
            waiting.push(scope.spawn(|| bell.tie(port, Role::Both).take(0).map(std::mem::forget)));
        }
        thread::sleep(Duration::from_millis(5));
        let mut batch = sends.batch::<2>();
        assert_eq!(batch.lend(2).all(), Ok(2));
        assert_eq!(batch.send(0).all(), Ok(2));
        waiting.into_iter().for_each(|taker| assert_eq!(taker.join().unwrap(), Ok(())));

        let mut batch = sends.batch::<2>();
        assert_eq!(batch.lend(2).all(), Ok(2));
        let port = bell.tie(ports.next().unwrap(), Role::Both);
        let waiting = scope.spawn(move || port.lend().map(drop));
        thread::sleep(Duration::from_millis(5));
        drop(batch);
        assert_eq!(waiting.join().unwrap(), Ok(()));
    });
}
