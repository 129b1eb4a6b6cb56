//! Waiting by a bell: threads and tasks.
use scq::{
    Bell, Listener, Port, Queue, Refused, Ring, Rung, SendRefusal, Setup, Spent, TakeError,
    WaitError,
};
use std::future::Future;
use std::pin::Pin;
use std::sync::atomic::{AtomicU32, AtomicUsize, Ordering::SeqCst};
use std::sync::Arc;
use std::task::{Context, Poll, Wake, Waker};
use std::thread;
use std::time::{Duration, Instant};

/// How many messages are handed over.
const MESSAGES: usize = 20_000;

fn ports(setup: Setup, count: usize) -> Vec<Port> {
    Queue::new(setup, count).unwrap().into_ports()
}

fn soon() -> Duration {
    Duration::from_millis(5)
}

#[test]
fn waits_end() {
    let bell = Bell::new();
    let ports = ports(Setup { order: 1, topics: 2, ..Setup::default() }, 2);
    for topic in [2, 30, 31, 32] {
        let refused = bell.take(&ports[0], topic).map(drop).unwrap_err();
        assert_eq!(refused, WaitError::Refused(TakeError::NoTopic));
    }
    let refused = bell.take_any(&ports[0], &[]).map(drop).unwrap_err();
    assert_eq!(refused, WaitError::Refused(TakeError::NoTopic));
    let from = Instant::now();
    assert_eq!(bell.take_for(&ports[0], 1, soon()).map(drop).unwrap_err(), WaitError::TimedOut);
    assert!(from.elapsed() >= soon());
    let one = bell.lend(&ports[0]).unwrap();
    let other = Rung::by(&bell, ports[0].lend().unwrap());
    assert_eq!(bell.lend_for(&ports[1], soon()).map(drop).unwrap_err(), WaitError::TimedOut);
    let refused = one.send(2).unwrap_err();
    assert_eq!(refused.why, SendRefusal::NoTopic);
    refused.held.send(1).unwrap();
    bell.finish(&[1]);
    assert!(bell.is_finished(&[1]) && !bell.is_finished(&[0, 1]));
    let (topic, taken) = bell.take_any(&ports[1], &[0, 1]).unwrap();
    assert_eq!((topic, taken.len()), (1, 64));
    assert_eq!(bell.take(&ports[0], 1).map(drop).unwrap_err(), WaitError::Ended);
    drop((taken, other));
    bell.finish_lending();
    let all: Vec<_> = (0..2).map(|_| bell.lend(&ports[0]).unwrap()).collect();
    assert_eq!(bell.lend(&ports[1]).map(drop).unwrap_err(), WaitError::Ended);
    all.into_iter().for_each(|lent| lent.give_back().unwrap());
}

#[test]
fn who_waits_is_woken() {
    let bell = Bell::new();
    let mut ports = ports(Setup { order: 1, topics: 2, ..Setup::default() }, 3);
    let (third, second, first) = (ports.remove(0), ports.remove(0), ports.remove(0));
    thread::scope(|scope| {
        let bell = &bell;
        let waits = scope.spawn(move || {
            let (topic, taken) = bell.take_any(&third, &[1, 0]).unwrap();
            assert_eq!(topic, 0);
            drop(taken);
            bell.take(&third, 1).map(drop).unwrap_err()
        });
        thread::sleep(soon());
        bell.lend(&first).unwrap().send(0).unwrap();
        let one = bell.lend(&first).unwrap();
        let _other = bell.lend(&first).unwrap();
        let lends = scope.spawn(move || bell.lend(&second).map(drop).unwrap());
        thread::sleep(soon());
        drop(one);
        lends.join().unwrap();
        bell.finish(&[1]);
        assert_eq!(waits.join().unwrap(), WaitError::Ended);
    });
}

/// Senders and takers over two buffers: each message comes once, whatever the takers wait for.
#[test]
fn each_message_once() {
    const TOPICS: usize = 3;
    let bell = Bell::new();
    let ports = ports(Setup { order: 1, topics: TOPICS as u32, ..Setup::default() }, 10);
    let (drawn, senders) = (AtomicUsize::new(0), AtomicUsize::new(4));
    let came: Vec<AtomicU32> = (0..MESSAGES).map(|_| AtomicU32::new(0)).collect();
    thread::scope(|scope| {
        let (bell, drawn, senders, came) = (&bell, &drawn, &senders, &came);
        for (at, port) in ports.into_iter().enumerate() {
            if at < 4 {
                scope.spawn(move || {
                    loop {
                        let number = drawn.fetch_add(1, SeqCst);
                        if number >= MESSAGES {
                            break;
                        }
                        let mut lent = bell.lend(&port).unwrap();
                        lent[..8].copy_from_slice(&(number as u64).to_le_bytes());
                        lent.send((number % TOPICS) as u32).unwrap();
                    }
                    if senders.fetch_sub(1, SeqCst) == 1 {
                        bell.finish(&[0, 1, 2]);
                    }
                });
                continue;
            }
            scope.spawn(move || loop {
                let shortly = Duration::from_micros(50);
                let taken = match at % 3 {
                    0 => bell.take(&port, (at % TOPICS) as u32),
                    1 => bell.take_any(&port, &[2, 0, 1]).map(|(_, taken)| taken),
                    _ => bell.take_any_for(&port, &[0, 1, 2], shortly).map(|(_, taken)| taken),
                };
                match taken {
                    Ok(taken) => {
                        let number = u64::from_le_bytes(taken[..8].try_into().unwrap());
                        assert_eq!(came[number as usize].fetch_add(1, SeqCst), 0);
                    }
                    Err(WaitError::TimedOut) if at % 3 == 2 => {}
                    Err(WaitError::Ended) => break,
                    Err(why) => panic!("{why}"),
                }
            });
        }
    });
    assert!(came.iter().all(|times| times.load(SeqCst) == 1));
}

/// Tokens go round, so that all but a few threads sleep: where one wake is lost all stop.
fn go_round(threads: usize, tokens: usize) {
    let bell = Bell::new();
    let ports = ports(Setup { topics: threads as u32, ..Setup::default() }, threads);
    let hands = AtomicUsize::new(0);
    for token in 0..tokens {
        ports[0].lend().unwrap().send((token % threads) as u32).unwrap();
    }
    let all: Vec<u32> = (0..threads as u32).collect();
    thread::scope(|scope| {
        let (bell, hands, all) = (&bell, &hands, &all);
        for (at, port) in ports.into_iter().enumerate() {
            scope.spawn(move || {
                while let Ok(taken) = bell.take(&port, at as u32) {
                    if hands.fetch_add(1, SeqCst) >= MESSAGES {
                        bell.finish(all);
                        break;
                    }
                    taken.send(((at + 1) % threads) as u32).unwrap();
                }
            });
        }
    });
    assert!(hands.load(SeqCst) > MESSAGES);
}

#[test]
fn two_threads() {
    go_round(2, 1);
}

#[test]
fn a_ring_of_threads() {
    go_round(12, 3);
}

/// Counts how often it is woken, and wakes the thread that runs the tasks.
struct Count {
    times: AtomicUsize,
    thread: thread::Thread,
}

impl Wake for Count {
    fn wake(self: Arc<Count>) {
        self.times.fetch_add(1, SeqCst);
        self.thread.unpark();
    }
}

/// A waker, and what counts its wakes.
fn counting() -> (Waker, Arc<Count>) {
    let count = Arc::new(Count { times: AtomicUsize::new(0), thread: thread::current() });
    (count.clone().into(), count)
}

fn is_ready(listener: &mut Listener<'_>, waker: &Waker) -> bool {
    Pin::new(listener).poll(&mut Context::from_waker(waker)) == Poll::Ready(())
}

#[test]
fn listeners_are_rung_once_each() {
    let bell = Bell::new();
    let (waker, count) = counting();
    let mut first = bell.listen(&[0]);
    let mut second = bell.listen(&[0, 1]);
    assert!(!is_ready(&mut first, &waker) && !is_ready(&mut second, &waker));
    bell.ring(2);
    bell.ring_free();
    assert_eq!(count.times.load(SeqCst), 0);
    bell.ring(0);
    assert_eq!(count.times.load(SeqCst), 1);
    assert!(is_ready(&mut first, &waker) && !is_ready(&mut second, &waker));
    bell.ring(0);
    assert!(is_ready(&mut second, &waker));
    // One that was rung and is dropped leaves it to the next.
    let mut third = bell.listen(&[3]);
    assert!(!is_ready(&mut third, &waker));
    let mut fourth = bell.listen(&[3]);
    bell.ring(3);
    assert!(!is_ready(&mut fourth, &waker));
    drop(third);
    assert!(is_ready(&mut fourth, &waker));
    // One that waits for several leaves the others to others too.
    let mut fifth = bell.listen(&[3, 4]);
    let mut sixth = bell.listen(&[4]);
    bell.ring(3);
    assert!(!is_ready(&mut sixth, &waker) && is_ready(&mut fifth, &waker));
    assert!(is_ready(&mut sixth, &waker));
    drop(bell.listen_free());
    bell.ring_free();
}

/// Runs a task to its end.
fn run<T>(task: impl Future<Output = T>) -> T {
    let (waker, _) = counting();
    let mut task = Box::pin(task);
    loop {
        if let Poll::Ready(value) = task.as_mut().poll(&mut Context::from_waker(&waker)) {
            return value;
        }
        thread::park();
    }
}

/// Sums what is on the topic, until nothing comes any more.
async fn sum(bell: &Bell, port: &Port) -> u64 {
    let mut sum = 0;
    loop {
        let listener = bell.listen(&[0]);
        let is_finished = bell.is_finished(&[0]);
        while let Ok(taken) = port.take(0) {
            sum += u64::from(taken[0]);
            Rung::by(bell, taken).give_back().unwrap();
        }
        if is_finished {
            return sum;
        }
        listener.await;
    }
}

#[test]
fn tasks_wait() {
    let bell = Bell::new();
    let mut ports = ports(Setup { order: 2, ..Setup::default() }, 3);
    let first = ports.remove(0);
    let sums = thread::scope(|scope| {
        let bell = &bell;
        let tasks: Vec<_> =
            ports.into_iter().map(|port| scope.spawn(move || run(sum(bell, &port)))).collect();
        for number in 0..MESSAGES {
            let mut lent = bell.lend(&first).unwrap();
            lent[0] = number as u8;
            lent.send(0).unwrap();
        }
        bell.finish(&[0]);
        tasks.into_iter().map(|task| task.join().unwrap()).sum::<u64>()
    });
    assert_eq!(sums, (0..MESSAGES).map(|number| number as u8 as u64).sum());
}

/// One that waits for two topics is rung for the second and takes from the first: what is on the
/// second is left to the next sleeper.
#[test]
fn what_is_left_is_passed_on() {
    let bell = Bell::new();
    let mut ports = ports(Setup { topics: 2, ..Setup::default() }, 3);
    let (third, second, first) = (ports.remove(0), ports.remove(0), ports.remove(0));
    thread::scope(|scope| {
        let bell = &bell;
        let waits_for_both =
            scope.spawn(move || bell.take_any(&third, &[0, 1]).map(|(topic, _)| topic));
        thread::sleep(soon());
        let waits_for_one = scope.spawn(move || bell.take(&second, 1).map(drop));
        thread::sleep(soon());
        for topic in [0, 1] {
            first.lend().unwrap().send(topic).unwrap();
        }
        bell.ring(1);
        assert_eq!(waits_for_both.join().unwrap(), Ok(0));
        assert_eq!(waits_for_one.join().unwrap(), Ok(()));
    });
}

/// Values of a ring go between threads that wait, and come to an end; those that aren't popped are
/// dropped.
#[test]
fn threads_wait_for_a_ring() {
    let (bell, ring) = (Bell::new(), Ring::new(1, 5).unwrap());
    let pushing = AtomicUsize::new(2);
    let sum: u64 = thread::scope(|scope| {
        for first in 0..2u64 {
            let (bell, ring, pushing) = (&bell, &ring, &pushing);
            scope.spawn(move || {
                let handle = ring.handle().unwrap();
                for number in (first..20_000).step_by(2) {
                    bell.push(&handle, Box::new(number)).unwrap();
                }
                if pushing.fetch_sub(1, SeqCst) == 1 {
                    bell.finish(&[0]);
                }
            });
        }
        let poppers: Vec<_> = (0..3)
            .map(|_| {
                scope.spawn(|| {
                    let handle = ring.handle().unwrap();
                    std::iter::from_fn(|| bell.pop(&handle).ok()).map(|number| *number).sum::<u64>()
                })
            })
            .collect();
        poppers.into_iter().map(|popper| popper.join().unwrap()).sum()
    });
    assert_eq!(sum, 20_000 * 19_999 / 2);
    let handle = ring.handle().unwrap();
    assert_eq!(bell.pop(&handle), Err(WaitError::Ended));
    let refused = |held, why| Err(Refused { held: Box::new(held), why });
    assert_eq!(bell.push(&handle, Box::new(1)), refused(1, WaitError::Ended));
}

/// Where the time is over, nothing comes any more, or tickets have run out, each is said.
#[test]
fn a_wait_for_a_ring_says_why_it_ended() {
    let (bell, ring) = (Bell::new(), Ring::new(1, 1).unwrap());
    let handle = ring.handle().unwrap();
    let refused = |held, why| Err(Refused { held, why });
    assert_eq!(bell.pop_for(&handle, soon()), Err(WaitError::TimedOut));
    assert_eq!((bell.push(&handle, 1), bell.push(&handle, 2)), (Ok(()), Ok(())));
    assert_eq!(bell.push_for(&handle, 3, soon()), refused(3, WaitError::TimedOut));
    bell.finish_lending();
    assert_eq!(bell.push(&handle, 3), refused(3, WaitError::Ended));
    assert_eq!((bell.pop(&handle), bell.push(&handle, 3)), (Ok(1), Ok(())));
    bell.finish(&[0]);
    assert_eq!((bell.pop(&handle), bell.push(&handle, 4)), (Ok(2), refused(4, WaitError::Ended)));
    assert_eq!((bell.pop(&handle), bell.pop(&handle)), (Ok(3), Err(WaitError::Ended)));
}

/// Where tickets have run out nobody waits for ever.
#[test]
fn a_ring_whose_tickets_have_run_out_ends_a_wait() {
    let (bell, ring) = (Bell::new(), Ring::with_limit(1, 1, 16).unwrap());
    let handle = ring.handle().unwrap();
    while !handle.is_spent() {
        let _ = bell.push(&handle, 1).map(|()| bell.pop(&handle));
    }
    let why = WaitError::Refused(Spent { ticket: 16 });
    assert_eq!(bell.push(&handle, 2), Err(Refused { held: 2, why }));
    assert_eq!(bell.pop(&handle), Err(why));
}

/// The last port that retires ends all topics.
#[test]
fn retirement_ends_waits() {
    let bell = Bell::new();
    let mut ports = ports(Setup { topics: 2, ..Setup::default() }, 3);
    let (third, second, first) = (ports.remove(0), ports.remove(0), ports.remove(0));
    thread::scope(|scope| {
        let bell = &bell;
        let takers: Vec<_> = [second, third]
            .into_iter()
            .map(|port| {
                scope.spawn(move || {
                    bell.retire(&port);
                    let mut times = 0;
                    while bell.take_any(&port, &[0, 1]).is_ok() {
                        times += 1;
                    }
                    times
                })
            })
            .collect();
        for number in 0..1000 {
            bell.lend(&first).unwrap().send(number % 2).unwrap();
        }
        bell.retire(&first);
        assert_eq!(takers.into_iter().map(|taker| taker.join().unwrap()).sum::<usize>(), 1000);
    });
}
