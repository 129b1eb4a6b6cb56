//! Channels: what senders and receivers are answered, and that each value comes once.
use scq::{
    bounded, bounded_for, OpenError, Receiver, RecvError, RecvTimeoutError, SendError,
    SendTimeoutError, Sender, TryRecvError, TrySendError,
};
use std::future::Future;
use std::panic::{catch_unwind, AssertUnwindSafe};
use std::sync::atomic::{AtomicI64, AtomicU8, Ordering::SeqCst};
use std::sync::Arc;
use std::task::{Context, Poll, Wake, Waker};
use std::thread;
use std::time::{Duration, Instant};

/// How many values go through a channel.
const VALUES: usize = 40_000;

fn soon() -> Duration {
    Duration::from_millis(5)
}

#[test]
fn there_is_room_for_the_next_power_of_two() {
    for (asked, room) in [(1, 2), (2, 2), (3, 4), (64, 64), (65, 128), (4096, 4096), (65_536, 65_536)] {
        let (sender, receiver) = bounded(asked).unwrap();
        assert_eq!((sender.capacity(), receiver.capacity()), (room, room));
        for number in 0..room {
            assert_eq!(sender.try_send(number), Ok(()));
        }
        assert_eq!(sender.try_send(room), Err(TrySendError::Full(room)));
        assert!(receiver.try_iter().eq(0..room));
    }
}

#[test]
fn what_is_out_of_range_is_refused() {
    for capacity in [0, 65_537, usize::MAX] {
        assert_eq!(bounded::<u8>(capacity).map(drop), Err(OpenError::Capacity));
    }
    for ends in [0, 1, 4097, usize::MAX] {
        assert_eq!(bounded_for::<u8>(8, ends).map(drop), Err(OpenError::Ports));
    }
}

/// Each call, where the channel is full or empty, and where the other side has gone.
#[test]
fn each_call_is_answered() {
    let (sender, receiver) = bounded(2).unwrap();
    assert_eq!(receiver.try_recv(), Err(TryRecvError::Empty));
    assert_eq!(receiver.recv_timeout(soon()), Err(RecvTimeoutError::Timeout));
    assert_eq!(receiver.recv_timeout(Duration::ZERO), Err(RecvTimeoutError::Timeout));
    assert_eq!((sender.send(1), sender.try_send(2)), (Ok(()), Ok(())));
    assert_eq!(sender.try_send(3), Err(TrySendError::Full(3)));
    let from = Instant::now();
    assert_eq!(sender.send_timeout(3, soon()), Err(SendTimeoutError::Timeout(3)));
    assert!(from.elapsed() >= soon());
    assert_eq!((receiver.recv(), sender.send_timeout(3, Duration::MAX)), (Ok(1), Ok(())));
    let (also, first) = (receiver.clone(), receiver);
    assert!(also.same_channel(&first) && !also.same_channel(&bounded(1).unwrap().1));
    drop((also, first));
    assert_eq!(sender.send(4), Err(SendError(4)));
    assert_eq!(sender.try_send(4), Err(TrySendError::Disconnected(4)));
    assert_eq!(sender.send_timeout(4, soon()), Err(SendTimeoutError::Disconnected(4)));

    let (sender, receiver) = bounded(2).unwrap();
    let (also, first) = (sender.clone(), sender);
    assert!(also.same_channel(&first) && !also.same_channel(&bounded(1).unwrap().0));
    first.send(1).unwrap();
    drop((also, first));
    assert_eq!((receiver.recv(), receiver.recv()), (Ok(1), Err(RecvError)));
    assert_eq!(receiver.try_recv(), Err(TryRecvError::Disconnected));
    assert_eq!(receiver.recv_timeout(Duration::MAX), Err(RecvTimeoutError::Disconnected));
    assert_eq!((receiver.iter().next(), receiver.try_iter().next()), (None, None));
    assert_eq!(receiver.into_iter().next(), None);
}

#[test]
fn errors_give_the_value_and_say_why() {
    let debug = |error: &dyn std::fmt::Debug| format!("{error:?}");
    struct Opaque(u8);
    let send = SendError(Opaque(1));
    assert_eq!(debug(&send), "SendError(..)");
    assert_eq!(send.to_string(), "there is no receiver any more");
    let tried = TrySendError::from(send);
    assert!(tried.is_disconnected() && !tried.is_full());
    assert_eq!((debug(&tried).as_str(), tried.into_inner().0), ("Disconnected(..)", 1));
    let full = TrySendError::Full(2);
    assert!(full.is_full() && full.into_inner() == 2);
    let timed = SendTimeoutError::from(SendError(3));
    assert!(timed.is_disconnected() && timed.into_inner() == 3);
    assert!(SendTimeoutError::Timeout(4).is_timeout());
    assert_eq!(SendTimeoutError::Timeout(4).to_string(), "the time is over");
    assert!(TryRecvError::from(RecvError).is_disconnected() && TryRecvError::Empty.is_empty());
    assert!(RecvTimeoutError::from(RecvError).is_disconnected());
    assert!(RecvTimeoutError::Timeout.is_timeout());
    assert_eq!(RecvError.to_string(), TryRecvError::Disconnected.to_string());
}

/// A program as it stands for other channels, of which the two lines are changed that make one.
macro_rules! as_written_for {
    ($name:ident, $channel:expr, $one_of:ident) => {
        #[test]
        fn $name() {
            let (sender, receiver) = $channel;
            let adders: Vec<_> = (0..4u64)
                .map(|first| {
                    let sender = sender.clone();
                    thread::spawn(move || {
                        for number in (first..1000).step_by(4) {
                            sender.send(number).unwrap();
                        }
                    })
                })
                .collect();
            drop(sender);
            let mut sum = 0;
            while let Ok(number) = receiver.recv() {
                sum += number;
            }
            assert_eq!(sum, 499_500);
            match receiver.try_recv() {
                Ok(_) | Err($one_of::TryRecvError::Empty) => panic!("nobody sends"),
                Err($one_of::TryRecvError::Disconnected) => {}
            }
            match receiver.recv_timeout(soon()) {
                Ok(_) | Err($one_of::RecvTimeoutError::Timeout) => panic!("nobody sends"),
                Err($one_of::RecvTimeoutError::Disconnected) => {}
            }
            adders.into_iter().for_each(|adder| adder.join().unwrap());
        }
    };
}

use std::sync::mpsc;
as_written_for!(as_written_for_the_standard_library, mpsc::sync_channel(8), mpsc);
as_written_for!(as_written_for_this_one, bounded(8).unwrap(), scq);

/// Senders and receivers of which there are more than handles: each value comes once.
fn each_value_once(senders: usize, receivers: usize, capacity: usize, ends: usize) {
    let (sender, receiver) = bounded_for(capacity, ends).unwrap();
    let came: Vec<AtomicU8> = (0..VALUES).map(|_| AtomicU8::new(0)).collect();
    thread::scope(|scope| {
        let came = &came;
        for first in 0..senders {
            let sender = sender.clone();
            scope.spawn(move || {
                for number in (first..VALUES).step_by(senders) {
                    let mut value = Box::new(number);
                    if number % 3 == 0 {
                        while let Err(error) = sender.send_timeout(value, soon() / 1000) {
                            assert!(error.is_timeout());
                            value = error.into_inner();
                        }
                    } else {
                        sender.send(value).unwrap();
                    }
                }
            });
        }
        for at in 0..receivers {
            let receiver = receiver.clone();
            scope.spawn(move || loop {
                let received = match at % 2 {
                    0 => receiver.recv().map_err(RecvTimeoutError::from),
                    _ => receiver.recv_timeout(soon() / 1000),
                };
                match received {
                    Ok(number) => assert_eq!(came[*number].fetch_add(1, SeqCst), 0),
                    Err(RecvTimeoutError::Timeout) => {}
                    Err(RecvTimeoutError::Disconnected) => break,
                }
            });
        }
        drop((sender, receiver));
    });
    assert!(came.iter().all(|times| times.load(SeqCst) == 1));
}

#[test]
fn each_value_comes_once() {
    each_value_once(1, 1, 1, 2);
    each_value_once(4, 4, 2, 10);
    each_value_once(2, 6, 64, 5);
    each_value_once(16, 16, 8, 34);
}

#[test]
fn ends_without_a_handle_of_their_own_share_one() {
    each_value_once(8, 8, 4, 2);
}

/// Threads that share an end by reference.
#[test]
fn ends_can_be_shared() {
    let (sender, receiver) = bounded(4).unwrap();
    let sum = thread::scope(|scope| {
        let summing: Vec<_> =
            (0..3).map(|_| scope.spawn(|| receiver.iter().sum::<usize>())).collect();
        thread::scope(|scope| {
            for _ in 0..3 {
                scope.spawn(|| (1..=100).for_each(|number| sender.send(number).unwrap()));
            }
        });
        drop(sender);
        summing.into_iter().map(|thread| thread.join().unwrap()).sum::<usize>()
    });
    assert_eq!(sum, 3 * 5050);
}

/// A value that counts those that are alive.
struct Counted<'c>(&'c AtomicI64);

impl<'c> Counted<'c> {
    fn new(alive: &'c AtomicI64) -> Counted<'c> {
        alive.fetch_add(1, SeqCst);
        Counted(alive)
    }
}

impl Drop for Counted<'_> {
    fn drop(&mut self) {
        self.0.fetch_sub(1, SeqCst);
    }
}

/// What no receiver is left for is dropped, though a sender is: so a request that carries the
/// sender of its answer isn't kept where nobody answers.
#[test]
fn what_is_left_goes_with_the_last_receiver() {
    let alive = AtomicI64::new(0);
    let (sender, receiver) = bounded(8).unwrap();
    (0..5).for_each(|_| assert!(sender.send(Counted::new(&alive)).is_ok()));
    drop(receiver.recv());
    let last = receiver.clone();
    drop(receiver);
    assert_eq!(alive.load(SeqCst), 4);
    drop(last);
    assert_eq!(alive.load(SeqCst), 0);
    drop(sender.send(Counted::new(&alive)));
    assert_eq!(alive.load(SeqCst), 0);

    let (requests, server) = bounded::<Sender<u8>>(8).unwrap();
    let (answers, answer) = bounded(1).unwrap();
    requests.send(answers).unwrap();
    let waiting = thread::spawn(move || answer.recv());
    drop(server);
    assert_eq!(waiting.join().unwrap(), Err(RecvError));

    // Sends that meet the last receiver's end.
    for _ in 0..3000 {
        let (sender, receiver) = bounded(64).unwrap();
        thread::scope(|scope| {
            for _ in 0..3 {
                scope.spawn(|| while sender.send(Counted::new(&alive)).is_ok() {});
            }
            scope.spawn(move || drop((receiver.recv(), receiver)));
        });
        assert_eq!(alive.load(SeqCst), 0);
        drop(sender);
    }
}

/// A value whose drop panics leaves the others to be dropped, and those who wait are told.
#[test]
fn a_drop_that_panics_ends_the_channel_all_the_same() {
    struct Panics(bool);
    impl Drop for Panics {
        fn drop(&mut self) {
            if self.0 {
                std::panic::resume_unwind(Box::new("dropped"));
            }
        }
    }
    let (sender, receiver) = bounded(2).unwrap();
    assert!(sender.send(Panics(true)).is_ok() && sender.send(Panics(false)).is_ok());
    thread::scope(|scope| {
        let waiting = scope.spawn(|| sender.send(Panics(false)).is_err());
        thread::sleep(soon());
        assert!(catch_unwind(AssertUnwindSafe(|| drop(receiver))).is_err());
        assert!(waiting.join().unwrap());
    });
}

/// What wakes a thread that runs a task.
struct Unpark(thread::Thread);

impl Wake for Unpark {
    fn wake(self: Arc<Unpark>) {
        self.0.unpark();
    }
}

/// Runs a task to its end.
fn run<T>(task: impl Future<Output = T>) -> T {
    let waker = Waker::from(Arc::new(Unpark(thread::current())));
    let mut task = Box::pin(task);
    loop {
        if let Poll::Ready(value) = task.as_mut().poll(&mut Context::from_waker(&waker)) {
            return value;
        }
        thread::park();
    }
}

async fn send_all(sender: Sender<usize>, first: usize, step: usize) {
    for number in (first..VALUES).step_by(step) {
        let mut value = number;
        loop {
            let listener = sender.listen();
            match sender.try_send(value) {
                Ok(()) => break,
                Err(TrySendError::Full(back)) => value = back,
                Err(TrySendError::Disconnected(_)) => panic!("nobody receives"),
            }
            listener.await;
        }
    }
}

async fn sum_all(receiver: Receiver<usize>) -> usize {
    let mut sum = 0;
    loop {
        let listener = receiver.listen();
        match receiver.try_recv() {
            Ok(number) => sum += number,
            Err(TryRecvError::Empty) => listener.await,
            Err(TryRecvError::Disconnected) => return sum,
        }
    }
}

/// Tasks and threads on one channel.
#[test]
fn tasks_send_and_receive() {
    let (sender, receiver) = bounded(2).unwrap();
    let sum: usize = thread::scope(|scope| {
        for first in 0..3 {
            let sender = sender.clone();
            scope.spawn(move || run(send_all(sender, first, 3)));
        }
        drop(sender);
        let summing: Vec<_> = (0..3)
            .map(|at| {
                let receiver = receiver.clone();
                scope.spawn(move || match at {
                    0 => receiver.into_iter().sum(),
                    _ => run(sum_all(receiver)),
                })
            })
            .collect();
        drop(receiver);
        summing.into_iter().map(|thread| thread.join().unwrap()).sum()
    });
    assert_eq!(sum, (0..VALUES).sum());
}

/// An end goes from thread to thread, and into another channel.
#[test]
fn ends_are_values() {
    fn is_send_and_sync<T: Send + Sync + std::panic::UnwindSafe + 'static>(_: &T) {}
    let (sender, receiver) = bounded(1).unwrap();
    is_send_and_sync(&sender);
    is_send_and_sync(&receiver);
    let (to, from) = bounded::<Receiver<u32>>(1).unwrap();
    let thread = thread::spawn(move || from.recv().unwrap().into_iter().sum::<u32>());
    to.send(receiver).unwrap();
    (1..=4).for_each(|number| sender.send(number).unwrap());
    drop(sender);
    assert_eq!(thread.join().unwrap(), 10);
}
