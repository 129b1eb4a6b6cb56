//! What users may do wrong with bells, ties and channels, each with its answer. What doesn't
//! compile stands in the documentation, as of `Lines`, `Port` and `Lent`.
use scq::{
    bounded, bounded_for, Bell, Lines, Port, Queue, Ring, Role, Setup, Stopped, TakeError,
    WaitError,
};
use std::fmt::Debug;
use std::future::Future;
use std::mem::{forget, ManuallyDrop};
use std::pin::Pin;
use std::sync::atomic::{AtomicUsize, Ordering::SeqCst};
use std::sync::Arc;
use std::task::{Context, Poll, Wake, Waker};
use std::time::{Duration, Instant};

const SOON: Duration = Duration::from_millis(5);
const FOREVER: Duration = Duration::MAX;

/// Two ports of a queue of two buffers and two topics.
fn two_ports() -> (Port, Port) {
    let setup = Setup { order: 1, topics: 2, ..Setup::default() };
    let mut ports = Queue::new(setup, 2).unwrap().into_ports();
    (ports.remove(0), ports.remove(0))
}

/// What was answered, as it is written.
fn said(answer: impl Debug) -> String {
    format!("{answer:?}")
}

/// A task that counts how often it is woken.
#[derive(Default)]
struct Task(AtomicUsize);

impl Wake for Task {
    fn wake(self: Arc<Task>) {
        self.0.fetch_add(1, SeqCst);
    }
}

fn is_ready<F: Future + Unpin>(future: &mut F, task: &Arc<Task>) -> bool {
    let waker = Waker::from(Arc::clone(task));
    matches!(Pin::new(future).poll(&mut Context::from_waker(&waker)), Poll::Ready(_))
}

/// Whether a task that sleeps is woken by the ring, where others entered before it in this way.
fn woken_behind(enter: impl FnOnce(&Bell)) -> String {
    let bell = Bell::new();
    enter(&bell);
    let task = Arc::<Task>::default();
    let mut listener = bell.listen(&[0]);
    assert!(!is_ready(&mut listener, &task));
    bell.ring(0);
    said((task.0.load(SeqCst), is_ready(&mut listener, &task)))
}

type Row = (&'static str, fn() -> String, &'static str);

const ROWS: &[Row] = &[
    (
        "a listener is forgotten, and then it is rung",
        || woken_behind(|bell| (0..3).for_each(|_| forget(bell.listen(&[0])))),
        "(1, true)",
    ),
    (
        "a listener that was awaited is forgotten: one ring is for it",
        || {
            woken_behind(|bell| {
                let mut listener = bell.listen(&[0]);
                assert!(!is_ready(&mut listener, &Arc::default()));
                forget(listener);
                bell.ring(0);
            })
        },
        "(1, true)",
    ),
    (
        "a task listens for nothing",
        || {
            let bell = Bell::new();
            let mut listener = bell.listen(&[]);
            said(is_ready(&mut listener, &Arc::default()))
        },
        "true",
    ),
    (
        "a topic is rung, and finished, that no queue has",
        || {
            let bell = Bell::new();
            bell.ring(31);
            bell.ring(u32::MAX);
            bell.finish(&[31, u32::MAX]);
            said((bell.is_finished(&[0]), bell.is_finished(Lines::FREE)))
        },
        "(false, false)",
    ),
    (
        "a take of no topics",
        || said(Bell::new().take_any(&two_ports().0, &[]).map(drop)),
        "Err(Refused(NoTopic))",
    ),
    (
        "a take of a topic that isn't there, behind one that is",
        || said(Bell::new().take_any(&two_ports().0, &[0, 2]).map(drop)),
        "Err(Refused(NoTopic))",
    ),
    (
        "a take once all have retired, without a bell",
        || {
            let (first, second) = two_ports();
            drop(first);
            second.retire();
            said(Bell::new().take_for(&second, 0, FOREVER).map(drop))
        },
        "Err(Ended)",
    ),
    (
        "a lend once the last that took has gone",
        || {
            let (bell, (first, second)) = (Bell::new(), two_ports());
            let sends = bell.tie(first, Role::Sends);
            drop(second);
            assert!((0..2).all(|_| sends.lend().unwrap().send(0).is_ok()));
            said(sends.lend_for(FOREVER).map(drop))
        },
        "Err(Ended)",
    ),
    (
        "a send on a topic that was finished",
        || {
            let (bell, (first, _second)) = (Bell::new(), two_ports());
            bell.finish(&[0]);
            let refused = bell.lend(&first).unwrap().send(0).unwrap_err();
            let is_sent = refused.held.send(1).is_ok();
            said((refused.why, is_sent, first.count(0)))
        },
        "(Ended, true, Some(0))",
    ),
    (
        "a batch is sent on a topic that was finished",
        || {
            let (bell, (first, _second)) = (Bell::new(), two_ports());
            let tied = bell.tie(first, Role::Both);
            bell.finish(&[0]);
            let mut batch = tied.batch::<2>();
            assert_eq!(batch.lend(2).all(), Ok(2));
            let sent = batch.send(0);
            said((sent.done, sent.stopped == Some(Stopped::Ended), batch.len(), batch.send(1).done))
        },
        "(0, true, 2, 2)",
    ),
    (
        "a port that was tied as one that takes sends",
        || {
            let (bell, (first, _second)) = (Bell::new(), two_ports());
            let takes = bell.tie(first, Role::Takes);
            let refused = takes.lend().unwrap().send(0).unwrap_err();
            said((refused.why, refused.held.give_back()))
        },
        "(Retired, Ok(()))",
    ),
    (
        "a port that was tied as one that sends takes all the same",
        || {
            let (bell, (first, second)) = (Bell::new(), two_ports());
            let sends = bell.tie(first, Role::Sends);
            sends.lend().unwrap().send(0).unwrap();
            drop(second);
            said(sends.take(0).map(|taken| taken.len()))
        },
        "Ok(64)",
    ),
    (
        "guards are forgotten: their port's end gives the buffers back",
        || {
            let (bell, (first, second)) = (Bell::new(), two_ports());
            let tied = bell.tie(first, Role::Both);
            forget((tied.lend().unwrap(), tied.lend().unwrap()));
            let before = bell.lend_for(&second, SOON).map(drop);
            drop(tied);
            said((before, bell.lend_for(&second, SOON).map(drop)))
        },
        "(Err(TimedOut), Ok(()))",
    ),
    (
        "a port rings by another bell than the one that waits",
        || {
            let (bell, other, (first, second)) = (Bell::new(), Bell::new(), two_ports());
            let tied = other.tie(first, Role::Both);
            tied.retire();
            drop(tied);
            second.retire();
            // The wait asks the queue itself.
            said(bell.take_for(&second, 0, FOREVER).map(drop))
        },
        "Err(Ended)",
    ),
    (
        "a wait without time, and one without end",
        || {
            let (bell, (first, second)) = (Bell::new(), two_ports());
            let empty = bell.take_for(&first, 0, Duration::ZERO).map(drop);
            bell.lend(&second).unwrap().send(0).unwrap();
            said((empty, bell.take_for(&first, 0, FOREVER).map(drop)))
        },
        "(Err(TimedOut), Ok(()))",
    ),
    (
        "a value is pushed, and popped, where the line was finished",
        || {
            let (bell, ring) = (Bell::new(), Ring::new(1, 1).unwrap());
            let handle = ring.handle().unwrap();
            let before = bell.pop_for(&handle, SOON);
            bell.finish(&[0]);
            let refused = bell.push(&handle, 7).unwrap_err();
            said((before, refused.held, refused.why, bell.pop_for(&handle, SOON)))
        },
        "(Err(TimedOut), 7, Ended, Err(Ended))",
    ),
    (
        "a channel for nothing, and for too much",
        || said((bounded::<u8>(0).map(drop), bounded::<u8>(65_537).map(drop))),
        "(Err(Capacity), Err(Capacity))",
    ),
    ("a channel with one end", || said(bounded_for::<u8>(8, 1).map(drop)), "Err(Ports)"),
    (
        "more clones than there are handles",
        || {
            let (sender, receiver) = bounded_for(8, 2).unwrap();
            let senders: Vec<_> = (0..5).map(|_| sender.clone()).collect();
            senders.iter().for_each(|sender| sender.send(1).unwrap());
            drop((sender, senders));
            let receivers: Vec<_> = (0..5).map(|_| receiver.clone()).collect();
            said(receivers.iter().map(|receiver| receiver.try_recv()).collect::<Vec<_>>())
        },
        "[Ok(1), Ok(1), Ok(1), Ok(1), Ok(1)]",
    ),
    (
        "a send, with room, where no receiver is left",
        || {
            let (sender, receiver) = bounded(8).unwrap();
            drop(receiver);
            said((sender.send(1).is_err(), sender.try_send(2).unwrap_err().is_disconnected()))
        },
        "(true, true)",
    ),
    (
        "a sender is forgotten: nobody is told of its end",
        || {
            let (sender, receiver) = bounded::<u8>(8).unwrap();
            // (Later it is dropped all the same: a tool that looks for leaks would find it.)
            let forgotten = ManuallyDrop::new(sender);
            let received = said(receiver.recv_timeout(SOON));
            drop(ManuallyDrop::into_inner(forgotten));
            received
        },
        "Err(Timeout)",
    ),
];

#[test]
fn each_misuse_has_its_answer() {
    for (what, act, wanted) in ROWS {
        let from = Instant::now();
        assert_eq!(&act(), wanted, "{what}");
        assert!(from.elapsed() < Duration::from_secs(5), "{what}: {:?}", from.elapsed());
    }
    println!("{} misuses", ROWS.len());
}

/// A tied port that is forgotten neither ends nor rings, as one whose thread is killed.
#[test]
fn what_is_forgotten_isnt_told() {
    let (bell, (first, second)) = (Bell::new(), two_ports());
    let forgotten = ManuallyDrop::new(bell.tie(first, Role::Sends));
    let takes = bell.tie(second, Role::Takes);
    assert_eq!(takes.take_for(0, SOON).map(drop), Err(WaitError::TimedOut));
    assert_eq!(takes.try_take(2).map(drop), Err(TakeError::NoTopic));
    drop(ManuallyDrop::into_inner(forgotten));
}
