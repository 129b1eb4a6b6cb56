//! Several buffers at a time, and what a port tells of its queue.
use scq::{Batch, Port, Queue, Setup, Several, Stopped};
use std::thread;

const SMALL: Setup = Setup { order: 2, topics: 2, size: 8, hold: 3, limit: Setup::MAX_LIMIT };

fn ports(setup: Setup, count: usize) -> Vec<Port> {
    Queue::new(setup, count).expect("a queue is made").into_ports()
}

fn went(done: usize) -> Several {
    Several { done, stopped: None }
}

fn stopped(done: usize, why: Stopped) -> Several {
    Several { done, stopped: Some(why) }
}

#[test]
fn several_go_in_their_order() {
    let ports = ports(SMALL, 2);
    let mut one: Batch<'_, 5> = Batch::new(&ports[0]);
    assert_eq!(one.lend(2), went(2));
    assert_eq!(one.lend(3), stopped(1, Stopped::NoRoom));
    assert_eq!((one.len(), one.is_empty()), (3, false));
    for (byte, bytes) in (b'a'..).zip(one.iter_mut()) {
        bytes.fill(byte);
    }
    assert_eq!(one.send(2), stopped(0, Stopped::NoTopic));
    assert_eq!((one.send(1), one.send(1)), (went(3), went(0)));
    assert!(one.is_empty());
    assert_eq!((ports[1].count(0), ports[1].count(1), ports[1].count(2)), (Some(0), Some(3), None));
    assert_eq!(ports[1].capacity(), 4);
    {
        let mut two: Batch<'_, 2> = Batch::new(&ports[1]);
        assert_eq!((two.take(1, 9), two.take(1, 9)), (went(2), went(0)));
        let bytes: Vec<_> = two.iter().map(|bytes| bytes[7]).collect();
        assert_eq!(bytes, b"ab");
        let places: Vec<_> = two.places().collect();
        assert!(places[0] < places[1]);
        assert_eq!(two.give_back(), went(2));
        assert_eq!(two.take(1, 2), stopped(1, Stopped::Empty));
    } // and is given back
    assert_eq!(one.lend(5), stopped(3, Stopped::NoRoom));
    let mut two: Batch<'_, 2> = Batch::new(&ports[1]);
    assert_eq!(two.lend(2), stopped(1, Stopped::Full));
    ports[0].retire();
    assert_eq!(one.send(0).all(), Err(Stopped::Retired));
    assert_eq!(one.give_back().all(), Ok(3));
}

#[test]
fn tickets_run_out_in_the_middle() {
    let ports = ports(Setup { order: 1, topics: 1, hold: 2, limit: 16, ..SMALL }, 1);
    let mut batch: Batch<'_, 2> = Batch::new(&ports[0]);
    let last = loop {
        let came = batch.lend(2);
        if came.stopped.is_some() {
            break came;
        }
        let given = batch.give_back();
        if given.stopped.is_some() {
            break given;
        }
    };
    assert_eq!(last.stopped, Some(Stopped::Spent));
    assert!(last.done < 2 && ports[0].spent().is_some());
}

#[test]
fn buffers_go_from_thread_to_thread() {
    const LAST: u32 = 500;
    let mut ports = ports(Setup { order: 4, hold: 4, ..SMALL }, 2);
    let (one, two) = (ports.remove(0), ports.remove(0));
    let sender = thread::spawn(move || {
        let mut next = 1;
        while next <= LAST {
            let mut batch: Batch<'_, 4> = Batch::new(&one);
            let came = batch.lend((LAST - next + 1) as usize);
            assert!(matches!(came.stopped, None | Some(Stopped::Full)));
            for bytes in batch.iter_mut() {
                bytes[..4].copy_from_slice(&next.to_ne_bytes());
                next += 1;
            }
            assert_eq!(batch.send(0), went(came.done));
            thread::yield_now();
        }
    });
    let mut next: u32 = 1;
    while next <= LAST {
        let mut batch: Batch<'_, 4> = Batch::new(&two);
        let came = batch.take(0, 4);
        assert!(matches!(came.stopped, None | Some(Stopped::Empty)));
        for bytes in batch.iter() {
            assert_eq!(bytes[..4], next.to_ne_bytes());
            next += 1;
        }
        thread::yield_now();
    }
    sender.join().expect("the sender ends");
}
