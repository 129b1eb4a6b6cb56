//! Each call, and each answer that it has.
use scq::{Counts, LendError, OpenError, OwnedLent, OwnedTaken, Port, Queue, SendRefusal, Setup};
use scq::{Spent, TakeError};
use std::error::Error;
use std::sync::Arc;

const SMALL: Setup = Setup { order: 1, topics: 2, size: 8, hold: 2, limit: Setup::MAX_LIMIT };

fn ports(setup: Setup, count: usize) -> Vec<Port> {
    Queue::new(setup, count).expect("a queue is made").into_ports()
}

#[test]
fn what_was_sent_is_taken() {
    let ports = ports(SMALL, 2);
    let mut lent = ports[0].lend().unwrap();
    assert_eq!(lent.len(), 8);
    assert_eq!(&lent[..], [0; 8]);
    lent.copy_from_slice(b"message!");
    let index = lent.index();
    let place = lent.send(1).unwrap();
    let taken = ports[1].take(1).unwrap();
    assert_eq!((&taken[..], taken.place(), taken.index()), (&b"message!"[..], place, index));
    taken.give_back().unwrap();
    assert_eq!(ports[0].counts(), Counts { sent: 1, taken: 0, full: 0 });
    assert_eq!(ports[1].counts(), Counts { sent: 0, taken: 1, full: 0 });
    assert_eq!(ports[1].spent(), None);
}

#[test]
fn what_was_taken_is_sent_on() {
    let ports = ports(SMALL, 1);
    let port = &ports[0];
    port.lend().unwrap().send(0).unwrap();
    let mut taken = port.take(0).unwrap();
    taken.fill(7);
    taken.send(1).unwrap();
    assert!(matches!(port.take(0), Err(TakeError::Empty { .. })));
    assert_eq!(&port.take(1).unwrap()[..], [7; 8]);
}

#[test]
fn a_stream_ends_and_the_last_port_has_all_counts() {
    let mut ports = ports(SMALL, 2);
    let (taker, sender) = (ports.remove(1), ports.remove(0));
    let mut counts = [Counts { sent: 9, taken: 9, full: 9 }; 3];
    taker.retire();
    assert!(!taker.all_retired());
    sender.lend().unwrap().send(0).unwrap();
    sender.retire();
    assert!(matches!(
        sender.lend().unwrap().send(0).map_err(|refused| refused.why),
        Err(SendRefusal::Retired)
    ));
    assert!(taker.all_retired());
    taker.take(0).unwrap().give_back().unwrap();
    assert!(matches!(taker.take(0), Err(TakeError::Empty { .. })));
    assert!(!sender.end(&mut counts));
    assert_eq!(counts[0].sent, 9);
    assert!(taker.end(&mut counts));
    assert_eq!(counts[0], Counts { sent: 1, taken: 0, full: 0 });
    assert_eq!(counts[1], Counts { sent: 0, taken: 1, full: 0 });
    assert_eq!(counts[2].sent, 9);
}

#[test]
fn a_setup_out_of_range_is_refused() {
    let refused = |setup, ports| Queue::new(setup, ports).expect_err("it is refused");
    for order in [0, 17, u32::MAX] {
        assert_eq!(refused(Setup { order, ..SMALL }, 1), OpenError::Order);
    }
    for topics in [0, 32, u32::MAX] {
        assert_eq!(refused(Setup { topics, ..SMALL }, 1), OpenError::Topics);
    }
    for hold in [0, 3, u32::MAX] {
        assert_eq!(refused(Setup { hold, ..SMALL }, 1), OpenError::Hold);
    }
    for limit in [0, 15, Setup::MAX_LIMIT + 1, u64::MAX] {
        assert_eq!(refused(Setup { limit, ..SMALL }, 1), OpenError::Limit);
    }
    for count in [0, 4097, usize::MAX] {
        assert_eq!(refused(SMALL, count), OpenError::Ports);
    }
    assert_eq!(refused(Setup { size: 0, ..SMALL }, 1), OpenError::Size);
}

#[test]
fn buffers_lie_apart_and_at_lines() {
    for size in [1, 63, 64, 65, 200] {
        let ports = ports(Setup { order: 3, size, hold: 8, ..SMALL }, 1);
        let mut all: Vec<_> = (0..8).map(|_| ports[0].lend().unwrap()).collect();
        for (at, lent) in all.iter_mut().enumerate() {
            assert_eq!((lent.len(), lent.as_ptr() as usize % 64), (size as usize, 0));
            lent.fill(at as u8);
        }
        for (at, lent) in all.iter().enumerate() {
            assert!(lent.iter().all(|&byte| byte == at as u8));
        }
    }
}

#[test]
fn more_bytes_than_there_are_is_refused() {
    let refused = Queue::new(Setup { order: 16, size: u32::MAX, hold: 1, ..SMALL }, 1)
        .expect_err("it is refused");
    assert_eq!(refused, OpenError::NoMemory);
}

#[test]
fn a_stock_that_is_lent_out_is_full() {
    let ports = ports(SMALL, 2);
    let all = [ports[0].lend().unwrap(), ports[0].lend().unwrap()];
    assert!(matches!(ports[1].lend(), Err(LendError::Full { .. })));
    assert_eq!(ports[1].counts().full, 1);
    drop(all);
    assert!(ports[1].lend().is_ok());
}

#[test]
fn a_port_holds_no_more_than_it_may() {
    let ports = ports(Setup { hold: 1, ..SMALL }, 1);
    let lent = ports[0].lend().unwrap();
    assert_eq!(ports[0].lend().unwrap_err(), LendError::NoRoom);
    assert_eq!(ports[0].take(0).unwrap_err(), TakeError::NoRoom);
    drop(lent);
    assert!(ports[0].lend().is_ok());
}

#[test]
fn a_topic_past_the_last_is_refused_and_the_buffer_comes_back() {
    let ports = ports(SMALL, 1);
    assert_eq!(ports[0].take(2).unwrap_err(), TakeError::NoTopic);
    let mut lent = ports[0].lend().unwrap();
    lent.fill(3);
    let refused = lent.send(2).unwrap_err();
    assert_eq!(refused.why, SendRefusal::NoTopic);
    assert_eq!(&refused.held[..], [3; 8]);
    refused.held.send(1).unwrap();
    let taken = ports[0].take(1).unwrap();
    let place = taken.place();
    let refused = taken.send(17).unwrap_err();
    assert_eq!((refused.why, refused.held.place()), (SendRefusal::NoTopic, place));
}

#[test]
fn a_refusal_can_be_handed_on() {
    fn boxed(port: &Port, topic: u32) -> Result<u64, Box<dyn Error>> {
        Ok(port.lend()?.send(topic)?)
    }
    fn shared(port: &Port, topic: u32) -> Result<u64, Box<dyn Error + Send + Sync>> {
        Ok(port.lend()?.send(topic)?)
    }
    fn plain(port: &Port, topic: u32) -> Result<u64, SendRefusal> {
        Ok(port.lend().expect("a buffer is free").send(topic)?)
    }
    let ports = ports(SMALL, 1);
    for _ in 0..10 {
        // Each gives the buffer back, or the next would find none.
        let error = boxed(&ports[0], 2).unwrap_err();
        assert_eq!(error.downcast_ref(), Some(&SendRefusal::NoTopic));
        assert!(shared(&ports[0], 2).unwrap_err().is::<SendRefusal>());
        assert_eq!(plain(&ports[0], 2), Err(SendRefusal::NoTopic));
    }
    assert!(boxed(&ports[0], 1).is_ok());
    let taken = ports[0].take(1).unwrap();
    let taken = taken.send(2).unwrap_err().into_taken();
    assert!(taken.give_back().is_ok());
    let lent = ports[0].lend().unwrap().send(2).unwrap_err().into_lent();
    assert!(lent.send(0).is_ok());
}

/// A port with its buffers in one value.
struct Batch {
    port: Arc<Port>,
    lent: Vec<OwnedLent>,
    taken: Option<OwnedTaken>,
}

#[test]
fn a_buffer_may_keep_its_port() {
    let mut ports = ports(SMALL, 2);
    let second = ports.pop().unwrap();
    let port = ports.pop().unwrap().into_shared();
    let mut batch = Batch { port, lent: Vec::new(), taken: None };
    for number in 0..2 {
        let mut lent = batch.port.lend_owned().unwrap();
        lent.fill(number);
        batch.lent.push(lent);
    }
    assert_eq!(batch.port.lend_owned().unwrap_err(), LendError::NoRoom);
    assert!(matches!(second.lend(), Err(LendError::Full { .. })));
    let refused = batch.lent.pop().unwrap().send(2).unwrap_err();
    assert_eq!(refused.why, SendRefusal::NoTopic);
    let place = refused.into_lent().send(1).unwrap();
    batch.taken = batch.port.take_owned(1).ok();
    let Batch { port, lent, taken } = batch;
    drop(port);
    // The buffers keep it.
    let mut taken = taken.unwrap();
    assert_eq!((&taken[..], taken.place(), &lent[0][..]), (&[1; 8][..], place, &[0; 8][..]));
    taken.fill(9);
    let why: Box<dyn Error> = taken.send(7).unwrap_err().into();
    assert!(why.is::<SendRefusal>());
    assert!(second.lend().is_ok());
    drop(lent);
    assert!(second.lend().unwrap().give_back().is_ok());
}

#[test]
fn a_port_closes_with_the_last_that_keeps_it() {
    let mut ports = ports(SMALL, 2);
    let first = ports.remove(0).into_shared();
    std::mem::forget(first.lend().unwrap());
    let lent = first.lend_owned().unwrap();
    assert_eq!(Arc::strong_count(&first), 2);
    lent.send(0).unwrap();
    assert_eq!(Arc::strong_count(&first), 1);
    first.take_owned(0).unwrap().give_back().unwrap();
    let lent = first.lend_owned().unwrap();
    drop(first);
    assert!(matches!(ports[0].lend(), Err(LendError::Full { .. })));
    drop(lent);
    let both = (ports[0].lend(), ports[0].lend());
    assert!(both.0.is_ok() && both.1.is_ok());
}

#[test]
fn a_guard_that_is_dropped_is_given_back() {
    let ports = ports(SMALL, 1);
    for _ in 0..10 {
        let _first = ports[0].lend().unwrap();
        ports[0].lend().unwrap().send(0).unwrap();
        let _taken = ports[0].take(0).unwrap();
    }
}

#[test]
fn a_guard_that_is_forgotten_comes_back_when_its_port_closes() {
    let mut ports = ports(SMALL, 2);
    let second = ports.pop().unwrap();
    let first = ports.pop().unwrap();
    std::mem::forget(first.lend().unwrap());
    std::mem::forget(first.lend().unwrap());
    assert!(matches!(second.lend(), Err(LendError::Full { .. })));
    drop(first);
    let both = (second.lend(), second.lend());
    assert!(both.0.is_ok() && both.1.is_ok());
}

#[test]
fn a_port_that_is_dropped_gives_back_what_it_holds() {
    let mut ports = ports(SMALL, 2);
    let second = ports.pop().unwrap();
    let first = ports.pop().unwrap();
    first.lend().unwrap().send(1).unwrap();
    std::mem::forget(first.take(1).unwrap());
    std::mem::forget(first.lend().unwrap());
    assert!(matches!(second.lend(), Err(LendError::Full { .. })));
    drop(first);
    {
        let (one, two) = (second.lend().unwrap(), second.lend().unwrap());
        assert_ne!(one.index(), two.index());
    }
    let mut counts = [Counts { sent: 9, taken: 9, full: 9 }; 2];
    assert!(second.end(&mut counts));
    assert_eq!(counts[0], Counts { sent: 1, taken: 1, full: 0 });
    assert_eq!(counts[1], Counts { sent: 0, taken: 0, full: 1 });
}

/// Lends and gives back on one port of a queue with few tickets, until they run out.
#[test]
fn tickets_run_out_at_the_limit() {
    let setup = Setup { limit: 16, ..SMALL };
    let ports = ports(setup, 2);
    let (mut in_lend, mut in_give_back) = (0, 0);
    for port in &ports {
        while port.spent().is_none() {
            match port.lend() {
                Ok(lent) => {
                    let index = lent.index();
                    if let Err(refused) = lent.give_back() {
                        assert!(refused.why.ticket >= setup.limit);
                        assert_eq!((refused.held.index(), refused.held.len()), (index, 8));
                        let why = refused.held.send(0).unwrap_err().why;
                        assert_eq!(why, SendRefusal::Spent { ticket: refused.why.ticket });
                        in_give_back += 1;
                    }
                }
                Err(LendError::Spent { ticket }) => {
                    assert!(ticket >= setup.limit);
                    in_lend += 1;
                }
                Err(other) => panic!("{}", other),
            }
        }
        let ticket = port.spent().unwrap();
        assert_eq!(port.lend().unwrap_err(), LendError::Spent { ticket });
        assert_eq!(port.take(0).unwrap_err(), TakeError::Spent { ticket });
    }
    assert_eq!(in_lend + in_give_back, 2);
}

#[test]
fn errors_are_errors() {
    fn text<E: Error + Send + Sync + 'static>(error: E) -> String {
        error.to_string()
    }
    for text in [
        text(OpenError::NoMemory),
        text(OpenError::Version { found: 2 }),
        text(LendError::Full { head: 1 }),
        text(TakeError::Empty { head: 1 }),
        text(SendRefusal::NoTopic),
        text(Spent { ticket: 16 }),
    ] {
        assert!(
            text.starts_with(|first: char| first.is_lowercase()) && !text.ends_with('.'),
            "{}",
            text
        );
    }
}

#[test]
fn a_queue_is_as_large_as_it_may_be() {
    let ports = ports(Setup { order: 12, topics: 17, size: 1, hold: 4096, ..SMALL }, 4096);
    let all: Vec<_> = (0..4096).map(|_| ports[4095].lend().unwrap()).collect();
    let mut indices: Vec<_> = all.iter().map(|lent| lent.index()).collect();
    indices.sort_unstable();
    assert!(indices.into_iter().eq(0..4096));
    for lent in all {
        lent.send(16).unwrap();
    }
    assert!((0..4096).all(|port| ports[port].take(16).is_ok()));
}
