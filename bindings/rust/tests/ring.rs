//! Rings: values of any type, each of which is dropped once. `BOXES` and `THREADS` of the
//! environment say how many go between how many threads.
use scq::{Bell, Handle, OpenError, Ring, Role, Stopped};
use std::panic::{catch_unwind, AssertUnwindSafe};
use std::sync::atomic::{AtomicI64, AtomicU64, AtomicU8, Ordering};
use std::thread;

/// A value that counts those that are alive, and may panic when it is dropped.
struct Counted<'c> {
    number: u64,
    alive: &'c AtomicI64,
    panics: bool,
}

impl<'c> Counted<'c> {
    fn new(number: u64, alive: &'c AtomicI64) -> Counted<'c> {
        alive.fetch_add(1, Ordering::Relaxed);
        Counted { number, alive, panics: false }
    }
}

impl Drop for Counted<'_> {
    fn drop(&mut self) {
        self.alive.fetch_sub(1, Ordering::Relaxed);
        if self.panics {
            panic!("dropped");
        }
    }
}

fn count(name: &str, default: u64) -> u64 {
    std::env::var(name).map_or(default, |text| text.parse().expect("a number"))
}

#[test]
fn first_in_first_out() {
    let alive = AtomicI64::new(0);
    let ring = Ring::new(2, 2).unwrap();
    let (one, other) = (ring.handle().unwrap(), ring.handle().unwrap());
    assert!(ring.handle().is_none());
    assert_eq!((ring.capacity(), one.capacity()), (4, 4));
    for number in 0..4 {
        assert!(one.push(Box::new(Counted::new(number, &alive))).is_ok());
    }
    let refused = one.push(Box::new(Counted::new(4, &alive))).unwrap_err();
    assert_eq!(refused.number, 4);
    for number in 0..4 {
        assert_eq!(other.pop().unwrap().number, number);
        assert_eq!(alive.load(Ordering::Relaxed), 4 - number as i64);
    }
    assert!(other.pop().is_none());
    assert!(!one.is_spent());
}

#[test]
fn what_is_out_of_range_is_refused() {
    for order in [0, 17, u32::MAX] {
        assert_eq!(Ring::<u8>::new(order, 1).unwrap_err(), OpenError::Order);
    }
    for handles in [0, 4097, usize::MAX] {
        assert_eq!(Ring::<u8>::new(1, handles).unwrap_err(), OpenError::Ports);
    }
    assert_eq!(Ring::<u8>::with_limit(1, 1, 15).unwrap_err(), OpenError::Limit);
    assert_eq!(Ring::<u8>::new(1, 4096).unwrap().capacity(), 2);
    assert_eq!(Ring::<u8>::new(16, 1).unwrap().capacity(), 65_536);
}

#[test]
fn values_without_bytes_are_values() {
    let ring = Ring::new(1, 1).unwrap();
    let handle = ring.handle().unwrap();
    assert_eq!((handle.push(()), handle.push(()), handle.push(())), (Ok(()), Ok(()), Err(())));
    assert_eq!((handle.pop(), handle.pop(), handle.pop()), (Some(()), Some(()), None));
    let none = Ring::<std::convert::Infallible>::new(1, 1).unwrap();
    assert!(none.handle().unwrap().pop().is_none());
}

#[test]
fn what_is_left_is_dropped_with_the_last_owner() {
    let alive = AtomicI64::new(0);
    for last in 0..2 {
        let ring = Ring::new(3, 2).unwrap();
        let handle = ring.clone().handle().unwrap();
        for number in 0..5 {
            assert!(handle.push(Counted::new(number, &alive)).is_ok());
        }
        drop(handle.pop());
        let handle = Some(handle).filter(|_| last == 0);
        drop(ring);
        assert_eq!(alive.load(Ordering::Relaxed), if last == 0 { 4 } else { 0 });
        drop(handle);
        assert_eq!(alive.load(Ordering::Relaxed), 0);
    }
}

#[test]
fn a_drop_that_panics_leaves_the_others_to_be_dropped() {
    let alive = AtomicI64::new(0);
    let ring = Ring::new(3, 1).unwrap();
    let handle = ring.handle().unwrap();
    for number in 0..8 {
        let mut value = Counted::new(number, &alive);
        value.panics = number == 3;
        assert!(handle.push(value).is_ok());
    }
    drop(ring);
    assert!(catch_unwind(AssertUnwindSafe(|| drop(handle))).is_err());
    assert_eq!(alive.load(Ordering::Relaxed), 0);
}

#[test]
fn a_thread_that_panics_gives_its_handle_back() {
    let alive = AtomicI64::new(0);
    let ring = Ring::new(2, 1).unwrap();
    for number in 0..8 {
        let ended = thread::scope(|scope| {
            let (ring, alive) = (&ring, &alive);
            scope
                .spawn(move || {
                    let handle = ring.handle().expect("the handle is there again");
                    let kept = Counted::new(number, alive);
                    let _ = handle.push(Counted::new(number, alive));
                    panic!("with {} alive", kept.number);
                })
                .join()
        });
        assert!(ended.is_err());
    }
    assert_eq!(alive.load(Ordering::Relaxed), 4);
    drop(ring);
    assert_eq!(alive.load(Ordering::Relaxed), 0);
}

#[test]
fn tickets_run_out_and_the_value_comes_back() {
    let alive = AtomicI64::new(0);
    let ring = Ring::with_limit(1, 2, 16).unwrap();
    let handles = [ring.handle().unwrap(), ring.handle().unwrap()];
    let mut number = 0;
    loop {
        let handle = &handles[number as usize % 2];
        match handle.push(Counted::new(number, &alive)) {
            Ok(()) => {
                if let Some(popped) = handle.pop() {
                    assert_eq!(popped.number, number);
                } else {
                    assert!(handle.is_spent());
                }
            }
            Err(back) => {
                assert_eq!(back.number, number);
                if handles.iter().all(Handle::is_spent) {
                    break;
                }
            }
        }
        number += 1;
    }
    drop((ring, handles));
    assert_eq!(alive.load(Ordering::Relaxed), 0);
}

/// More than are handed on at once, up to the room and to what there is, and past both.
#[test]
fn several_at_a_time() {
    let alive = AtomicI64::new(0);
    let ring = Ring::new(7, 2).unwrap();
    let (one, other) = (ring.handle().unwrap(), ring.handle().unwrap());
    let numbers = |values: &[Counted<'_>]| values.iter().map(|v| v.number).collect::<Vec<_>>();
    for count in 0..=200 {
        let go = count.min(128);
        let mut given: Vec<_> = (0..count).map(|number| Counted::new(number, &alive)).collect();
        let pushed = one.push_many(&mut given);
        assert_eq!(pushed.done as u64, go);
        assert_eq!(pushed.stopped, if count > 128 { Some(Stopped::Full) } else { None });
        assert_eq!(numbers(&given), (go..count).collect::<Vec<_>>());
        let mut came = Vec::with_capacity(200);
        assert_eq!(other.pop_many(&mut came, go as usize / 2).all(), Ok(go as usize / 2));
        let rest = one.pop_many(&mut came, 200 - go as usize / 2);
        assert_eq!(rest.stopped, Some(Stopped::Empty));
        assert_eq!(numbers(&came), (0..go).collect::<Vec<_>>());
        assert_eq!(came.capacity(), 200);
        assert_eq!(alive.load(Ordering::Relaxed), count as i64);
    }
    assert_eq!(one.push_many(&mut vec![Counted::new(0, &alive)]).all(), Ok(1));
    drop((ring, one, other));
    assert_eq!(alive.load(Ordering::Relaxed), 0);
}

#[test]
fn tickets_run_out_between_several() {
    let alive = AtomicI64::new(0);
    let ring = Ring::with_limit(2, 2, 32).unwrap();
    let handles = [ring.handle().unwrap(), ring.handle().unwrap()];
    let (mut pushed, mut popped) = (0, 0);
    for turn in 0.. {
        let handle = &handles[turn % 2];
        let mut given: Vec<_> = (0..3).map(|k| Counted::new(pushed + k, &alive)).collect();
        let went = handle.push_many(&mut given);
        pushed += went.done as u64;
        assert_eq!(given.len(), 3 - went.done);
        assert!(given.iter().zip(pushed..).all(|(value, number)| value.number == number));
        let mut came = Vec::new();
        let _ = handle.pop_many(&mut came, 3);
        assert!(came.iter().zip(popped..).all(|(value, number)| value.number == number));
        popped += came.len() as u64;
        if handles.iter().all(Handle::is_spent) {
            let mut one = vec![Counted::new(pushed, &alive)];
            assert_eq!(handle.push_many(&mut one).stopped, Some(Stopped::Spent));
            assert_eq!(one.len(), 1);
            break;
        }
    }
    assert!(pushed >= 20 && popped <= pushed);
    drop((ring, handles));
    assert_eq!(alive.load(Ordering::Relaxed), 0);
}

/// Each of several rings: nobody who waits sleeps on.
#[test]
fn several_by_tied_handles_ring() {
    let (bell, ring) = (Bell::new(), Ring::new(4, 4).unwrap());
    let (bell, ring) = (&bell, &ring);
    let tied = |role| bell.tie_handle(ring.handle().unwrap(), role);
    let (sends, sends_alone) = (tied(Role::Sends), tied(Role::Sends));
    let takers = [tied(Role::Takes), tied(Role::Takes)];
    let sum = thread::scope(|scope| {
        let workers = takers.map(|taker| {
            scope.spawn(move || {
                let (mut sum, mut came) = (0, Vec::new());
                while let Ok(number) = taker.pop() {
                    let _ = taker.try_pop_many(&mut came, 3);
                    sum += number + came.drain(..).sum::<u64>();
                }
                sum
            })
        });
        scope.spawn(move || {
            let mut numbers = Vec::new();
            for number in 1..=10_000 {
                numbers.push(number);
                if numbers.len() == 5 {
                    let _ = sends.try_push_many(&mut numbers);
                    numbers.drain(..).for_each(|number| sends.push(number).unwrap());
                }
            }
        });
        drop(sends_alone);
        workers.map(|worker| worker.join().unwrap()).iter().sum::<u64>()
    });
    assert_eq!(sum, 50_005_000);
    let late = bell.tie_handle(ring.handle().unwrap(), Role::Sends);
    assert_eq!(late.try_push_many(&mut vec![1]).stopped, Some(Stopped::Ended));
}

/// A handle may go to a thread, and is not cloned.
#[test]
fn a_handle_goes_from_thread_to_thread() {
    let ring = Ring::new(2, 1).unwrap();
    let mut handle = ring.handle().unwrap();
    for number in 0..32 {
        handle = thread::spawn(move || {
            assert_eq!(handle.pop(), if number > 0 { Some(Box::new(number - 1)) } else { None });
            handle.push(Box::new(number)).unwrap();
            handle
        })
        .join()
        .unwrap();
    }
}

/// Each of the threads pushes its boxes and pops what it finds, with a handle that it lets go of
/// now and then; some boxes panic when they are dropped.
#[test]
fn boxes_between_threads() {
    let (boxes, threads) = (count("BOXES", 100_000), count("THREADS", 16));
    std::panic::set_hook(Box::new(|panic| {
        let is_meant = panic.payload().downcast_ref() == Some(&"dropped");
        if !is_meant {
            eprintln!("{panic}");
        }
    }));
    let alive = AtomicI64::new(0);
    let ring = Ring::new(6, (threads / 2 + 1) as usize).unwrap();
    let seen: Vec<_> = (0..boxes).map(|_| AtomicU8::new(0)).collect();
    let (popped, panicked) = (AtomicU64::new(0), AtomicU64::new(0));
    let work = |thread: u64| {
        let (mut mine, mut got) = (Vec::new(), Vec::new());
        let mut next = thread;
        while popped.load(Ordering::SeqCst) < boxes {
            // So that another thread gets the handle.
            thread::yield_now();
            let handle = match ring.handle() {
                Some(handle) => handle,
                None => continue,
            };
            for turn in 0..1000 {
                while mine.len() < 40 && next < boxes {
                    mine.push(Box::new(Counted::new(next, &alive)));
                    next += threads;
                }
                // One by one, and several at a time.
                if turn / 8 % 2 == 0 {
                    if !mine.is_empty() {
                        let refused = handle.push(mine.remove(0));
                        refused.err().into_iter().for_each(|value| mine.insert(0, value));
                    }
                    got.extend(handle.pop());
                } else {
                    let _ = handle.push_many(&mut mine);
                    let _ = handle.pop_many(&mut got, 40);
                }
                if got.is_empty() && (!mine.is_empty() || next >= boxes) {
                    thread::yield_now();
                    if popped.load(Ordering::SeqCst) >= boxes {
                        break;
                    }
                }
                for mut value in got.drain(..) {
                    assert_eq!(seen[value.number as usize].fetch_add(1, Ordering::SeqCst), 0);
                    popped.fetch_add(1, Ordering::SeqCst);
                    value.panics = value.number % 1000 == 7;
                    if catch_unwind(AssertUnwindSafe(|| drop(value))).is_err() {
                        panicked.fetch_add(1, Ordering::SeqCst);
                    }
                }
            }
        }
    };
    thread::scope(|scope| {
        for thread in 0..threads {
            let work = &work;
            scope.spawn(move || work(thread));
        }
    });
    assert!(seen.iter().all(|seen| seen.load(Ordering::SeqCst) == 1));
    assert_eq!(panicked.load(Ordering::SeqCst), (boxes + 992) / 1000);
    assert_eq!(alive.load(Ordering::Relaxed), 0);
    let handle = ring.handle().unwrap();
    for number in 0..10 {
        assert!(handle.push(Box::new(Counted::new(number, &alive))).is_ok());
    }
    drop((ring, handle));
    assert_eq!(alive.load(Ordering::Relaxed), 0);
    eprintln!("{boxes} boxes between {threads} threads, each dropped once");
}
