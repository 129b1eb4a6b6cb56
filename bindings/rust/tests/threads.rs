//! Ports in threads.
use scq::{LendError, Port, Queue, Setup, TakeError};
use std::sync::atomic::{AtomicU64, AtomicUsize, Ordering};
use std::sync::mpsc;
use std::thread;

const THREADS: u64 = 64;
const EACH: u64 = 2_000;

/// Whole messages: each word is the message's number.
fn write(bytes: &mut [u8], number: u64) {
    bytes.chunks_exact_mut(8).for_each(|word| word.copy_from_slice(&number.to_le_bytes()));
}

fn read(bytes: &[u8]) -> u64 {
    let mut words = bytes.chunks_exact(8).map(|word| u64::from_le_bytes(word.try_into().unwrap()));
    let first = words.next().unwrap();
    assert!(words.all(|word| word == first), "a message isn't whole");
    first
}

/// Sends each of its messages, and takes until all were taken.
fn work(port: &Port, thread: u64, seen: &[AtomicU64], taken: &AtomicUsize) {
    let mut next = thread * EACH;
    while next < (thread + 1) * EACH || taken.load(Ordering::SeqCst) < seen.len() {
        if next < (thread + 1) * EACH {
            match port.lend() {
                Ok(mut lent) => {
                    write(&mut lent, next);
                    lent.send(0).unwrap();
                    next += 1;
                }
                Err(LendError::Full { .. }) => {}
                Err(other) => panic!("{}", other),
            }
        }
        match port.take(0) {
            Ok(bytes) => {
                assert_eq!(
                    seen[read(&bytes) as usize].fetch_add(1, Ordering::SeqCst),
                    0,
                    "a message came twice"
                );
                taken.fetch_add(1, Ordering::SeqCst);
            }
            Err(TakeError::Empty { .. }) => thread::yield_now(),
            Err(other) => panic!("{}", other),
        }
    }
}

#[test]
fn sixty_four_threads_share_eight_buffers() {
    let setup = Setup { order: 3, size: 256, hold: 1, ..Setup::default() };
    let ports = Queue::new(setup, THREADS as usize).unwrap().into_ports();
    let seen: Vec<_> = (0..THREADS * EACH).map(|_| AtomicU64::new(0)).collect();
    let taken = AtomicUsize::new(0);
    thread::scope(|scope| {
        for (thread, port) in (0..).zip(ports) {
            let (seen, taken) = (&seen, &taken);
            scope.spawn(move || work(&port, thread, seen, taken));
        }
    });
    assert!(seen.iter().all(|seen| seen.load(Ordering::SeqCst) == 1));
}

#[test]
fn a_port_goes_from_thread_to_thread() {
    let mut port = Queue::new(Setup::default(), 1).unwrap().into_ports().pop().unwrap();
    for number in 0..32 {
        port = thread::spawn(move || {
            if number > 0 {
                assert_eq!(read(&port.take(0).unwrap()), number - 1);
            }
            let mut lent = port.lend().unwrap();
            write(&mut lent, number);
            lent.send(0).unwrap();
            port
        })
        .join()
        .unwrap();
    }
    let (to, from) = mpsc::channel::<Port>();
    let other = thread::spawn(move || read(&from.recv().unwrap().take(0).unwrap()));
    to.send(port).unwrap();
    assert_eq!(other.join().unwrap(), 31);
}

#[test]
fn ports_close_in_any_thread_and_order() {
    let ports = Queue::new(Setup::default(), 8).unwrap();
    thread::scope(|scope| {
        for port in ports {
            scope.spawn(move || {
                std::mem::forget(port.lend().unwrap());
                port.lend().unwrap().send(0).unwrap();
            });
        }
    });
}
