//! Four threads on one queue of eight buffers: two send the numbers from 1 to 1,000,000 between
//! them, two take half of them each, and what they took is summed.
//!
//!     cargo run --release --example four_threads
use scq::{LendError, Port, Queue, Setup, TakeError};
use std::error::Error;
use std::thread;

const LAST: u64 = 1_000_000;

/// Sends the numbers from `first` on, every second one.
fn send_all(port: Port, first: u64) -> Result<(), LendError> {
    for number in (first..=LAST).step_by(2) {
        let mut lent = loop {
            match port.lend() {
                Ok(lent) => break lent,
                Err(LendError::Full { .. }) => thread::yield_now(),
                Err(other) => return Err(other),
            }
        };
        lent.copy_from_slice(&number.to_le_bytes());
        lent.send(0).expect("there is a topic 0, and tickets suffice");
    }
    Ok(())
}

fn take_half(port: Port) -> Result<u64, TakeError> {
    let mut sum = 0;
    for _ in 0..LAST / 2 {
        let taken = loop {
            match port.take(0) {
                Ok(taken) => break taken,
                Err(TakeError::Empty { .. }) => thread::yield_now(),
                Err(other) => return Err(other),
            }
        };
        sum += u64::from_le_bytes(taken[..].try_into().expect("a buffer has 8 bytes"));
    }
    Ok(sum)
}

fn main() -> Result<(), Box<dyn Error>> {
    let setup = Setup { order: 3, size: 8, ..Setup::default() };
    let mut ports = Queue::new(setup, 4)?.into_iter();
    let mut port = || ports.next().expect("there are four ports");
    let (odd, even, one, other) = (port(), port(), port(), port());
    let senders = [thread::spawn(|| send_all(odd, 1)), thread::spawn(|| send_all(even, 2))];
    let takers = [thread::spawn(|| take_half(one)), thread::spawn(|| take_half(other))];
    for sender in senders {
        sender.join().expect("a sender doesn't panic")?;
    }
    let mut sum = 0;
    for taker in takers {
        sum += taker.join().expect("a taker doesn't panic")?;
    }
    println!("the numbers from 1 to {LAST} are {sum} together");
    Ok(())
}
