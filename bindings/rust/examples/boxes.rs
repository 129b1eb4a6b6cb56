//! Owned work between threads, as with two `ArrayQueue<Box<T>>`: makers push jobs, workers pop them
//! and push results, which are summed. A stage has ended once those before it have, and it finds
//! nothing. (`channels.rs` does the same with threads that sleep, and counts nobody.)
//!
//!     cargo run --release --example boxes
use scq::{Handle, OpenError, Ring};
use std::sync::atomic::{AtomicUsize, Ordering};
use std::thread;

const EACH: u64 = 100_000;

struct Job {
    number: u64,
    text: String,
}

/// Waits for room.
fn push<T>(handle: &Handle<T>, mut value: T) {
    while let Err(back) = handle.push(value) {
        value = back;
        thread::yield_now();
    }
}

/// Waits for a value; none once nobody is left to push one.
fn pop<T>(handle: &Handle<T>, pushers_left: &AtomicUsize) -> Option<T> {
    loop {
        // Asked first: what was pushed before the last of them left is found below.
        let is_over = pushers_left.load(Ordering::SeqCst) == 0;
        match handle.pop() {
            Some(value) => return Some(value),
            None if is_over => return None,
            None => thread::yield_now(),
        }
    }
}

fn main() -> Result<(), OpenError> {
    let (jobs, sums) = (Ring::new(6, 4)?, Ring::new(6, 3)?);
    let (makers_left, workers_left) = (AtomicUsize::new(2), AtomicUsize::new(2));
    let sum: u64 = thread::scope(|scope| {
        for maker in 0..2 {
            let (handle, left) = (jobs.handle().expect("one of four"), &makers_left);
            scope.spawn(move || {
                for number in maker * EACH..(maker + 1) * EACH {
                    push(&handle, Box::new(Job { number, text: format!("job {number}") }));
                }
                left.fetch_sub(1, Ordering::SeqCst);
            });
        }
        for _ in 0..2 {
            let (from, to) =
                (jobs.handle().expect("one of four"), sums.handle().expect("of three"));
            let (left, done) = (&makers_left, &workers_left);
            scope.spawn(move || {
                while let Some(job) = pop(&from, left) {
                    assert_eq!(job.text, format!("job {}", job.number));
                    push(&to, job.number);
                }
                done.fetch_sub(1, Ordering::SeqCst);
            });
        }
        let handle = sums.handle().expect("one of three");
        std::iter::from_fn(|| pop(&handle, &workers_left)).sum()
    });
    println!("the numbers of {} jobs are {sum} together", 2 * EACH);
    Ok(())
}
