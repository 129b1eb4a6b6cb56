//! Owned work between threads, by two channels: makers send jobs, workers receive them and send
//! results, which are summed. Nobody counts who is left: a channel ends with its last sender,
//! however that ends. One of the workers leaves early here.
//!
//!     cargo run --release --example channels
use scq::{bounded, OpenError, Receiver, Sender};
use std::thread;

const EACH: u64 = 100_000;

struct Job {
    number: u64,
    text: String,
}

fn make(jobs: Sender<Box<Job>>, first: u64) {
    for number in first..first + EACH {
        let job = Box::new(Job { number, text: format!("job {number}") });
        if jobs.send(job).is_err() {
            return; // nobody is left to receive it
        }
    }
}

/// Works off jobs, as many as it may.
fn work(jobs: Receiver<Box<Job>>, results: Sender<u64>, most: u64) {
    for job in jobs.iter().take(most as usize) {
        assert_eq!(job.text, format!("job {}", job.number));
        results.send(job.number).expect("the results are summed");
    }
}

fn main() -> Result<(), OpenError> {
    let (to_workers, jobs) = bounded(64)?;
    let (to_sum, results) = bounded(64)?;
    let sum: u64 = thread::scope(|scope| {
        for maker in 0..2 {
            let to_workers = to_workers.clone();
            scope.spawn(move || make(to_workers, maker * EACH));
        }
        for most in [1000, u64::MAX] {
            let (jobs, to_sum) = (jobs.clone(), to_sum.clone());
            scope.spawn(move || work(jobs, to_sum, most));
        }
        // These ends are the threads' alone.
        drop((to_workers, jobs, to_sum));
        results.iter().sum()
    });
    println!("the numbers of {} jobs are {sum} together", 2 * EACH);
    Ok(())
}
