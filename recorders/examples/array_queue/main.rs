//! The `ArrayQueue` of `crossbeam-queue`, recorded. `array_queue FOLDER CALLS wrong` takes a wrong queue in its place: two queues, of
//! which each thread takes the one that it finds first, so that values overtake.
//!   cd recorders/examples/array_queue && cargo run --release -- ../../../logs 62500

#[path = "../../recorder.rs"]
mod recorder;

use crossbeam_queue::ArrayQueue;
use recorder::Recorder;
use std::env::args;
use std::process::exit;
use std::sync::Barrier;
use std::thread::scope;

const THREADS: u32 = 4;

/// A right queue, or a wrong one over two.
struct Queue {
    lanes: Vec<ArrayQueue<u64>>,
}

impl Queue {
    fn new(wrong: bool) -> Queue {
        let lanes = if wrong { 2 } else { 1 };
        Queue {
            lanes: (0..lanes).map(|_| ArrayQueue::new(1024)).collect(),
        }
    }

    fn put(&self, value: u64) -> bool {
        let lane = value as usize % self.lanes.len();
        self.lanes[lane].push(value).is_ok()
    }

    fn get(&self) -> Option<u64> {
        self.lanes.iter().find_map(|lane| lane.pop())
    }
}

fn main() {
    let words: Vec<String> = args().collect();
    let (Some(folder), Some(Ok(calls))) = (words.get(1), words.get(2).map(|word| word.parse::<usize>())) else {
        eprintln!("array_queue FOLDER CALLS [wrong]");
        exit(2);
    };
    let queue = Queue::new(words.len() > 3);
    let recorder = Recorder::new();
    let mut seats: Vec<_> = (0..THREADS).map(|seat| recorder.seat(seat, 4 * calls)).collect();
    // All begin together: a thread that is done before the next has begun overlaps with none.
    let start = Barrier::new(THREADS as usize);
    scope(|threads| {
        for seat in &mut seats {
            let (queue, start) = (&queue, &start);
            threads.spawn(move || {
                start.wait();
                for _ in 0..calls {
                    let value = seat.put_start(0);
                    if queue.put(value) {
                        seat.put_done();
                    } else {
                        seat.put_refused();
                    }
                    seat.get_start(0);
                    match queue.get() {
                        Some(value) => seat.get_got(value),
                        None => seat.get_nothing(),
                    }
                }
            });
        }
    });
    for (i, seat) in seats.iter().enumerate() {
        if let Err(error) = seat.write(format!("{folder}/{}.log", i + 1)) {
            eprintln!("{error}");
            exit(1);
        }
    }
}
