//! Fixed buffers that threads pass to one another, without locks: the proved queue `scq`, from
//! Rust.
//!
//! Use it where `crossbeam::queue::ArrayQueue` nearly fits, but messages should be written and read
//! where they lie, and a thread that stops should hold up nobody. A queue has 2 to 65,536 buffers,
//! up to 31 topics, and a [`Port`] for each thread. A thread is [lent](Port::lend) a buffer, writes
//! it in place and [sends](Lent::send) it on a topic; or it [takes](Port::take) one from a topic
//! and reads it. A [`Lent`] or [`Taken`] that is dropped is given back. A [`Batch`] has several
//! buffers, which are got, sent and given back together. A [`Ring`] has values of any type in place
//! of bytes, with `push` and `pop` as `ArrayQueue` has them; and [`bounded`] makes a [`Sender`] and
//! a [`Receiver`] over one, as `std::sync::mpsc` and `crossbeam-channel` have them.
//!
//! No call of a port or a ring's handle waits. Who wants to sleep until there is something does so
//! by a [`Bell`], to which a port can be [tied](Bell::tie): then its end, however it comes, is told
//! to those who wait. Senders and receivers wait and end by themselves.
//!
//! ```
//! use scq::{Queue, Setup, TakeError};
//! use std::thread;
//!
//! # fn main() -> Result<(), Box<dyn std::error::Error>> {
//! let mut ports = Queue::new(Setup::default(), 2)?.into_ports();
//! let (first, second) = (ports.remove(0), ports.remove(0));
//! let sender = thread::spawn(move || {
//!     let mut lent = first.lend().expect("a buffer is free");
//!     lent[..5].copy_from_slice(b"hello");
//!     lent.send(0).map_err(|refused| refused.why)
//! });
//! let taken = loop {
//!     match second.take(0) {
//!         Ok(taken) => break taken,
//!         Err(TakeError::Empty { .. }) => thread::yield_now(),
//!         Err(other) => return Err(other.into()),
//!     }
//! };
//! assert_eq!(&taken[..5], b"hello");
//! assert_eq!(sender.join().unwrap()?, taken.place());
//! # Ok(())
//! # }
//! ```
//!
//! # What is promised
//!
//! The queue, its ports and the library's calls are written in Rattle, which is Rust with
//! contracts, and each function is proved to meet its contract, however the threads meet;
//! `docs/PROMISES.md` of the repository has the clauses. This crate is a thin layer of plain Rust
//! over those calls, tested and not proved. The library passes the numbers of
//! buffers from port to port and follows no pointer to their bytes, which are this crate's: it
//! finds those of a number.
//!
//! - Where [`Port::end`] says that a port was the last, this is proved of all calls that were made
//!   with all ports, but those refused by a test or by a ticket that a port keeps: a take gave a
//!   buffer that was sent on this topic, at the place of that send; no send was taken twice; none
//!   overtook one that had ended before it began; and each topic's calls, but those
//!   refused as tickets ran out, stand in one order in which every answer is a plain queue's. That
//!   the last port is told so is tested, and that a taken buffer has the bytes that were sent, as
//!   only who holds it writes it.
//! - [`TakeError::Empty`] and [`LendError::Full`] come only where they are right at a moment inside
//!   the call, of a run with all that the port has seen.
//! - No lend, take, send, give-back, push or pop takes a lock or memory, or waits for another
//!   thread's; [`Ring::handle`], a handle's end and a [`Bell`] that waits or wakes take a lock, and
//!   a wait memory. A [`Sender`] or [`Receiver`] takes a lock too, which is its own as long as one
//!   thread uses it and [handles](bounded) suffice. A queue's buffers are one block of zeros, of
//!   which no byte is touched before it is used.
//! - The calls are lock-free, with a bound: for n buffers, k ports and b = 6 (2n - 1 + max(n, k) +
//!   n + k), among any k b + 1 atomic steps on topics and free buffers one ends a call, whichever
//!   threads make them (proved where `end` says last). A call makes at most b
//!   steps, and for what others finish meanwhile on its topic (of a lend or give-back: on the free
//!   buffers) b more for each send or give-back, 6 for each take or lend; a thread that stopped
//!   delays none.
//! - A buffer stays where it is, and is in one pair of hands at a time: the library gives it to one
//!   port alone, and in that port the borrow checker sees to it.
//! - A buffer whose guard was forgotten (`std::mem::forget`) is given back when its port is
//!   dropped.
//! - The end of a [`Tied`] port, a [`Sender`] or a [`Receiver`] is told to those who wait, whether
//!   its thread returned, returned early or panicked. (This is tested.)
//!
//! # What isn't
//!
//! - That a thread gets to run, that all threads get their share, or how long a call takes in time.
//!   A take that finds nothing doesn't wait: ask again, do something else, or wait by a [`Bell`].
//! - Tickets run out at the [limit](Setup::limit) of the setup: a call that needs one past it is
//!   refused, and so is each later lend, take, send and give-back of that port. What a port holds
//!   by then it keeps: those buffers are freed with the queue.
//! - A thread that stops in the middle of a call, or keeps a buffer, keeps it from the others. One
//!   that is killed, and a port, sender or receiver that is forgotten, doesn't end for the others:
//!   it keeps what it held, and who waits for it, waits.
#![deny(missing_docs)]
#![deny(unsafe_op_in_unsafe_fn)]

mod batch;
mod bell;
mod channel;
mod channel_error;
mod error;
mod held;
mod lines;
mod listener;
mod memory;
mod pack;
mod port;
mod port_wait;
mod queue;
mod receiver;
mod ring;
mod ring_wait;
mod rung;
mod sender;
mod sys;
mod tied;
mod tied_handle;
mod told;

pub use batch::{Batch, Several, Stopped};
pub use bell::{Bell, WaitError};
pub use channel::{bounded, bounded_for};
pub use channel_error::{
    RecvError, RecvTimeoutError, SendError, SendTimeoutError, TryRecvError, TrySendError,
};
pub use error::{LendError, OpenError, Refused, SendRefusal, Spent, TakeError};
pub use held::{Lent, OwnedLent, OwnedTaken, Taken};
pub use lines::Lines;
pub use listener::Listener;
pub use pack::{messages, Messages, Packer};
pub use port::{Counts, Port};
pub use port_wait::{Lending, Taking, TakingAny};
pub use queue::{Queue, Setup};
pub use receiver::{IntoIter, Iter, Receiver, TryIter};
pub use ring::{Handle, Ring};
pub use ring_wait::Pushing;
pub use rung::{Guard, Rung};
pub use sender::Sender;
pub use tied::{Role, Tied};
pub use tied_handle::TiedHandle;
