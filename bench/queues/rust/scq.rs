//! The queue of this repository, through its crate.

pub use scq::Port;
use scq::{LendError, Queue, Setup, TakeError};

#[inline(always)]
pub fn put(port: &Port, value: u64) -> bool {
    match port.lend() {
        Ok(mut lent) => {
            if !cfg!(feature = "bare") {
                lent[..8].copy_from_slice(&value.to_le_bytes());
            }
            lent.send(0).is_ok() || panic!("not sent")
        }
        Err(LendError::Full { .. }) => false,
        Err(other) => panic!("{other}"),
    }
}

#[inline(always)]
pub fn get(port: &Port) -> Option<u64> {
    match port.take(0) {
        Ok(taken) if cfg!(feature = "bare") => Some(u64::from(taken.index())),
        Ok(taken) => Some(u64::from_le_bytes(taken[..8].try_into().unwrap())),
        Err(TakeError::Empty { .. }) => None,
        Err(other) => panic!("{other}"),
    }
}

pub fn make(order: u32, threads: usize) -> Vec<Port> {
    let setup = Setup { order, hold: 1, ..Setup::default() };
    Queue::new(setup, threads).unwrap().into_ports()
}
