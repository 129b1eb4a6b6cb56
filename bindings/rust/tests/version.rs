//! The version of the library. `bench/bindings` also compiles this over a crate that is of a later one,
//! and says by `SCQ_FOUND` which one the library is of.
use scq::{OpenError, Queue, Setup};
use std::env;

#[test]
fn opens_over_a_library_of_its_version() {
    let other = env::var("SCQ_FOUND").ok().map(|found| found.parse::<u32>().unwrap());
    match (Queue::new(Setup::default(), 2), other) {
        (Ok(_), None) => {}
        (Err(OpenError::Version { found }), Some(other)) => assert_eq!(found, other),
        (opened, _) => panic!("{opened:?}"),
    }
}
