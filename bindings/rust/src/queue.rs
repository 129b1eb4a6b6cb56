//! A queue, as its ports.
use crate::error::OpenError;
use crate::memory;
use crate::port::Port;
use crate::sys;
use std::vec;

/// What a queue is made of. Begin with the default and change what you need:
///
/// ```
/// let setup = scq::Setup { size: 256, topics: 2, ..scq::Setup::default() };
/// # assert!(scq::Queue::new(setup, 1).is_ok());
/// ```
#[derive(Clone, Copy, Debug, PartialEq, Eq, Hash)]
pub struct Setup {
    /// There are 2^`order` buffers: from 1 to 16.
    pub order: u32,
    /// How many topics there are, each a queue of its own over the same buffers: from 1 to 31.
    pub topics: u32,
    /// How many bytes each buffer has: from 1. A buffer begins at a multiple of 64, so as many as
    /// the next one are taken for it.
    pub size: u32,
    /// How many buffers a port may hold at a time: from 1 to 2^`order`.
    pub hold: u32,
    /// Each topic, and the stock of free buffers, counts its puts and its gets by tickets up to
    /// this number: from 8 * 2^`order` to 2^60.
    pub limit: u64,
}

impl Setup {
    /// The largest limit. A billion tickets a second come to it after 36 years.
    pub const MAX_LIMIT: u64 = 1 << 60;
    /// The largest order.
    pub const MAX_ORDER: u32 = 16;
    /// The most topics.
    pub const MAX_TOPICS: u32 = 31;
    /// The most ports of a queue.
    pub const MAX_PORTS: usize = 4096;
}

impl Default for Setup {
    /// 64 buffers of 64 bytes, one topic, ports that may hold two buffers, and the largest limit.
    fn default() -> Setup {
        Setup { order: 6, topics: 1, size: 64, hold: 2, limit: Setup::MAX_LIMIT }
    }
}

/// A new queue: its ports, one for each thread that is to use it.
///
/// It is there to hand out the ports; the queue itself lives as long as one of them does.
#[derive(Debug)]
pub struct Queue {
    ports: Vec<Port>,
}

impl Queue {
    /// Makes a queue with so many ports, from 1 to 4096, whatever the number of buffers. The
    /// buffers begin as zeros.
    ///
    /// After this only [`Port::into_shared`] takes memory.
    ///
    /// # Errors
    ///
    /// A number that is out of range, another version, or no memory.
    pub fn new(setup: Setup, ports: usize) -> Result<Queue, OpenError> {
        // SAFETY: it asks nothing of its caller.
        let found = unsafe { sys::scq_version() };
        if found != sys::VERSION {
            return Err(OpenError::Version { found });
        }
        if !(1..=Setup::MAX_PORTS).contains(&ports) {
            return Err(OpenError::Ports);
        }
        let memory = memory::take(setup.order, setup.size, ports)?;
        // SAFETY: it was taken for so many buffers of this size.
        let opened = unsafe { open_over(setup, ports, &memory) };
        if opened.is_err() {
            // SAFETY: no port was opened over it.
            unsafe { memory::free(memory) };
        }
        opened.map(|ports| Queue { ports })
    }

    /// The ports.
    pub fn into_ports(self) -> Vec<Port> {
        self.ports
    }
}

impl IntoIterator for Queue {
    type Item = Port;
    type IntoIter = vec::IntoIter<Port>;

    fn into_iter(self) -> vec::IntoIter<Port> {
        self.ports.into_iter()
    }
}

/// Opens so many ports over memory that is there.
///
/// # Safety
///
/// There the setup's buffers lie apart, each of `len` bytes, as long as a port is open; `block` is
/// null, or was taken for so many ports.
pub(crate) unsafe fn open_over(
    setup: Setup,
    ports: usize,
    memory: &sys::scq_memory,
) -> Result<Vec<Port>, OpenError> {
    if !(1..=Setup::MAX_PORTS).contains(&ports) {
        return Err(OpenError::Ports);
    }
    let (mut handles, mut all) = (Vec::new(), Vec::new());
    handles.try_reserve_exact(ports).map_err(|_| OpenError::NoMemory)?;
    all.try_reserve_exact(ports).map_err(|_| OpenError::NoMemory)?;
    handles.resize_with(ports, || sys::scq_port::NONE);
    let Setup { order, topics, hold, limit, .. } = setup;
    let (first, n) = (handles.as_mut_ptr(), handles.len());
    // SAFETY: all begin as SCQ_NONE, and there are so many of them.
    match unsafe { sys::scq_open_over(order, topics, hold, limit, memory, first, n) } {
        sys::OK => {
            all.extend(handles.into_iter().map(Port::new));
            Ok(all)
        }
        sys::NO_MEMORY => Err(OpenError::NoMemory),
        sys::BAD_ORDER => Err(OpenError::Order),
        sys::BAD_TOPICS => Err(OpenError::Topics),
        sys::BAD_PORTS => Err(OpenError::Ports),
        sys::BAD_LIMIT => Err(OpenError::Limit),
        sys::BAD_SIZE => Err(OpenError::Size),
        sys::BAD_HOLD => Err(OpenError::Hold),
        answer => unreachable!("scq_open_over answered {}", answer),
    }
}
