//! Rings: bounded queues of values of any type.
use crate::batch::{Several, Stopped};
use crate::error::{OpenError, Spent};
use crate::port::Port;
use crate::queue::{open_over, Setup};
use crate::{sys, told};
use std::cell::UnsafeCell;
use std::fmt;
use std::sync::{Arc, Mutex, PoisonError};

/// A bounded queue of values of any type, first in first out, for threads that come and go: as
/// `crossbeam::queue::ArrayQueue`, with a [`Handle`] for each thread that is at work.
///
/// ```
/// use scq::Ring;
/// use std::thread;
///
/// let ring = Ring::new(6, 4)?; // for 2^6 values and 4 threads at a time
/// thread::scope(|scope| {
///     scope.spawn(|| {
///         let handle = ring.handle().expect("a handle is free");
///         handle.push(String::from("hello")).expect("there is room");
///     });
/// });
/// let handle = ring.handle().expect("a handle is free");
/// assert_eq!(handle.pop().as_deref(), Some("hello"));
/// assert_eq!(handle.pop(), None);
/// # Ok::<(), scq::OpenError>(())
/// ```
///
/// Nobody waits: who wants to does so by a [`Bell`](crate::Bell), or makes a channel of a ring by
/// [`bounded`](crate::bounded).
///
/// A value lies in an array, at the number of a buffer that a port of the library holds; a clone is
/// of the same ring. What still stands in it is dropped, each value once, with the last of the
/// rings and handles.
pub struct Ring<T> {
    core: Arc<Core<T>>,
}

/// What rings and handles share. The ports close before the values are dropped.
struct Core<T> {
    stock: Mutex<Vec<Port>>,
    slots: Box<[UnsafeCell<Option<T>>]>,
}

// SAFETY: a slot is used by who holds the buffer of its number, and by one at a time; so values go
// from thread to thread, and none is shared.
unsafe impl<T: Send> Sync for Core<T> {}

impl<T> Core<T> {
    /// Does this with the ports that no handle has. It doesn't panic.
    fn with_stock<R>(&self, act: impl FnOnce(&mut Vec<Port>) -> R) -> R {
        let mut stock = self.stock.lock().unwrap_or_else(PoisonError::into_inner);
        told::acquire(self);
        let did = act(&mut stock);
        told::release(self);
        did
    }
}

impl<T> Drop for Core<T> {
    fn drop(&mut self) {
        // What the threads did whose handles went back to the stock.
        told::acquire(self);
    }
}

impl<T> Ring<T> {
    /// Makes a ring for 2^`order` values, `order` from 1 to 16, with so many handles, from 1 to
    /// 4096.
    ///
    /// After this nothing takes memory.
    ///
    /// # Errors
    ///
    /// [`OpenError::Order`] and [`OpenError::Ports`] where these are out of range;
    /// [`OpenError::Version`]; [`OpenError::NoMemory`].
    pub fn new(order: u32, handles: usize) -> Result<Ring<T>, OpenError> {
        Ring::with_limit(order, handles, Setup::MAX_LIMIT)
    }

    /// The same, with a [limit](Setup::limit) of tickets. A call that needs one from it on does
    /// nothing: [`push`](Handle::push) gives the value back, [`pop`](Handle::pop) answers that
    /// there is none.
    ///
    /// # Errors
    ///
    /// As [`new`](Ring::new), and [`OpenError::Limit`].
    pub fn with_limit(order: u32, handles: usize, limit: u64) -> Result<Ring<T>, OpenError> {
        // SAFETY: it asks nothing of its caller.
        let found = unsafe { sys::scq_version() };
        if found != sys::VERSION {
            return Err(OpenError::Version { found });
        }
        if !(1..=Setup::MAX_ORDER).contains(&order) {
            return Err(OpenError::Order);
        }
        let mut slots = Vec::new();
        slots.try_reserve_exact(1 << order).map_err(|_| OpenError::NoMemory)?;
        slots.resize_with(1 << order, || UnsafeCell::new(None));
        let slots = slots.into_boxed_slice();
        // What lies at a number is the slot. The library follows no pointer to it.
        let base = slots.as_ptr() as *mut u8;
        let memory = sys::scq_memory { base, stride: 1, len: 1, block: std::ptr::null_mut() };
        let setup = Setup { order, topics: 1, size: 1, hold: 1, limit };
        // SAFETY: the slots stay where they are until the ports are closed, and no guard is made
        // over this memory.
        let ports = unsafe { open_over(setup, handles, &memory)? };
        Ok(Ring { core: Arc::new(Core { stock: Mutex::new(ports), slots }) })
    }

    /// A handle out of the stock, or none where all are in use. This and dropping a handle take a
    /// lock.
    ///
    /// ```
    /// let ring = scq::Ring::<u64>::new(4, 1)?;
    /// let handle = ring.handle().unwrap();
    /// assert!(ring.handle().is_none());
    /// drop(handle);
    /// assert!(ring.handle().is_some());
    /// # Ok::<(), scq::OpenError>(())
    /// ```
    pub fn handle(&self) -> Option<Handle<T>> {
        let port = self.core.with_stock(Vec::pop)?;
        Some(Handle { core: Arc::clone(&self.core), port: Some(port) })
    }

    /// How many values there is room for.
    pub fn capacity(&self) -> usize {
        self.core.slots.len()
    }
}

/// Another of the same ring.
impl<T> Clone for Ring<T> {
    fn clone(&self) -> Ring<T> {
        Ring { core: Arc::clone(&self.core) }
    }
}

impl<T> fmt::Debug for Ring<T> {
    fn fmt(&self, f: &mut fmt::Formatter<'_>) -> fmt::Result {
        f.debug_struct("Ring").field("capacity", &self.capacity()).finish_non_exhaustive()
    }
}

/// A thread's end of a [`Ring`]: by [`Ring::handle`]. It may go to another thread, but two threads
/// can't share it. Dropped, it goes back to the ring's stock, for the next thread.
///
/// ```compile_fail,E0277
/// let handle = scq::Ring::<u64>::new(4, 1).unwrap().handle().unwrap();
/// std::thread::scope(|scope| {
///     scope.spawn(|| handle.pop());
/// });
/// ```
pub struct Handle<T> {
    core: Arc<Core<T>>,
    /// There until the handle is dropped.
    port: Option<Port>,
}

impl<T> Handle<T> {
    fn port(&self) -> &Port {
        match &self.port {
            Some(port) => port,
            None => unreachable!("the handle was dropped"),
        }
    }

    /// The slot of a buffer's number.
    #[inline]
    fn slot(&self, index: u32) -> *mut Option<T> {
        self.core.slots[index as usize].get()
    }

    /// Puts a value at the end.
    ///
    /// # Errors
    ///
    /// Where there is no room, or tickets have run out at the limit, the value comes back.
    ///
    /// ```
    /// let ring = scq::Ring::new(1, 1)?;
    /// let handle = ring.handle().unwrap();
    /// assert_eq!(handle.push("one"), Ok(()));
    /// assert_eq!(handle.push("two"), Ok(()));
    /// assert_eq!(handle.push("three"), Err("three"));
    /// # Ok::<(), scq::OpenError>(())
    /// ```
    #[inline]
    pub fn push(&self, value: T) -> Result<(), T> {
        let index = match self.port().lend_index() {
            Ok(lent) => lent.index,
            Err(_) => return Err(value),
        };
        let slot = self.slot(index);
        told::acquire(slot);
        // SAFETY: the port holds the buffer of this number, so nobody else uses the slot.
        unsafe { *slot = Some(value) };
        told::release(slot);
        if self.port().send_index(index, 0).is_ok() {
            return Ok(());
        }
        // SAFETY: the port still holds it.
        let value = unsafe { (*slot).take() };
        // Tickets have run out: it is refused, and the port keeps the buffer.
        let _ = self.port().give_back_index(index);
        match value {
            Some(value) => Err(value),
            None => unreachable!("a slot lost its value"),
        }
    }

    /// Takes the first value off, or answers that there was none at a moment inside the call. Where
    /// tickets have run out at the limit, there is none.
    ///
    /// ```
    /// let ring = scq::Ring::new(1, 1)?;
    /// let handle = ring.handle().unwrap();
    /// handle.push(Box::new(7)).unwrap();
    /// assert_eq!(handle.pop(), Some(Box::new(7)));
    /// assert_eq!(handle.pop(), None);
    /// # Ok::<(), scq::OpenError>(())
    /// ```
    #[inline]
    pub fn pop(&self) -> Option<T> {
        let index = self.port().take_index(0).ok()?.index;
        let slot = self.slot(index);
        told::acquire(slot);
        // SAFETY: the port holds the buffer of this number, so nobody else uses the slot.
        let value = unsafe { (*slot).take() };
        told::release(slot);
        // Where tickets have run out the port keeps the buffer.
        let _ = self.port().give_back_index(index);
        value
    }

    /// Puts values at the end, in their order, until one is refused: as many calls of
    /// [`push`](Handle::push). Those that went are gone from the `Vec`; the others stand there, in
    /// their order.
    ///
    /// Stopped by [`Stopped::Full`] or [`Stopped::Spent`].
    ///
    /// ```
    /// use scq::{Ring, Stopped};
    ///
    /// let ring = Ring::new(1, 1)?;
    /// let handle = ring.handle().unwrap();
    /// let mut names = vec!["one", "two", "three"];
    /// let pushed = handle.push_many(&mut names);
    /// assert_eq!((pushed.done, pushed.stopped), (2, Some(Stopped::Full)));
    /// assert_eq!(names, ["three"]);
    /// # Ok::<(), scq::OpenError>(())
    /// ```
    pub fn push_many(&self, values: &mut Vec<T>) -> Several {
        each_of(values, |value| {
            self.push(value).map_err(|value| (value, self.stopped(Stopped::Full)))
        })
    }

    /// Takes up to so many values off the front, and appends them to the `Vec`, in their order: as
    /// many calls of [`pop`](Handle::pop).
    ///
    /// Stopped by [`Stopped::Empty`] or [`Stopped::Spent`].
    ///
    /// ```
    /// let ring = scq::Ring::new(2, 1)?;
    /// let handle = ring.handle().unwrap();
    /// assert_eq!(handle.push_many(&mut vec![1, 2, 3]).all(), Ok(3));
    /// let mut numbers = Vec::new();
    /// assert_eq!(handle.pop_many(&mut numbers, 2).all(), Ok(2));
    /// assert_eq!(handle.pop_many(&mut numbers, 2).all(), Err(scq::Stopped::Empty));
    /// assert_eq!(numbers, [1, 2, 3]);
    /// # Ok::<(), scq::OpenError>(())
    /// ```
    pub fn pop_many(&self, into: &mut Vec<T>, most: usize) -> Several {
        up_to(into, most, || self.pop().ok_or_else(|| self.stopped(Stopped::Empty)))
    }

    /// Why a call was refused: for this, unless tickets have run out.
    fn stopped(&self, else_for: Stopped) -> Stopped {
        self.spent().map_or(else_for, |_| Stopped::Spent)
    }

    /// Whether tickets have run out for this handle: each push gives its value back, and each pop
    /// answers that there is none.
    pub fn is_spent(&self) -> bool {
        self.spent().is_some()
    }

    /// The ticket at or past the limit that it has drawn, where it has.
    pub(crate) fn spent(&self) -> Option<Spent> {
        self.port().spent().map(|ticket| Spent { ticket })
    }

    /// How many values there is room for.
    pub fn capacity(&self) -> usize {
        self.core.slots.len()
    }
}

/// Does this with each value, from the first on, until one comes back: that and those behind it
/// stay.
pub(crate) fn each_of<T>(
    values: &mut Vec<T>,
    mut push: impl FnMut(T) -> Result<(), (T, Stopped)>,
) -> Several {
    let mut went = Several { done: 0, stopped: None };
    // The last of a `Vec` goes without a move of the others.
    values.reverse();
    while let Some(value) = values.pop() {
        match push(value) {
            Ok(()) => went.done += 1,
            Err((value, why)) => {
                values.push(value);
                went.stopped = Some(why);
                break;
            }
        }
    }
    values.reverse();
    went
}

/// Appends up to so many values that this gives, until it gives none.
pub(crate) fn up_to<T>(
    into: &mut Vec<T>,
    most: usize,
    mut pop: impl FnMut() -> Result<T, Stopped>,
) -> Several {
    for done in 0..most {
        match pop() {
            Ok(value) => into.push(value),
            Err(why) => return Several { done, stopped: Some(why) },
        }
    }
    Several { done: most, stopped: None }
}

impl<T> fmt::Debug for Handle<T> {
    fn fmt(&self, f: &mut fmt::Formatter<'_>) -> fmt::Result {
        f.debug_struct("Handle").field("capacity", &self.capacity()).finish_non_exhaustive()
    }
}

impl<T> Drop for Handle<T> {
    fn drop(&mut self) {
        if let Some(port) = self.port.take() {
            // There is room for each port of the ring.
            self.core.with_stock(|stock| stock.push(port));
        }
    }
}
