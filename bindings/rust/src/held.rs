//! Buffers in the hands of a port.
use crate::error::{Refused, SendRefusal, Spent};
use crate::port::Port;
use crate::told;
use std::fmt;
use std::mem::ManuallyDrop;
use std::ops::{Deref, DerefMut};
use std::ptr::{self, NonNull};
use std::slice;
use std::sync::Arc;

/// A buffer that a port holds, and what keeps the port there. Dropped, the buffer is given back.
pub(crate) struct Held<P: Deref<Target = Port>> {
    port: P,
    at: NonNull<u8>,
    len: usize,
    index: u32,
}

impl<P: Deref<Target = Port>> Held<P> {
    /// The buffer of an index, which lies there.
    #[inline]
    pub(crate) fn new(port: P, index: u32, at: NonNull<u8>, len: usize) -> Held<P> {
        Held { port, at, len, index }
    }

    /// Ends this value, after a call that let go of the buffer; or has it again, with what the call
    /// said.
    #[inline]
    fn end<V, E>(
        held: ManuallyDrop<Held<P>>,
        called: Result<V, E>,
    ) -> Result<V, Refused<Held<P>, E>> {
        match called {
            Ok(value) => {
                // SAFETY: `held` isn't used again, and isn't dropped.
                drop(unsafe { ptr::read(&held.port) });
                Ok(value)
            }
            Err(why) => Err(Refused { held: ManuallyDrop::into_inner(held), why }),
        }
    }

    #[inline]
    fn send(self, topic: u32) -> Result<u64, Refused<Held<P>, SendRefusal>> {
        told::release(self.at.as_ptr());
        let held = ManuallyDrop::new(self);
        let called = held.port.send_index(held.index, topic);
        Held::end(held, called)
    }

    #[inline]
    fn give_back(self) -> Result<(), Refused<Held<P>, Spent>> {
        told::release(self.at.as_ptr());
        let held = ManuallyDrop::new(self);
        let called = held.port.give_back_index(held.index);
        Held::end(held, called)
    }

    #[inline]
    fn bytes(&self) -> &[u8] {
        // SAFETY: the port holds the buffer as long as this value lives, and no other value is over
        // it.
        unsafe { slice::from_raw_parts(self.at.as_ptr(), self.len) }
    }

    #[inline]
    fn bytes_mut(&mut self) -> &mut [u8] {
        // SAFETY: as for `bytes`.
        unsafe { slice::from_raw_parts_mut(self.at.as_ptr(), self.len) }
    }
}

impl<P: Deref<Target = Port>> Drop for Held<P> {
    fn drop(&mut self) {
        told::release(self.at.as_ptr());
        // Where the call is refused the port keeps the buffer.
        let _ = self.port.give_back_index(self.index);
    }
}

/// What the guards share: their type with what keeps the port, and their further field.
macro_rules! guard {
    ($guard:ident $(<$p:lifetime>)?, $port:ty, $($rest:ident)?) => {
        impl $(<$p>)? $guard $(<$p>)? {
            #[inline]
            pub(crate) fn new(held: Held<$port>, $($rest: u64)?) -> Self {
                $guard { held, $($rest)? }
            }

            /// The buffer's number: below the number of buffers, and the same wherever the buffer
            /// goes.
            pub fn index(&self) -> u32 {
                self.held.index
            }

            /// Puts the buffer on a topic, and answers its place there: the number of the ticket
            /// under which it was put.
            ///
            /// # Errors
            ///
            /// Where it is refused, the buffer comes back as it was.
            #[inline]
            pub fn send(self, topic: u32) -> Result<u64, Refused<Self, SendRefusal>> {
                let $guard { held, $($rest)? } = self;
                held.send(topic).map_err(|Refused { held, why }| {
                    let held = $guard { held, $($rest)? };
                    Refused { held, why }
                })
            }

            /// Gives the buffer back: it can be lent again. Dropping it does the same, but doesn't
            /// say whether it was refused.
            ///
            /// # Errors
            ///
            /// Where tickets have run out, the buffer comes back as it was.
            #[inline]
            pub fn give_back(self) -> Result<(), Refused<Self, Spent>> {
                let $guard { held, $($rest)? } = self;
                held.give_back().map_err(|Refused { held, why }| {
                    let held = $guard { held, $($rest)? };
                    Refused { held, why }
                })
            }

            $(
                /// The place at which the buffer was taken: the one that its send answered. No two
                /// buffers of a topic have the same.
                pub fn $rest(&self) -> u64 {
                    self.$rest
                }
            )?
        }

        impl $(<$p>)? Deref for $guard $(<$p>)? {
            type Target = [u8];

            #[inline]
            fn deref(&self) -> &[u8] {
                self.held.bytes()
            }
        }

        impl $(<$p>)? DerefMut for $guard $(<$p>)? {
            #[inline]
            fn deref_mut(&mut self) -> &mut [u8] {
                self.held.bytes_mut()
            }
        }

        impl $(<$p>)? fmt::Debug for $guard $(<$p>)? {
            fn fmt(&self, f: &mut fmt::Formatter<'_>) -> fmt::Result {
                f.debug_struct(stringify!($guard))
                    .field("index", &self.held.index)
                    $(.field(stringify!($rest), &self.$rest))?
                    .field("bytes", &self.held.bytes())
                    .finish()
            }
        }
    };
}

/// A buffer that was lent, to be written and sent. It derefs to its bytes, which are whatever its
/// last user left.
///
/// Dropped, it is given back. It can't be used once it is sent:
///
/// ```compile_fail,E0382
/// let port = scq::Queue::new(scq::Setup::default(), 1).unwrap().into_ports().pop().unwrap();
/// let mut lent = port.lend().unwrap();
/// lent.send(0).unwrap();
/// lent[0] = 1;
/// ```
///
/// and it stays in the thread that has its port:
///
/// ```compile_fail,E0277
/// let port = scq::Queue::new(scq::Setup::default(), 1).unwrap().into_ports().pop().unwrap();
/// let lent = port.lend().unwrap();
/// std::thread::scope(|scope| {
///     scope.spawn(move || lent.len());
/// });
/// ```
#[must_use = "a buffer that is dropped is given back"]
pub struct Lent<'p> {
    held: Held<&'p Port>,
}

guard!(Lent<'p>, &'p Port,);

/// A buffer that was taken off a topic. It derefs to its bytes, which are those that were sent;
/// they may be changed, and the buffer sent on.
///
/// Dropped, it is given back.
#[must_use = "a buffer that is dropped is given back"]
pub struct Taken<'p> {
    held: Held<&'p Port>,
    place: u64,
}

guard!(Taken<'p>, &'p Port, place);

/// A [`Lent`] that keeps its port open: from [`Port::lend_owned`].
///
/// It stays in its thread, as its port does:
///
/// ```compile_fail,E0277
/// let port = scq::Queue::new(scq::Setup::default(), 1).unwrap().into_ports().remove(0);
/// let lent = port.into_shared().lend_owned().unwrap();
/// std::thread::spawn(move || lent.len());
/// ```
#[must_use = "a buffer that is dropped is given back"]
pub struct OwnedLent {
    held: Held<Arc<Port>>,
}

guard!(OwnedLent, Arc<Port>,);

/// A [`Taken`] that keeps its port open: from [`Port::take_owned`].
#[must_use = "a buffer that is dropped is given back"]
pub struct OwnedTaken {
    held: Held<Arc<Port>>,
    place: u64,
}

guard!(OwnedTaken, Arc<Port>, place);
