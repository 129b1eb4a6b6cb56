//! What ThreadSanitizer is told. It doesn't see into the library, which isn't compiled with it: so
//! it is told that what a thread did with a buffer before it let go of it comes before what the
//! next holder does.

// Compilers that know the names of all flags have to be told of this one, and older ones don't.
#![allow(unknown_lints, unexpected_cfgs)]

use std::os::raw::c_void;

#[cfg(scq_tsan)]
extern "C" {
    fn __tsan_acquire(address: *mut c_void);
    fn __tsan_release(address: *mut c_void);
}

/// The caller lets go of what lies there: it is about to send it, or to give it back.
#[inline(always)]
pub(crate) fn release<T>(address: *const T) {
    let address = address as *mut c_void;
    #[cfg(scq_tsan)]
    // SAFETY: it notes the address, and doesn't follow it.
    unsafe {
        __tsan_release(address);
    }
    #[cfg(not(scq_tsan))]
    let _ = address;
}

/// The caller has got what lies there.
#[inline(always)]
pub(crate) fn acquire<T>(address: *const T) {
    let address = address as *mut c_void;
    #[cfg(scq_tsan)]
    // SAFETY: it notes the address, and doesn't follow it.
    unsafe {
        __tsan_acquire(address);
    }
    #[cfg(not(scq_tsan))]
    let _ = address;
}
