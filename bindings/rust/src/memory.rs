//! Where the bytes of a queue's buffers lie. They are this crate's: the library has their numbers
//! alone.
use crate::error::OpenError;
use crate::queue::Setup;
use crate::sys;
use std::alloc::{alloc_zeroed, dealloc, Layout};
use std::mem;
use std::sync::atomic::{AtomicUsize, Ordering};

/// A line of the processor's cache: each buffer begins at one of its own, so that threads that
/// write neighbouring buffers don't write in one.
const LINE: usize = 64;

/// What stands before the buffers: how many ports are open, how many of them may take, and how the
/// whole was taken.
struct Front {
    ports: AtomicUsize,
    takers: AtomicUsize,
    layout: Layout,
}

/// Takes memory for 2^`order` buffers of `size` zero bytes and so many ports. No byte of a buffer
/// is touched before it is used.
pub(crate) fn take(order: u32, size: u32, ports: usize) -> Result<sys::scq_memory, OpenError> {
    if !(1..=Setup::MAX_ORDER).contains(&order) {
        return Err(OpenError::Order);
    }
    if size == 0 {
        return Err(OpenError::Size);
    }
    let no_memory = |_| OpenError::NoMemory;
    let len = size as usize;
    let stride = Layout::from_size_align(len, LINE).map_err(no_memory)?.pad_to_align().size();
    let before = mem::size_of::<Front>() + LINE - 1;
    let bytes = stride
        .checked_mul(1 << order)
        .and_then(|all| all.checked_add(before))
        .ok_or(OpenError::NoMemory)?;
    // The buffers are begun at a line by hand: where a larger alignment is asked for, all bytes are
    // written to be zero.
    let layout = Layout::from_size_align(bytes, mem::align_of::<Front>()).map_err(no_memory)?;
    // SAFETY: they are more than no bytes.
    let block = unsafe { alloc_zeroed(layout) };
    if block.is_null() {
        return Err(OpenError::NoMemory);
    }
    // SAFETY: the front has room and is aligned, and with what lies before the first line there are
    // bytes enough for the buffers.
    let base = unsafe {
        let (ports, takers) = (AtomicUsize::new(ports), AtomicUsize::new(ports));
        block.cast::<Front>().write(Front { ports, takers, layout });
        let behind = block.add(mem::size_of::<Front>());
        behind.add(behind.align_offset(LINE))
    };
    Ok(sys::scq_memory { base, stride, len, block })
}

/// Frees what was taken.
///
/// # Safety
///
/// It was taken by `take`, and nothing of it is used from now on.
pub(crate) unsafe fn free(memory: sys::scq_memory) {
    // SAFETY: it begins with its front, and was taken with that layout.
    unsafe {
        let layout = (*memory.block.cast::<Front>()).layout;
        dealloc(memory.block, layout);
    }
}

/// One port less may take. Answers whether none may any more.
///
/// # Safety
///
/// It was taken by `take`, for as many ports as call this at most once each, and the port is open.
pub(crate) unsafe fn stop_taking(memory: sys::scq_memory) -> bool {
    // SAFETY: the front is there until the last port leaves.
    unsafe { (*memory.block.cast::<Front>()).takers.fetch_sub(1, Ordering::SeqCst) == 1 }
}

/// Whether a port may take.
///
/// # Safety
///
/// It was taken by `take`, and the port that asks is open.
pub(crate) unsafe fn is_any_taking(memory: sys::scq_memory) -> bool {
    // SAFETY: the front is there until the last port leaves.
    unsafe { (*memory.block.cast::<Front>()).takers.load(Ordering::SeqCst) != 0 }
}

/// One port less is open; the last frees the memory.
///
/// # Safety
///
/// It was taken by `take`, for as many ports as call this once each, and the port uses nothing of
/// it from now on.
pub(crate) unsafe fn leave(memory: sys::scq_memory) {
    // SAFETY: the front is there until the last port leaves.
    let before = unsafe { (*memory.block.cast::<Front>()).ports.fetch_sub(1, Ordering::AcqRel) };
    if before == 1 {
        // SAFETY: this is the last port.
        unsafe { free(memory) };
    }
}
