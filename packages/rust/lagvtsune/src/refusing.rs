//! The allocator of the tests, which refuses one allocation when a test requests that.

use std::alloc::{GlobalAlloc, Layout, System};
use std::cell::Cell;

thread_local! {
    /// The number of allocations of this thread until one is refused; 0 if none will be.
    static LEFT: Cell<usize> = const { Cell::new(0) };
    /// The number of blocks that this thread allocated, minus those that it freed.
    static BLOCKS: Cell<isize> = const { Cell::new(0) };
}

struct Refusing;

#[global_allocator]
static ALLOCATOR: Refusing = Refusing;

/// Makes a call and refuses its allocation with this number, counted from 1. Returns the
/// result, and the number of blocks that it allocated minus those that it freed.
pub(crate) fn refused<R>(number: usize, call: impl FnOnce() -> R) -> (R, isize) {
    let before = BLOCKS.get();
    LEFT.set(number);
    let returned = call();
    LEFT.set(0);
    (returned, BLOCKS.get() - before)
}

fn is_refused() -> bool {
    let left = LEFT.get();
    LEFT.set(left.saturating_sub(1));
    left == 1
}

fn counted(block: *mut u8) -> *mut u8 {
    if !block.is_null() {
        BLOCKS.set(BLOCKS.get() + 1);
    }
    block
}

// SAFETY: every block comes from `System`. A refused call returns a null pointer.
unsafe impl GlobalAlloc for Refusing {
    unsafe fn alloc(&self, layout: Layout) -> *mut u8 {
        if is_refused() {
            return std::ptr::null_mut();
        }
        // SAFETY: as the caller of this function promises.
        counted(unsafe { System.alloc(layout) })
    }

    unsafe fn dealloc(&self, block: *mut u8, layout: Layout) {
        BLOCKS.set(BLOCKS.get() - 1);
        // SAFETY: as the caller of this function promises.
        unsafe { System.dealloc(block, layout) }
    }

    unsafe fn realloc(&self, block: *mut u8, layout: Layout, size: usize) -> *mut u8 {
        if is_refused() {
            return std::ptr::null_mut();
        }
        // SAFETY: as the caller of this function promises.
        unsafe { System.realloc(block, layout, size) }
    }
}
