//! An allocator for nom's `count`, which reserves by the count it reads before it reads a single element: up to 2^32-1 strings of 24
//! bytes, 96 GiB, and a refusal of the reservation ends the process.
//!
//! What is asked beyond `CAP` is granted as `CAP` bytes. `count` writes only what it has read, and each element took at least a byte of
//! the input, so with inputs of at most `LONGEST` bytes no more than a part of `CAP` is written, whatever the count. Every other
//! allocation of the oracle is below `CAP` by the same bound. Memory that is not written is not taken, so `CAP` costs nothing.

use std::alloc::{GlobalAlloc, Layout, System};

/// The longest input that is asked. A longer one gets the answer `memory`.
pub const LONGEST: usize = 4 << 20;

const CAP: usize = 256 << 20;

pub struct Capped;

fn capped(layout: Layout) -> Layout {
    if layout.size() <= CAP {
        return layout;
    }
    Layout::from_size_align(CAP, layout.align()).unwrap_or(layout)
}

unsafe impl GlobalAlloc for Capped {
    unsafe fn alloc(&self, layout: Layout) -> *mut u8 {
        System.alloc(capped(layout))
    }

    unsafe fn alloc_zeroed(&self, layout: Layout) -> *mut u8 {
        System.alloc_zeroed(capped(layout))
    }

    unsafe fn dealloc(&self, at: *mut u8, layout: Layout) {
        System.dealloc(at, capped(layout))
    }

    unsafe fn realloc(&self, at: *mut u8, layout: Layout, size: usize) -> *mut u8 {
        System.realloc(at, capped(layout), size.min(CAP))
    }
}
