//! For tests: the largest piece of memory that a thread has asked for.
use std::alloc::{GlobalAlloc, Layout, System};
use std::cell::Cell;

thread_local!(static LARGEST: Cell<usize> = const { Cell::new(0) });

struct Watched;

#[global_allocator]
static ALLOCATOR: Watched = Watched;

// SAFETY: all is done by the system's allocator, with what it is given.
unsafe impl GlobalAlloc for Watched {
    unsafe fn alloc(&self, layout: Layout) -> *mut u8 {
        note(layout.size());
        System.alloc(layout)
    }

    unsafe fn alloc_zeroed(&self, layout: Layout) -> *mut u8 {
        note(layout.size());
        System.alloc_zeroed(layout)
    }

    unsafe fn dealloc(&self, place: *mut u8, layout: Layout) {
        System.dealloc(place, layout)
    }
}

fn note(size: usize) {
    // At the end of a thread the cell is gone, and nobody asks.
    let _ = LARGEST.try_with(|largest| largest.set(largest.get().max(size)));
}

/// The largest piece that some work asks for.
pub fn during(work: impl FnOnce()) -> usize {
    LARGEST.with(|largest| largest.set(0));
    work();
    LARGEST.with(Cell::get)
}
