//! Where the benchmark's memory lies: every block but the smallest begins at a page. A copy's time depends on where its
//! two ends lie in their pages, so both sides are to have theirs at the same places.
use std::alloc::{GlobalAlloc, Layout, System};

const PAGE: usize = 4096;
/// Smaller blocks are nobody's slots.
const SMALL: usize = 64;

struct AtPages;

fn at_page(layout: Layout) -> Layout {
    if layout.size() < SMALL { layout } else { layout.align_to(PAGE).expect("a page is a power of two") }
}

// SAFETY: the system's allocator does the work; a block is given back by the layout that it was asked for with.
unsafe impl GlobalAlloc for AtPages {
    unsafe fn alloc(&self, layout: Layout) -> *mut u8 {
        unsafe { System.alloc(at_page(layout)) }
    }
    unsafe fn dealloc(&self, block: *mut u8, layout: Layout) {
        unsafe { System.dealloc(block, at_page(layout)) }
    }
}

#[global_allocator]
static MEMORY: AtPages = AtPages;
