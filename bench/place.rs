// Where things stand moves a row by tenths: slots that run across a page cost more, and so does a state on two lines of the cache. So both sides stand
// alike, in every build: slots 16 bytes after the start of a page, a state at the start of a line.
use std::alloc::{GlobalAlloc, Layout, System};

// At the start of a line of the cache.
#[repr(C, align(64))]
pub struct Line<T>(pub T);

// Slots that a caller lends, 16 bytes after the start of a page.
#[repr(C, align(4096))]
pub struct Page {
    before: [u32; 4],
    pub slots: [u32; 4096],
}

impl Page {
    pub const fn of(x: u32) -> Page {
        Page { before: [x; 4], slots: [x; 4096] }
    }
}

// The same for what Rust's containers allocate.
pub struct Pages;

const BEFORE: usize = 16;

fn wider(layout: Layout) -> Layout {
    assert!(layout.align() <= BEFORE);
    Layout::from_size_align(layout.size() + BEFORE, 4096).expect("a layout that is too large")
}

unsafe impl GlobalAlloc for Pages {
    unsafe fn alloc(&self, layout: Layout) -> *mut u8 {
        let page = System.alloc(wider(layout));
        if page.is_null() { page } else { page.add(BEFORE) }
    }

    unsafe fn dealloc(&self, at: *mut u8, layout: Layout) {
        System.dealloc(at.sub(BEFORE), wider(layout))
    }
}
