//! The driver's allocator. What the original allocates goes to an arena that is emptied after each list, since a failed assertion leaks all that was
//! allocated before it; everything else goes to the system's allocator.

use std::alloc::{GlobalAlloc, Layout, System};
use std::sync::atomic::{AtomicBool, AtomicUsize, Ordering::Relaxed};

/// Address space that is only used as far as a list needs it; what does not fit goes to the system's allocator.
const SIZE: usize = 1 << 28;

static BASE: AtomicUsize = AtomicUsize::new(0);
static USED: AtomicUsize = AtomicUsize::new(0);
static INSIDE: AtomicBool = AtomicBool::new(false);

pub struct Allocator;

#[global_allocator]
static ALLOCATOR: Allocator = Allocator;

/// Reserves the arena.
pub fn reserve() {
    let base = unsafe { System.alloc(Layout::from_size_align_unchecked(SIZE, 4096)) };
    assert!(!base.is_null(), "no memory for the arena");
    BASE.store(base as usize, Relaxed);
}

/// Says whether the original is at work, whose memory comes from the arena. The driver has one thread.
pub fn set_inside(inside: bool) {
    INSIDE.store(inside, Relaxed);
}

pub fn is_inside() -> bool {
    INSIDE.load(Relaxed)
}

/// Frees everything in the arena. Nothing of the original may be in use.
pub fn empty() {
    USED.store(0, Relaxed);
}

fn is_ours(pointer: *mut u8) -> bool {
    let base = BASE.load(Relaxed);
    base != 0 && (base..base + SIZE).contains(&(pointer as usize))
}

unsafe impl GlobalAlloc for Allocator {
    unsafe fn alloc(&self, layout: Layout) -> *mut u8 {
        if is_inside() {
            let start = USED.load(Relaxed).next_multiple_of(layout.align());
            if let Some(end) = start.checked_add(layout.size()).filter(|&end| end <= SIZE) {
                USED.store(end, Relaxed);
                return (BASE.load(Relaxed) + start) as *mut u8;
            }
        }
        unsafe { System.alloc(layout) }
    }

    unsafe fn dealloc(&self, pointer: *mut u8, layout: Layout) {
        if !is_ours(pointer) {
            unsafe { System.dealloc(pointer, layout) }
        }
    }

    unsafe fn realloc(&self, pointer: *mut u8, layout: Layout, size: usize) -> *mut u8 {
        if !is_ours(pointer) {
            return unsafe { System.realloc(pointer, layout, size) };
        }
        unsafe {
            let moved = self.alloc(Layout::from_size_align_unchecked(size, layout.align()));
            if !moved.is_null() {
                pointer.copy_to_nonoverlapping(moved, size.min(layout.size()));
            }
            moved
        }
    }
}
