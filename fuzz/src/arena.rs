//! The harness's own memory: one block, used from its start again for each input. So only what is lent to the library comes from `malloc`,
//! which AddressSanitizer watches and which is slow under it.

use std::alloc::{GlobalAlloc, Layout};
use std::cell::UnsafeCell;
use std::ptr;

const SIZE: usize = 1 << 28;

pub struct Arena {
    block: UnsafeCell<[u8; SIZE]>,
    used: UnsafeCell<usize>,
}

// The fuzzer calls the harness from one thread alone.
unsafe impl Sync for Arena {}

impl Arena {
    pub const fn new() -> Arena {
        Arena { block: UnsafeCell::new([0; SIZE]), used: UnsafeCell::new(0) }
    }

    /// Gives everything back.
    ///
    /// # Safety
    /// Nothing that was allocated is used afterwards.
    pub unsafe fn clear(&self) {
        unsafe { *self.used.get() = 0 }
    }

    fn start(&self) -> *mut u8 {
        self.block.get().cast()
    }

    /// Does this block end where the used part ends?
    unsafe fn is_last(&self, block: *mut u8, layout: Layout) -> bool {
        unsafe { block.add(layout.size()) == self.start().add(*self.used.get()) }
    }
}

unsafe impl GlobalAlloc for Arena {
    unsafe fn alloc(&self, layout: Layout) -> *mut u8 {
        let used = unsafe { &mut *self.used.get() };
        let from = (self.start() as usize + *used).next_multiple_of(layout.align()) - self.start() as usize;
        if SIZE - from < layout.size() {
            return ptr::null_mut();
        }
        *used = from + layout.size();
        unsafe { self.start().add(from) }
    }

    unsafe fn dealloc(&self, block: *mut u8, layout: Layout) {
        unsafe {
            if self.is_last(block, layout) {
                *self.used.get() -= layout.size();
            }
        }
    }
}
