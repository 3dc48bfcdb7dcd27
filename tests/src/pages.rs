//! Numbers in read-only pages between inaccessible pages. A read outside the lent numbers or
//! a write to them ends the test process with a signal.

use std::ffi::c_void;
use std::ptr;

const PAGE: usize = 4096;

// Values of Linux on x86-64.
const PROT_NONE: i32 = 0;
const PROT_READ: i32 = 1;
const PROT_WRITE: i32 = 2;
const MAP_PRIVATE: i32 = 2;
const MAP_ANONYMOUS: i32 = 0x20;

extern "C" {
    fn mmap(
        at: *mut c_void,
        len: usize,
        prot: i32,
        flags: i32,
        fd: i32,
        offset: i64,
    ) -> *mut c_void;
    fn mprotect(at: *mut c_void, len: usize, prot: i32) -> i32;
    fn munmap(at: *mut c_void, len: usize) -> i32;
}

#[derive(Clone, Copy, Debug)]
pub enum Side {
    /// The numbers start right after an inaccessible page.
    Front,
    /// The numbers end right before an inaccessible page.
    End,
}

pub struct Pages<T> {
    base: *mut c_void,
    size: usize,
    numbers: *const T,
    len: usize,
}

impl<T: Copy> Pages<T> {
    pub fn new(numbers: &[T], side: Side) -> Self {
        let bytes = size_of_val(numbers);
        let inner = bytes.div_ceil(PAGE).max(1) * PAGE;
        let size = inner + 2 * PAGE;
        // SAFETY: a fresh private mapping; the numbers are copied into its accessible pages.
        unsafe {
            let flags = MAP_PRIVATE | MAP_ANONYMOUS;
            let base = mmap(ptr::null_mut(), size, PROT_NONE, flags, -1, 0);
            assert!(base as isize != -1, "mmap");
            let first = base.cast::<u8>().add(PAGE);
            let writable = PROT_READ | PROT_WRITE;
            assert_eq!(mprotect(first.cast(), inner, writable), 0, "mprotect");
            let start = match side {
                Side::Front => first,
                Side::End => first.add(inner - bytes),
            };
            let start = start.cast::<T>();
            ptr::copy_nonoverlapping(numbers.as_ptr(), start, numbers.len());
            assert_eq!(mprotect(first.cast(), inner, PROT_READ), 0, "mprotect");
            Pages {
                base,
                size,
                numbers: start,
                len: numbers.len(),
            }
        }
    }

    pub fn numbers(&self) -> &[T] {
        // SAFETY: `new` put `len` numbers there; the pages are readable until the drop.
        unsafe { std::slice::from_raw_parts(self.numbers, self.len) }
    }
}

impl<T> Drop for Pages<T> {
    fn drop(&mut self) {
        // SAFETY: the mapping made by `new`, no longer borrowed.
        unsafe {
            munmap(self.base, self.size);
        }
    }
}
