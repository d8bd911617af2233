//! Pages of memory that can be closed, so that a load or a store in them faults; and buffers between
//! closed pages.

use std::ptr::{copy_nonoverlapping, null_mut};
use std::slice::from_raw_parts_mut;

// Numbers of Linux on x86-64.
const PAGE: usize = 4096;
const PROT_NONE: i32 = 0;
const PROT_READ: i32 = 1;
const PROT_WRITE: i32 = 2;
const MAP_PRIVATE: i32 = 0x02;
const MAP_ANONYMOUS: i32 = 0x20;

extern "C" {
    fn mmap(at: *mut u8, length: usize, prot: i32, flags: i32, file: i32, from: i64) -> *mut u8;
    fn mprotect(at: *mut u8, length: usize, prot: i32) -> i32;
    fn munmap(at: *mut u8, length: usize) -> i32;
}

/// What can be done in a page.
#[derive(Clone, Copy, PartialEq, Eq, Debug)]
pub enum Access {
    Closed,
    Read,
}

/// Pages of zeros that can be read and written at first.
pub struct Pages {
    start: *mut u8,
    length: usize,
}

impl Pages {
    /// Enough for so many bytes, and at least one.
    pub fn new(bytes: usize) -> Pages {
        let length = whole_pages(bytes);
        let (prot, flags) = (PROT_READ | PROT_WRITE, MAP_PRIVATE | MAP_ANONYMOUS);
        // SAFETY: new memory, at an address that the system chooses.
        let start = unsafe { mmap(null_mut(), length, prot, flags, -1, 0) };
        assert_ne!(start as isize, -1, "no memory for {bytes} bytes");
        Pages { start, length }
    }

    pub fn start(&self) -> *mut u8 {
        self.start
    }

    pub fn length(&self) -> usize {
        self.length
    }

    /// Sets what can be done in the pages from an offset on; whether it could be set. It allocates
    /// nothing, so that a handler of signals can call it.
    ///
    /// # Safety
    /// Nothing that is borrowed of these pages may be used otherwise.
    pub unsafe fn allow(&self, access: Access, from: usize, bytes: usize) -> bool {
        let prot = match access {
            Access::Closed => PROT_NONE,
            Access::Read => PROT_READ,
        };
        mprotect(self.start.add(from), bytes, prot) == 0
    }
}

impl Drop for Pages {
    fn drop(&mut self) {
        // SAFETY: these pages are no other's, and nothing is borrowed of them any more.
        unsafe { munmap(self.start, self.length) };
    }
}

/// So many bytes in whole pages, at least one.
fn whole_pages(bytes: usize) -> usize {
    bytes.next_multiple_of(PAGE).max(PAGE)
}

/// On which side of a buffer its closed page follows directly.
#[derive(Clone, Copy, PartialEq, Eq, Debug)]
pub enum Side {
    Start,
    End,
}

/// A buffer with a closed page directly before its first or after its last element, and one not far
/// from its other end. A load or a store there ends the test program.
pub struct Fenced<T> {
    first: *mut T,
    count: usize,
    /// Holds the buffer.
    _pages: Pages,
}

impl<T: Copy> Fenced<T> {
    pub fn new(content: &[T], side: Side) -> Fenced<T> {
        let bytes = size_of_val(content);
        let inner = whole_pages(bytes);
        let pages = Pages::new(PAGE + inner + PAGE);
        let offset = match side {
            Side::Start => PAGE,
            Side::End => PAGE + inner - bytes,
        };
        // SAFETY: the buffer is within the inner pages, which no other has; the first and the last page
        // have nothing of it.
        unsafe {
            let first = pages.start().add(offset).cast::<T>();
            copy_nonoverlapping(content.as_ptr(), first, content.len());
            let both = [0, PAGE + inner].map(|page| pages.allow(Access::Closed, page, PAGE));
            assert_eq!(both, [true; 2], "a page is not closed");
            Fenced {
                first,
                count: content.len(),
                _pages: pages,
            }
        }
    }

    pub fn lent(&mut self) -> &mut [T] {
        // SAFETY: the buffer is initialised, aligned, and lives as long as its pages.
        unsafe { from_raw_parts_mut(self.first, self.count) }
    }
}
