//! Memory between two pages that fault when they are touched. Linux on x86-64, by the C library that
//! std links.

use std::cell::RefCell;
use std::ffi::{c_int, c_long, c_void};
use std::ptr::{null_mut, NonNull};

pub const PAGE: usize = 4_096;

const NO_ACCESS: c_int = 0;
const READ_AND_WRITE: c_int = 3;
const PRIVATE_AND_ANONYMOUS: c_int = 0x22;

extern "C" {
    fn mmap(
        wanted: *mut c_void,
        bytes: usize,
        access: c_int,
        flags: c_int,
        file: c_int,
        offset: c_long,
    ) -> *mut c_void;
    fn mprotect(at: *mut c_void, bytes: usize, access: c_int) -> c_int;
    fn munmap(at: *mut c_void, bytes: usize) -> c_int;
}

/// Pages to read and write, with a page that faults before the first and after the last.
#[derive(Debug)]
pub struct Region {
    start: NonNull<u8>,
    pages: usize,
}

// SAFETY: a region is owned memory of the process; nothing in it belongs to a thread.
unsafe impl Send for Region {}
unsafe impl Sync for Region {}

thread_local! {
    /// Regions to be used again: at each position those of 2 to that power pages.
    static POOL: RefCell<Vec<Vec<Region>>> = const { RefCell::new(Vec::new()) };
}

impl Region {
    /// A region of at least so many bytes; what it holds is left open.
    pub fn take(bytes: usize) -> Region {
        let pages = bytes.div_ceil(PAGE).max(1).next_power_of_two();
        let class = pages.trailing_zeros() as usize;
        let used = POOL.with_borrow_mut(|pool| pool.get_mut(class).and_then(Vec::pop));
        used.unwrap_or_else(|| Region::map(pages))
    }

    /// Keeps a region for the next that needs one of its size.
    pub fn give_back(self) {
        let class = self.pages.trailing_zeros() as usize;
        // Once the thread is ending there is no pool, and the region is dropped.
        let _ = POOL.try_with(|pool| {
            let mut pool = pool.borrow_mut();
            if pool.len() <= class {
                pool.resize_with(class + 1, Vec::new);
            }
            pool[class].push(self);
        });
    }

    fn map(pages: usize) -> Region {
        let whole = (pages + 2) * PAGE;
        // SAFETY: asks for fresh memory at any address; the inner pages of it are opened.
        let start = unsafe {
            let outer = mmap(null_mut(), whole, NO_ACCESS, PRIVATE_AND_ANONYMOUS, -1, 0);
            assert!(outer as isize != -1, "no memory for {pages} pages");
            let inner = outer.cast::<u8>().add(PAGE);
            assert_eq!(mprotect(inner.cast(), pages * PAGE, READ_AND_WRITE), 0, "access to pages");
            inner
        };
        Region { start: NonNull::new(start).expect("an address"), pages }
    }

    /// The first byte.
    pub fn start(&self) -> *mut u8 {
        self.start.as_ptr()
    }

    pub fn bytes(&self) -> usize {
        self.pages * PAGE
    }
}

impl Drop for Region {
    fn drop(&mut self) {
        // SAFETY: the pages and both guards were mapped together and nothing points to them now.
        unsafe { munmap(self.start().sub(PAGE).cast(), self.bytes() + 2 * PAGE) };
    }
}
