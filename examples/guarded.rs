//! Memory whose last byte is directly followed by a page that may not be touched, so that an access
//! of one byte too many ends the program. The page before it is filled with a pattern, so that a
//! byte written too early shows. For Linux on x86-64.

use std::os::raw::{c_int, c_long, c_void};

extern "C" {
    fn mmap(at: *mut c_void, length: usize, access: c_int, flags: c_int, file: c_int, offset: c_long) -> *mut c_void;
    fn mprotect(at: *mut c_void, length: usize, access: c_int) -> c_int;
    fn munmap(at: *mut c_void, length: usize) -> c_int;
}

const PAGE: usize = 4096;
const NO_ACCESS: c_int = 0;
const READ: c_int = 1;
const READ_AND_WRITE: c_int = 3;
const PRIVATE_AND_ANONYMOUS: c_int = 0x22;

const FILL: u8 = 0xA7;

/// A page and a barred one after it. The lent bytes are the last of the page.
///
/// The second page is kept and barred, not given back: another mapping could take its place.
pub struct Guarded {
    page: *mut u8,
    length: usize,
}

impl Guarded {
    pub fn new(length: usize) -> Guarded {
        assert!(length <= PAGE, "more than a page");
        // SAFETY: a new mapping of two pages, of which only the first is written.
        unsafe {
            let page = mmap(std::ptr::null_mut(), 2 * PAGE, READ_AND_WRITE, PRIVATE_AND_ANONYMOUS, -1, 0).cast::<u8>();
            assert!(page as isize != -1, "mmap");
            assert_eq!(mprotect(page.add(PAGE).cast(), PAGE, NO_ACCESS), 0, "mprotect");
            page.write_bytes(FILL, PAGE);
            Guarded { page, length }
        }
    }

    /// The whole page: what stands before the lent bytes, and then these.
    fn page(&self) -> &[u8] {
        // SAFETY: the page is mapped and filled as long as `self` lives.
        unsafe { std::slice::from_raw_parts(self.page, PAGE) }
    }

    pub fn bytes(&self) -> &[u8] {
        &self.page()[PAGE - self.length..]
    }

    pub fn bytes_mut(&mut self) -> &mut [u8] {
        // SAFETY: as for `page`, and `self` is borrowed by nobody else.
        unsafe { std::slice::from_raw_parts_mut(self.page.add(PAGE - self.length), self.length) }
    }

    /// Whether these bytes stand at the start of what was lent, and every other byte of the page is as it was.
    pub fn holds_only(&self, put: &[u8]) -> bool {
        let (before, after) = (PAGE - self.length, self.length - put.len());
        self.page() == [vec![FILL; before], put.to_vec(), vec![FILL; after]].concat()
    }
}

impl Drop for Guarded {
    fn drop(&mut self) {
        // SAFETY: the mapping made in `new`; no part of it outlives `self`.
        assert_eq!(unsafe { munmap(self.page.cast(), 2 * PAGE) }, 0, "munmap");
    }
}

/// Guarded bytes that may only be read.
pub struct ReadOnly(Guarded);

impl ReadOnly {
    pub fn copy_of(bytes: &[u8]) -> ReadOnly {
        let mut copy = Guarded::new(bytes.len());
        copy.bytes_mut().copy_from_slice(bytes);
        // SAFETY: the copy is ours, and the type that keeps it lends no mutable part.
        assert_eq!(unsafe { mprotect(copy.page.cast(), PAGE, READ) }, 0, "mprotect");
        ReadOnly(copy)
    }

    pub fn bytes(&self) -> &[u8] {
        self.0.bytes()
    }
}
