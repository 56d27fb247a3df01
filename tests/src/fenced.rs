//! Memory between two pages that nobody may read or write, so that a call that reaches outside is killed.

use std::ffi::{c_int, c_void};
use std::os::fd::AsRawFd;
use std::os::unix::net::UnixStream;
use std::ptr::null_mut;
use std::slice;

/// The bytes of a page on x86-64.
pub const PAGE: usize = 4096;

const PROT_NONE: c_int = 0;
const PROT_READ_WRITE: c_int = 3;
const MAP_PRIVATE_ANONYMOUS: c_int = 0x22;

extern "C" {
    fn mmap(
        at: *mut c_void,
        len: usize,
        protection: c_int,
        flags: c_int,
        fd: c_int,
        offset: isize,
    ) -> *mut c_void;
    fn mprotect(at: *mut c_void, len: usize, protection: c_int) -> c_int;
    fn munmap(at: *mut c_void, len: usize) -> c_int;
    fn write(fd: c_int, bytes: *const c_void, count: usize) -> isize;
}

/// A page of memory, the fences before and behind it.
pub struct Fenced {
    start: *mut u8,
}

impl Fenced {
    /// One that holds these bytes.
    pub fn new(bytes: &[u8; PAGE]) -> Self {
        // SAFETY: these are three new pages, of which the middle one alone is used.
        let start = unsafe {
            let all = mmap(
                null_mut(),
                3 * PAGE,
                PROT_NONE,
                MAP_PRIVATE_ANONYMOUS,
                -1,
                0,
            );
            assert!(all as isize != -1, "mmap");
            let start = all.byte_add(PAGE);
            assert_eq!(mprotect(start, PAGE, PROT_READ_WRITE), 0, "mprotect");
            start.cast()
        };
        let mut new = Fenced { start };
        new.bytes_mut().copy_from_slice(bytes);
        new
    }

    pub fn bytes(&self) -> &[u8] {
        // SAFETY: the page is there and written as long as this is.
        unsafe { slice::from_raw_parts(self.start, PAGE) }
    }

    pub fn bytes_mut(&mut self) -> &mut [u8] {
        // SAFETY: as above, and nobody else has it.
        unsafe { slice::from_raw_parts_mut(self.start, PAGE) }
    }

    /// Can the byte so far from the first be read? The system says no where a program would be killed.
    pub fn can_read(&self, at: isize) -> bool {
        let (here, _there) = UnixStream::pair().expect("a pair");
        let byte = self.start.wrapping_offset(at).cast();
        // SAFETY: the system reads the byte, if it can.
        unsafe { write(here.as_raw_fd(), byte, 1) == 1 }
    }
}

impl Drop for Fenced {
    fn drop(&mut self) {
        // SAFETY: these are the three pages, which nobody borrows any more.
        let answer = unsafe { munmap(self.start.wrapping_sub(PAGE).cast(), 3 * PAGE) };
        assert_eq!(answer, 0, "munmap");
    }
}
