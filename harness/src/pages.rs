//! Memory with nothing around it: some pages that can be read only, between two that cannot be used.
//! A read outside of them, or a write to them, ends the program.

use std::ffi::{c_char, c_int, c_long, c_uint, c_void};

extern "C" {
    fn memfd_create(name: *const c_char, flags: c_uint) -> c_int;
    fn ftruncate(fd: c_int, length: c_long) -> c_int;
    fn mmap(
        at: *mut c_void,
        length: usize,
        protection: c_int,
        flags: c_int,
        fd: c_int,
        offset: c_long,
    ) -> *mut c_void;
}

const PROT_NONE: c_int = 0;
const PROT_READ: c_int = 1;
const PROT_WRITE: c_int = 2;
const MAP_SHARED: c_int = 1;
const MAP_PRIVATE: c_int = 2;
const MAP_FIXED: c_int = 16;
const MAP_ANONYMOUS: c_int = 32;

/// The bytes of a page.
const PAGE: usize = 4096;

/// Pages that are seen twice: `written` is where the bytes are put, `read` where they are read, with a
/// page that cannot be used on either side.
pub struct Pages {
    written: *mut u8,
    read: *mut u8,
    length: usize,
}

/// Where bytes lie in the pages.
#[derive(Clone, Copy, Debug)]
pub enum Side {
    /// From the first byte on.
    Start,
    /// Up to the last byte.
    End,
}

impl Pages {
    /// Pages for that many bytes.
    pub fn new(bytes: usize) -> Pages {
        let length = bytes.next_multiple_of(PAGE);
        // SAFETY: the name is ended by 0, the mappings are new, and the fixed one replaces pages of
        // the mapping before it, which nothing uses.
        unsafe {
            let fd = memfd_create(c"pages".as_ptr(), 0);
            assert!(fd >= 0 && ftruncate(fd, length as c_long) == 0);
            let both = PROT_READ | PROT_WRITE;
            let written = map(std::ptr::null_mut(), length, both, MAP_SHARED, fd);
            let closed = MAP_PRIVATE | MAP_ANONYMOUS;
            let around = map(
                std::ptr::null_mut(),
                length + 2 * PAGE,
                PROT_NONE,
                closed,
                -1,
            );
            let inside = around.add(PAGE);
            let read = map(inside, length, PROT_READ, MAP_SHARED | MAP_FIXED, fd);
            Pages {
                written,
                read,
                length,
            }
        }
    }

    /// Puts the bytes at that side, and gives where they can be read.
    pub fn put(&mut self, bytes: &[u8], side: Side) -> *const u8 {
        assert!(bytes.len() <= self.length);
        let at = match side {
            Side::Start => 0,
            Side::End => self.length - bytes.len(),
        };
        // SAFETY: `at` and the bytes after it lie inside both views, and `written` is ours alone.
        unsafe {
            std::ptr::copy_nonoverlapping(bytes.as_ptr(), self.written.add(at), bytes.len());
            self.read.add(at)
        }
    }
}

/// A mapping, which must not fail.
///
/// # Safety
/// As for `mmap`: with MAP_FIXED nothing may use what lies there.
unsafe fn map(at: *mut u8, length: usize, protection: c_int, flags: c_int, fd: c_int) -> *mut u8 {
    let got = mmap(at.cast(), length, protection, flags, fd, 0);
    assert!(got as isize != -1, "mmap failed");
    got.cast()
}
