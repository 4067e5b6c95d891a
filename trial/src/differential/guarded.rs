//! Memory with a page on either side that may not be touched, for the slices that are lent: an access
//! outside the slice ends the program instead of going unseen.

use std::ffi::{c_int, c_long, c_void};
use std::ptr::null_mut;

/// The calls of POSIX that it takes, with their values on Linux.
mod posix {
    use super::{c_int, c_long, c_void};

    pub const PROT_NONE: c_int = 0;
    pub const PROT_READ: c_int = 1;
    pub const PROT_WRITE: c_int = 2;
    pub const MAP_PRIVATE: c_int = 0x02;
    pub const MAP_ANONYMOUS: c_int = 0x20;
    pub const SC_PAGESIZE: c_int = 30;

    unsafe extern "C" {
        /// Maps pages into the address space; all bits set if it can't.
        pub fn mmap(
            address: *mut c_void,
            length: usize,
            protection: c_int,
            flags: c_int,
            file: c_int,
            offset: c_long,
        ) -> *mut c_void;
        /// Gives pages that were mapped back; 0 if it can.
        pub fn munmap(address: *mut c_void, length: usize) -> c_int;
        /// Says what may be done with pages; 0 if it can.
        pub fn mprotect(address: *mut c_void, length: usize, protection: c_int) -> c_int;
        /// A limit or size of the system; -1 if it is unknown.
        pub fn sysconf(name: c_int) -> c_long;
    }
}

/// Pages that may be read and written, between two that may not be touched.
pub struct Guarded {
    /// The first of the two.
    start: *mut u8,
    page: usize,
    /// The bytes between the two: whole pages.
    room: usize,
}

/// Against which of the two pages a slice is put.
#[derive(Clone, Copy, Debug, PartialEq, Eq)]
pub enum Against {
    /// The slice begins where the first one ends: the byte before it may not be touched.
    Beginning,
    /// The slice ends where the second one begins: the byte after it may not be touched.
    End,
}

impl Guarded {
    /// Room for slices of up to so many bytes.
    pub fn new(longest: usize) -> Guarded {
        // SAFETY: `sysconf` has no conditions.
        let page = unsafe { posix::sysconf(posix::SC_PAGESIZE) } as usize;
        let room = longest.next_multiple_of(page);
        // SAFETY: new pages are asked for, wherever there is place, which touches nothing of ours.
        let start = unsafe {
            let flags = posix::MAP_PRIVATE | posix::MAP_ANONYMOUS;
            posix::mmap(null_mut(), page + room + page, posix::PROT_NONE, flags, -1, 0)
        };
        assert!(start as usize != usize::MAX, "no memory for guarded pages");
        // SAFETY: the pages between the first and the last are ours, and not in use yet.
        let opened =
            unsafe { posix::mprotect(start.byte_add(page), room, posix::PROT_READ | posix::PROT_WRITE) };
        assert!(opened == 0, "guarded pages can't be opened for reading and writing");
        Guarded { start: start.cast(), page, room }
    }

    /// A slice of so many bytes against one of the two pages. It holds what was left there.
    pub fn slice(&mut self, length: usize, against: Against) -> &mut [u8] {
        assert!(length <= self.room, "{length} bytes don't fit into {}", self.room);
        let before = match against {
            Against::Beginning => 0,
            Against::End => self.room - length,
        };
        // SAFETY: `page + before + length` is at most `page + room`, so the slice lies within the pages
        // that may be read and written; they hold bytes, and are borrowed as long as the slice is.
        unsafe { std::slice::from_raw_parts_mut(self.start.add(self.page + before), length) }
    }

    /// A slice with a copy of the bytes.
    pub fn copy(&mut self, bytes: &[u8], against: Against) -> &mut [u8] {
        let slice = self.slice(bytes.len(), against);
        slice.copy_from_slice(bytes);
        slice
    }
}

impl Drop for Guarded {
    fn drop(&mut self) {
        // SAFETY: the pages were mapped by `new` with this length, and no slice of them is left.
        unsafe { posix::munmap(self.start.cast(), self.page + self.room + self.page) };
    }
}
