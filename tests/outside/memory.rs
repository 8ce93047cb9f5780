//! Memory with an unreadable page before and after it, so that a reader which leaves the lent image is stopped by the processor.
//!
//! Assumes 64-bit Linux: the numbers below are its own. Pages that nobody has written hold zeros and take no memory, which is how
//! images of a gibibyte are lent.

use std::ffi::{c_int, c_void};

extern "C" {
    fn mmap(address: *mut c_void, length: usize, protection: c_int, flags: c_int, file: c_int, offset: i64) -> *mut c_void;
    fn mprotect(address: *mut c_void, length: usize, protection: c_int) -> c_int;
    fn munmap(address: *mut c_void, length: usize) -> c_int;
}

const NO_ACCESS: c_int = 0;
const READ: c_int = 1;
const WRITE: c_int = 2;
const PRIVATE: c_int = 0x02;
const ANONYMOUS: c_int = 0x20;
const NO_RESERVE: c_int = 0x4000;

/// A multiple of every usual page size.
const PAGE: usize = 65_536;

pub struct Region {
    mapped: *mut u8,
    bytes: usize,
}

impl Region {
    /// At least so many bytes between two unreadable pages; nothing if the system refuses.
    pub fn new(bytes: usize) -> Option<Region> {
        let bytes = bytes.next_multiple_of(PAGE);
        // SAFETY: asks for new memory anywhere; no memory in use is touched.
        let mapped = unsafe { mmap(std::ptr::null_mut(), bytes + 2 * PAGE, NO_ACCESS, PRIVATE | ANONYMOUS | NO_RESERVE, -1, 0) };
        if mapped as isize == -1 {
            return None;
        }
        let region = Region { mapped: mapped.cast(), bytes };
        region.allow(READ | WRITE).then_some(region)
    }

    fn allow(&self, protection: c_int) -> bool {
        // SAFETY: the pages are this region's own, and no slice of them is alive, as every slice borrows the region.
        unsafe { mprotect(self.mapped.add(PAGE).cast(), self.bytes, protection) == 0 }
    }

    pub fn bytes(&self) -> usize {
        self.bytes
    }

    /// The last `length` bytes, up to the unreadable page.
    pub fn at_end(&mut self, length: usize) -> &mut [u8] {
        self.part(self.bytes - length, length)
    }

    /// The first `length` bytes, from the unreadable page on.
    pub fn at_start(&mut self, length: usize) -> &mut [u8] {
        self.part(0, length)
    }

    fn part(&mut self, from: usize, length: usize) -> &mut [u8] {
        assert!(from + length <= self.bytes);
        // SAFETY: within the writable pages, and borrowed from the region as long as the slice lives.
        unsafe { std::slice::from_raw_parts_mut(self.mapped.add(PAGE + from), length) }
    }

    /// The last `length` bytes, to be read only while `look` runs: a reader that writes to them is stopped.
    pub fn read_only<T>(&mut self, length: usize, look: impl FnOnce(&[u8]) -> T) -> T {
        assert!(self.allow(READ));
        let result = look(self.at_end(length));
        assert!(self.allow(READ | WRITE));
        result
    }

    /// Reads the byte after the last one. It ends the process.
    pub fn touch_guard(&self) -> u8 {
        // SAFETY: none; the unreadable page is meant to stop it.
        unsafe { std::ptr::read_volatile(self.mapped.add(PAGE + self.bytes)) }
    }
}

impl Drop for Region {
    fn drop(&mut self) {
        // SAFETY: the whole mapping, which nothing borrows any more.
        unsafe { munmap(self.mapped.cast(), self.bytes + 2 * PAGE) };
    }
}
