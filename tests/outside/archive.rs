//! The readers to be compared with the second reader: the C archive, and anything else that answers the four questions.
//!
//! The declarations repeat the C header. The archive is linked statically under its own name.

use crate::limits::ROWS_BYTES;

pub trait Subject {
    fn read(&self, image: &[u8], place: u64, rows: &mut [u8]) -> u64;
    fn bill(&self, image: &[u8], place: u64) -> u64;
    fn body_length(&self, image: &[u8], place: u64, p: u64) -> u64;
    fn owner(&self, image: &[u8], place: u64, p: u64) -> u64;
}

extern "C" {
    fn pdi_read(image: *const u8, image_len: usize, place: u64, rows: *mut u8, rows_len: usize) -> u64;
    fn pdi_bill(image: *const u8, image_len: usize, place: u64) -> u64;
    fn pdi_body_length(image: *const u8, image_len: usize, place: u64, p: u64) -> u64;
    fn pdi_owner(image: *const u8, image_len: usize, place: u64, p: u64) -> u64;
}

pub struct Archive;

// SAFETY, for all four: pointer and length come from one slice, so that the image is readable, the rows are writable, and they don't
// overlap. An image behind a `&[u8]` must not be written; the comparer looks whether it was.
impl Subject for Archive {
    fn read(&self, image: &[u8], place: u64, rows: &mut [u8]) -> u64 {
        unsafe { pdi_read(image.as_ptr(), image.len(), place, rows.as_mut_ptr(), rows.len()) }
    }

    fn bill(&self, image: &[u8], place: u64) -> u64 {
        unsafe { pdi_bill(image.as_ptr(), image.len(), place) }
    }

    fn body_length(&self, image: &[u8], place: u64, p: u64) -> u64 {
        unsafe { pdi_body_length(image.as_ptr(), image.len(), place, p) }
    }

    fn owner(&self, image: &[u8], place: u64, p: u64) -> u64 {
        unsafe { pdi_owner(image.as_ptr(), image.len(), place, p) }
    }
}

/// Calls with null pointers of length 0, which the C header allows. Answers whether all answers are right.
pub fn null_with_length_0() -> bool {
    let (none, no_rows) = (std::ptr::null(), std::ptr::null_mut());
    let mut rows = [7u8; ROWS_BYTES];
    // SAFETY: a pointer whose length is 0 is never followed; the others are slices of this function.
    unsafe {
        [0, 4, 2, u64::MAX].into_iter().all(|place| {
            pdi_read(none, 0, place, rows.as_mut_ptr(), rows.len()) == 64 * 3
                && pdi_read(none, 0, place, no_rows, 0) == 64 * 2
                && pdi_read(rows.as_ptr(), 336, place, no_rows, 0) == 64 * 2
                && pdi_bill(none, 0, place) == 0
                && [0, 1, u64::MAX].into_iter().all(|p| pdi_body_length(none, 0, place, p) == 0 && pdi_owner(none, 0, place, p) == 0)
        }) && rows == [7; ROWS_BYTES]
    }
}
