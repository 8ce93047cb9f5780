//! The limits of the C header and the places of its numbers, read from its text when this program is built: no test writes them down again.
//!
//! The second reader keeps limits of its own, written from the outline; `reader_agrees` compares the two.

use crate::reader;

const HEADER: &[u8] = include_bytes!("../../include/pdi.h");

pub const LAST_RULE: usize = stated(b"PDI_LAST_RULE");
pub const LONGEST_IMAGE: usize = stated(b"PDI_LONGEST_IMAGE");
pub const MOST_PARTITIONS: usize = stated(b"PDI_MOST_PARTITIONS");
pub const ROWS_BYTES: usize = 8 * (HEAD + ROW * MOST_PARTITIONS);
/// Of a hash block: one for the table and one for each partition.
pub const MOST_ENTRIES: usize = MOST_PARTITIONS + 1;

/// The numbers of the head and of a row, and how many there are.
pub const KIND: usize = stated(b"PDI_KIND");
pub const IMAGES: usize = stated(b"PDI_IMAGES");
pub const PARTITIONS: usize = stated(b"PDI_PARTITIONS");
pub const BILLED: usize = stated(b"PDI_BILLED");
pub const HEAD: usize = stated(b"PDI_HEAD");
pub const SPAN_START: usize = stated(b"PDI_SPAN_START");
pub const HASH_ENTRY: usize = stated(b"PDI_HASH_ENTRY");
pub const ROW: usize = stated(b"PDI_ROW");

/// Where a number of the row of partition p stands among all numbers.
pub const fn place(p: usize, number: usize) -> usize {
    HEAD + ROW * (p - 1) + number
}

pub fn reader_agrees() -> bool {
    let ours = (reader::LONGEST_IMAGE, reader::MOST_PARTITIONS, reader::MOST_ENTRIES, reader::HEAD, reader::ROW, reader::ROWS_BYTES);
    ours == (LONGEST_IMAGE, MOST_PARTITIONS, MOST_ENTRIES, HEAD, ROW, ROWS_BYTES)
}

/// What the header gives this name: a number, alone or in `UINT64_C()`, or what it gives another name.
const fn stated(name: &[u8]) -> usize {
    let at = after_space(after_name(name));
    if HEADER[at].is_ascii_digit() {
        return number(at);
    }
    let end = end_of_name(at);
    if HEADER[end] == b'(' { number(end + 1) } else { stated(HEADER.split_at(end).0.split_at(at).1) }
}

/// Where a name that starts a definition ends: `NAME = ` in an enum, or `#define NAME `.
const fn after_name(name: &[u8]) -> usize {
    let mut at = 2;
    loop {
        assert!(at + name.len() < HEADER.len(), "pdi.h lacks a limit");
        let end = at + name.len();
        let is_defined = HEADER[end + 1] == b'=' || HEADER[at - 2] == b'e';
        if is_defined && HEADER[at - 1] == b' ' && HEADER[end] == b' ' && starts_at(at, name) {
            return end;
        }
        at += 1;
    }
}

const fn starts_at(at: usize, name: &[u8]) -> bool {
    let mut i = 0;
    while i < name.len() && HEADER[at + i] == name[i] {
        i += 1;
    }
    i == name.len()
}

const fn after_space(mut at: usize) -> usize {
    while HEADER[at] == b' ' || HEADER[at] == b'=' {
        at += 1;
    }
    at
}

const fn end_of_name(mut at: usize) -> usize {
    while HEADER[at].is_ascii_alphanumeric() || HEADER[at] == b'_' {
        at += 1;
    }
    at
}

const fn number(at: usize) -> usize {
    let mut end = at;
    let mut number = 0;
    while HEADER[end].is_ascii_digit() {
        number = 10 * number + (HEADER[end] - b'0') as usize;
        end += 1;
    }
    assert!(end > at, "a limit of pdi.h is no number");
    number
}
