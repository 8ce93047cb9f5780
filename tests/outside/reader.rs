//! A second reader of PDI boot images. It follows the outline's rules by number and shares no code with the reader under test.
//!
//! It assumes nothing: any bytes, any place and any row buffer get an answer, and nothing panics or is allocated. One function states
//! one rule and carries its number; it says whether the rule holds, or gives what the rule lets pass. They are in `rules.rs`,
//! `rules_ranges.rs` and `rules_images.rs`, the fields' names and offsets in `headers.rs`, what an acceptance writes in `acceptance.rs`.

#[path = "acceptance.rs"]
mod acceptance;
#[path = "headers.rs"]
mod headers;
#[path = "rules.rs"]
mod rules;
#[path = "rules_images.rs"]
mod rules_images;
#[path = "rules_ranges.rs"]
mod rules_ranges;

use headers::part;
use rules::examine;

pub const LONGEST_IMAGE: usize = 1_073_741_824;
const MOST_IMAGES: u64 = 32;
pub const MOST_PARTITIONS: usize = 32;
/// Of a hash block: one for the table and one for each partition.
pub const MOST_ENTRIES: usize = 33;
/// The numbers of the head and of a row, 8 bytes each.
pub const HEAD: usize = 4;
pub const ROW: usize = 8;
pub const ROWS_BYTES: usize = 8 * (HEAD + ROW * MOST_PARTITIONS);
const BOOT_HEADER_BYTES: u64 = 4_416;
const ENTRY_BYTES: u64 = 52;
const DIGEST_BYTES: u64 = 48;

const COMMON_KEYS: [u32; 8] =
    [0xA5C3C5A3, 0xA5C3C5A5, 0xA5C3C5A7, 0x3A5C3C5A, 0x3A5C3C59, 0x3A5C3C57, 0xA35C7C53, 0xA35C7CA5];
const USER_KEYS: [u32; 14] = [
    0x5C3CA5A3, 0x5C3CA5A5, 0x5C3CA5A7, 0xC3A5C5A3, 0xC3A5C5A5, 0xC3A5C5A7, 0xC5C3A5A3, 0xC3A5C5B3, 0xC5C3A5C3, 0xC3A5C5D3,
    0xC5C3A5E3, 0xC3A5C5F3, 0xC5C3A563, 0xC3A5C573,
];

/// Read, in the host's form: 64 × number + p, the rows as little-endian bytes.
pub fn read(image: &[u8], place: u64, rows: &mut [u8]) -> u64 {
    match examine(image, place, Some(rows.len())) {
        Ok(accepted) => {
            accepted.write(rows);
            0
        }
        Err(refusal) => refusal,
    }
}

/// Bill: 4 × the sum of all T, 0 if refused.
pub fn bill(image: &[u8], place: u64) -> u64 {
    examine(image, place, None).map_or(0, |accepted| accepted.billed())
}

/// Body: the first E words of the span of partition p, empty if refused or if p isn't 1 to N.
pub fn body(image: &[u8], place: u64, p: u64) -> &[u8] {
    let Ok(accepted) = examine(image, place, None) else { return &[] };
    let header = index(p).and_then(|i| accepted.partitions().get(i));
    header.and_then(|header| part(image, header.body())).unwrap_or(&[])
}

pub fn body_length(image: &[u8], place: u64, p: u64) -> u64 {
    body(image, place, p).len() as u64
}

/// Owner: the image that owns partition p, counted from 1; 0 if refused or if p isn't 1 to N.
pub fn owner(image: &[u8], place: u64, p: u64) -> u64 {
    let Ok(accepted) = examine(image, place, None) else { return 0 };
    index(p).and_then(|i| accepted.owners().get(i)).copied().unwrap_or(0)
}

/// Where partition p stands in a list of all partitions.
fn index(p: u64) -> Option<usize> {
    usize::try_from(p.checked_sub(1)?).ok()
}
