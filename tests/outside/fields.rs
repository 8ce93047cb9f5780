//! The generator's own list of field offsets and key words, and how it writes words and checksums.
//!
//! It is kept apart from the second reader's list, so that a slip in one of them shows as a damage that doesn't reach its rule.

/// Offsets in the table.
pub mod table {
    pub const VERSION: usize = 0x00;
    pub const IMAGES: usize = 0x04;
    pub const IMAGE_HEADERS: usize = 0x08;
    pub const PARTITIONS: usize = 0x0C;
    pub const FIRST_HEADER: usize = 0x10;
    pub const PDI_ID: usize = 0x20;
    pub const KIND: usize = 0x28;
    pub const SIZES: usize = 0x2C;
    pub const KEY: usize = 0x40;
    pub const OPTIONAL: usize = 0x58;
}

/// Offsets in an image header, and its length.
pub mod image_header {
    pub const FIRST: usize = 0x00;
    pub const COUNT: usize = 0x04;
    /// Words 2 to 14 aren't examined.
    pub const UNEXAMINED: usize = 0x08;
    pub const CHECKSUM: usize = 0x3C;
    pub const BYTES: usize = 64;
}

/// Offsets in a partition header.
pub mod partition {
    pub const E: usize = 0x00;
    pub const U: usize = 0x04;
    pub const T: usize = 0x08;
    pub const NEXT: usize = 0x0C;
    pub const EXECUTION: usize = 0x10;
    pub const LOAD: usize = 0x18;
    pub const D: usize = 0x20;
    pub const ATTRIBUTES: usize = 0x24;
    pub const CHECKSUM_OFFSET: usize = 0x2C;
    pub const ID: usize = 0x30;
    pub const KEY: usize = 0x44;
    pub const KEY_TOTAL: usize = 0x68;
    pub const KEY_ACTUAL: usize = 0x6C;
    pub const SIGNATURE_TOTAL: usize = 0x70;
    pub const SIGNATURE_ACTUAL: usize = 0x74;
}

/// Offsets that table and partition header share.
pub const BLOCK_LENGTH: usize = 0x60;
pub const BLOCK_OFFSET: usize = 0x64;
pub const RESERVED: usize = 0x78;
pub const CHECKSUM: usize = 0x7C;
pub const HEADER: usize = 128;
pub const MOST_IMAGES: usize = 32;

/// Offsets in the boot header.
pub mod boot {
    pub const WIDTH: usize = 0x10;
    pub const NAME: usize = 0x14;
    pub const KEY: usize = 0x18;
    pub const SOURCE: usize = 0x1C;
    pub const CDO: usize = 0x24;
    pub const CDO_TOTAL: usize = 0x28;
    pub const PLM: usize = 0x2C;
    pub const PLM_TOTAL: usize = 0x30;
    pub const USER_DATA: usize = 0x7C;
    pub const CHECKSUM: usize = 0x113C;
    pub const BYTES: usize = 4416;
}

/// The common keys, then the user keys.
pub const KEYS: [u32; 22] = [
    0xA5C3C5A3, 0xA5C3C5A5, 0xA5C3C5A7, 0x3A5C3C5A, 0x3A5C3C59, 0x3A5C3C57, 0xA35C7C53, 0xA35C7CA5, 0x5C3CA5A3, 0x5C3CA5A5,
    0x5C3CA5A7, 0xC3A5C5A3, 0xC3A5C5A5, 0xC3A5C5A7, 0xC5C3A5A3, 0xC3A5C5B3, 0xC5C3A5C3, 0xC3A5C5D3, 0xC5C3A5E3, 0xC3A5C5F3,
    0xC5C3A563, 0xC3A5C573,
];
pub const COMMON: usize = 8;

pub fn get(bytes: &[u8], at: usize) -> u32 {
    u32::from_le_bytes([bytes[at], bytes[at + 1], bytes[at + 2], bytes[at + 3]])
}

pub fn put(bytes: &mut [u8], at: usize, value: u32) {
    bytes[at..at + 4].copy_from_slice(&value.to_le_bytes());
}

fn add(bytes: &mut [u8], at: usize, value: u32) {
    let old = get(bytes, at);
    put(bytes, at, old.wrapping_add(value));
}

fn sum(bytes: &[u8], from: usize, to: usize) -> u32 {
    (from..to).step_by(4).fold(0, |total, at| total.wrapping_add(get(bytes, at)))
}

/// The checksum that the table or partition header at this place ought to have.
pub fn right_checksum(bytes: &[u8], header: usize) -> u32 {
    sum(bytes, header, header + CHECKSUM)
}

pub fn put_checksum_right(bytes: &mut [u8], header: usize) {
    let right = right_checksum(bytes, header);
    put(bytes, header + CHECKSUM, right);
}

/// The checksum that the image header at this place ought to have.
pub fn right_image_checksum(bytes: &[u8], header: usize) -> u32 {
    sum(bytes, header, header + image_header::CHECKSUM)
}

pub fn put_image_checksum_right(bytes: &mut [u8], header: usize) {
    let right = right_image_checksum(bytes, header);
    put(bytes, header + image_header::CHECKSUM, right);
}

/// Makes the checksum that stands there right by changing an unexamined word instead.
pub fn suit_checksum(bytes: &mut [u8], header: usize, unexamined: usize) {
    let missing = get(bytes, header + CHECKSUM).wrapping_sub(right_checksum(bytes, header));
    add(bytes, header + unexamined, missing);
}

/// As `suit_checksum`, for an image header.
pub fn suit_image_checksum(bytes: &mut [u8], header: usize) {
    let missing = get(bytes, header + image_header::CHECKSUM).wrapping_sub(right_image_checksum(bytes, header));
    add(bytes, header + image_header::UNEXAMINED, missing);
}

pub fn put_boot_checksum_right(bytes: &mut [u8]) {
    let right = sum(bytes, boot::WIDTH, boot::CHECKSUM).wrapping_neg();
    put(bytes, boot::CHECKSUM, right);
}

/// As `suit_checksum`, for the boot header.
pub fn suit_boot_checksum(bytes: &mut [u8]) {
    let missing = get(bytes, boot::CHECKSUM).wrapping_neg().wrapping_sub(sum(bytes, boot::WIDTH, boot::CHECKSUM));
    add(bytes, boot::USER_DATA, missing);
}

/// The bytes of a hash block of n entries.
pub fn block_bytes(n: usize) -> usize {
    (52 * n + 15) / 16 * 16
}
