//! All rules of the second reader in order, and rules 1 to 14 themselves: lengths, the table, the boot header, the chain, and each header's
//! words. `rules_ranges.rs` has those about ranges, `rules_images.rs` the one about image headers.

use super::acceptance::Accepted;
use super::headers::{bits, sum_of_words, word_at, Header};
use super::rules_images::rule_20;
use super::rules_ranges::{rule_15, rule_16, rule_17, rule_18, rule_19};
use super::{BOOT_HEADER_BYTES, COMMON_KEYS, LONGEST_IMAGE, MOST_IMAGES, MOST_PARTITIONS, ROWS_BYTES, USER_KEYS};

/// All rules in order; an error is the answer 64 × number + p. Bill, body and owner pass no row buffer, so rule 2 doesn't arise there.
pub(super) fn examine(image: &[u8], place: u64, row_bytes: Option<usize>) -> Result<Accepted<'_>, u64> {
    require(1, rule_1(image))?;
    require(2, rule_2(row_bytes))?;
    let table = rule_3(image, place).ok_or(refusal(3, 0))?;
    require(4, rule_4(&table))?;
    require(5, rule_5(&table))?;
    require(6, rule_6(&table))?;
    require(7, rule_7(&table))?;
    require(8, rule_8(image, &table))?;
    require(9, rule_9(image, &table))?;
    let (headers, count) = rule_10(image, &table)?;
    let partitions = &headers[..count];
    require_each(11, partitions, rule_11)?;
    require_each(12, partitions, rule_12)?;
    require_each(13, partitions, rule_13)?;
    require_each(14, partitions, rule_14)?;
    require_each(15, partitions, |header| rule_15(image, header))?;
    require_each(16, partitions, rule_16)?;
    let entries = rule_17(image, &table, partitions)?;
    require(18, rule_18(&table, partitions))?;
    rule_19(partitions)?;
    let owners = rule_20(image, &table, partitions).ok_or(refusal(20, 0))?;
    Ok(Accepted { table, headers, entries, owners, count })
}

pub(super) fn refusal(number: u64, p: usize) -> u64 {
    64 * number + p as u64
}

/// A rule about no partition.
fn require(number: u64, holds: bool) -> Result<(), u64> {
    if holds { Ok(()) } else { Err(refusal(number, 0)) }
}

/// A rule about each partition: the smallest p that breaks it is answered.
fn require_each(number: u64, partitions: &[Header], holds: impl Fn(&Header) -> bool) -> Result<(), u64> {
    match partitions.iter().position(|header| !holds(header)) {
        None => Ok(()),
        Some(index) => Err(refusal(number, index + 1)),
    }
}

pub(super) fn rule_1(image: &[u8]) -> bool {
    image.len() <= LONGEST_IMAGE
}

pub(super) fn rule_2(row_bytes: Option<usize>) -> bool {
    row_bytes.is_none_or(|bytes| bytes >= ROWS_BYTES)
}

/// The table, if it may lie at this place.
pub(super) fn rule_3(image: &[u8], place: u64) -> Option<Header<'_>> {
    if place % 4 == 0 { Header::at(image, place) } else { None }
}

pub(super) fn rule_4(table: &Header) -> bool {
    table.word(0x7C) == table.sum()
}

pub(super) fn rule_5(table: &Header) -> bool {
    table.word(0x00) == 0x0001_0000 && (table.kind() == b"FPDI" || table.kind() == b"PPDI")
}

pub(super) fn rule_6(table: &Header) -> bool {
    let sizes = table.word(0x2C);
    (1..=MOST_IMAGES).contains(&table.images())
        && (1..=MOST_PARTITIONS as u64).contains(&table.partitions())
        && bits(sizes, 7, 0) == 32
        && bits(sizes, 15, 8) == 16
        && bits(sizes, 23, 16) == 32
        && table.optional_words() % 4 == 0
        && table.word(0x78) == 0
}

pub(super) fn rule_7(table: &Header) -> bool {
    let key = table.word(0x40);
    key == 0 || COMMON_KEYS.contains(&key)
}

pub(super) fn rule_8(image: &[u8], table: &Header) -> bool {
    if !table.is_full() {
        return true;
    }
    // A table at 4,416 or later that rule 3 has let pass means that the boot header lies within the image.
    let Some(boot) = image.first_chunk::<{ BOOT_HEADER_BYTES as usize }>() else { return false };
    let word = |offset: usize| word_at(&boot[offset..offset + 4]);
    let (boot_key, table_key) = (word(0x18), table.word(0x40));
    let source = u64::from(word(0x1C));
    let (cdo, cdo_total) = (word(0x24), word(0x28));
    let (plm, plm_total) = (word(0x2C), word(0x30));
    table.start >= BOOT_HEADER_BYTES
        && word(0x10) == 0xAA99_5566
        && &boot[0x14..0x18] == b"XNLX"
        && word(0x113C) == sum_of_words(&boot[0x10..0x113C]).wrapping_neg()
        && (boot_key == 0 || COMMON_KEYS.contains(&boot_key))
        && (table_key == 0 || table_key == boot_key)
        && 1 <= plm
        && plm <= plm_total
        && cdo <= cdo_total
        && source >= BOOT_HEADER_BYTES
        && source + u64::from(plm_total) <= image.len() as u64
}

pub(super) fn rule_9(image: &[u8], table: &Header) -> bool {
    table.with_optional_data().ends_within(image) && table.image_headers().ends_within(image)
}

/// The headers of the chain and how many there are. Behind the last one the array holds the table as a filler that nobody looks at.
pub(super) fn rule_10<'a>(image: &'a [u8], table: &Header<'a>) -> Result<([Header<'a>; MOST_PARTITIONS], usize), u64> {
    let count = table.partitions() as usize;
    let mut headers = [*table; MOST_PARTITIONS];
    let mut start = 4 * table.first_partition();
    for p in 1..=count {
        let header = Header::at(image, start).ok_or(refusal(10, p))?;
        let is_last = p == count;
        if (header.next() == 0) != is_last {
            return Err(refusal(10, p));
        }
        headers[p - 1] = header;
        start = 4 * header.next();
    }
    Ok((headers, count))
}

pub(super) fn rule_11(header: &Header) -> bool {
    header.word(0x7C) == header.sum()
}

/// Bits 23, 18, 15:14, 7:6 and 3:0 may hold anything.
pub(super) fn rule_12(header: &Header) -> bool {
    let field = |high, low| bits(header.attributes(), high, low);
    header.word(0x78) == 0
        && field(31, 29) <= 4
        && matches!(field(28, 27), 0 | 3)
        && field(26, 24) != 0
        && field(22, 21) == 0
        && matches!(field(20, 19), 0 | 3)
        && matches!(field(17, 16), 0 | 1)
        && matches!(field(13, 12), 0 | 3)
        && matches!(field(11, 8), 0..=6 | 8 | 9)
        && matches!(field(5, 4), 0 | 3)
}

pub(super) fn rule_13(header: &Header) -> bool {
    let key = header.key();
    key == 0 || COMMON_KEYS.contains(&key) || USER_KEYS.contains(&key)
}

pub(super) fn rule_14(header: &Header) -> bool {
    1 <= header.unencrypted()
        && header.unencrypted() <= header.encrypted()
        && header.encrypted() <= header.total()
        && header.word(0x6C) <= header.word(0x68)
        && header.word(0x74) <= header.word(0x70)
}
