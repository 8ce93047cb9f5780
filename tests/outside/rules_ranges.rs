//! Rules 15 to 19 of the second reader, which are about ranges: spans, load ranges and hash blocks, and which of them may meet.

use super::headers::{bits, none_meet, pairs, part, word_at, Header, Range, Ranges, HEADER_BYTES};
use super::rules::refusal;
use super::{BOOT_HEADER_BYTES, DIGEST_BYTES, ENTRY_BYTES, MOST_ENTRIES, MOST_PARTITIONS};

pub(super) fn rule_15(image: &[u8], header: &Header) -> bool {
    let digest = Range::from(4 * u64::from(header.word(0x2C)), DIGEST_BYTES);
    let has_checksum = bits(header.attributes(), 13, 12) == 3;
    header.span().ends_within(image) && (!has_checksum || digest.ends_within(image))
}

pub(super) fn rule_16(header: &Header) -> bool {
    match header.load_range() {
        Some(range) => range.end <= 1 << 64,
        None => header.load_address() == u64::MAX,
    }
}

/// Where each partition's hash entry lies, 0 if it has no block. The table's own block comes first, as p = 0.
pub(super) fn rule_17(image: &[u8], table: &Header, partitions: &[Header]) -> Result<[u64; MOST_PARTITIONS], u64> {
    let mut entries = [0; MOST_PARTITIONS];
    hash_entry(image, table, 0).ok_or(refusal(17, 0))?;
    for (p, header) in (1..).zip(partitions) {
        entries[p - 1] = hash_entry(image, header, p as u32).ok_or(refusal(17, p))?;
    }
    Ok(entries)
}

/// Rule 17 for one owner: where the entry with its own index lies, 0 if it has no block, nothing if the block is bad.
fn hash_entry(image: &[u8], owner: &Header, own_index: u32) -> Option<u64> {
    match (owner.word(0x60), owner.word(0x64)) {
        (0, 0) => return Some(0),
        (0, _) | (_, 0) => return None,
        _ => {}
    }
    let range = owner.block()?;
    let count = entry_count(range.end - range.start)?;
    let block = part(image, range)?;
    let entries = block.chunks_exact(ENTRY_BYTES as usize).take(count as usize);
    let mut own = (0..).zip(entries).filter(|(_, entry)| word_at(entry) == own_index);
    let (first, _) = own.next()?;
    own.next().is_none().then_some(range.start + ENTRY_BYTES * first)
}

/// The n from 1 to 33 whose 52n, rounded up to a multiple of 16, is this length. Rounding adds less than an entry, so n is length / 52.
fn entry_count(length: u64) -> Option<u64> {
    let n = length / ENTRY_BYTES;
    ((1..=MOST_ENTRIES as u64).contains(&n) && (ENTRY_BYTES * n).next_multiple_of(16) == length).then_some(n)
}

pub(super) fn rule_18(table: &Header, partitions: &[Header]) -> bool {
    let mut tables: Ranges<{ 3 + MOST_PARTITIONS }> = Ranges::none();
    let (mut spans, mut bodies): (Ranges<MOST_PARTITIONS>, Ranges<MOST_PARTITIONS>) = (Ranges::none(), Ranges::none());
    let mut blocks: Ranges<MOST_ENTRIES> = Ranges::none();
    if table.is_full() {
        tables.add(Range::from(0, BOOT_HEADER_BYTES));
    }
    tables.add(table.with_optional_data());
    tables.add(table.image_headers());
    table.block().into_iter().for_each(|block| blocks.add(block));
    for header in partitions {
        tables.add(Range::from(header.start, HEADER_BYTES));
        spans.add(header.span());
        bodies.add(header.body());
        header.block().into_iter().for_each(|block| blocks.add(block));
    }
    let (tables, spans, bodies, blocks) = (tables.all(), spans.all(), bodies.all(), blocks.all());
    pairs(tables).all(|(a, b)| !a.meets(b))
        && pairs(spans).all(|(a, b)| !a.meets(b))
        && none_meet(tables, spans)
        && none_meet(blocks, tables)
        && none_meet(blocks, bodies)
        && pairs(blocks).all(|(a, b)| a == b || !a.meets(b))
}

pub(super) fn rule_19(partitions: &[Header]) -> Result<(), u64> {
    for (index, later) in partitions.iter().enumerate() {
        let Some(range) = later.load_range() else { continue };
        let mut earlier = partitions[..index].iter().filter_map(Header::load_range);
        if earlier.any(|other| range.meets(&other)) {
            return Err(refusal(19, index + 1));
        }
    }
    Ok(())
}
