//! Readers that take one rule wrongly: they accept what it refuses, or refuse what it lets pass.
//!
//! What a mistaken reader would answer after its slip is not worked out; where it errs it is made to accept, or to refuse, and that is
//! a difference only there.

use crate::fields::{block_bytes, get, partition, table, BLOCK_LENGTH, BLOCK_OFFSET, HEADER};
use crate::limits::{MOST_ENTRIES, MOST_PARTITIONS, ROWS_BYTES};
use crate::reader;

/// The partition headers, as far as the chain stays within the image.
pub fn headers(image: &[u8], place: u64) -> Vec<usize> {
    let Some(at) = usize::try_from(place).ok().filter(|at| at.saturating_add(HEADER) <= image.len()) else { return Vec::new() };
    let mut next = get(image, at + table::FIRST_HEADER);
    let mut found = Vec::new();
    for _ in 0..get(image, at + table::PARTITIONS).min(MOST_PARTITIONS as u32) {
        let header = 4 * next as usize;
        if header + HEADER > image.len() {
            break;
        }
        found.push(header);
        next = get(image, header + partition::NEXT);
    }
    found
}

pub fn field(image: &[u8], header: usize, offset: usize) -> u64 {
    get(image, header + offset).into()
}

fn load_range(image: &[u8], header: usize) -> Option<(u128, u128)> {
    let kind = field(image, header, partition::ATTRIBUTES) >> 24 & 7;
    let start = u128::from(field(image, header, partition::LOAD + 4) << 32 | field(image, header, partition::LOAD));
    matches!(kind, 1 | 4 | 5).then(|| (start, start + 4 * u128::from(field(image, header, partition::U))))
}

fn ranges(image: &[u8], place: u64) -> Vec<Option<(u128, u128)>> {
    headers(image, place).into_iter().map(|header| load_range(image, header)).collect()
}

/// Accepts what is refused with this number, where `errs` says so of the partition's header.
fn accept_if(image: &[u8], place: u64, rows: &mut [u8], number: u64, errs: impl Fn(usize) -> bool) -> u64 {
    let answer = reader::read(image, place, rows);
    let header = (answer % 64).checked_sub(1).and_then(|i| headers(image, place).get(i as usize).copied());
    if answer / 64 == number && header.is_some_and(errs) { 0 } else { answer }
}

/// Refuses what is accepted, and leaves the rows, where `errs` gives an answer.
fn refuse_if(image: &[u8], place: u64, rows: &mut [u8], errs: impl Fn() -> Option<u64>) -> u64 {
    match reader::bill(image, place) != 0 && rows.len() >= ROWS_BYTES {
        true => errs().unwrap_or_else(|| reader::read(image, place, rows)),
        false => reader::read(image, place, rows),
    }
}

pub fn wrapping_span(image: &[u8], place: u64, rows: &mut [u8]) -> u64 {
    accept_if(image, place, rows, 15, |header| {
        let (d, t) = (field(image, header, partition::D), field(image, header, partition::T));
        4 * d + 4 * t > image.len() as u64 && 4 * d + 4 * t % (1 << 32) <= image.len() as u64
    })
}

pub fn wrapping_load(image: &[u8], place: u64, rows: &mut [u8]) -> u64 {
    accept_if(image, place, rows, 16, |header| load_range(image, header).is_some())
}

pub fn wrapping_place(image: &[u8], place: u64, rows: &mut [u8]) -> u64 {
    let answer = reader::read(image, place, rows);
    if answer == 64 * 3 && place % 4 == 0 && place.wrapping_add(128) <= image.len() as u64 && place > 1 << 63 { 64 * 4 } else { answer }
}

pub fn chain_end(image: &[u8], place: u64, rows: &mut [u8]) -> u64 {
    accept_if(image, place, rows, 10, |header| field(image, header, partition::NEXT) != 0)
}

pub fn neighbours(image: &[u8], place: u64, rows: &mut [u8]) -> u64 {
    accept_if(image, place, rows, 19, |_| {
        ranges(image, place).windows(2).all(|pair| match (pair[0], pair[1]) {
            (Some(a), Some(b)) => a.1 <= b.0 || b.1 <= a.0,
            _ => true,
        })
    })
}

pub fn reserved_bits(image: &[u8], place: u64, rows: &mut [u8]) -> u64 {
    refuse_if(image, place, rows, || {
        let bad = |&header: &usize| field(image, header, partition::ATTRIBUTES) & 0xC000 != 0;
        headers(image, place).iter().position(bad).map(|i| 64 * 12 + i as u64 + 1)
    })
}

pub fn touching(image: &[u8], place: u64, rows: &mut [u8]) -> u64 {
    refuse_if(image, place, rows, || {
        let ranges: Vec<_> = ranges(image, place).into_iter().flatten().collect();
        ranges.iter().any(|a| ranges.iter().any(|b| a.1 == b.0)).then_some(64 * 19 + 2)
    })
}

pub fn top_of_memory(image: &[u8], place: u64, rows: &mut [u8]) -> u64 {
    refuse_if(image, place, rows, || {
        let at_top = |range: &Option<(u128, u128)>| range.is_some_and(|(_, end)| end == 1 << 64);
        ranges(image, place).iter().position(at_top).map(|i| 64 * 16 + i as u64 + 1)
    })
}

pub fn block_in_padding(image: &[u8], place: u64, rows: &mut [u8]) -> u64 {
    refuse_if(image, place, rows, || {
        let headers = headers(image, place);
        let word = |&header: &usize, offset| field(image, header, offset);
        let blocks = headers.iter().map(|h| (4 * word(h, BLOCK_OFFSET), 4 * word(h, BLOCK_OFFSET) + word(h, BLOCK_LENGTH)));
        let spans = |h: &usize| (4 * word(h, partition::D), 4 * word(h, partition::D) + 4 * word(h, partition::T));
        let mut blocks = blocks.filter(|block| block.0 != block.1);
        blocks.any(|b| headers.iter().map(spans).any(|s| b.0 < s.1 && s.0 < b.1)).then_some(64 * 18)
    })
}

pub fn longest_block(image: &[u8], place: u64, rows: &mut [u8]) -> u64 {
    refuse_if(image, place, rows, || {
        let long = |&header: &usize| field(image, header, BLOCK_LENGTH) == block_bytes(MOST_ENTRIES) as u64;
        headers(image, place).iter().position(long).map(|i| 64 * 17 + i as u64 + 1)
    })
}

pub fn index_twice(image: &[u8], place: u64, rows: &mut [u8]) -> u64 {
    let p = reader::read(image, place, &mut rows.to_vec()) % 64;
    accept_if(image, place, rows, 17, |header| {
        let (start, length) = (4 * field(image, header, BLOCK_OFFSET) as usize, field(image, header, BLOCK_LENGTH) as usize);
        let block = image.get(start..start.saturating_add(length)).unwrap_or(&[]);
        length % 16 == 0 && block.chunks_exact(52).filter(|entry| u64::from(get(entry, 0)) == p).count() > 1
    })
}

pub fn own_block(image: &[u8], place: u64, rows: &mut [u8]) -> u64 {
    let answer = reader::read(image, place, rows);
    if answer == 64 * 17 { 0 } else { answer }
}
