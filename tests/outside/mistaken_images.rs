//! Readers that take the image headers wrongly: rule 20, the size that rule 6 asks for, and the owner.
//!
//! As in `mistaken_rules.rs`, a reader that errs is made to accept, or to refuse, just where it errs.

use crate::fields::image_header::{BYTES, CHECKSUM, COUNT, FIRST};
use crate::fields::{get, right_image_checksum, table};
use crate::mistaken_rules::headers;
use crate::reader;

/// What rule 20 asks for.
#[derive(Clone, Copy, PartialEq)]
enum Clause {
    Checksum,
    CountNot0,
    Total,
    First,
}

/// Where the image headers lie in an image that breaks no rule under 19.
fn image_headers(image: &[u8], place: u64) -> Vec<usize> {
    let word = |field: usize| get(image, place as usize + field) as usize;
    (0..word(table::IMAGES)).map(|i| 4 * word(table::IMAGE_HEADERS) + BYTES * i).collect()
}

/// What such an image breaks of rule 20, each with the place of its image header; of the total, with that of the last.
fn faults(image: &[u8], place: u64) -> Vec<(Clause, usize)> {
    let (partitions, mut faults, mut before) = (headers(image, place), Vec::new(), 0);
    let places = image_headers(image, place);
    for &at in &places {
        let (first, count) = (4 * get(image, at + FIRST) as usize, get(image, at + COUNT) as usize);
        let is_wrong_first = count > 0 && partitions.get(before).is_some_and(|&header| header != first);
        let is_wrong_sum = get(image, at + CHECKSUM) != right_image_checksum(image, at);
        let clauses = [(Clause::Checksum, is_wrong_sum), (Clause::CountNot0, count == 0), (Clause::First, is_wrong_first)];
        faults.extend(clauses.into_iter().filter(|&(_, is_broken)| is_broken).map(|(clause, _)| (clause, at)));
        before += count;
    }
    if before != partitions.len() {
        faults.extend(places.last().map(|&at| (Clause::Total, at)));
    }
    faults
}

/// Accepts what rule 20 refuses, where the reader overlooks all that is wrong.
fn overlook(image: &[u8], place: u64, rows: &mut [u8], overlooks: impl Fn(Clause, usize) -> bool) -> u64 {
    let answer = reader::read(image, place, rows);
    let errs = answer == 64 * 20 && faults(image, place).into_iter().all(|(clause, at)| overlooks(clause, at));
    if errs { 0 } else { answer }
}

pub fn wrapping_total(image: &[u8], place: u64, rows: &mut [u8]) -> u64 {
    overlook(image, place, rows, |clause, _| {
        let counts = image_headers(image, place).into_iter().map(|at| get(image, at + COUNT));
        clause == Clause::Total && counts.fold(0, u32::wrapping_add) as usize == headers(image, place).len()
    })
}

pub fn checksum_of_16(image: &[u8], place: u64, rows: &mut [u8]) -> u64 {
    overlook(image, place, rows, |clause, at| {
        let sum = right_image_checksum(image, at).wrapping_add(get(image, at + CHECKSUM));
        clause == Clause::Checksum && sum == get(image, at + CHECKSUM)
    })
}

pub fn checksum_of_14(image: &[u8], place: u64, rows: &mut [u8]) -> u64 {
    overlook(image, place, rows, |clause, at| {
        let sum = right_image_checksum(image, at).wrapping_sub(get(image, at + CHECKSUM - 4));
        clause == Clause::Checksum && sum == get(image, at + CHECKSUM)
    })
}

pub fn last_image(image: &[u8], place: u64, rows: &mut [u8]) -> u64 {
    overlook(image, place, rows, |clause, at| clause != Clause::Total && image_headers(image, place).last() == Some(&at))
}

pub fn count_0(image: &[u8], place: u64, rows: &mut [u8]) -> u64 {
    overlook(image, place, rows, |clause, _| clause == Clause::CountNot0)
}

pub fn any_total(image: &[u8], place: u64, rows: &mut [u8]) -> u64 {
    overlook(image, place, rows, |clause, _| clause == Clause::Total)
}

pub fn any_first(image: &[u8], place: u64, rows: &mut [u8]) -> u64 {
    overlook(image, place, rows, |clause, _| clause == Clause::First)
}

/// In 32 bits, four times word 0 is that of the right one.
pub fn wrapping_first(image: &[u8], place: u64, rows: &mut [u8]) -> u64 {
    overlook(image, place, rows, |clause, at| {
        let first = 4 * get(image, at + FIRST) as usize % (1 << 32);
        clause == Clause::First && headers(image, place).contains(&first) && get(image, at + FIRST) >= 1 << 30
    })
}

pub fn before_19(image: &[u8], place: u64, rows: &mut [u8]) -> u64 {
    let answer = reader::read(image, place, rows);
    if answer / 64 == 19 && !faults(image, place).is_empty() { 64 * 20 } else { answer }
}

pub fn any_size(image: &[u8], place: u64, rows: &mut [u8]) -> u64 {
    let answer = reader::read(image, place, rows);
    if answer == 64 * 6 && !matches!(get(image, place as usize + table::SIZES) >> 8 & 0xFF, 0 | 16) { 0 } else { answer }
}

pub fn owner_of_refused(image: &[u8], place: u64, p: u64) -> u64 {
    if reader::bill(image, place) == 0 { u64::from(p == 1) } else { reader::owner(image, place, p) }
}

pub fn owner_past_last(image: &[u8], place: u64, p: u64) -> u64 {
    let last = headers(image, place).len() as u64;
    reader::owner(image, place, p.min(last))
}
