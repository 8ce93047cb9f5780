//! Damages images: one rule on purpose, several rules at once, or anything anywhere.
//!
//! A deliberate damage states the answer that it aims at, so that a damage which misses its rule is noticed. The files
//! `damage_*.rs` hold the ways to break each rule.

use crate::damage_blocks::rule_17;
use crate::damage_boot::rule_8;
use crate::damage_chain::rule_10;
use crate::damage_images::{any_image, rule_20};
use crate::damage_partition::{rule_11, rule_12, rule_13, rule_14, rule_15, rule_16};
use crate::damage_ranges::{rule_18, rule_19};
use crate::damage_table::{rule_1, rule_2, rule_3, rule_4, rule_5, rule_6, rule_7, rule_9};
use crate::fields::{boot, get, image_header, put, put_boot_checksum_right, put_checksum_right, put_image_checksum_right, HEADER};
use crate::layout::{Image, Part};
use crate::limits::{LAST_RULE, MOST_PARTITIONS};
use crate::plan::Wish;
use crate::random::Random;

#[derive(Clone, Copy, PartialEq, Debug)]
pub enum Aim {
    /// This image has no such thing to damage, and stays as it was.
    NotHere,
    /// Nothing is said about the answer.
    Open,
    /// The number and p to be answered; number 0 is an edit that breaks nothing.
    At(u64, usize),
}

/// How each rule is broken, from rule 1 on.
const WAYS: [fn(&mut Image, &mut Random) -> Aim; LAST_RULE] = [
    rule_1, rule_2, rule_3, rule_4, rule_5, rule_6, rule_7, rule_8, rule_9, rule_10, rule_11, rule_12, rule_13, rule_14, rule_15, rule_16,
    rule_17, rule_18, rule_19, rule_20,
];

/// What an image needs so that this rule can be broken.
pub fn wish(rule: u64) -> Wish {
    let partitions = if matches!(rule, 10 | 19) { 2 } else { 1 };
    Wish { full: rule == 8, partitions, blocks: rule == 17 }
}

pub fn break_rule(rule: u64, image: &mut Image, random: &mut Random) -> Aim {
    WAYS[rule as usize - 1](image, random)
}

/// Breaks several rules, the highest number first, so that no later edit mends an earlier damage of a lower number. The lowest wins. Often
/// these are the last rule and one just before it, which few others leave to be reached.
pub fn break_several(image: &mut Image, random: &mut Random) -> Aim {
    let last = LAST_RULE as u64;
    let mut rules: Vec<u64> = match random.below(4) {
        0 => vec![random.between(last - 3, last - 1), last],
        _ => (0..random.between(2, 4)).map(|_| random.between(1, last)).collect(),
    };
    rules.sort_unstable();
    rules.dedup();
    // Both may move a hash block, and 17 wants to find it where it was.
    if rules.contains(&17) {
        rules.retain(|&rule| rule != 18);
    }
    let mut lowest = Aim::Open;
    for &rule in rules.iter().rev() {
        match break_rule(rule, image, random) {
            Aim::NotHere => {}
            // An edit that breaks nothing in a valid image may still mend what was broken before.
            Aim::At(0, _) => lowest = Aim::Open,
            aim => lowest = aim,
        }
    }
    lowest
}

/// Breaks one rule at two partitions; the smaller p wins.
pub fn break_twice(image: &mut Image, random: &mut Random) -> Aim {
    let rule = random.between(11, 16);
    match (break_rule(rule, image, random), break_rule(rule, image, random)) {
        (Aim::At(a, p), Aim::At(b, q)) if a == b && a != 0 && p != q => Aim::At(a, p.min(q)),
        _ => Aim::Open,
    }
}

/// Writes telling values to a few words of the headers; mostly the checksum is put right.
pub fn edit_words(image: &mut Image, random: &mut Random) -> Aim {
    for _ in 0..random.between(1, 3) {
        let (header, bytes) = any_header(image, random);
        let at = header + 4 * random.index(bytes / 4);
        let value = telling_value(image, random, at);
        put(&mut image.bytes, at, value);
        match bytes {
            _ if random.one_in(4) => {}
            HEADER => put_checksum_right(&mut image.bytes, header),
            _ => put_image_checksum_right(&mut image.bytes, header),
        }
    }
    if image.plan.full && random.one_in(4) {
        let at = 4 * random.index(16);
        let value = telling_value(image, random, at);
        put(&mut image.bytes, at, value);
        put_boot_checksum_right(&mut image.bytes);
    }
    Aim::Open
}

/// Where the table, an image header or a partition header starts, and its length.
fn any_header(image: &Image, random: &mut Random) -> (usize, usize) {
    match random.below(5) {
        0 => (image.table, HEADER),
        1 => (image.image_header(any_image(image, random)), image_header::BYTES),
        _ => (image.header(random.index(image.count()) + 1), HEADER),
    }
}

fn telling_value(image: &Image, random: &mut Random, at: usize) -> u32 {
    let old = get(&image.bytes, at);
    let words = image.bytes.len() as u32 / 4;
    match random.below(8) {
        0 => random.word(),
        1 => old.wrapping_add(1),
        2 => old.wrapping_sub(1),
        3 => random.flip(old),
        4 => old.wrapping_add(0x4000_0000),
        5 => words.wrapping_sub(random.below(40) as u32),
        6 => random.pick(&[0, 1, 2, MOST_PARTITIONS as u32, MOST_PARTITIONS as u32 + 1, u32::MAX, u32::MAX - 3, 0x4000_0000, 0x3FFF_FFE0]),
        _ => get(&image.bytes, 4 * random.index(words as usize)),
    }
}

pub fn flip_bits(image: &mut Image, random: &mut Random) -> Aim {
    for _ in 0..random.between(1, 3) {
        let (header, bytes) = any_header(image, random);
        let at = if random.one_in(3) { random.index(image.bytes.len()) } else { header + random.index(bytes) };
        image.bytes[at] ^= 1 << random.below(8);
    }
    Aim::Open
}

/// Cuts the image at, just before or just after the start or end of some part, or anywhere.
pub fn cut(image: &mut Image, random: &mut Random) -> Aim {
    let blocks: Vec<Part> = (0..image.plan.blocks.len()).map(Part::Block).collect();
    let part = match blocks.is_empty() || random.one_in(2) {
        true => random.pick(&image.parts),
        false => random.pick(&blocks),
    };
    let (start, end) = image.extent(part);
    let all = image.bytes.len();
    let near = match random.below(8) {
        0 => start,
        1..=4 => end,
        5 => all - random.index(all.min(64)),
        6 => random.index(all),
        _ => random.pick(&[0, 4, 128, 132, 336, boot::BYTES, boot::BYTES + HEADER]),
    };
    let length = (near + random.pick(&[0, 0, 1, 4])).saturating_sub(random.pick(&[0, 1, 4]));
    image.set_length(length.min(all));
    Aim::Open
}
