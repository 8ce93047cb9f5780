//! Ways to break rules 1 to 7 and 9, at both sides of each edge; checksums are put right after the edit unless they are what is broken.

use crate::damage::Aim;
use crate::fields::{table, *};
use crate::layout::{Image, Part};
use crate::limits::{LONGEST_IMAGE, MOST_PARTITIONS, ROWS_BYTES};
use crate::random::Random;

const LONGEST: u64 = LONGEST_IMAGE as u64;

pub fn rule_1(image: &mut Image, random: &mut Random) -> Aim {
    if random.one_in(3) {
        image.length = LONGEST - random.pick(&[0, 0, 1, 4]);
        return Aim::At(0, 0);
    }
    // Past 2^32, the length's low half alone would pass.
    image.length = random.pick(&[LONGEST + 1, LONGEST + 2, LONGEST + 4096, 1 << 31, 1 << 32, (1 << 32) + image.length]);
    Aim::At(1, 0)
}

pub fn rule_2(image: &mut Image, random: &mut Random) -> Aim {
    image.row_bytes = random.pick(&[0, 1, 8, ROWS_BYTES / 8, ROWS_BYTES - 9, ROWS_BYTES - 8, ROWS_BYTES - 1, ROWS_BYTES - 1]);
    Aim::At(2, 0)
}

pub fn rule_3(image: &mut Image, random: &mut Random) -> Aim {
    let length = image.bytes.len() as u64;
    let past = (length - 128) / 4 * 4 + 4;
    match random.below(6) {
        0 => image.place += random.between(1, 3),
        1 => image.place = past,
        2 => image.place = random.pick(&[past + 4, past + 124, length.next_multiple_of(4), 1 << 31, 1 << 32, 1 << 62, 1 << 63]),
        3 => image.place += random.pick(&[1 << 30, 1 << 32, 1 << 33, 1 << 63]),
        4 => image.place = u64::MAX - random.pick(&[0, 1, 3, 4, 123, 124, 127, 128, 131]),
        _ => {
            let most = if random.one_in(4) { 127 } else { image.place as usize + 127 };
            image.set_length(most - random.pick(&[0, 0, 3, 127]));
        }
    }
    Aim::At(3, 0)
}

pub fn rule_4(image: &mut Image, random: &mut Random) -> Aim {
    let right = right_checksum(&image.bytes, image.table);
    let wrong = match random.below(5) {
        0 => right.wrapping_add(1),
        1 => right.wrapping_sub(1),
        2 => !right,
        3 => random.flip(right),
        _ => {
            let at = image.table + random.index(CHECKSUM);
            image.bytes[at] ^= 1 << random.below(8);
            return Aim::At(4, 0);
        }
    };
    put(&mut image.bytes, image.table + CHECKSUM, wrong);
    Aim::At(4, 0)
}

pub fn rule_5(image: &mut Image, random: &mut Random) -> Aim {
    if random.one_in(2) {
        let flipped = random.flip(0x0001_0000);
        image.set_table(table::VERSION, random.pick(&[0, 1, 0x0001_0001, 0x0002_0000, 0x0000_0100, 0x0100_0000, flipped, flipped]));
        return Aim::At(5, 0);
    }
    let kind = random.pick(&[b"fPDI", b"FPDi", b"IDPF", b"IDPP", b"\0\0\0\0", b"XPDI", b"PPDP", b"FFDI", b"PFDI", b"PPD\0", b"XNLX"]);
    image.set_table(table::KIND, u32::from_le_bytes(*kind));
    Aim::At(5, 0)
}

pub fn rule_6(image: &mut Image, random: &mut Random) -> Aim {
    let sizes = image.of_table(table::SIZES);
    let not_32 = random.pick(&[0, 1, 16, 31, 33, 64, 160, 255]);
    let not_16 = random.pick(&[0, 1, 8, 15, 15, 17, 17, 32, 48, 144, 255]);
    let most = MOST_IMAGES.max(MOST_PARTITIONS) as u32;
    let count = random.pick(&[0, most + 1, most + 2, 64, 0x100, 0x101, 0x8000_0001, u32::MAX]);
    match random.below(8) {
        0 => image.set_table(table::IMAGES, count),
        1 => image.set_table(table::PARTITIONS, count),
        2 => image.set_table(table::SIZES, sizes & !0xFF | not_32),
        3 => image.set_table(table::SIZES, sizes & !0xFF00 | not_16 << 8),
        4 => image.set_table(table::SIZES, sizes & !0xFF_0000 | not_32 << 16),
        5 => {
            let optional = image.of_table(table::OPTIONAL);
            image.set_table(table::OPTIONAL, random.pick(&[optional + 1, optional + 2, optional + 3, 0x4000_0002, u32::MAX]));
        }
        6 => image.set_table(RESERVED, 1 << random.below(32)),
        _ => {
            image.set_table(table::SIZES, sizes ^ (random.word() & 0xFF00_0000));
            return Aim::At(0, 0);
        }
    }
    Aim::At(6, 0)
}

/// A word that is neither 0 nor one of the first `count` keys, though close to one.
pub fn wrong_key(random: &mut Random, count: usize) -> u32 {
    loop {
        let (any_key, user_key) = (random.pick(&KEYS), random.pick(&KEYS[COMMON..]));
        let near = random.flip(any_key);
        let key = random.pick(&[near, near, 1, u32::MAX, user_key]);
        if key != 0 && !KEYS[..count].contains(&key) {
            return key;
        }
    }
}

pub fn rule_7(image: &mut Image, random: &mut Random) -> Aim {
    image.set_table(table::KEY, wrong_key(random, COMMON));
    Aim::At(7, 0)
}

pub fn rule_9(image: &mut Image, random: &mut Random) -> Aim {
    let length = image.bytes.len();
    let (start, end) = image.extent(Part::ImageHeaders);
    let words = (end - start) / 4;
    let last = (length - 4 * words) / 4;
    let optional_past = ((length - image.table - HEADER) / 16 + 1) * 4;
    let (offset, optional) = (image.image_headers / 4, image.plan.optional);
    match random.below(6) {
        0 => image.set_table(table::OPTIONAL, optional_past as u32),
        1 => image.set_table(table::OPTIONAL, random.pick(&[0x4000_0000, 0x4000_0000 + optional, 0x3FFF_FFE0, 0xFFFF_FFFC])),
        2 => image.set_table(table::IMAGE_HEADERS, last as u32 + 1),
        3 => {
            let far = random.pick(&[0x4000_0000, 0x4000_0000 + offset, 0x4000_0000 - words, 0xFFFF_FFFF]);
            image.set_table(table::IMAGE_HEADERS, far as u32);
        }
        4 => {
            image.set_table(table::IMAGE_HEADERS, last as u32);
            return Aim::Open;
        }
        _ => {
            image.set_table(table::OPTIONAL, optional_past as u32 - 4);
            return Aim::Open;
        }
    }
    Aim::At(9, 0)
}
