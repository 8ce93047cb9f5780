//! Ways to break rules 11 to 16 at one partition, at both sides of each edge; checksums are put right unless they are what is broken.

use crate::damage::Aim;
use crate::damage_table::wrong_key;
use crate::fields::{partition, *};
use crate::layout::Image;
use crate::random::Random;

/// Four times any of these is the same as of the word without bit 30, in 32 bits.
pub const WRAP: u32 = 0x4000_0000;

pub fn any_partition(image: &Image, random: &mut Random) -> usize {
    random.index(image.count()) + 1
}

pub fn rule_11(image: &mut Image, random: &mut Random) -> Aim {
    let p = any_partition(image, random);
    let header = image.header(p);
    let right = right_checksum(&image.bytes, header);
    let flipped = random.flip(right);
    let wrong = random.pick(&[right.wrapping_add(1), right.wrapping_sub(1), !right, flipped]);
    let field = 4 * random.index(31);
    if field == partition::NEXT || random.one_in(2) {
        put(&mut image.bytes, header + CHECKSUM, wrong);
    } else {
        let old = get(&image.bytes, header + field);
        put(&mut image.bytes, header + CHECKSUM, right);
        put(&mut image.bytes, header + field, random.flip(old));
    }
    Aim::At(11, p)
}

pub fn rule_12(image: &mut Image, random: &mut Random) -> Aim {
    const BAD: [(u32, u32, &[u32]); 9] = [
        (29, 7, &[5, 6, 7]),
        (27, 3, &[1, 2]),
        (24, 7, &[0]),
        (21, 3, &[1, 2, 3]),
        (19, 3, &[1, 2]),
        (16, 3, &[2, 3]),
        (12, 3, &[1, 2]),
        (8, 15, &[7, 10, 11, 12, 13, 14, 15]),
        (4, 3, &[1, 2]),
    ];
    const UNEXAMINED: [u32; 10] = [23, 18, 15, 14, 7, 6, 3, 2, 1, 0];
    let p = any_partition(image, random);
    let old = image.of_header(p, partition::ATTRIBUTES);
    match random.below(12) {
        0 => image.set_header(p, RESERVED, 1 << random.below(32)),
        1 => {
            image.set_header(p, partition::ATTRIBUTES, old ^ 1 << random.pick(&UNEXAMINED));
            return Aim::At(0, 0);
        }
        _ => {
            let (low, mask, values) = random.pick(&BAD);
            image.set_header(p, partition::ATTRIBUTES, old & !(mask << low) | random.pick(values) << low);
        }
    }
    Aim::At(12, p)
}

pub fn rule_13(image: &mut Image, random: &mut Random) -> Aim {
    let p = any_partition(image, random);
    if random.one_in(4) {
        image.set_header(p, partition::KEY, random.pick(&KEYS));
        return Aim::At(0, 0);
    }
    image.set_header(p, partition::KEY, wrong_key(random, KEYS.len()));
    Aim::At(13, p)
}

pub fn rule_14(image: &mut Image, random: &mut Random) -> Aim {
    let p = any_partition(image, random);
    let [e, u, t] = [partition::E, partition::U, partition::T].map(|field| image.of_header(p, field));
    match random.below(9) {
        0 => image.set_header(p, partition::U, random.pick(&[0, e.wrapping_add(1), u32::MAX])),
        1 => {
            // A T that rule 15 was broken with may be the largest word.
            let most = if t == u32::MAX { 0 } else { u32::MAX };
            image.set_header(p, partition::E, random.pick(&[t.wrapping_add(1), u.wrapping_sub(1), 0, most]));
        }
        2 => image.set_header(p, partition::T, random.pick(&[e.wrapping_sub(1), 0])),
        3 => [partition::E, partition::U, partition::T].into_iter().for_each(|field| image.set_header(p, field, 0)),
        4 | 5 => return actual_over_total(image, random, p, partition::KEY_TOTAL, partition::KEY_ACTUAL),
        6 | 7 => return actual_over_total(image, random, p, partition::SIGNATURE_TOTAL, partition::SIGNATURE_ACTUAL),
        _ => {
            image.set_header(p, partition::U, 1);
            return Aim::At(0, 0);
        }
    }
    Aim::At(14, p)
}

fn actual_over_total(image: &mut Image, random: &mut Random, p: usize, total: usize, actual: usize) -> Aim {
    let size = random.pick(&[0, 96, 0x7FFF_FFFF, u32::MAX - 1]);
    let over = random.between(0, 2) as u32;
    image.set_header(p, total, size);
    image.set_header(p, actual, size.saturating_add(over));
    Aim::At(if over == 0 { 0 } else { 14 }, if over == 0 { 0 } else { p })
}

pub fn rule_15(image: &mut Image, random: &mut Random) -> Aim {
    let p = any_partition(image, random);
    let words = image.bytes.len() as u32 / 4;
    let (d, t) = (image.of_header(p, partition::D), image.of_header(p, partition::T));
    match random.below(6) {
        0 => image.set_header(p, partition::D, words.wrapping_sub(t).wrapping_add(1)),
        1 => image.set_header(p, partition::D, random.pick(&[WRAP | d, u32::MAX, t.wrapping_neg(), WRAP.wrapping_sub(t), words])),
        2 => image.set_header(p, partition::T, words.wrapping_sub(d).wrapping_add(1)),
        3 => image.set_header(p, partition::T, random.pick(&[WRAP, WRAP | t, u32::MAX, d.wrapping_neg().max(WRAP), WRAP.wrapping_sub(d)])),
        _ => return checksum_past_image(image, random, p),
    }
    Aim::At(15, p)
}

/// Checksum type 3 with its 48 bytes at the end of the image or past it; without type 3 nobody looks.
fn checksum_past_image(image: &mut Image, random: &mut Random, p: usize) -> Aim {
    let last = (image.bytes.len() as u32 - 48) / 4;
    let attributes = image.of_header(p, partition::ATTRIBUTES);
    let past = random.pick(&[last + 1, last + 1, last + 12, WRAP, WRAP | last, WRAP - 12, u32::MAX, u32::MAX - 11]);
    image.set_header(p, partition::ATTRIBUTES, attributes | 3 << 12);
    image.set_header(p, partition::CHECKSUM_OFFSET, past);
    match random.below(4) {
        0 => image.set_header(p, partition::CHECKSUM_OFFSET, last),
        1 => image.set_header(p, partition::ATTRIBUTES, attributes & !(3 << 12)),
        _ => return Aim::At(15, p),
    }
    Aim::At(0, 0)
}

pub fn rule_16(image: &mut Image, random: &mut Random) -> Aim {
    let p = any_partition(image, random);
    let bytes = 4 * u64::from(image.of_header(p, partition::U));
    let loads = random.one_in(2);
    let kind = if loads { random.pick(&[1, 4, 5]) } else { random.pick(&[2, 3, 6, 7]) };
    let attributes = image.of_header(p, partition::ATTRIBUTES) & !(7 << 24) | kind << 24;
    image.set_header(p, partition::ATTRIBUTES, attributes);
    let highest = bytes.wrapping_neg();
    let (load, aim) = match (loads, random.below(4)) {
        (true, 0) if image.count() == 1 => (highest, Aim::At(0, 0)),
        (true, 0) => (highest, Aim::Open),
        (true, 1) => (random.between(highest + 1, u64::MAX), Aim::At(16, p)),
        (true, _) => (random.pick(&[highest + 1, u64::MAX]), Aim::At(16, p)),
        (false, 0) => (u64::MAX, Aim::At(0, 0)),
        (false, 1) => (u64::MAX ^ 1 << random.below(64), Aim::At(16, p)),
        (false, _) => (random.pick(&[0, 0xFFFF_FFFF, 0xFFFF_FFFF_0000_0000, u64::MAX - 1]), Aim::At(16, p)),
    };
    image.set_load(p, load);
    aim
}
