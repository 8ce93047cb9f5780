//! Ways to break rule 8, the boot header of a full image, at both sides of each edge; its checksum is put right after the edit unless it is
//! what is broken.

use crate::damage::Aim;
use crate::damage_table::wrong_key;
use crate::fields::{boot, get, put, table, COMMON, HEADER, KEYS};
use crate::layout::Image;
use crate::random::Random;

pub fn rule_8(image: &mut Image, random: &mut Random) -> Aim {
    if !image.plan.full {
        // A partial image that says it is full: random bytes are no boot header.
        image.set_table(table::KIND, u32::from_le_bytes(*b"FPDI"));
        return Aim::At(8, 0);
    }
    match random.below(10) {
        0 => image.set_boot(boot::WIDTH, random.flip(0xAA99_5566)),
        1 => image.set_boot(boot::NAME, random.flip(u32::from_le_bytes(*b"XNLX"))),
        2 => break_boot_checksum(image, random),
        3 => image.set_boot(boot::KEY, wrong_key(random, COMMON)),
        4 => disagree_on_key(image, random),
        5 => break_boot_length(image, random),
        6 | 7 => break_source(image, random),
        8 => low_table(image, random),
        _ => return keep_boot_header(image, random),
    }
    Aim::At(8, 0)
}

fn break_boot_checksum(image: &mut Image, random: &mut Random) {
    let right = get(&image.bytes, boot::CHECKSUM);
    let wrong = [right.wrapping_add(1), right.wrapping_sub(1), random.flip(right)];
    if random.one_in(2) {
        put(&mut image.bytes, boot::CHECKSUM, random.pick(&wrong));
    } else {
        let anywhere = 0x10 + random.index(boot::CHECKSUM - 0x10);
        let at = random.pick(&[0x10, 0x34, 0x1138, 0x113B, anywhere]);
        image.bytes[at] ^= 1 << random.below(8);
    }
}

/// The table's key is one that the boot header doesn't have.
fn disagree_on_key(image: &mut Image, random: &mut Random) {
    let table_key = KEYS[random.index(COMMON)];
    let mut boot_key = 0;
    if random.one_in(2) {
        boot_key = KEYS[random.index(COMMON)];
    }
    image.set_boot(boot::KEY, if boot_key == table_key { 0 } else { boot_key });
    image.set_table(table::KEY, table_key);
}

fn break_boot_length(image: &mut Image, random: &mut Random) {
    let total = get(&image.bytes, boot::PLM_TOTAL);
    let cdo_total = random.pick(&[0, 100, u32::MAX - 1]);
    match random.below(4) {
        0 => image.set_boot(boot::PLM, 0),
        1 => image.set_boot(boot::PLM, random.pick(&[total + 1, u32::MAX])),
        2 => image.set_boot(boot::PLM_TOTAL, get(&image.bytes, boot::PLM) - 1),
        _ => {
            image.set_boot(boot::CDO_TOTAL, cdo_total);
            image.set_boot(boot::CDO, random.pick(&[cdo_total + 1, u32::MAX]));
        }
    }
}

fn break_source(image: &mut Image, random: &mut Random) {
    let length = image.bytes.len() as u32;
    let (source, total) = (get(&image.bytes, boot::SOURCE), get(&image.bytes, boot::PLM_TOTAL));
    match random.below(5) {
        0 => image.set_boot(boot::SOURCE, random.pick(&[4415, 4412, 0, 128])),
        1 => image.set_boot(boot::PLM_TOTAL, random.pick(&[length - source + 1, u32::MAX])),
        2 => image.set_boot(boot::SOURCE, random.pick(&[length - total + 1, length, u32::MAX])),
        // Source offset + total wraps around 2^32.
        3 => image.set_boot(boot::PLM_TOTAL, random.pick(&[0u32, 1, 4416]).wrapping_sub(source)),
        _ => image.set_boot(boot::SOURCE, total.wrapping_neg().wrapping_add(random.pick(&[0, 1, 4416]))),
    }
    let plm = get(&image.bytes, boot::PLM).min(get(&image.bytes, boot::PLM_TOTAL));
    image.set_boot(boot::PLM, plm);
}

/// Moves the table to where the boot header is.
fn low_table(image: &mut Image, random: &mut Random) {
    let anywhere = 4 * random.index(boot::BYTES / 4);
    let to = random.pick(&[4412, 4412, 4408, 4288, 0, anywhere]);
    image.bytes.copy_within(image.table..image.table + HEADER, to);
    image.table = to;
    image.place = to as u64;
}

/// Edits of the boot header that break nothing: its unexamined start, and values at the edge.
fn keep_boot_header(image: &mut Image, random: &mut Random) -> Aim {
    let length = image.bytes.len() as u32;
    match random.below(4) {
        0 => image.bytes[random.index(16)] ^= 0xFF,
        1 => {
            image.set_boot(boot::SOURCE, 4416);
            image.set_boot(boot::PLM_TOTAL, length - 4416);
        }
        2 => image.set_boot(boot::PLM, get(&image.bytes, boot::PLM_TOTAL)),
        _ => {
            // A full image that says it is partial: nothing looks at the boot header.
            image.set_table(table::KIND, u32::from_le_bytes(*b"PPDI"));
            image.bytes[..boot::BYTES].fill(0);
        }
    }
    Aim::At(0, 0)
}
