//! Ways to break rule 17: hash blocks and their entries, at both sides of each edge.

use crate::damage::Aim;
use crate::fields::{block_bytes, put, BLOCK_LENGTH, BLOCK_OFFSET};
use crate::layout::Image;
use crate::limits::MOST_ENTRIES;
use crate::random::Random;

/// An index that no owner has.
fn foreign_index(random: &mut Random) -> u32 {
    random.between(MOST_ENTRIES as u64, u32::MAX.into()) as u32
}

pub fn rule_17(image: &mut Image, random: &mut Random) -> Aim {
    let owner = random.index(image.count() + 1);
    match (image.block_of(owner), random.below(8)) {
        (_, 0) => append_block(image, random, owner),
        (_, 1) => append_too_long_block(image, random, owner),
        (None, _) => half_a_block(image, random, owner),
        (Some(_), 2) => {
            image.set_block(owner, random.pick(&[BLOCK_LENGTH, BLOCK_OFFSET]), 0);
            Aim::At(17, owner)
        }
        (Some(block), 3) => wrong_length(image, random, owner, block),
        (Some(block), 4) => block_past_image(image, random, owner, block),
        (Some(block), 5) => lose_index(image, random, owner, block),
        (Some(block), 6) => double_index(image, random, owner, block),
        (Some(block), _) => stop_before_entry(image, owner, block),
    }
}

/// A new block at the very end of the image, for any owner: right, cut by a byte, or with the own index only or also in the padding.
fn append_block(image: &mut Image, random: &mut Random, owner: usize) -> Aim {
    // No multiple of 4, so that there is padding.
    let n = random.pick(&[1, 1, 2, 3, 6, MOST_ENTRIES]);
    let start = image.grow(random, block_bytes(n));
    let own = random.index(n);
    for i in 0..n {
        let index = if i == own { owner as u32 } else { foreign_index(random) };
        put(&mut image.bytes, start + 52 * i, index);
    }
    image.set_block(owner, BLOCK_LENGTH, block_bytes(n) as u32);
    image.set_block(owner, BLOCK_OFFSET, start as u32 / 4);
    match random.below(3) {
        0 => {
            image.set_length(image.bytes.len() - 1);
            Aim::At(17, owner)
        }
        1 => Aim::At(0, 0),
        _ => {
            put(&mut image.bytes, start + block_bytes(n) - 4, owner as u32);
            let lost = random.one_in(2);
            if lost {
                put(&mut image.bytes, start + 52 * own, foreign_index(random));
            }
            if lost { Aim::At(17, owner) } else { Aim::At(0, 0) }
        }
    }
}

/// One entry too many, whatever they hold.
fn append_too_long_block(image: &mut Image, random: &mut Random, owner: usize) -> Aim {
    let start = image.grow(random, block_bytes(MOST_ENTRIES + 1));
    for i in 0..=MOST_ENTRIES {
        put(&mut image.bytes, start + 52 * i, if i == 0 { owner as u32 } else { foreign_index(random) });
    }
    image.set_block(owner, BLOCK_LENGTH, block_bytes(MOST_ENTRIES + 1) as u32);
    image.set_block(owner, BLOCK_OFFSET, start as u32 / 4);
    Aim::At(17, owner)
}

fn half_a_block(image: &mut Image, random: &mut Random, owner: usize) -> Aim {
    let (field, value) = random.pick(&[(BLOCK_LENGTH, 64), (BLOCK_LENGTH, 320), (BLOCK_OFFSET, 1), (BLOCK_OFFSET, u32::MAX)]);
    image.set_block(owner, field, value);
    Aim::At(17, owner)
}

fn wrong_length(image: &mut Image, random: &mut Random, owner: usize, block: usize) -> Aim {
    let n = image.plan.blocks[block].indexes.len();
    let right = block_bytes(n) as u32;
    let near = random.pick(&[right - 16, right + 16, right - 1, right + 1, right + 4, right - 4]);
    let [longest, over] = [MOST_ENTRIES, MOST_ENTRIES + 1].map(|n| block_bytes(n) as u32);
    let far = [52 * n as u32, 1, 16, 48, 52, 80, 96, longest + 4, longest + 16, over, 0xFFFF_FFF0, u32::MAX];
    let length = random.pick(&[&[near, near], &far[..]].concat());
    if (1..=MOST_ENTRIES).any(|n| block_bytes(n) as u32 == length) || length == 0 {
        return Aim::NotHere;
    }
    image.set_block(owner, BLOCK_LENGTH, length);
    Aim::At(17, owner)
}

fn block_past_image(image: &mut Image, random: &mut Random, owner: usize, block: usize) -> Aim {
    let words = block_bytes(image.plan.blocks[block].indexes.len()) as u32 / 4;
    let past = image.bytes.len() as u32 / 4 - words + 1;
    let at = image.plan.blocks[block].at as u32 / 4;
    image.set_block(owner, BLOCK_OFFSET, random.pick(&[past, past, 0x4000_0000, 0x4000_0000 + at, 0x4000_0000 - words, u32::MAX]));
    Aim::At(17, owner)
}

fn lose_index(image: &mut Image, random: &mut Random, owner: usize, block: usize) -> Aim {
    let entry = image.plan.blocks[block].entry(owner as u32) as usize;
    put(&mut image.bytes, entry, foreign_index(random));
    Aim::At(17, owner)
}

/// Another entry gets the own index too; if that was another owner's, the smaller of the two is answered.
fn double_index(image: &mut Image, random: &mut Random, owner: usize, block: usize) -> Aim {
    let entry = random.index(image.plan.blocks[block].indexes.len());
    let displaced = image.plan.blocks[block].indexes[entry] as usize;
    if displaced == owner {
        return Aim::NotHere;
    }
    put(&mut image.bytes, image.plan.blocks[block].at + 52 * entry, owner as u32);
    let smallest = if image.owners(block).contains(&displaced) { owner.min(displaced) } else { owner };
    Aim::At(17, smallest)
}

/// The stated length ends just before the own entry.
fn stop_before_entry(image: &mut Image, owner: usize, block: usize) -> Aim {
    let block = &image.plan.blocks[block];
    let before = (block.entry(owner as u32) as usize - block.at) / 52;
    if before == 0 {
        return Aim::NotHere;
    }
    image.set_block(owner, BLOCK_LENGTH, block_bytes(before) as u32);
    Aim::At(17, owner)
}
