//! Ways to break rules 18 and 19: stored ranges and load ranges that clash, at both sides of each edge.
//!
//! `layout.rs` adds to rule 18 the images whose neighbouring parts share a word.

use crate::damage::Aim;
use crate::fields::{partition, table, *};
use crate::layout::{Image, Part};
use crate::random::Random;

pub fn rule_18(image: &mut Image, random: &mut Random) -> Aim {
    match random.below(8) {
        0 => move_image_headers(image, random),
        1 => move_span(image, random),
        2 => lengthen_span(image, random),
        3 => body_into_block(image, random),
        4 => start_of_block(image, random),
        5 => end_of_block(image, random),
        6 => body_on_block(image, random),
        _ => lengthen_optional_data(image, random),
    }
}

/// Where `words` words share just the first or the last word of a part, or more; nothing if that isn't within the image.
fn meeting(image: &Image, random: &mut Random, part: Part, words: usize) -> Option<u32> {
    let (start, end) = image.extent(part);
    let (first, last) = ((start / 4 + 1).saturating_sub(words), end / 4 - 1);
    let at = match random.below(3) {
        0 => (start / 4 + 1).checked_sub(words)?,
        1 => last,
        _ => random.between(first as u64, last as u64) as usize,
    };
    (4 * (at + words) <= image.bytes.len()).then_some(at as u32)
}

fn move_image_headers(image: &mut Image, random: &mut Random) -> Aim {
    let part = random.pick(&image.parts);
    let (start, end) = image.extent(Part::ImageHeaders);
    match meeting(image, random, part, (end - start) / 4) {
        Some(at) if part != Part::ImageHeaders => {
            image.set_table(table::IMAGE_HEADERS, at);
            Aim::At(18, 0)
        }
        _ => Aim::NotHere,
    }
}

/// Moves a span onto any other part; of a hash block it is the body that meets it, the padding may.
fn move_span(image: &mut Image, random: &mut Random) -> Aim {
    let p = random.index(image.count()) + 1;
    let part = random.pick(&image.parts);
    let (e, t) = (image.of_header(p, partition::E), image.of_header(p, partition::T));
    let words = if matches!(part, Part::Block(_)) { e } else { t };
    let Some(at) = meeting(image, random, part, words as usize) else { return Aim::NotHere };
    if part == Part::Span(p - 1) || 4 * (at as usize + t as usize) > image.bytes.len() {
        return Aim::NotHere;
    }
    image.set_header(p, partition::D, at);
    Aim::At(18, 0)
}

/// The part after a place, blocks left out.
fn next_start(image: &Image, from: usize) -> Option<usize> {
    let others = image.parts.iter().filter(|part| !matches!(part, Part::Block(_)));
    others.map(|&part| image.extent(part).0).filter(|&start| start >= from).min()
}

/// Lengthens a span to where the next part starts, which may touch it, or by a word more, or over all that follows. Hash blocks between
/// don't matter.
fn lengthen_span(image: &mut Image, random: &mut Random) -> Aim {
    let i = random.index(image.count());
    let (start, end) = image.extent(Part::Span(i));
    let Some(next) = next_start(image, end) else { return Aim::NotHere };
    let to = random.pick(&[next, next + 4, image.bytes.len()]);
    image.set_header(i + 1, partition::T, (to - start) as u32 / 4);
    Aim::At(if to == next { 0 } else { 18 }, 0)
}

/// Lengthens a body up to the first block in its padding, which may touch it, or by a word more.
fn body_into_block(image: &mut Image, random: &mut Random) -> Aim {
    let first = image.plan.blocks.iter().find_map(|block| block.host);
    let Some((host, words)) = first else { return Aim::NotHere };
    let over = random.below(2) as u32;
    image.set_header(host + 1, partition::E, words + over);
    Aim::At(18 * u64::from(over), 0)
}

/// One of the owners of a shared block states a shorter one from the same start, with its own index within.
fn start_of_block(image: &mut Image, random: &mut Random) -> Aim {
    let owner = random.index(image.count() + 1);
    let Some(b) = image.block_of(owner) else { return Aim::NotHere };
    let block = &image.plan.blocks[b];
    let n = block.indexes.len();
    let shortest = (block.entry(owner as u32) as usize - block.at) / 52 + 1;
    if image.owners(b).len() < 2 || shortest == n {
        return Aim::NotHere;
    }
    let n = random.between(shortest as u64, n as u64 - 1) as usize;
    image.set_block(owner, BLOCK_LENGTH, block_bytes(n) as u32);
    Aim::At(18, 0)
}

/// One of the owners of a shared block states a shorter one further on in it, often with the same end, its index among the digests.
fn end_of_block(image: &mut Image, random: &mut Random) -> Aim {
    let owner = random.index(image.count() + 1);
    let Some(b) = image.block_of(owner) else { return Aim::NotHere };
    let (at, n) = (image.plan.blocks[b].at, image.plan.blocks[b].indexes.len());
    if image.owners(b).len() < 2 || n == 1 {
        return Aim::NotHere;
    }
    let shorter = random.index(n - 1) + 1;
    let later = block_bytes(n) - block_bytes(shorter) - random.pick(&[0, 0, 4, 12]);
    if later % 52 == 0 {
        return Aim::NotHere;
    }
    put(&mut image.bytes, at + later, owner as u32);
    image.set_block(owner, BLOCK_LENGTH, block_bytes(shorter) as u32);
    image.set_block(owner, BLOCK_OFFSET, (at + later) as u32 / 4);
    match (1..shorter).any(|i| get(&image.bytes, at + later + 52 * i) == owner as u32) {
        true => Aim::Open,
        false => Aim::At(18, 0),
    }
}

/// A body lies exactly on a hash block: only two hash blocks may be equal.
fn body_on_block(image: &mut Image, random: &mut Random) -> Aim {
    let Some(b) = image.block_of(random.index(image.count() + 1)) else { return Aim::NotHere };
    let (start, end) = image.extent(Part::Block(b));
    let p = random.index(image.count()) + 1;
    let words = (end - start) as u32 / 4;
    let edits = [(partition::E, words), (partition::T, words), (partition::U, 1), (partition::D, start as u32 / 4)];
    edits.into_iter().for_each(|(field, value)| image.set_header(p, field, value));
    Aim::At(18, 0)
}

/// Lengthens the optional data, by 16 bytes at a time, until they just reach into the next part.
fn lengthen_optional_data(image: &mut Image, random: &mut Random) -> Aim {
    let (_, end) = image.extent(Part::Table);
    let Some(next) = next_start(image, end) else { return Aim::NotHere };
    let steps = (next - end) / 16 + random.index(2);
    let optional = image.plan.optional + 4 * steps as u32;
    let new_end = end + 16 * steps;
    if new_end > image.bytes.len() {
        return Aim::NotHere;
    }
    let blocks = 0..image.plan.blocks.len();
    let meets_block = blocks.map(|b| image.extent(Part::Block(b))).any(|(start, last)| start < new_end && end < last);
    image.set_table(table::OPTIONAL, optional);
    Aim::At(if new_end > next || meets_block { 18 } else { 0 }, 0)
}

pub fn rule_19(image: &mut Image, random: &mut Random) -> Aim {
    let loading: Vec<usize> = (1..=image.count()).filter(|&p| image.plan.partitions[p - 1].has_load_range()).collect();
    if loading.len() < 2 {
        return Aim::NotHere;
    }
    let (p, q) = (random.pick(&loading), random.pick(&loading));
    let ((load, bytes), (_, moved)) = (image.load_range(p), image.load_range(q));
    let touching = if random.one_in(2) { load + bytes } else { load.wrapping_sub(moved) };
    // Within the other range or around it.
    let inside = (load + bytes).wrapping_sub(moved).min(load) + u128::from(random.below(bytes.abs_diff(moved) as u64 + 1));
    let target = random.pick(&[load + bytes - 1, (load + 1).wrapping_sub(moved), load, inside, touching]);
    if p == q || target.saturating_add(moved) > 1 << 64 {
        return Aim::NotHere;
    }
    image.set_load(q, target as u64);
    match first_load_clash(image, &loading) {
        Some(clash) => Aim::At(19, clash),
        None => Aim::At(0, 0),
    }
}

/// The first partition that shares its first or last address with an earlier one, or holds an earlier one.
fn first_load_clash(image: &Image, loading: &[usize]) -> Option<usize> {
    let clash = |p: usize, q: usize| {
        let ((a, length_a), (b, length_b)) = (image.load_range(p), image.load_range(q));
        let (lower_end, upper_start) = if a < b { (a + length_a, b) } else { (b + length_b, a) };
        lower_end > upper_start
    };
    loading.iter().copied().find(|&p| loading.iter().any(|&q| q < p && clash(p, q)))
}
