//! Ways to break rule 20, the image headers and the runs of the chain that their images own, at both sides of each edge; checksums are put
//! right after the edit unless they are what is broken.

use crate::damage::Aim;
use crate::damage_partition::{any_partition, WRAP};
use crate::fields::image_header::{BYTES, CHECKSUM, COUNT, FIRST, UNEXAMINED};
use crate::fields::{get, put, right_image_checksum, suit_image_checksum, MOST_IMAGES};
use crate::layout::Image;
use crate::plan::choose_counts;
use crate::random::Random;

pub fn rule_20(image: &mut Image, random: &mut Random) -> Aim {
    match random.below(12) {
        0 | 1 => wrong_checksum(image, random),
        2 => checksum_of_other_words(image, random),
        3 => empty_run(image, random),
        4 | 5 => wrong_total(image, random),
        6 => wrapping_total(image, random),
        7 | 8 => wrong_first(image, random),
        9 => exchange(image, random),
        10 => other_images(image, random),
        _ => keep_runs(image, random),
    }
}

/// Often the last one.
pub fn any_image(image: &Image, random: &mut Random) -> usize {
    if random.one_in(3) { image.images() } else { random.index(image.images()) + 1 }
}

/// Two images, the earlier one first, if there are two.
fn two_images(image: &Image, random: &mut Random) -> Option<(usize, usize)> {
    let i = any_image(image, random);
    let j = (i + random.index(image.images() - 1)) % image.images() + 1;
    (i != j).then_some((i.min(j), i.max(j)))
}

fn wrong_checksum(image: &mut Image, random: &mut Random) -> Aim {
    let at = image.image_header(any_image(image, random));
    let right = right_image_checksum(&image.bytes, at);
    let flipped = random.flip(right);
    let wrong = random.pick(&[right.wrapping_add(1), right.wrapping_sub(1), !right, flipped]);
    if random.one_in(3) {
        let field = at + 4 * random.index(15);
        let old = get(&image.bytes, field);
        put(&mut image.bytes, field, random.flip(old));
    } else {
        put(&mut image.bytes, at + CHECKSUM, wrong);
    }
    Aim::At(20, 0)
}

/// The checksum is the sum of the first 14 words, or of all 16.
fn checksum_of_other_words(image: &mut Image, random: &mut Random) -> Aim {
    let at = image.image_header(any_image(image, random));
    let other = match random.below(3) {
        0 => {
            put(&mut image.bytes, at + CHECKSUM - 4, random.word() | 1);
            right_image_checksum(&image.bytes, at).wrapping_sub(get(&image.bytes, at + CHECKSUM - 4))
        }
        1 => right_image_checksum(&image.bytes, at).wrapping_mul(2),
        _ => {
            // Where the others add up to 0, any checksum is the sum of itself and them.
            put(&mut image.bytes, at + CHECKSUM, 0);
            suit_image_checksum(&mut image.bytes, at);
            random.word() | 1
        }
    };
    put(&mut image.bytes, at + CHECKSUM, other);
    Aim::At(if other == right_image_checksum(&image.bytes, at) { 0 } else { 20 }, 0)
}

/// An image owns nothing, though the counts add up to N and each other word 0 is right: a neighbour has its partitions, or it is a new one.
fn empty_run(image: &mut Image, random: &mut Random) -> Aim {
    let mut counts = image.counts();
    let i = any_image(image, random) - 1;
    if counts.len() > 1 && random.one_in(2) {
        let neighbour = if i == 0 { 1 } else { i - 1 };
        counts[neighbour] += counts[i];
        counts[i] = 0;
    } else if counts.len() < MOST_IMAGES {
        counts.insert(random.index(counts.len() + 1), 0);
    } else {
        return Aim::NotHere;
    }
    image.set_counts(random, &counts);
    Aim::At(20, 0)
}

/// The counts add up to N - 1, N + 1, 2N or far more.
fn wrong_total(image: &mut Image, random: &mut Random) -> Aim {
    let (mut counts, n) = (image.counts(), image.count() as u32);
    let i = any_image(image, random) - 1;
    match random.below(7) {
        0 | 1 if counts[i] == 1 => return Aim::NotHere,
        0 | 1 => counts[i] -= 1,
        2 => counts[i] += 1,
        3 => counts[i] += n,
        4 => counts.iter_mut().for_each(|count| *count *= 2),
        5 => counts.fill(u32::MAX),
        _ => counts[i] = random.pick(&[1 << 8, 1 << 16, 1 << 31, u32::MAX]),
    }
    image.set_counts(random, &counts);
    Aim::At(20, 0)
}

/// The counts add up to N, but modulo 2^32 alone. Unless the first one is changed, all sums on the way stay under N so too, and each
/// word 0 is what they give.
fn wrapping_total(image: &mut Image, random: &mut Random) -> Aim {
    let Some((i, j)) = two_images(image, random) else { return Aim::NotHere };
    let (mut counts, last) = (image.counts(), image.images() - 1);
    if random.one_in(4) {
        counts.fill(u32::MAX);
        counts[last] = (image.count() + last) as u32;
    } else {
        let before: u32 = counts[..i - 1].iter().sum();
        let most = if before == 0 { 1 << 31 } else { counts[i - 1] + before };
        let moved = random.between(u64::from(counts[i - 1]) + 1, most.into()) as u32;
        counts[i - 1] = counts[i - 1].wrapping_sub(moved);
        counts[j - 1] += moved;
    }
    image.set_counts(random, &counts);
    Aim::At(20, 0)
}

/// Word 0 is a word off, in bytes, wrong by 2^32 bytes, or another header.
fn wrong_first(image: &mut Image, random: &mut Random) -> Aim {
    let (i, other) = (any_image(image, random), any_image(image, random));
    let (right, other) = (image.of_image(i, FIRST), image.of_image(other, FIRST));
    let header = image.header(any_partition(image, random)) as u32 / 4;
    let near = [right.wrapping_add(1), right.wrapping_sub(1), right.wrapping_mul(4), right | WRAP];
    let wrong = random.pick(&[&near, &[header, header, other, other, image.table as u32 / 4, 0, u32::MAX][..]].concat());
    if wrong == right {
        return Aim::NotHere;
    }
    image.set_image(i, FIRST, wrong);
    Aim::At(20, 0)
}

/// Two images stand in another order than their runs, or one of their words does.
fn exchange(image: &mut Image, random: &mut Random) -> Aim {
    let Some((i, j)) = two_images(image, random) else { return Aim::NotHere };
    let field = random.pick(&[FIRST, COUNT]);
    let (a, b) = (image.of_image(i, field), image.of_image(j, field));
    if random.one_in(2) {
        let (at, later) = (image.image_header(i), image.image_header(j));
        let (before, after) = image.bytes.split_at_mut(later);
        before[at..at + BYTES].swap_with_slice(&mut after[..BYTES]);
    } else if a != b {
        image.set_image(i, field, b);
        image.set_image(j, field, a);
    } else {
        return Aim::NotHere;
    }
    Aim::At(20, 0)
}

/// The last image is left out, or there is one more, for which nothing is left.
fn other_images(image: &mut Image, random: &mut Random) -> Aim {
    let mut counts = image.counts();
    if counts.len() > 1 && random.one_in(2) {
        counts.pop();
    } else if counts.len() < MOST_IMAGES {
        counts.push(random.pick(&[1, 1, image.count() as u32, u32::MAX]));
    } else {
        return Aim::NotHere;
    }
    image.set_counts(random, &counts);
    Aim::At(20, 0)
}

/// Edits that break nothing: other runs, and words that aren't examined.
fn keep_runs(image: &mut Image, random: &mut Random) -> Aim {
    let i = any_image(image, random);
    if random.one_in(2) {
        let field = UNEXAMINED + 4 * random.index(13);
        image.set_image(i, field, random.pick(&[0, 1, u32::MAX, image.of_image(i, FIRST)]));
    } else {
        let counts: Vec<u32> = choose_counts(random, image.count()).into_iter().map(|count| count as u32).collect();
        image.set_counts(random, &counts);
    }
    Aim::At(0, 0)
}
