//! Every fault of an envelope: another version, a stated length that is too long, too few bytes and too many.
//!
//! Each function gives the input and the line to be printed, and takes the next of its variants at each turn. Save for its one fault, an
//! input would be accepted.

use crate::envelopes::{any, envelope, lengthen, longest, seal, Made, TOP};
use crate::layout::Image;
use crate::print::{HEADER, LONGEST};
use crate::random::Random;

fn faulty(bytes: Vec<u8>) -> Made {
    (bytes, "envelope".to_string())
}

/// The image with another stated length.
fn seal_as(image: &Image, length: u32) -> Vec<u8> {
    envelope(1, length, image.place as u32, &image.bytes)
}

pub fn other_version(random: &mut Random, turn: usize) -> Made {
    let mut bytes = seal(&any(random));
    bytes[0] = [0, 2, 255, random.between(3, 254) as u8][turn % 4];
    faulty(bytes)
}

/// Nothing else is wrong: with a higher limit the image would be accepted.
pub fn long_image(random: &mut Random, turn: usize) -> Made {
    let mut image = any(random);
    let anywhere = random.between(LONGEST as u64 + 1, 200_000) as usize;
    lengthen(random, &mut image.bytes, [LONGEST + 1, LONGEST + 2, 65_536, 65_537, anywhere][turn % 5]);
    faulty(seal(&image))
}

pub fn long_length(random: &mut Random, turn: usize) -> Made {
    let anywhere = random.between(LONGEST as u64 + 1, u32::MAX.into()) as u32;
    let lengths = [LONGEST as u32 + 1, 65_536, TOP - 1, TOP, u32::MAX - 8, u32::MAX - 9, u32::MAX, anywhere];
    faulty(seal_as(&any(random), lengths[turn % lengths.len()]))
}

pub fn wide_length(random: &mut Random, turn: usize) -> Made {
    let image = any(random);
    faulty(seal_as(&image, image.bytes.len() as u32 + (1 << (16 + turn % 16))))
}

/// The low half of such a length is 0, so that it is too long.
pub fn swapped_length(random: &mut Random, _: usize) -> Made {
    let image = any(random);
    faulty(seal_as(&image, (image.bytes.len() as u32).swap_bytes()))
}

pub fn too_few(random: &mut Random, turn: usize) -> Made {
    let mut bytes = seal(&any(random));
    let image = bytes.len() - HEADER;
    bytes.truncate(bytes.len() - [1, 2, 4, image, random.between(1, image as u64) as usize][turn % 5]);
    faulty(bytes)
}

pub fn too_many(random: &mut Random, turn: usize) -> Made {
    let mut bytes = seal(&any(random));
    let more = [1, 2, 4, HEADER, random.between(1, 100_000) as usize][turn % 5];
    let length = bytes.len() + more;
    lengthen(random, &mut bytes, length);
    faulty(bytes)
}

/// A count of bytes in 16 bits would be the stated one.
pub fn a_wrap_too_many(random: &mut Random, turn: usize) -> Made {
    let mut bytes = seal(&any(random));
    let length = bytes.len() + 65_536 * (1 + turn % 2);
    lengthen(random, &mut bytes, length);
    faulty(bytes)
}

/// The longest image, and more bytes after it: the longest input and what a buffer of its length would take are right.
pub fn over_longest(random: &mut Random, turn: usize) -> Made {
    let mut bytes = longest(random, turn);
    let anywhere = random.between(1, 300_000) as usize;
    let length = bytes.len() + [1, 2, 3, 4_096, 65_536, anywhere][turn / 2 % 6];
    lengthen(random, &mut bytes, length);
    faulty(bytes)
}

/// The start of an input.
pub fn cut_header(random: &mut Random, turn: usize) -> Made {
    let mut bytes = seal(&any(random));
    bytes.truncate(turn % HEADER);
    faulty(bytes)
}
