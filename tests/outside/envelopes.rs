//! Envelopes without fault: images that break a rule or none, and places and lengths at their edges. `envelope_faults.rs` has the others.
//!
//! Each function gives the input and the first line to be printed, and takes the next of its variants at each turn.

use crate::bench_image::{bench_image, edit};
use crate::damage::Aim;
use crate::fields::{partition, HEADER as TABLE};
use crate::images::{damaged, valid};
use crate::layout::Image;
use crate::limits::{LAST_RULE, MOST_PARTITIONS};
use crate::plan::Wish;
use crate::print::LONGEST;
use crate::random::Random;

/// Rules 1 and 2 can't be broken in an envelope: the image is short, and the row buffer is the program's own.
pub const FIRST_RULE: usize = 3;
/// The least place of a full image's table.
pub const FAR: usize = 4_416;
pub const TOP: u32 = 1 << 31;

pub type Made = (Vec<u8>, String);

fn accepted(bytes: Vec<u8>) -> Made {
    (bytes, "0 0".to_string())
}

fn place_refused(bytes: Vec<u8>) -> Made {
    (bytes, "3 0".to_string())
}

pub fn envelope(version: u8, length: u32, place: u32, image: &[u8]) -> Vec<u8> {
    [&[version][..], &length.to_be_bytes(), &place.to_be_bytes(), image].concat()
}

/// Whether the image and its place have room in an envelope.
pub fn fits(image: &Image) -> bool {
    image.bytes.len() <= LONGEST && image.place <= u32::MAX.into()
}

/// The image in an envelope without fault.
pub fn seal(image: &Image) -> Vec<u8> {
    seal_at(image, image.place as u32)
}

fn seal_at(image: &Image, place: u32) -> Vec<u8> {
    envelope(1, image.bytes.len() as u32, place, &image.bytes)
}

/// A valid image of at most so many bytes that is as wanted.
fn choose(random: &mut Random, wish: Wish, most: usize, is_wanted: impl Fn(&Image) -> bool) -> Image {
    loop {
        let image = valid(random, wish, Vec::new());
        if image.bytes.len() <= most && is_wanted(&image) {
            return image;
        }
    }
}

pub fn any(random: &mut Random) -> Image {
    choose(random, Wish::default(), LONGEST, |_| true)
}

pub fn lengthen(random: &mut Random, bytes: &mut Vec<u8>, length: usize) {
    let from = bytes.len();
    bytes.resize(length, 0);
    random.fill(&mut bytes[from..]);
}

pub fn broken(random: &mut Random, turn: usize) -> Made {
    let rule = FIRST_RULE + turn % (LAST_RULE + 1 - FIRST_RULE);
    loop {
        let (image, aim) = damaged(random, rule as u64, Vec::new());
        match aim {
            Aim::At(number, p) if number == rule as u64 && fits(&image) => return (seal(&image), format!("{number} {p}")),
            _ => {}
        }
    }
}

pub fn counted(random: &mut Random, turn: usize) -> Made {
    let between = random.between(2, MOST_PARTITIONS as u64 - 1) as usize;
    let count = [1, between, MOST_PARTITIONS][turn % 3];
    let wish = Wish { full: turn % 2 == 0, partitions: count, blocks: random.one_in(2) };
    accepted(seal(&choose(random, wish, LONGEST, |image| image.count() == count)))
}

/// A table moved behind all else, often to the very end of the image, and with it the optional data.
pub fn far_table(random: &mut Random, turn: usize, full: bool) -> Made {
    let mut image = choose(random, Wish { full, ..Wish::default() }, LONGEST / 2, |image| image.plan.full == full);
    let (old, bytes) = (image.table, TABLE + 4 * image.plan.optional as usize);
    let (least, most) = (image.bytes.len().max(FAR).div_ceil(4), (LONGEST - bytes) / 4);
    let place = 4 * [least, most, random.between(least as u64, most as u64) as usize][turn % 3];
    lengthen(random, &mut image.bytes, place + bytes);
    image.bytes.copy_within(old..old + bytes, place);
    accepted(seal_at(&image, place as u32))
}

pub fn odd_place(random: &mut Random, turn: usize) -> Made {
    let image = any(random);
    place_refused(seal_at(&image, image.place as u32 + 1 + turn as u32 % 3))
}

/// Among them those to which 128 can't be added in 32 bits.
pub fn high_place(random: &mut Random, turn: usize) -> Made {
    let image = any(random);
    let anywhere = random.between(TOP.into(), u32::MAX.into()) as u32;
    let places = [TOP, TOP + image.place as u32, u32::MAX - 127, u32::MAX - 123, u32::MAX - 3, u32::MAX, anywhere];
    place_refused(seal_at(&image, places[turn % places.len()]))
}

pub fn wide_place(random: &mut Random, turn: usize) -> Made {
    let image = any(random);
    place_refused(seal_at(&image, image.place as u32 + (1 << (16 + turn % 16))))
}

/// The low half of such a place is 0, so that it lies past every image.
pub fn swapped_place(random: &mut Random, _: usize) -> Made {
    let image = choose(random, Wish::default(), LONGEST, |image| image.place > 0);
    place_refused(seal_at(&image, (image.place as u32).swap_bytes()))
}

/// Accepted; every second one also says that all bytes to the end belong to its partition.
pub fn longest(random: &mut Random, turn: usize) -> Vec<u8> {
    if turn % 2 == 0 {
        let mut image = any(random);
        lengthen(random, &mut image.bytes, LONGEST);
        return seal(&image);
    }
    let (mut image, words) = (bench_image(), (LONGEST - 320) as u32 / 4);
    edit(&mut image, 192, &[(partition::E, words), (partition::U, words), (partition::T, words)]);
    lengthen(random, &mut image, LONGEST);
    envelope(1, LONGEST as u32, 0, &image)
}

pub fn longest_image(random: &mut Random, turn: usize) -> Made {
    accepted(longest(random, turn))
}

pub fn empty_image(_: &mut Random, turn: usize) -> Made {
    place_refused(envelope(1, 0, [0, 4, FAR as u32, u32::MAX][turn % 4], &[]))
}
