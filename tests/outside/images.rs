//! The generated images: which of them are valid, damaged on purpose, or damaged anywhere.
//!
//! Image number `index` of a seed depends on nothing else, so it can be made again alone.

use crate::damage::{break_rule, break_several, break_twice, cut, edit_words, flip_bits, wish, Aim};
use crate::layout::{lay_out, Image, Part};
use crate::limits::LAST_RULE;
use crate::plan::{Plan, Wish};
use crate::random::Random;

pub struct Sample {
    pub image: Image,
    /// What a deliberate damage aims at; number 0 for a valid image.
    pub aim: Aim,
    /// Nothing was changed after the layout, so that the plan gives the rows too.
    pub as_planned: bool,
    pub was_cut: bool,
}

/// Makes an image in the buffer of an earlier one.
pub fn make(random: &mut Random, buffer: Vec<u8>) -> Sample {
    let choice = random.below(100);
    let (mut image, mut aim) = match choice {
        25..=64 => {
            let rule = random.between(1, LAST_RULE as u64);
            damaged(random, rule, buffer)
        }
        65..=71 => sharing(random, buffer),
        _ => (valid(random, Wish::default(), buffer), Aim::At(0, 0)),
    };
    match choice {
        72..=78 => aim = break_several(&mut image, random),
        79..=81 => aim = break_twice(&mut image, random),
        82..=87 => aim = edit_words(&mut image, random),
        88..=91 => aim = flip_bits(&mut image, random),
        92..=99 => aim = cut(&mut image, random),
        _ => {}
    }
    Sample { image, aim, as_planned: choice < 25, was_cut: choice >= 92 }
}

pub fn valid(random: &mut Random, wish: Wish, buffer: Vec<u8>) -> Image {
    let plan = Plan::choose(random, wish);
    lay_out(random, plan, buffer, false).0
}

/// One rule broken, or just not broken. Where the image has nothing of the kind, another way is tried, and then another image.
pub fn damaged(random: &mut Random, rule: u64, mut buffer: Vec<u8>) -> (Image, Aim) {
    loop {
        let mut image = valid(random, wish(rule), buffer);
        for _ in 0..10 {
            match break_rule(rule, &mut image, random) {
                Aim::NotHere => {}
                aim => return (image, aim),
            }
        }
        buffer = image.bytes;
    }
}

/// Two neighbouring parts share a word. Only the table in the boot header breaks a lower rule, and only a hash block in padding is right.
fn sharing(random: &mut Random, buffer: Vec<u8>) -> (Image, Aim) {
    let wish = Wish { full: random.one_in(3), blocks: random.one_in(2), ..Wish::default() };
    let plan = Plan::choose(random, wish);
    let (image, pair) = lay_out(random, plan, buffer, true);
    let aim = match pair {
        Some((Part::Boot, Part::Table)) => Aim::At(8, 0),
        Some((Part::Span(i), Part::Block(_))) if image.plan.partitions[i].used < image.plan.partitions[i].t => Aim::At(0, 0),
        _ => Aim::At(18, 0),
    };
    (image, aim)
}
