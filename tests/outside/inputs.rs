//! Inputs of the program: images of the generator in an envelope, and every fault that an envelope can have.
//!
//! Input number `index` of a seed depends on nothing else. Every second one holds any generated image, the others are of each kind in turn;
//! these state the first line that must be printed, so that an input which misses its kind is noticed.

use crate::envelope_faults::*;
use crate::envelopes::*;
use crate::images::make;
use crate::random::Random;

/// How the program gets its input: at once, or in pieces of at most so many bytes.
#[derive(Clone, Copy)]
pub enum Feeding {
    Whole,
    Pieces(usize),
    /// With short pauses between the first pieces, before the last one and before the end.
    Paused(usize),
}

pub struct Input {
    pub bytes: Vec<u8>,
    pub kind: &'static str,
    /// The first line that must be printed, where the kind says.
    pub wanted: Option<String>,
    pub feeding: Feeding,
}

/// Makes an input and states the first line to be printed; `turn` counts those of this kind, so that each of its variants comes.
type Make = fn(&mut Random, turn: usize) -> (Vec<u8>, String);

pub const ANY_IMAGE: &str = "any generated image";
pub const KINDS: [(&str, Make); 20] = [
    ("one rule broken", broken),
    ("1 partition, the most, or between", counted),
    ("a partial image, place 4,416 or more", |random, turn| far_table(random, turn, false)),
    ("a full image, place over 4,416", |random, turn| far_table(random, turn, true)),
    ("a place that is no multiple of 4", odd_place),
    ("a place of 2^31 or more", high_place),
    ("a place whose low half is right", wide_place),
    ("a place in the other byte order", swapped_place),
    ("an image of 65,527 bytes", longest_image),
    ("an empty image", empty_image),
    ("another version", other_version),
    ("a stated length over 65,527, as many bytes", long_image),
    ("a stated length far over 65,527, few bytes", long_length),
    ("a stated length whose low half is right", wide_length),
    ("a stated length in the other byte order", swapped_length),
    ("too few bytes", too_few),
    ("too many bytes", too_many),
    ("65,536 bytes too many", a_wrap_too_many),
    ("over 65,536 bytes, accepted if cut", over_longest),
    ("0 to 8 bytes", cut_header),
];

pub fn input(seed: u64, index: u64) -> Input {
    let mut random = Random::new(seed, index);
    let turn = index as usize / 2;
    let (bytes, kind, wanted) = if index % 2 == 0 {
        (generated(&mut random), ANY_IMAGE, None)
    } else {
        let (kind, make) = KINDS[turn % KINDS.len()];
        let (bytes, wanted) = make(&mut random, turn / KINDS.len());
        (bytes, kind, Some(wanted))
    };
    Input { bytes, kind, wanted, feeding: feeding(&mut random) }
}

fn generated(random: &mut Random) -> Vec<u8> {
    loop {
        let image = make(random, Vec::new()).image;
        if fits(&image) {
            return seal(&image);
        }
    }
}

fn feeding(random: &mut Random) -> Feeding {
    let most = random.pick(&[2, 9, 100, 300]);
    match random.below(32) {
        0 => Feeding::Paused(1),
        1 => Feeding::Paused(most),
        2 => Feeding::Pieces(1),
        3..=7 => Feeding::Pieces(most),
        _ => Feeding::Whole,
    }
}
