//! Ways to break rule 10, the chain of headers, at both sides of each edge; checksums are put right after the edit.

use crate::damage::Aim;
use crate::damage_partition::{any_partition, WRAP};
use crate::fields::{image_header, partition, table, HEADER};
use crate::layout::Image;
use crate::limits::MOST_PARTITIONS;
use crate::random::Random;

pub fn rule_10(image: &mut Image, random: &mut Random) -> Aim {
    match random.below(6) {
        0 => header_past_image(image, random),
        1 => end_chain_early(image, random),
        2 => end_chain_late(image, random),
        3 => miscount(image, random),
        4 => misroute(image, random),
        _ => header_at_end(image, random),
    }
}

/// Makes the table or the header before it point to another place for header p.
fn point_to_header(image: &mut Image, p: usize, word: u32) {
    match p {
        1 => image.set_table(table::FIRST_HEADER, word),
        _ => image.set_header(p - 1, partition::NEXT, word),
    }
}

fn header_past_image(image: &mut Image, random: &mut Random) -> Aim {
    let p = any_partition(image, random);
    let past = (image.bytes.len() as u32 - 128) / 4 + 1;
    let word = random.pick(&[past, past, past + 31, WRAP + image.header(p) as u32 / 4, WRAP - 32, u32::MAX, u32::MAX - 31]);
    point_to_header(image, p, word);
    Aim::At(10, p)
}

fn end_chain_early(image: &mut Image, random: &mut Random) -> Aim {
    let p = any_partition(image, random);
    if p == image.count() {
        return Aim::NotHere;
    }
    image.set_header(p, partition::NEXT, 0);
    Aim::At(10, p)
}

fn end_chain_late(image: &mut Image, random: &mut Random) -> Aim {
    let last = image.count();
    let target = image.header(any_partition(image, random)) as u32 / 4;
    image.set_header(last, partition::NEXT, random.pick(&[1, target.max(1), WRAP, u32::MAX]));
    Aim::At(10, last)
}

fn miscount(image: &mut Image, random: &mut Random) -> Aim {
    let count = image.count();
    let stated = random.pick(&[count - 1, count + 1, 1, MOST_PARTITIONS]);
    if stated == 0 || stated > MOST_PARTITIONS || stated == count {
        return Aim::NotHere;
    }
    image.set_table(table::PARTITIONS, stated as u32);
    Aim::At(10, stated.min(count))
}

/// The chain goes back, and so never ends, or leaves partitions out, and so ends early.
fn misroute(image: &mut Image, random: &mut Random) -> Aim {
    let (count, from, to) = (image.count(), any_partition(image, random), any_partition(image, random));
    let target = image.header(to) as u32 / 4;
    if from == count || to == from + 1 || target == 0 {
        return Aim::NotHere;
    }
    image.set_header(from, partition::NEXT, target);
    Aim::At(10, if to <= from { count } else { from + 1 + count - to })
}

/// Moves a header to the very end of the image, or one byte past it. An image whose run starts there follows.
fn header_at_end(image: &mut Image, random: &mut Random) -> Aim {
    let p = any_partition(image, random);
    let end = image.bytes.len().next_multiple_of(4);
    image.set_length(end + HEADER);
    let old = image.header(p);
    image.bytes.copy_within(old..old + HEADER, end);
    image.plan.partitions[p - 1].header = end;
    point_to_header(image, p, end as u32 / 4);
    for i in 1..=image.images() {
        if image.of_image(i, image_header::FIRST) == old as u32 / 4 {
            image.set_image(i, image_header::FIRST, end as u32 / 4);
        }
    }
    if random.one_in(2) {
        return Aim::At(0, 0);
    }
    image.set_length(end + HEADER - 1);
    Aim::At(10, p)
}
