//! Readers with a known mistake, each of which the comparison must find: the second reader's answers, altered where such a reader errs.
//!
//! `mistaken_rules.rs` has those that take a rule wrongly, `mistaken_images.rs` those that take image headers so; here are those that state
//! p, write, bill or unpack wrongly.

use crate::archive::Subject;
use crate::fields::partition;
use crate::limits::{HEAD, ROW};
use crate::mistaken_images::{
    any_first, any_size, any_total, before_19, checksum_of_14, checksum_of_16, count_0, last_image, owner_of_refused, owner_past_last,
    wrapping_first, wrapping_total,
};
use crate::mistaken_rules::{
    block_in_padding, chain_end, field, headers, index_twice, longest_block, neighbours, own_block, reserved_bits, top_of_memory, touching,
    wrapping_load, wrapping_place, wrapping_span,
};
use crate::reader;

pub struct Mistaken {
    pub name: &'static str,
    read: fn(&[u8], u64, &mut [u8]) -> u64,
    bill: fn(&[u8], u64) -> u64,
    body_length: fn(&[u8], u64, u64) -> u64,
    owner: fn(&[u8], u64, u64) -> u64,
}

impl Subject for Mistaken {
    fn read(&self, image: &[u8], place: u64, rows: &mut [u8]) -> u64 {
        (self.read)(image, place, rows)
    }

    fn bill(&self, image: &[u8], place: u64) -> u64 {
        (self.bill)(image, place)
    }

    fn body_length(&self, image: &[u8], place: u64, p: u64) -> u64 {
        (self.body_length)(image, place, p)
    }

    fn owner(&self, image: &[u8], place: u64, p: u64) -> u64 {
        (self.owner)(image, place, p)
    }
}

/// The second reader itself, in which no difference may be found.
pub const RIGHT: Mistaken = Mistaken {
    name: "no mistake",
    read: reader::read,
    bill: reader::bill,
    body_length: reader::body_length,
    owner: reader::owner,
};

const fn reads(name: &'static str, read: fn(&[u8], u64, &mut [u8]) -> u64) -> Mistaken {
    Mistaken { name, read, ..RIGHT }
}

pub const MISTAKES: [Mistaken; 35] = [
    reads("T × 4 in 32 bits", wrapping_span),
    reads("load address + length in 64 bits", wrapping_load),
    reads("place + 128 in 64 bits", wrapping_place),
    reads("end of the chain not looked at", chain_end),
    reads("only neighbouring partitions compared", neighbours),
    reads("bits 15:14 refused", reserved_bits),
    reads("touching load ranges refused", touching),
    reads("a load range up to 2^64 refused", top_of_memory),
    reads("a hash block in a span's padding refused", block_in_padding),
    reads("a hash block of the most entries refused", longest_block),
    reads("an index twice in a block accepted", index_twice),
    reads("the table's own block not looked at", own_block),
    reads("an image header size other than 16 accepted", any_size),
    reads("counts added up in 32 bits", wrapping_total),
    reads("counts not added up", any_total),
    reads("a count of 0 accepted", count_0),
    reads("word 0 of an image header not compared", any_first),
    reads("word 0 of an image header × 4 in 32 bits", wrapping_first),
    reads("image header checksum of 16 words", checksum_of_16),
    reads("image header checksum of 14 words", checksum_of_14),
    reads("the last image header not looked at", last_image),
    reads("rule 20 tried before 19", before_19),
    reads("p left out", without_p),
    reads("everything refused", |_, _, _| 64 * 3),
    reads("everything accepted", |_, _, _| 0),
    reads("rows written on refusal", rows_on_refusal),
    reads("nothing written on acceptance", |image, place, rows| reader::read(image, place, &mut rows.to_vec())),
    reads("one number too many written", one_too_many),
    reads("rows big-endian", big_endian),
    Mistaken { name: "bill of E instead of T", bill: bill_of_e, ..RIGHT },
    Mistaken { name: "body of U instead of E", body_length: body_of_u, ..RIGHT },
    Mistaken { name: "owner counted from 0", owner: |image, place, p| reader::owner(image, place, p).saturating_sub(1), ..RIGHT },
    Mistaken { name: "owner of the partition after", owner: |image, place, p| reader::owner(image, place, p.saturating_add(1)), ..RIGHT },
    Mistaken { name: "owner in a refused image", owner: owner_of_refused, ..RIGHT },
    Mistaken { name: "owner of a partition past the last", owner: owner_past_last, ..RIGHT },
];

fn without_p(image: &[u8], place: u64, rows: &mut [u8]) -> u64 {
    reader::read(image, place, rows) / 64 * 64
}

fn rows_on_refusal(image: &[u8], place: u64, rows: &mut [u8]) -> u64 {
    let answer = reader::read(image, place, rows);
    if answer != 0 && rows.len() >= 8 {
        rows[..8].fill(0);
    }
    answer
}

fn one_too_many(image: &[u8], place: u64, rows: &mut [u8]) -> u64 {
    let answer = reader::read(image, place, rows);
    if answer == 0 {
        let end = 8 * (HEAD + ROW * headers(image, place).len());
        rows.iter_mut().skip(end).take(8).for_each(|byte| *byte = 0);
    }
    answer
}

fn big_endian(image: &[u8], place: u64, rows: &mut [u8]) -> u64 {
    let answer = reader::read(image, place, rows);
    if answer == 0 {
        let numbers = HEAD + ROW * headers(image, place).len();
        rows.chunks_exact_mut(8).take(numbers).for_each(|number| number.reverse());
    }
    answer
}

fn bill_of_e(image: &[u8], place: u64) -> u64 {
    match reader::bill(image, place) {
        0 => 0,
        _ => headers(image, place).into_iter().map(|header| 4 * field(image, header, partition::E)).sum(),
    }
}

fn body_of_u(image: &[u8], place: u64, p: u64) -> u64 {
    match reader::body_length(image, place, p) {
        0 => 0,
        _ => 4 * field(image, headers(image, place)[p as usize - 1], partition::U),
    }
}
