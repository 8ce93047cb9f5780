//! Gives a plan its places as an image: in the usual order or any other, with gaps or touching, at place 0 or elsewhere.
//!
//! Unexamined words and bytes are random. On request two neighbouring parts share one word, whatever they are; where that word is a
//! checksum, an unexamined word of the same header is changed so that it is right, and rule 18 alone is broken. `layout_words.rs` writes
//! the words.

use crate::fields::{block_bytes, boot, image_header, HEADER};
use crate::limits::ROWS_BYTES;
use crate::plan::Plan;
use crate::plan_partitions::Partition;
use crate::random::Random;

#[derive(Clone, Copy, PartialEq, Debug)]
pub enum Part {
    Boot,
    Table,
    ImageHeaders,
    Header(usize),
    Span(usize),
    Block(usize),
}

pub struct Image {
    pub bytes: Vec<u8>,
    /// The length that is lent: `bytes`, and zeros after them.
    pub length: u64,
    pub place: u64,
    pub row_bytes: usize,
    pub plan: Plan,
    /// Where the table and the image headers lie, whatever the place says.
    pub table: usize,
    pub image_headers: usize,
    pub parts: Vec<Part>,
}

/// Makes a valid image in the buffer, or, with `sharing`, one in which some part shares a word with the part before it: those two.
pub fn lay_out(random: &mut Random, plan: Plan, buffer: Vec<u8>, sharing: bool) -> (Image, Option<(Part, Part)>) {
    let parts = order(random, &plan);
    let clash = sharing.then(|| random.index(parts.len() - 1) + 1);
    let row_bytes = random.pick(&[ROWS_BYTES, ROWS_BYTES, ROWS_BYTES + 1, ROWS_BYTES + 7, ROWS_BYTES + 8, ROWS_BYTES + 320]);
    let mut image = Image { bytes: buffer, length: 0, place: 0, row_bytes, plan, table: 0, image_headers: 0, parts };
    let end = image.arrange(random, clash);
    let slack = random.pick(&[0, 0, 0, 1, 3, 4, 50]);
    image.bytes.clear();
    image.bytes.resize(end + slack, 0);
    image.length = image.bytes.len() as u64;
    image.place = image.table as u64;
    random.fill(&mut image.bytes);
    let pair = clash.map(|i| (image.parts[i - 1], image.parts[i]));
    image.write(random, pair.map(|(first, _)| first));
    (image, pair)
}

/// The parts in the order in which they lie. The boot header is always first; the table often follows it.
fn order(random: &mut Random, plan: &Plan) -> Vec<Part> {
    let count = plan.partitions.len();
    let mut parts = vec![Part::Table, Part::ImageHeaders];
    parts.extend((0..count).map(Part::Header));
    parts.extend((0..count).map(Part::Span));
    parts.extend((0..plan.blocks.len()).filter(|&b| plan.blocks[b].host.is_none()).map(Part::Block));
    match random.below(4) {
        0 => {}
        1 => random.shuffle(&mut parts[1..]),
        2 => random.shuffle(&mut parts[2 + count..]),
        _ => random.shuffle(&mut parts),
    }
    if plan.full {
        parts.insert(0, Part::Boot);
    }
    parts
}

impl Image {
    /// Where a part starts and ends.
    pub fn extent(&self, part: Part) -> (usize, usize) {
        let (start, length) = match part {
            Part::Boot => (0, boot::BYTES),
            Part::Table => (self.table, HEADER + 4 * self.plan.optional as usize),
            Part::ImageHeaders => (self.image_headers, image_header::BYTES * self.plan.counts.len()),
            Part::Header(i) => (self.plan.partitions[i].header, HEADER),
            Part::Span(i) => (self.plan.partitions[i].data, 4 * self.plan.partitions[i].t as usize),
            Part::Block(b) => (self.plan.blocks[b].at, block_bytes(self.plan.blocks[b].indexes.len())),
        };
        (start, start + length)
    }

    fn set_start(&mut self, part: Part, start: usize) {
        match part {
            Part::Boot => {}
            Part::Table => self.table = start,
            Part::ImageHeaders => self.image_headers = start,
            Part::Header(i) => self.plan.partitions[i].header = start,
            Part::Span(i) => self.plan.partitions[i].data = start,
            Part::Block(b) => self.plan.blocks[b].at = start,
        }
    }

    /// Gives all parts a start and answers where the last one ends. Part number `clash` starts a word before the end of the one before.
    fn arrange(&mut self, random: &mut Random, clash: Option<usize>) -> usize {
        // Nothing that shares a word may start at byte 0: a block or a later header there would break another rule.
        let mut end = if clash.is_some() && !self.plan.full { 4 } else { 0 };
        let gaps: [usize; 5] = if random.one_in(3) { [0; 5] } else { [0, 0, 0, 4, 36] };
        for i in 0..self.parts.len() {
            let part = self.parts[i];
            let mut start = end + random.pick(&gaps);
            if part == Part::Boot {
                start = 0;
            } else if clash == Some(i) {
                start = end - 4;
            } else if clash.is_none() && i > 0 {
                start = self.into_padding(random, self.parts[i - 1], part, start);
            }
            if start == 0 && matches!(part, Part::Header(1..) | Part::Block(_)) {
                start = 4;
            }
            self.set_start(part, start);
            end = end.max(self.extent(part).1);
        }
        for block in &mut self.plan.blocks {
            if let Some((host, words)) = block.host {
                block.at = self.plan.partitions[host].data + 4 * words as usize;
            }
        }
        end
    }

    /// A block after a span may start in the span's unused padding.
    fn into_padding(&self, random: &mut Random, before: Part, part: Part, start: usize) -> usize {
        match (before, part) {
            (Part::Span(i), Part::Block(_)) if random.one_in(2) => {
                let Partition { t, used, .. } = self.plan.partitions[i];
                self.extent(before).1 - 4 * random.index((t - used) as usize + 1)
            }
            _ => start,
        }
    }
}
