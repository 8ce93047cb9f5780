//! The images that are read: every partition alike, in one of several layouts. `shape_words.rs` writes their words.

#[path = "shape_words.rs"]
mod words;

use std::error::Error;
use std::fs::OpenOptions;

use crate::fields::{block_bytes, boot, image_header, HEADER};
use crate::limits::{MOST_ENTRIES, MOST_PARTITIONS};
use crate::Outcome;

const BODY: usize = 64;

/// What an image holds. Its parts lie without gaps: boot header, table, image headers, headers, hash blocks, spans.
pub struct Shape {
    partitions: usize,
    blocks: bool,
    full: bool,
    length: usize,
    layout: Layout,
}

/// In which order the partitions' headers, hash blocks, spans and load ranges lie: that of the chain, and then where the last span lies and
/// how long it is; the reverse; or neither. `Images` is as `Near`, and each partition has an image of its own.
enum Layout {
    Near,
    Far,
    Long,
    Reversed,
    Mixed,
    Images,
}

impl Shape {
    pub fn parse(n: &str, blocks: &str, kind: &str, length: &str, layout: &str) -> Result<Shape, Box<dyn Error>> {
        let layout = match layout {
            "near" => Layout::Near,
            "far" => Layout::Far,
            "long" => Layout::Long,
            "reversed" => Layout::Reversed,
            "mixed" => Layout::Mixed,
            "images" => Layout::Images,
            _ => return Err("LAYOUT is near, far, long, reversed, mixed or images".into()),
        };
        let mut shape = Shape { partitions: n.parse()?, blocks: blocks == "1", full: kind == "full", length: length.parse()?, layout };
        if !(1..=MOST_PARTITIONS).contains(&shape.partitions) || !matches!(blocks, "0" | "1") || !matches!(kind, "full" | "partial") {
            return Err(format!("N is 1 to {MOST_PARTITIONS}, BLOCKS 0 or 1, KIND full or partial").into());
        }
        if shape.length == 0 {
            shape.length = shape.shortest();
        }
        if shape.length < shape.shortest() || shape.length % 4 != 0 {
            return Err(format!("LENGTH is 0 or a multiple of 4 from {} on", shape.shortest()).into());
        }
        Ok(shape)
    }

    /// Writes the image and prints its table place. Zeros at its end become a hole in the file, which takes up no room.
    pub fn make(&self, path: &str) -> Outcome {
        std::fs::write(path, self.bytes())?;
        OpenOptions::new().write(true).open(path)?.set_len(self.length as u64)?;
        println!("{}", self.table());
        Ok(())
    }

    fn table(&self) -> usize {
        if self.full { boot::BYTES } else { 0 }
    }

    fn image_headers(&self) -> usize {
        self.table() + HEADER
    }

    fn images(&self) -> usize {
        if matches!(self.layout, Layout::Images) { self.partitions } else { 1 }
    }

    /// How many partitions' parts lie before those of partition p, from 1.
    fn rank(&self, p: usize) -> usize {
        match self.layout {
            Layout::Reversed => self.partitions - p,
            // A prime over the most partitions, so that no two get one rank.
            Layout::Mixed => 37 * (p - 1) % self.partitions,
            _ => p - 1,
        }
    }

    fn headers(&self) -> usize {
        self.image_headers() + image_header::BYTES * self.images()
    }

    fn header(&self, p: usize) -> usize {
        self.headers() + HEADER * self.rank(p)
    }

    fn block_length(&self) -> usize {
        if self.blocks { block_bytes(MOST_ENTRIES) } else { 0 }
    }

    fn blocks(&self) -> usize {
        self.headers() + HEADER * self.partitions
    }

    /// The block of partition p, or of the table for p = 0.
    fn block(&self, p: usize) -> usize {
        self.blocks() + if p == 0 { 0 } else { self.block_length() * (1 + self.rank(p)) }
    }

    fn spans(&self) -> usize {
        self.blocks() + self.block_length() * (1 + self.partitions)
    }

    fn shortest(&self) -> usize {
        self.spans() + BODY * self.partitions
    }

    /// Where the span of partition p starts and how long it is.
    fn span(&self, p: usize) -> (usize, usize) {
        let near = self.spans() + BODY * self.rank(p);
        match self.layout {
            Layout::Far if p == self.partitions => (self.length - BODY, BODY),
            Layout::Long if p == self.partitions => (near, self.length - near),
            _ => (near, BODY),
        }
    }
}
