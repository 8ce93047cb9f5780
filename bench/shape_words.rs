//! Writes the words of the images that are read.

use super::{Shape, BODY};
use crate::fields::{boot, image_header, partition, put, put_boot_checksum_right, put_checksum_right, put_image_checksum_right, table};
use crate::fields::{BLOCK_LENGTH, BLOCK_OFFSET, HEADER, KEYS};
use crate::limits::MOST_ENTRIES;

const ENTRY: usize = 52;

impl Shape {
    /// The image up to where its last span lies if it is near. All after it are zeros.
    pub(super) fn bytes(&self) -> Vec<u8> {
        let mut bytes = vec![0; self.shortest()];
        self.put_blocks(&mut bytes);
        self.put_table(&mut bytes);
        self.put_image_headers(&mut bytes);
        (1..=self.partitions).for_each(|p| self.put_header(&mut bytes, p));
        if self.full {
            self.put_boot_header(&mut bytes);
        }
        bytes
    }

    /// Each block has an entry for every index, so that a reader has to look at all of them.
    fn put_blocks(&self, bytes: &mut [u8]) {
        if !self.blocks {
            return;
        }
        for p in 0..=self.partitions {
            (0..MOST_ENTRIES).for_each(|index| put(bytes, self.block(p) + ENTRY * index, index as u32));
        }
    }

    fn put_table(&self, bytes: &mut [u8]) {
        let at = self.table();
        let kind = if self.full { *b"FPDI" } else { *b"PPDI" };
        put(bytes, at + table::VERSION, 0x0001_0000);
        put(bytes, at + table::IMAGES, self.images() as u32);
        put(bytes, at + table::IMAGE_HEADERS, words(self.image_headers()));
        put(bytes, at + table::PARTITIONS, self.partitions as u32);
        put(bytes, at + table::FIRST_HEADER, words(self.header(1)));
        put(bytes, at + table::KIND, u32::from_le_bytes(kind));
        put(bytes, at + table::SIZES, words(HEADER) << 16 | words(image_header::BYTES) << 8 | words(HEADER));
        put(bytes, at + table::KEY, KEYS[0]);
        self.put_shared(bytes, at, 0);
    }

    /// Each image owns as many partitions as the others.
    fn put_image_headers(&self, bytes: &mut [u8]) {
        let count = self.partitions / self.images();
        for i in 0..self.images() {
            let at = self.image_headers() + image_header::BYTES * i;
            put(bytes, at + image_header::FIRST, words(self.header(1 + count * i)));
            put(bytes, at + image_header::COUNT, count as u32);
            put_image_checksum_right(bytes, at);
        }
    }

    /// The keys of the partitions go through the list, and each is loaded at a mebibyte of its own.
    fn put_header(&self, bytes: &mut [u8], p: usize) {
        let at = self.header(p);
        let (start, length) = self.span(p);
        let next = if p < self.partitions { words(self.header(p + 1)) } else { 0 };
        for field in [partition::E, partition::U, partition::T] {
            put(bytes, at + field, words(length));
        }
        put(bytes, at + partition::NEXT, next);
        put(bytes, at + partition::LOAD, (1 + self.rank(p) as u32) << 20);
        put(bytes, at + partition::D, words(start));
        put(bytes, at + partition::ATTRIBUTES, 0x0400_0001);
        put(bytes, at + partition::KEY, KEYS[p % KEYS.len()]);
        self.put_shared(bytes, at, p);
    }

    /// What table and partition header share.
    fn put_shared(&self, bytes: &mut [u8], at: usize, p: usize) {
        if self.blocks {
            put(bytes, at + BLOCK_LENGTH, self.block_length() as u32);
            put(bytes, at + BLOCK_OFFSET, words(self.block(p)));
        }
        put_checksum_right(bytes, at);
    }

    /// The span that lies first serves as the PLM.
    fn put_boot_header(&self, bytes: &mut [u8]) {
        put(bytes, boot::WIDTH, 0xAA99_5566);
        put(bytes, boot::NAME, u32::from_le_bytes(*b"XNLX"));
        put(bytes, boot::KEY, KEYS[0]);
        put(bytes, boot::SOURCE, self.spans() as u32);
        put(bytes, boot::PLM, BODY as u32);
        put(bytes, boot::PLM_TOTAL, BODY as u32);
        put_boot_checksum_right(bytes);
    }
}

fn words(bytes: usize) -> u32 {
    (bytes / 4) as u32
}
