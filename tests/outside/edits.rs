//! An image's words, read and changed by name: what the damages need. Checksums are put right after a change.

use crate::fields::{get, image_header, partition, put, put_boot_checksum_right, put_checksum_right, put_image_checksum_right, table};
use crate::layout::Image;
use crate::random::Random;

impl Image {
    pub fn count(&self) -> usize {
        self.plan.partitions.len()
    }

    /// Where the header of partition p lies.
    pub fn header(&self, p: usize) -> usize {
        self.plan.partitions[p - 1].header
    }

    pub fn of_header(&self, p: usize, field: usize) -> u32 {
        get(&self.bytes, self.header(p) + field)
    }

    /// Edits a header and puts its checksum right.
    pub fn set_header(&mut self, p: usize, field: usize, value: u32) {
        let header = self.header(p);
        put(&mut self.bytes, header + field, value);
        put_checksum_right(&mut self.bytes, header);
    }

    pub fn images(&self) -> usize {
        self.plan.counts.len()
    }

    /// Where the header of an image lies; images count from 1.
    pub fn image_header(&self, image: usize) -> usize {
        self.image_headers + image_header::BYTES * (image - 1)
    }

    pub fn of_image(&self, image: usize, field: usize) -> u32 {
        get(&self.bytes, self.image_header(image) + field)
    }

    pub fn set_image(&mut self, image: usize, field: usize, value: u32) {
        let header = self.image_header(image);
        put(&mut self.bytes, header + field, value);
        put_image_checksum_right(&mut self.bytes, header);
    }

    pub fn counts(&self) -> Vec<u32> {
        self.plan.counts.iter().map(|&count| count as u32).collect()
    }

    /// Gives the images these counts, and each the header at which its run starts, by sums modulo 2^32; past the last partition, any other
    /// word. Another number of image headers lies at the end.
    pub fn set_counts(&mut self, random: &mut Random, counts: &[u32]) {
        if counts.len() != self.images() {
            self.image_headers = self.grow(random, image_header::BYTES * counts.len());
            self.set_table(table::IMAGES, counts.len() as u32);
            self.set_table(table::IMAGE_HEADERS, self.image_headers as u32 / 4);
        }
        self.plan.counts = counts.iter().map(|&count| count as usize).collect();
        let mut before: u32 = 0;
        for (image, &count) in (1..).zip(counts) {
            let other = random.pick(&[0, self.table, self.header(self.count())]);
            let first = self.plan.partitions.get(before as usize).map_or(other, |partition| partition.header);
            self.set_image(image, image_header::FIRST, first as u32 / 4);
            self.set_image(image, image_header::COUNT, count);
            before = before.wrapping_add(count);
        }
    }

    pub fn of_table(&self, field: usize) -> u32 {
        get(&self.bytes, self.table + field)
    }

    pub fn set_table(&mut self, field: usize, value: u32) {
        put(&mut self.bytes, self.table + field, value);
        put_checksum_right(&mut self.bytes, self.table);
    }

    pub fn set_boot(&mut self, field: usize, value: u32) {
        put(&mut self.bytes, field, value);
        put_boot_checksum_right(&mut self.bytes);
    }

    pub fn set_load(&mut self, p: usize, load: u64) {
        self.set_header(p, partition::LOAD, load as u32);
        self.set_header(p, partition::LOAD + 4, (load >> 32) as u32);
    }

    /// The first load address of partition p and how many bytes it loads.
    pub fn load_range(&self, p: usize) -> (u128, u128) {
        let [low, high, u] = [partition::LOAD, partition::LOAD + 4, partition::U].map(|field| u128::from(self.of_header(p, field)));
        (high << 32 | low, 4 * u)
    }

    pub fn set_length(&mut self, length: usize) {
        self.bytes.resize(length, 0);
        self.length = length as u64;
    }

    /// Adds random bytes at the end, from the next word on, and answers where they start.
    pub fn grow(&mut self, random: &mut Random, bytes: usize) -> usize {
        let start = self.bytes.len().next_multiple_of(4);
        self.set_length(start + bytes);
        random.fill(&mut self.bytes[start..]);
        start
    }

    pub fn set_block(&mut self, owner: usize, field: usize, value: u32) {
        match owner {
            0 => self.set_table(field, value),
            p => self.set_header(p, field, value),
        }
    }

    pub fn block_of(&self, owner: usize) -> Option<usize> {
        if owner == 0 { self.plan.own_block } else { self.plan.partitions[owner - 1].block }
    }

    /// The owners of a block, 0 for the table.
    pub fn owners(&self, block: usize) -> Vec<usize> {
        (0..=self.count()).filter(|&owner| self.block_of(owner) == Some(block)).collect()
    }
}
