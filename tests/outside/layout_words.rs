//! Writes the words of an image whose parts have their places; words and bytes that no rule examines stay random.

use crate::fields::{boot, image_header, partition, table, *};
use crate::layout::{Image, Part};
use crate::plan_partitions::Partition;
use crate::random::Random;

impl Image {
    /// Writes all fields, then the checksums; that of `sharing` stays as it stands, the end of a part that shares a word.
    pub fn write(&mut self, random: &mut Random, sharing: Option<Part>) {
        for block in &self.plan.blocks {
            for (i, &index) in block.indexes.iter().enumerate() {
                put(&mut self.bytes, block.at + 52 * i, index);
            }
        }
        if self.plan.full {
            self.write_boot(random);
        }
        self.write_table();
        self.write_image_headers();
        for i in 0..self.count() {
            self.write_header(random, i);
        }
        for i in 0..self.parts.len() {
            self.write_checksum(self.parts[i], sharing);
        }
    }

    fn write_checksum(&mut self, part: Part, sharing: Option<Part>) {
        let (start, _) = self.extent(part);
        match (part, Some(part) == sharing) {
            (Part::Boot, false) => put_boot_checksum_right(&mut self.bytes),
            (Part::Boot, true) => suit_boot_checksum(&mut self.bytes),
            (Part::Table | Part::Header(_), false) => put_checksum_right(&mut self.bytes, start),
            (Part::Table, true) => suit_checksum(&mut self.bytes, start, table::PDI_ID),
            (Part::Header(_), true) => suit_checksum(&mut self.bytes, start, partition::ID),
            (Part::ImageHeaders, is_sharing) => self.write_image_checksums(is_sharing),
            _ => {}
        }
    }

    /// The end that may be shared is the last image header's checksum.
    fn write_image_checksums(&mut self, is_sharing: bool) {
        for image in 1..=self.images() {
            let at = self.image_header(image);
            match is_sharing && image == self.images() {
                true => suit_image_checksum(&mut self.bytes, at),
                false => put_image_checksum_right(&mut self.bytes, at),
            }
        }
    }

    fn write_boot(&mut self, random: &mut Random) {
        let source = if random.one_in(2) { 4416 } else { random.between(4416, self.length - 1) };
        let room = self.length - source;
        let plm_total = if random.one_in(2) { room } else { random.between(1, room) };
        let plm = if random.one_in(2) { plm_total } else { random.between(1, plm_total) };
        let cdo_total = random.size();
        let cdo = if random.one_in(2) { cdo_total } else { random.between(0, cdo_total.into()) as u32 };
        let bytes = &mut self.bytes;
        put(bytes, boot::WIDTH, 0xAA99_5566);
        bytes[boot::NAME..boot::NAME + 4].copy_from_slice(b"XNLX");
        put(bytes, boot::KEY, self.plan.boot_key);
        put(bytes, boot::SOURCE, source as u32);
        put(bytes, boot::CDO, cdo);
        put(bytes, boot::CDO_TOTAL, cdo_total);
        put(bytes, boot::PLM, plm as u32);
        put(bytes, boot::PLM_TOTAL, plm_total as u32);
    }

    fn write_table(&mut self) {
        let plan = &self.plan;
        let reserved_bits = get(&self.bytes, self.table + table::SIZES) & 0xFF00_0000;
        let mut set = |field: usize, value: u32| put(&mut self.bytes, self.table + field, value);
        set(table::VERSION, 0x0001_0000);
        set(table::IMAGES, plan.counts.len() as u32);
        set(table::IMAGE_HEADERS, self.image_headers as u32 / 4);
        set(table::PARTITIONS, plan.partitions.len() as u32);
        set(table::FIRST_HEADER, plan.partitions[0].header as u32 / 4);
        set(table::KIND, u32::from_le_bytes(if plan.full { *b"FPDI" } else { *b"PPDI" }));
        set(table::SIZES, reserved_bits | 32 << 16 | 16 << 8 | 32);
        set(table::KEY, plan.key);
        set(table::OPTIONAL, plan.optional);
        set(RESERVED, 0);
        self.write_block(self.table, self.plan.own_block);
    }

    fn write_image_headers(&mut self) {
        for (image, first) in (1..).zip(self.plan.firsts()) {
            let (at, word) = (self.image_header(image), self.header(first) / 4);
            put(&mut self.bytes, at + image_header::FIRST, word as u32);
            put(&mut self.bytes, at + image_header::COUNT, self.plan.counts[image - 1] as u32);
        }
    }

    fn write_block(&mut self, owner: usize, block: Option<usize>) {
        let (length, at) = block.map_or((0, 0), |b| (block_bytes(self.plan.blocks[b].indexes.len()), self.plan.blocks[b].at));
        put(&mut self.bytes, owner + BLOCK_LENGTH, length as u32);
        put(&mut self.bytes, owner + BLOCK_OFFSET, at as u32 / 4);
    }

    fn write_header(&mut self, random: &mut Random, i: usize) {
        let next = self.plan.partitions.get(i + 1).map_or(0, |next| next.header / 4);
        let Partition { header, data, e, u, t, load, execution, key, attributes, block, .. } = self.plan.partitions[i];
        let mut set = |field: usize, value: u32| put(&mut self.bytes, header + field, value);
        set(partition::E, e);
        set(partition::U, u);
        set(partition::T, t);
        set(partition::NEXT, next as u32);
        set(partition::EXECUTION, execution as u32);
        set(partition::EXECUTION + 4, (execution >> 32) as u32);
        set(partition::LOAD, load as u32);
        set(partition::LOAD + 4, (load >> 32) as u32);
        set(partition::D, data as u32 / 4);
        set(partition::ATTRIBUTES, attributes);
        set(partition::KEY, key);
        set(RESERVED, 0);
        for (total, actual) in [(partition::KEY_TOTAL, partition::KEY_ACTUAL), (partition::SIGNATURE_TOTAL, partition::SIGNATURE_ACTUAL)] {
            let size = random.size();
            set(total, size);
            set(actual, if random.one_in(2) { size } else { random.between(0, size.into()) as u32 });
        }
        if attributes >> 12 & 3 == 3 {
            let last = (self.length - 48) / 4;
            set(partition::CHECKSUM_OFFSET, if random.one_in(2) { last } else { random.below(last + 1) } as u32);
        }
        self.write_block(header, block);
    }
}
