//! What a valid image holds, before it has places: images, keys, partitions and hash blocks, all chosen at random.
//!
//! Every value that the rules allow can come out, and those at the edge of a rule come out often. `layout.rs` gives the places.

use crate::fields::{block_bytes, COMMON, MOST_IMAGES};
use crate::limits::{MOST_ENTRIES, MOST_PARTITIONS};
use crate::plan_partitions::{any_key, choose_loads, choose_partition, Partition};
use crate::random::Random;

pub struct Block {
    pub at: usize,
    /// The index of each entry.
    pub indexes: Vec<u32>,
    /// The partition whose padding holds the block, and how many words after the span's start; nothing for a block outside.
    pub host: Option<(usize, u32)>,
}

pub struct Plan {
    pub full: bool,
    /// How many partitions each image owns, in table order.
    pub counts: Vec<usize>,
    pub optional: u32,
    pub key: u32,
    pub boot_key: u32,
    pub partitions: Vec<Partition>,
    pub blocks: Vec<Block>,
    pub own_block: Option<usize>,
}

/// What a damage needs to find in the image.
#[derive(Clone, Copy, Default)]
pub struct Wish {
    pub full: bool,
    pub partitions: usize,
    pub blocks: bool,
}

impl Plan {
    pub fn choose(random: &mut Random, wish: Wish) -> Plan {
        let full = wish.full || random.one_in(3);
        let boot_key = any_key(random, COMMON);
        let key = match full {
            true => random.pick(&[0, boot_key]),
            false => any_key(random, COMMON),
        };
        let count = partition_count(random).max(wish.partitions);
        let mut plan = Plan {
            full,
            counts: choose_counts(random, count),
            optional: choose_optional(random),
            key,
            boot_key,
            partitions: (0..count).map(|_| choose_partition(random)).collect(),
            blocks: Vec::new(),
            own_block: None,
        };
        choose_loads(random, &mut plan.partitions);
        if wish.blocks || random.one_in(2) {
            plan.choose_blocks(random);
        }
        plan
    }

    /// Gives some owners (0 the table, p partition p) a block, alone or shared.
    fn choose_blocks(&mut self, random: &mut Random) {
        let owners = self.partitions.len() + 1;
        let count = match random.below(4) {
            0 => 1,
            1 => owners,
            _ => random.index(owners.min(6)) + 1,
        };
        let mut of_block = vec![Vec::new(); count];
        for owner in 0..owners {
            if !random.one_in(4) {
                of_block[random.index(count)].push(owner as u32);
            }
        }
        if of_block.iter().all(Vec::is_empty) {
            of_block[0].push(random.index(owners) as u32);
        }
        for members in of_block.iter().filter(|members| !members.is_empty()) {
            self.add_block(random, members);
        }
    }

    fn add_block(&mut self, random: &mut Random, members: &[u32]) {
        for &owner in members {
            match owner {
                0 => self.own_block = Some(self.blocks.len()),
                p => self.partitions[p as usize - 1].block = Some(self.blocks.len()),
            }
        }
        let mut block = Block { at: 0, indexes: choose_indexes(random, members), host: None };
        if random.one_in(3) {
            let host = random.index(self.partitions.len());
            let words = block_bytes(block.indexes.len()) as u32 / 4;
            block.host = Some((host, self.partitions[host].take_padding(random, words)));
        }
        self.blocks.push(block);
    }

    /// The numbers that an acceptance writes.
    pub fn rows(&self) -> Vec<u64> {
        let billed = self.partitions.iter().map(|partition| 4 * u64::from(partition.t)).sum();
        let mut rows = vec![if self.full { 1 } else { 2 }, self.counts.len() as u64, self.partitions.len() as u64, billed];
        for (p, partition) in (1..).zip(&self.partitions) {
            let entry = partition.block.map_or(0, |block| self.blocks[block].entry(p));
            let (key, attributes) = (partition.key.into(), partition.attributes.into());
            let (length, loaded) = (4 * u64::from(partition.t), 4 * u64::from(partition.u));
            rows.extend([partition.data as u64, length, loaded, partition.load, partition.execution, key, entry, attributes]);
        }
        rows
    }

    /// The first partition of each image's run.
    pub fn firsts(&self) -> Vec<usize> {
        (0..self.counts.len()).map(|i| 1 + self.counts[..i].iter().sum::<usize>()).collect()
    }

    /// The image that owns partition p: as many runs have started by then.
    pub fn owner(&self, p: usize) -> u64 {
        self.firsts().into_iter().filter(|&first| first <= p).count() as u64
    }

    /// Whether a header lies before one that it follows in the chain.
    pub fn is_out_of_order(&self) -> bool {
        self.partitions.windows(2).any(|pair| pair[0].header > pair[1].header)
    }
}

impl Block {
    /// Where the entry with this index lies.
    pub fn entry(&self, index: u32) -> u64 {
        let before = self.indexes.iter().take_while(|&&other| other != index).count();
        (self.at + 52 * before) as u64
    }
}

fn partition_count(random: &mut Random) -> usize {
    match random.below(10) {
        0 | 1 => 1,
        2 => MOST_PARTITIONS,
        3..=6 => random.index(4) + 1,
        _ => random.index(MOST_PARTITIONS) + 1,
    }
}

/// Cuts a chain of so many partitions into runs, at random: how many partitions each image owns.
pub fn choose_counts(random: &mut Random, partitions: usize) -> Vec<usize> {
    let any = random.index(partitions) + 1;
    let images = random.pick(&[1, 2, 3, MOST_IMAGES, any, any]).min(partitions);
    let mut ends: Vec<usize> = (1..partitions).collect();
    random.shuffle(&mut ends);
    ends.truncate(images - 1);
    ends.push(partitions);
    ends.sort_unstable();
    let mut start = 0;
    ends.into_iter().map(|end| end - std::mem::replace(&mut start, end)).collect()
}

/// Seldom many words, as these images are long.
fn choose_optional(random: &mut Random) -> u32 {
    let many = random.between(1, 400) as u32;
    4 * if random.one_in(50) { many } else { random.pick(&[0, 0, 0, 1, 2, 7]) }
}

/// The indexes of a block's entries: each member's once, among others that are no member's.
fn choose_indexes(random: &mut Random, members: &[u32]) -> Vec<u32> {
    let n = match random.below(4) {
        0 | 1 => members.len(),
        2 => random.between(members.len() as u64, MOST_ENTRIES as u64) as usize,
        _ => MOST_ENTRIES,
    };
    let mut indexes = members.to_vec();
    while indexes.len() < n {
        let other = if random.one_in(4) { random.word() } else { random.below(40) as u32 };
        if !members.contains(&other) {
            indexes.push(other);
        }
    }
    random.shuffle(&mut indexes);
    indexes
}
