//! The partitions of a plan: lengths, addresses, keys and attributes, all chosen at random.

use crate::fields::KEYS;
use crate::random::Random;

pub struct Partition {
    /// Where its header and its span start, in bytes.
    pub header: usize,
    pub data: usize,
    /// The outline's lengths in words.
    pub e: u32,
    pub u: u32,
    pub t: u32,
    /// How many words of the span the body and the hash blocks in its padding take up.
    pub used: u32,
    pub load: u64,
    pub execution: u64,
    pub key: u32,
    pub attributes: u32,
    pub block: Option<usize>,
}

impl Partition {
    pub fn has_load_range(&self) -> bool {
        matches!(self.attributes >> 24 & 7, 1 | 4 | 5)
    }

    /// Lengthens the span by room for a block of so many words; often the block touches what is before and after it.
    pub fn take_padding(&mut self, random: &mut Random, words: u32) -> u32 {
        let start = self.used.max(self.t) + random.pick(&[0, 0, 1, 5]);
        self.used = start + words;
        self.t = self.used + random.pick(&[0, 0, 1, 9]);
        start
    }
}

/// 0 or one of the first `count` keys.
pub fn any_key(random: &mut Random, count: usize) -> u32 {
    if random.one_in(4) { 0 } else { random.pick(&KEYS[..count]) }
}

pub fn choose_partition(random: &mut Random) -> Partition {
    let longest = random.pick(&[1, 4, 16, 16, 64]) + if random.one_in(100) { 3000 } else { 0 };
    let u = random.between(1, longest) as u32;
    let e = u + random.pick(&[0, 0, 1, 8]);
    let t = e + random.pick(&[0, 0, 1, 3, 20]);
    let (key, attributes) = (any_key(random, KEYS.len()), choose_attributes(random));
    Partition { header: 0, data: 0, e, u, t, used: e, load: u64::MAX, execution: random.number(), key, attributes, block: None }
}

fn choose_attributes(random: &mut Random) -> u32 {
    const UNEXAMINED: u32 = 0x0084_C0CF;
    let cluster = random.below(5) as u32;
    let kind = random.between(1, 7) as u32;
    let cpu = random.pick(&[0, 1, 2, 3, 4, 5, 6, 8, 9]);
    let mut none_or_both = |at: u32| random.pick(&[0, 3]) << at;
    let pairs = none_or_both(27) | none_or_both(19) | none_or_both(12) | none_or_both(4);
    cluster << 29 | kind << 24 | (random.below(2) as u32) << 16 | cpu << 8 | pairs | random.word() & UNEXAMINED
}

/// Lays the load ranges one after another, in any order of the partitions, touching or with gaps; often they end at 2^64.
pub fn choose_loads(random: &mut Random, partitions: &mut [Partition]) {
    let mut order: Vec<usize> = (0..partitions.len()).filter(|&i| partitions[i].has_load_range()).collect();
    random.shuffle(&mut order);
    let gaps: Vec<u64> = order.iter().map(|_| random.pick(&[0, 0, 1, 4, 100])).collect();
    let all: u64 = gaps.iter().sum::<u64>() + order.iter().map(|&i| 4 * u64::from(partitions[i].u)).sum::<u64>();
    let highest = u64::MAX.wrapping_sub(all).wrapping_add(1);
    let mut address = match random.below(5) {
        0 => highest,
        1 => 0,
        2 => 0xFFFF_FFF0 + random.below(32),
        3 => random.below(highest),
        _ => random.below(1 << 40),
    };
    for (&i, gap) in order.iter().zip(gaps) {
        let start = address.wrapping_add(gap);
        partitions[i].load = start;
        address = start.wrapping_add(4 * u64::from(partitions[i].u));
    }
}
