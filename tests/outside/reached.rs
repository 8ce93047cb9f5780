//! Counts what the program's inputs reached: each number, `envelope`, the kinds of accepted images and of inputs, and how they were fed.

use std::collections::BTreeMap;

use crate::envelopes::{FAR, FIRST_RULE};
use crate::inputs::{Feeding, Input, ANY_IMAGE, KINDS};
use crate::limits::{KIND, LAST_RULE, MOST_PARTITIONS, PARTITIONS};

#[derive(Default)]
pub struct Reached {
    pub inputs: u64,
    pub differences: u64,
    counts: BTreeMap<String, u64>,
}

impl Reached {
    /// Counts an input that was printed so.
    pub fn count(&mut self, input: &Input, printed: &str) {
        let mut lines = printed.lines().map(|line| line.split(' ').collect::<Vec<_>>());
        let answer = lines.next().unwrap_or_default();
        self.inputs += 1;
        self.add(format!("printed: {}", answer[0]));
        self.add(format!("made: {}", input.kind));
        self.add(format!("fed: {}", fed(input.feeding)));
        if let Some(head) = lines.next() {
            let place = input.bytes[5..9].iter().fold(0, |place, &byte| place << 8 | usize::from(byte));
            self.add(format!("accepted: {}", partitions(head[PARTITIONS].parse().unwrap_or(0))));
            self.add(format!("accepted: {}", kind(head[KIND], place)));
        }
    }

    fn add(&mut self, name: String) {
        *self.counts.entry(name).or_default() += 1;
    }

    /// The counts of both.
    pub fn and(mut self, other: Reached) -> Reached {
        self.inputs += other.inputs;
        for (name, count) in other.counts {
            *self.counts.entry(name).or_default() += count;
        }
        self
    }

    fn times(&self, name: &str) -> u64 {
        self.counts.get(name).copied().unwrap_or(0)
    }

    pub fn print(&self) {
        wanted().iter().for_each(|name| println!("  {:6} {name}", self.times(name)));
    }

    /// Whether everything was reached, and nothing else: numbers 1 and 2 can't be.
    pub fn is_whole(&self) -> bool {
        let wanted = wanted();
        wanted.iter().all(|name| self.times(name) > 0) && self.counts.keys().all(|name| wanted.contains(name))
    }
}

/// Everything that has to be reached.
fn wanted() -> Vec<String> {
    let numbers = [0].into_iter().chain(FIRST_RULE..=LAST_RULE).map(|number| number.to_string());
    let printed = numbers.chain(["envelope".to_string()]).map(|word| format!("printed: {word}"));
    let kinds = [kind("1", FAR), kind("2", 0), kind("2", FAR)];
    let accepted = [1, 2, MOST_PARTITIONS].map(partitions).into_iter().chain(kinds).map(|name| format!("accepted: {name}"));
    let made = [ANY_IMAGE].into_iter().chain(KINDS.map(|(name, _)| name)).map(|name| format!("made: {name}"));
    let feedings = [Feeding::Whole, Feeding::Pieces(2), Feeding::Pieces(1), Feeding::Paused(2), Feeding::Paused(1)];
    let feedings = feedings.map(|feeding| format!("fed: {}", fed(feeding)));
    printed.chain(accepted).chain(made).chain(feedings).collect()
}

fn partitions(count: usize) -> String {
    match count {
        1 => "1 partition".to_string(),
        MOST_PARTITIONS => format!("{MOST_PARTITIONS} partitions"),
        _ => format!("2 to {} partitions", MOST_PARTITIONS - 1),
    }
}

/// By the head's word for the kind; a full image's table always lies far.
fn kind(word: &str, place: usize) -> String {
    match (word, place < FAR) {
        ("1", _) => "full".to_string(),
        (_, true) => format!("partial, place under {FAR}"),
        (_, false) => format!("partial, place {FAR} or more"),
    }
}

fn fed(feeding: Feeding) -> &'static str {
    match feeding {
        Feeding::Whole => "at once",
        Feeding::Pieces(1) => "a byte at a time",
        Feeding::Pieces(_) => "in pieces",
        Feeding::Paused(1) => "a byte at a time, with pauses",
        Feeding::Paused(_) => "in pieces, with pauses",
    }
}
