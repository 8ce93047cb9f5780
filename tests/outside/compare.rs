//! Asks a reader and the second reader the same questions about one lent image and compares everything that the answers show.
//!
//! The lent rows lie between other bytes; all of them start out random, and all are compared afterwards.

use crate::archive::Subject;
use crate::random::Random;
use crate::reader;

/// Bytes before and after the lent rows.
const AROUND: usize = 64;

#[derive(Clone, Copy, PartialEq, Debug)]
pub enum What {
    Answer,
    Rows,
    Image,
}

pub struct Difference {
    pub what: What,
    pub question: String,
    pub second_reader: u64,
    pub subject: u64,
}

/// The rows of both readers, kept from image to image.
pub struct Rows {
    noise: Vec<u8>,
    ours: Vec<u8>,
    theirs: Vec<u8>,
    /// Where the lent part starts: at any alignment, as the host's rows are bytes.
    start: usize,
}

impl Rows {
    pub fn new(random: &mut Random) -> Rows {
        let mut noise = vec![0; 8192];
        random.fill(&mut noise);
        Rows { noise, ours: Vec::new(), theirs: Vec::new(), start: AROUND }
    }

    /// Fills both with the same bytes.
    fn fill(&mut self, random: &mut Random, row_bytes: usize) {
        self.start = AROUND + random.index(8);
        let length = self.start + row_bytes + AROUND;
        let from = random.index(self.noise.len() - length);
        for rows in [&mut self.ours, &mut self.theirs] {
            rows.clear();
            rows.extend_from_slice(&self.noise[from..from + length]);
        }
    }

    /// The i-th number of the second reader's rows.
    pub fn number(&self, i: usize) -> u64 {
        let at = self.start + 8 * i;
        self.ours[at..at + 8].iter().rev().fold(0, |number, &byte| number << 8 | u64::from(byte))
    }
}

pub fn first_difference(some: &[u8], others: &[u8]) -> Option<usize> {
    if some == others { None } else { some.iter().zip(others).position(|(a, b)| a != b) }
}

pub struct Lent<'a> {
    pub image: &'a [u8],
    pub place: u64,
    pub row_bytes: usize,
    /// About how many partitions there are, to ask for bodies and owners near that number.
    pub partitions: u64,
}

/// Asks all questions and gives the second reader's answer to read, or what differed.
pub fn compare(subject: &impl Subject, lent: &Lent, rows: &mut Rows, random: &mut Random) -> Result<u64, Difference> {
    let Lent { image, place, row_bytes, .. } = *lent;
    rows.fill(random, row_bytes);
    let (start, end) = (rows.start, rows.start + row_bytes);
    let ours = reader::read(image, place, &mut rows.ours[start..end]);
    let theirs = subject.read(image, place, &mut rows.theirs[start..end]);
    same(What::Answer, "read", ours, theirs)?;
    if let Some(at) = first_difference(&rows.ours, &rows.theirs) {
        let question = format!("read, byte {} of the rows", at as i64 - start as i64);
        same(What::Rows, &question, rows.ours[at].into(), rows.theirs[at].into())?;
    }
    same(What::Answer, "bill", reader::bill(image, place), subject.bill(image, place))?;
    let near = lent.partitions;
    let partitions = [0, 1, random.between(1, near.max(1)), near, near + 1, u64::MAX];
    let asked = if ours == 0 { 6 } else { 1 };
    let first = if ours == 0 { 0 } else { random.index(6) };
    for &p in &partitions[first..first + asked] {
        let (length, other) = (reader::body_length(image, place, p), subject.body_length(image, place, p));
        if length != other {
            same(What::Answer, &format!("body length of partition {p}"), length, other)?;
        }
    }
    compare_owners(subject, lent)?;
    Ok(ours)
}

/// Asks for the owner of every partition and of some that are none; in 32 bits, the last but one of them would be the first.
fn compare_owners(subject: &impl Subject, lent: &Lent) -> Result<(), Difference> {
    let Lent { image, place, partitions, .. } = *lent;
    for p in (0..=partitions + 1).chain([(1 << 32) + 1, u64::MAX]) {
        let (owner, other) = (reader::owner(image, place, p), subject.owner(image, place, p));
        if owner != other {
            same(What::Answer, &format!("owner of partition {p}"), owner, other)?;
        }
    }
    Ok(())
}

fn same(what: What, question: &str, second_reader: u64, subject: u64) -> Result<(), Difference> {
    if second_reader == subject {
        return Ok(());
    }
    Err(Difference { what, question: question.to_string(), second_reader, subject })
}

/// An answer as number and p.
pub fn shown(answer: u64) -> String {
    format!("{answer} (number {}, p {})", answer / 64, answer % 64)
}
