//! Feeds generated images to a reader, one after another; `tally.rs` counts what came of them.
//!
//! Most images lie in plain memory at any alignment; every eighth, and every cut one, ends just before an unreadable page, and some
//! start just after one. An image that is lent longer than its bytes lies in a large run of zeros.

use crate::archive::Subject;
use crate::compare::{compare, first_difference, shown, Difference, Lent, Rows, What};
use crate::images::{make, Sample};
use crate::layout::Image;
use crate::memory::Region;
use crate::random::Random;
use crate::tally::Tally;

const MOST_DIFFERENCES: u64 = 10;
const LARGEST_IMAGE: usize = 1 << 20;
const LONGEST_LENT: usize = (1 << 32) + LARGEST_IMAGE;

/// The memory in which images are lent.
struct Lender {
    plain: Vec<u8>,
    guarded: Region,
    long: Region,
}

pub struct Feeder {
    lender: Lender,
    rows: Rows,
    /// The last image's bytes, and how it was lent.
    buffer: Vec<u8>,
    lent: String,
    pub tally: Tally,
}

impl Feeder {
    /// Nothing if the system doesn't give the memory.
    pub fn new() -> Option<Feeder> {
        let lender = Lender { plain: Vec::new(), guarded: Region::new(LARGEST_IMAGE)?, long: Region::new(LONGEST_LENT)? };
        let rows = Rows::new(&mut Random::new(0, 0));
        Some(Feeder { lender, rows, buffer: Vec::new(), lent: String::new(), tally: Tally::default() })
    }

    /// Feeds image number `index` of this seed.
    pub fn feed(&mut self, subject: &impl Subject, seed: u64, index: u64) -> Result<(), Difference> {
        let mut random = Random::new(seed, index);
        let sample = make(&mut random, std::mem::take(&mut self.buffer));
        let Feeder { lender, rows, tally, .. } = self;
        let result = lender.lend(&sample, index, &mut random, tally, |lent, random| compare(subject, lent, rows, random));
        let Image { bytes, length, place, row_bytes, .. } = &sample.image;
        match &result {
            Ok(answer) => tally.count(&sample, index, *answer, rows),
            Err(_) => self.lent = format!("{} bytes lent as {length}, place {place}, rows of {row_bytes} bytes", bytes.len()),
        }
        self.buffer = sample.image.bytes;
        result.map(|_| ())
    }

    /// Feeds so many images; differences are printed, and the image is left in a file, until there are too many.
    pub fn run(&mut self, subject: &impl Subject, seed: u64, first: u64, images: u64) {
        for index in first..first.saturating_add(images) {
            if let Err(difference) = self.feed(subject, seed, index) {
                self.report(&difference, seed, index);
                self.tally.differences.push(difference.what);
            }
            if self.tally.differences.len() as u64 >= MOST_DIFFERENCES {
                println!("  stopped after {MOST_DIFFERENCES} differences");
                break;
            }
        }
    }

    fn report(&self, difference: &Difference, seed: u64, index: u64) {
        let Difference { what, question, second_reader, subject } = difference;
        println!("  difference in image {index} of seed {seed}: {question} ({what:?})");
        match question.as_str() {
            "read" => println!("    second reader {}, archive {}", shown(*second_reader), shown(*subject)),
            _ => println!("    second reader {second_reader}, archive {subject}"),
        }
        println!("    {}; to see it alone: --seed {seed} --first {index} --images 1", self.lent);
        let file = std::env::temp_dir().join(format!("pdi-difference-{seed}-{index}.bin"));
        match std::fs::write(&file, &self.buffer) {
            Ok(()) => println!("    the image is in {}", file.display()),
            Err(error) => println!("    the image could not be written to {}: {error}", file.display()),
        }
    }
}

impl Lender {
    /// Lends the image while `look` runs, then looks whether it is unchanged.
    fn lend(
        &mut self,
        sample: &Sample,
        index: u64,
        random: &mut Random,
        tally: &mut Tally,
        look: impl FnOnce(&Lent, &mut Random) -> Result<u64, Difference>,
    ) -> Result<u64, Difference> {
        let Image { bytes, length, place, row_bytes, .. } = &sample.image;
        let image = self.memory(sample, index, random, tally);
        image[..bytes.len()].copy_from_slice(bytes);
        let lent = Lent { image, place: *place, row_bytes: *row_bytes, partitions: sample.image.count() as u64 };
        let result = look(&lent, random);
        let changed = first_difference(&image[..bytes.len()], bytes);
        tally.fed += 1;
        let result = match changed {
            None => result,
            Some(at) => {
                let question = format!("byte {at} of the image changed");
                Err(Difference { what: What::Image, question, second_reader: bytes[at].into(), subject: image[at].into() })
            }
        };
        if *length > bytes.len() as u64 {
            image[..bytes.len()].fill(0);
        }
        result
    }

    fn memory(&mut self, sample: &Sample, index: u64, random: &mut Random, tally: &mut Tally) -> &mut [u8] {
        let length = sample.image.length as usize;
        if length > sample.image.bytes.len() {
            tally.lent_longer += 1;
            return self.long.at_start(length);
        }
        assert!(length <= self.guarded.bytes());
        if sample.was_cut || index % 8 == 0 {
            tally.before_guard += 1;
            return self.guarded.at_end(length);
        }
        if index % 8 == 4 {
            tally.after_guard += 1;
            return self.guarded.at_start(length);
        }
        let from = random.index(8);
        self.plain.resize(from + length, 0);
        &mut self.plain[from..]
    }
}
