//! Images of up to a byte more than the longest, mostly zeros that take no memory, with their parts at the far end.
//!
//! They are lent read-only and end just before an unreadable page.

use crate::archive::Subject;
use crate::bench_image::{bench_image, edit};
use crate::compare::{compare, shown, Difference, Lent, Rows};
use crate::fields::{boot, get, image_header, partition, table, BLOCK_LENGTH, BLOCK_OFFSET};
use crate::layout::{lay_out, Image};
use crate::limits::{HASH_ENTRY, HEAD, LONGEST_IMAGE as LONGEST, ROW, ROWS_BYTES, SPAN_START};
use crate::memory::Region;
use crate::plan::{Plan, Wish};
use crate::random::Random;

const SEED: u64 = 0x1A46E;
const FAR_IMAGES: u64 = 64;

pub struct Large<'a, S> {
    subject: &'a S,
    region: Region,
    rows: Rows,
    random: Random,
    pub images: u64,
    pub failures: u64,
}

impl<'a, S: Subject> Large<'a, S> {
    pub fn new(subject: &'a S) -> Option<Self> {
        let mut random = Random::new(SEED, u64::MAX);
        let rows = Rows::new(&mut random);
        Some(Large { subject, region: Region::new(LONGEST + 1)?, rows, random, images: 0, failures: 0 })
    }

    pub fn run(&mut self) {
        (0..FAR_IMAGES).for_each(|k| self.far_end(k));
        self.too_long();
        self.places();
        self.huge_span();
    }

    /// Compares on the last `length` bytes of the region, less `cut`; with `wanted`, read must also answer that.
    fn ask(&mut self, length: usize, cut: usize, place: u64, wanted: Option<u64>) {
        let Large { subject, region, rows, random, .. } = self;
        let result = region.read_only(length, |image| {
            let lent = Lent { image: &image[..length - cut], place, row_bytes: ROWS_BYTES, partitions: 2 };
            compare(*subject, &lent, rows, random)
        });
        self.images += 1;
        let fault = match result {
            Err(Difference { question, second_reader, subject, .. }) => {
                format!("{question}: second reader {second_reader}, archive {subject}")
            }
            Ok(answer) if wanted.is_some_and(|wanted| wanted != answer) => format!("unexpected answer {}", shown(answer)),
            Ok(_) => return,
        };
        self.failures += 1;
        println!("  large image of {} bytes, place {place}: {fault}", length - cut);
    }

    /// A valid image whose parts, but for the boot header, lie at the end of a long one; then the same with its last byte cut off.
    fn far_end(&mut self, k: u64) {
        let mut random = Random::new(SEED, k);
        let mut image = tight_image(&mut random, Wish { full: k % 2 == 0, partitions: 1, blocks: k % 3 == 0 });
        let length = LONGEST - random.pick(&[0, 0, 0, 4, LONGEST / 2, LONGEST / 4 + 4096]);
        let shift = length - image.bytes.len();
        shift_offsets(&mut image, shift as u32 / 4);
        let near = if image.plan.full { boot::BYTES } else { 0 };
        let target = self.region.at_end(length);
        target[..near].copy_from_slice(&image.bytes[..near]);
        target[near + shift..].copy_from_slice(&image.bytes[near..]);
        self.ask(length, 0, image.place + shift as u64, Some(0));
        if !self.has_rows(&image.plan, shift as u64) {
            self.failures += 1;
            println!("  large image {k}: other rows than planned");
        }
        self.ask(length, 1, image.place + shift as u64, None);
        let target = self.region.at_end(length);
        target[..near].fill(0);
        target[near + shift..].fill(0);
    }

    fn has_rows(&self, plan: &Plan, shift: u64) -> bool {
        plan.rows().into_iter().enumerate().all(|(i, planned)| {
            let number = i.checked_sub(HEAD).map(|i| i % ROW);
            let is_span_start = number == Some(SPAN_START);
            let is_entry = number == Some(HASH_ENTRY) && planned != 0;
            self.rows.number(i) == if is_span_start || is_entry { planned + shift } else { planned }
        })
    }

    fn too_long(&mut self) {
        let bench = bench_image();
        for (length, at_0, elsewhere) in [(LONGEST + 1, 64, 64), (LONGEST, 0, 64 * 3), (LONGEST - 1, 0, 64 * 3)] {
            self.region.at_end(length)[..bench.len()].copy_from_slice(&bench);
            self.ask(length, 0, 0, Some(at_0));
            self.ask(length, 0, 2, Some(elsewhere));
            self.ask(length, 0, u64::MAX, Some(elsewhere));
            self.region.at_end(length)[..bench.len()].fill(0);
        }
    }

    /// Zeros have a right checksum but a wrong version, so that 5 shows that a place was reached.
    fn places(&mut self) {
        let last = LONGEST as u64 - 128;
        for place in [0, 4, 4416, last / 2, last - 4, last] {
            self.ask(LONGEST, 0, place, Some(64 * 5));
        }
        let far = [1 << 32, (1 << 32) + 4, 1 << 63, (1 << 63) + last, u64::MAX - 127, u64::MAX - 123, u64::MAX - 3, u64::MAX];
        for place in [last + 1, last + 4, last + 128, last + 132].into_iter().chain(far) {
            self.ask(LONGEST, 0, place, Some(64 * 3));
        }
    }

    /// The bench image with one span over all the rest of a gibibyte, loaded up to the last address.
    fn huge_span(&mut self) {
        let words = (LONGEST / 4 - 80) as u32;
        let load = 0u64.wrapping_sub(4 * u64::from(words));
        for (over, byte, wanted) in [(0, 0, 0), (1, 0, 64 * 15 + 1), (0, 1, 64 * 16 + 1)] {
            let mut bench = bench_image();
            let (t, load) = (words + over, load + byte);
            edit(&mut bench, 192, &[(partition::E, words), (partition::U, words), (partition::T, t)]);
            edit(&mut bench, 192, &[(partition::LOAD, load as u32), (partition::LOAD + 4, (load >> 32) as u32)]);
            self.region.at_end(LONGEST)[..bench.len()].copy_from_slice(&bench);
            self.ask(LONGEST, 0, 0, Some(wanted));
            self.region.at_end(LONGEST)[..bench.len()].fill(0);
        }
    }
}

/// A valid image that ends with its last part, at a whole word.
fn tight_image(random: &mut Random, wish: Wish) -> Image {
    loop {
        let plan = Plan::choose(random, wish);
        let (image, _) = lay_out(random, plan, Vec::new(), false);
        let end = image.parts.iter().map(|&part| image.extent(part).1).max();
        if end == Some(image.bytes.len()) {
            return image;
        }
    }
}

/// Adds so many words to all offsets, for parts that move so far.
fn shift_offsets(image: &mut Image, words: u32) {
    let shifted = |old: u32| old + words;
    if image.plan.full {
        image.set_boot(boot::SOURCE, get(&image.bytes, boot::SOURCE) + 4 * words);
    }
    for field in [table::IMAGE_HEADERS, table::FIRST_HEADER] {
        image.set_table(field, shifted(image.of_table(field)));
    }
    if image.of_table(BLOCK_LENGTH) != 0 {
        image.set_table(BLOCK_OFFSET, shifted(image.of_table(BLOCK_OFFSET)));
    }
    for i in 1..=image.images() {
        image.set_image(i, image_header::FIRST, shifted(image.of_image(i, image_header::FIRST)));
    }
    for p in 1..=image.count() {
        let has_checksum = image.of_header(p, partition::ATTRIBUTES) >> 12 & 3 == 3;
        let has_block = image.of_header(p, BLOCK_LENGTH) != 0;
        let fields = [
            (partition::D, true),
            (partition::NEXT, p < image.count()),
            (partition::CHECKSUM_OFFSET, has_checksum),
            (BLOCK_OFFSET, has_block),
        ];
        for (field, _) in fields.into_iter().filter(|&(_, is_offset)| is_offset) {
            image.set_header(p, field, shifted(image.of_header(p, field)));
        }
    }
}
