//! Counts what came of the images that were fed: where each ended, whether its damage hit, what accepted ones held, and how they were lent.

use crate::compare::{shown, Rows, What};
use crate::damage::Aim;
use crate::fields::MOST_IMAGES;
use crate::images::Sample;
use crate::layout::Image;
use crate::limits::{place, HASH_ENTRY, IMAGES, KIND, LAST_RULE, MOST_PARTITIONS, PARTITIONS};
use crate::reader;

#[derive(Default)]
pub struct Tally {
    pub fed: u64,
    pub by_number: [u64; LAST_RULE + 1],
    pub aimed: [u64; LAST_RULE + 1],
    pub hit: [u64; LAST_RULE + 1],
    pub as_planned: u64,
    pub otherwise: u64,
    pub full: u64,
    pub partial: u64,
    pub with_entries: u64,
    pub of_one: u64,
    pub of_most: u64,
    pub of_one_image: u64,
    pub of_some_images: u64,
    pub of_most_images: u64,
    pub out_of_order: u64,
    pub before_guard: u64,
    pub after_guard: u64,
    pub lent_longer: u64,
    pub differences: Vec<What>,
}

impl Tally {
    pub fn count(&mut self, sample: &Sample, index: u64, answer: u64, rows: &Rows) {
        let number = (answer / 64) as usize;
        self.by_number[number] += 1;
        if let Aim::At(aimed, p) = sample.aim {
            let wanted = 64 * aimed + p as u64;
            self.aimed[aimed as usize] += 1;
            self.hit[aimed as usize] += u64::from(answer == wanted);
            if answer != wanted {
                println!("  image {index} was made for {} and got {}", shown(wanted), shown(answer));
            }
        }
        if number == 0 {
            self.count_accepted(sample, rows);
        }
    }

    fn count_accepted(&mut self, sample: &Sample, rows: &Rows) {
        let partitions = rows.number(PARTITIONS) as usize;
        self.full += u64::from(rows.number(KIND) == 1);
        self.partial += u64::from(rows.number(KIND) == 2);
        self.with_entries += u64::from((1..=partitions).any(|p| rows.number(place(p, HASH_ENTRY)) != 0));
        self.of_one += u64::from(partitions == 1);
        self.of_most += u64::from(partitions == MOST_PARTITIONS);
        let images = rows.number(IMAGES) as usize;
        self.of_one_image += u64::from(images == 1);
        self.of_some_images += u64::from(1 < images && images < MOST_IMAGES);
        self.of_most_images += u64::from(images == MOST_IMAGES);
        self.out_of_order += u64::from(sample.image.plan.is_out_of_order());
        if sample.as_planned {
            let same = is_as_planned(sample, rows);
            self.as_planned += u64::from(same);
            self.otherwise += u64::from(!same);
        }
    }

    /// One line a number: how many images ended there, and how many were made to end there and did.
    pub fn print(&self) {
        println!("  number     images      aimed        hit");
        for number in 0..=LAST_RULE {
            println!("  {number:6} {:10} {:10} {:10}", self.by_number[number], self.aimed[number], self.hit[number]);
        }
        println!("  accepted: {} full, {} partial, {} with hash entries", self.full, self.partial, self.with_entries);
        let (one, most, out_of_order) = (self.of_one, self.of_most, self.out_of_order);
        println!("  accepted: {one} of 1 partition, {most} of {MOST_PARTITIONS}, {out_of_order} with headers out of order");
        let (one, some, most) = (self.of_one_image, self.of_some_images, self.of_most_images);
        println!("  accepted: {one} of 1 image, {some} of 2 to {}, {most} of {MOST_IMAGES}", MOST_IMAGES - 1);
        let (before, after, longer) = (self.before_guard, self.after_guard, self.lent_longer);
        println!("  lent: {before} before an unreadable page, {after} after one, {longer} among zeros");
    }

    pub fn differing(&self, what: What) -> usize {
        self.differences.iter().filter(|&&other| other == what).count()
    }
}

/// Whether the second reader's rows and owners are the plan's.
fn is_as_planned(sample: &Sample, rows: &Rows) -> bool {
    let Image { bytes, place, plan, .. } = &sample.image;
    let mut planned = plan.rows().into_iter().enumerate();
    planned.all(|(i, number)| rows.number(i) == number)
        && (1..=plan.partitions.len()).all(|p| reader::owner(bytes, *place, p as u64) == plan.owner(p))
}
