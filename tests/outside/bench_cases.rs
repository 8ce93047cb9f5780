//! Every case that the outline lists with its bench image, starred or not, with the answers printed there; and some of the same kind for
//! image headers.
//!
//! The rows of accepted cases are those printed, with the numbers changed that the edit changes.

use crate::archive::Subject;
use crate::bench_image::{bench_image, edit, edit_image_header, two_images, two_partitions, HEADER, IMAGE_HEADER};
use crate::fields::{image_header, partition, put, table, BLOCK_LENGTH, BLOCK_OFFSET};
use crate::limits::{BILLED, IMAGES, MOST_PARTITIONS, PARTITIONS, ROWS_BYTES};

pub struct Case {
    pub name: &'static str,
    image: Vec<u8>,
    place: u64,
    row_bytes: usize,
    /// Number and p.
    answer: (u64, u64),
    /// The rows of an acceptance, and which image owns each partition.
    rows: Vec<u64>,
    owners: Vec<u64>,
}

fn printed_rows() -> Vec<u64> {
    vec![2, 1, 1, 16, 320, 16, 16, 1048576, 0, 0, 0, 67108865]
}

/// Where it is accepted, one image owns all partitions.
fn case(name: &'static str, image: Vec<u8>, place: u64, answer: (u64, u64), rows: Vec<u64>) -> Case {
    let owners = vec![1; rows.get(PARTITIONS).map_or(0, |&count| count as usize)];
    Case { name, image, place, row_bytes: ROWS_BYTES, answer, rows, owners }
}

/// The bench image with some words of its table or its partition header edited, refused.
fn refused(name: &'static str, header: usize, edits: &[(usize, u32)], number: u64, p: u64) -> Case {
    let mut image = bench_image();
    edit(&mut image, header, edits);
    case(name, image, 0, (number, p), Vec::new())
}

/// The same, accepted, with some of the printed numbers changed.
fn accepted(name: &'static str, edits: &[(usize, u32)], changes: &[(usize, u64)]) -> Case {
    let mut image = bench_image();
    edit(&mut image, HEADER, edits);
    let mut rows = printed_rows();
    changes.iter().for_each(|&(i, number)| rows[i] = number);
    case(name, image, 0, (0, 0), rows)
}

pub fn cases() -> Vec<Case> {
    let mut all = place_cases();
    all.extend(word_cases());
    all.extend(load_cases());
    all.extend(added_cases());
    all.extend(image_header_cases());
    all
}

fn place_cases() -> Vec<Case> {
    let image = bench_image;
    vec![
        case("as given", image(), 0, (0, 0), printed_rows()),
        case("empty image", Vec::new(), 0, (3, 0), Vec::new()),
        case("place 2", image(), 2, (3, 0), Vec::new()),
        case("place 208", image(), 208, (4, 0), Vec::new()),
        case("place 212", image(), 212, (3, 0), Vec::new()),
        Case { row_bytes: ROWS_BYTES - 8, ..case("rows a number too short and place 2", image(), 2, (2, 0), Vec::new()) },
    ]
}

fn word_cases() -> Vec<Case> {
    use partition::{ATTRIBUTES, D, KEY, NEXT, T, U};
    vec![
        refused("partitions 0", 0, &[(table::PARTITIONS, 0)], 6, 0),
        refused("a partition too many", 0, &[(table::PARTITIONS, MOST_PARTITIONS as u32 + 1)], 6, 0),
        refused("table key 0x5C3CA5A3", 0, &[(table::KEY, 0x5C3C_A5A3)], 7, 0),
        refused("next 48", HEADER, &[(NEXT, 48)], 10, 1),
        refused("attribute type 0", HEADER, &[(ATTRIBUTES, 0x0000_0001)], 12, 1),
        accepted("attributes 0x0400C001", &[(ATTRIBUTES, 0x0400_C001)], &[(11, 0x0400_C001)]),
        refused("key 0xA5C3C5A4", HEADER, &[(KEY, 0xA5C3_C5A4)], 13, 1),
        accepted("key 0xC3A5C573", &[(KEY, 0xC3A5_C573)], &[(9, 0xC3A5_C573)]),
        refused("U = 5", HEADER, &[(U, 5)], 14, 1),
        refused("T = 5", HEADER, &[(T, 5)], 15, 1),
        refused("T = 0x40000000", HEADER, &[(T, 0x4000_0000)], 15, 1),
        refused("D = 79", HEADER, &[(D, 79)], 18, 0),
    ]
}

fn load_cases() -> Vec<Case> {
    use partition::{ATTRIBUTES, LOAD};
    const HIGH: usize = LOAD + 4;
    let ones = u32::MAX;
    vec![
        refused("type 2, load 0x00100000", HEADER, &[(ATTRIBUTES, 0x0200_0001)], 16, 1),
        accepted(
            "type 2, both halves 0xFFFFFFFF",
            &[(ATTRIBUTES, 0x0200_0001), (LOAD, ones), (HIGH, ones)],
            &[(7, u64::MAX), (11, 0x0200_0001)],
        ),
        accepted("load 0xFFFFFFFFFFFFFFF0", &[(LOAD, 0xFFFF_FFF0), (HIGH, ones)], &[(7, 0xFFFF_FFFF_FFFF_FFF0)]),
        refused("load 0xFFFFFFFFFFFFFFF1", HEADER, &[(LOAD, 0xFFFF_FFF1), (HIGH, ones)], 16, 1),
    ]
}

/// The cases that add a hash block or a second partition.
fn added_cases() -> Vec<Case> {
    let block = |index: u32, length: u32| {
        let mut image = bench_image();
        image.resize(336 + 64, 0);
        put(&mut image, 336, index);
        edit(&mut image, HEADER, &[(BLOCK_LENGTH, length), (BLOCK_OFFSET, 84)]);
        image
    };
    let mut with_entry = printed_rows();
    with_entry[10] = 336;
    vec![
        case("block at word 84, index 1", block(1, 64), 0, (0, 0), with_entry),
        case("block at word 84, index 2", block(2, 64), 0, (17, 1), Vec::new()),
        case("block at word 84, length 52", block(1, 52), 0, (17, 1), Vec::new()),
        case("second partition at 0x00100010", two_partitions(0x0010_0010), 0, (0, 0), two_rows(1)),
        case("second partition at 0x0010000F", two_partitions(0x0010_000F), 0, (19, 2), Vec::new()),
    ]
}

fn two_rows(images: u64) -> Vec<u64> {
    let mut rows = printed_rows();
    rows[IMAGES..=BILLED].copy_from_slice(&[images, 2, 20]);
    rows.extend([464, 4, 4, 0x0010_0010, 0, 0, 0, 67108865]);
    rows
}

/// Rule 20 and the size that rule 6 asks for. The last two have a second partition at 0x00100010.
fn image_header_cases() -> Vec<Case> {
    let broken = |name: &'static str, first: u32, count: u32| {
        let mut image = bench_image();
        edit_image_header(&mut image, IMAGE_HEADER, first, count);
        case(name, image, 0, (20, 0), Vec::new())
    };
    let mut one_off = bench_image();
    put(&mut one_off, IMAGE_HEADER + image_header::CHECKSUM, 0x32);
    let mut one_left = two_partitions(0x0010_0010);
    edit_image_header(&mut one_left, IMAGE_HEADER, 48, 1);
    vec![
        refused("image header size 15", 0, &[(table::SIZES, 0x0020_0F20)], 6, 0),
        refused("image header size 17", 0, &[(table::SIZES, 0x0020_1120)], 6, 0),
        broken("count 0", 48, 0),
        broken("count 2", 48, 2),
        broken("count 2^32 - 1", 48, u32::MAX),
        broken("word 0 one word on", 49, 1),
        broken("word 0 in bytes", 192, 1),
        case("image header checksum one off", one_off, 0, (20, 0), Vec::new()),
        case("second partition that no image owns", one_left, 0, (20, 0), Vec::new()),
        Case { owners: vec![1, 2], ..case("second partition with an image of its own", two_images(), 0, (0, 0), two_rows(2)) },
    ]
}

impl Case {
    /// Whether this reader answers all questions as the outline says, and changes the rows it says and nothing else.
    pub fn holds(&self, reader: &impl Subject) -> bool {
        let mut rows = vec![0xA7; self.row_bytes + 9];
        let mut wanted = rows.clone();
        for (bytes, number) in wanted.chunks_exact_mut(8).zip(&self.rows) {
            bytes.copy_from_slice(&number.to_le_bytes());
        }
        let answer = reader.read(&self.image, self.place, &mut rows[..self.row_bytes]);
        let (number, p) = self.answer;
        // The one case refused for its rows has a wrong place too, so that bill and body refuse it as well.
        let (billed, body) = if number == 0 { (self.rows[BILLED], 16) } else { (0, 0) };
        answer == 64 * number + p
            && rows == wanted
            && reader.bill(&self.image, self.place) == billed
            && reader.body_length(&self.image, self.place, 1) == body
            && reader.body_length(&self.image, self.place, 0) == 0
            && reader.body_length(&self.image, self.place, 3) == 0
            && (0..=4).chain([u64::MAX]).all(|p| reader.owner(&self.image, self.place, p) == self.owner(p))
    }

    fn owner(&self, p: u64) -> u64 {
        (1..).zip(&self.owners).find(|&(number, _)| number == p).map_or(0, |(_, &owner)| owner)
    }
}
