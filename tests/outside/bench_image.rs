//! The outline's bench image, and how its words are edited: checksums are put right after each edit.

use crate::fields::{get, image_header, partition, put, put_checksum_right, put_image_checksum_right, table, CHECKSUM};

/// Where its image header and its partition header lie.
pub const IMAGE_HEADER: usize = 128;
pub const HEADER: usize = 192;
const SECOND_HEADER: usize = 336;

/// The bench image, 336 bytes, with the checksums that its other words give.
pub fn bench_image() -> Vec<u8> {
    let mut image = vec![0; 336];
    let words = [(table::VERSION, 0x0001_0000), (table::IMAGES, 1), (table::IMAGE_HEADERS, 32), (table::PARTITIONS, 1)];
    let more = [(table::FIRST_HEADER, 48), (table::KIND, u32::from_le_bytes(*b"PPDI")), (table::SIZES, 0x0020_1020)];
    edit(&mut image, 0, &[words.as_slice(), &more].concat());
    edit_image_header(&mut image, IMAGE_HEADER, 48, 1);
    let header = [(partition::E, 4), (partition::U, 4), (partition::T, 4), (partition::LOAD, 0x0010_0000)];
    edit(&mut image, HEADER, &header);
    edit(&mut image, HEADER, &[(partition::D, 80), (partition::ATTRIBUTES, 0x0400_0001)]);
    image[320..].iter_mut().zip(0..).for_each(|(byte, value)| *byte = value);
    image
}

/// The bench image with a second partition of one word, which the same image owns.
pub fn two_partitions(load: u32) -> Vec<u8> {
    let mut image = bench_image();
    image.resize(468, 0);
    edit(&mut image, 0, &[(table::PARTITIONS, 2)]);
    edit_image_header(&mut image, IMAGE_HEADER, 48, 2);
    edit(&mut image, HEADER, &[(partition::NEXT, 84)]);
    edit(&mut image, SECOND_HEADER, &[(partition::E, 1), (partition::U, 1), (partition::T, 1), (partition::LOAD, load)]);
    edit(&mut image, SECOND_HEADER, &[(partition::D, 116), (partition::ATTRIBUTES, 0x0400_0001)]);
    image
}

/// The same with an image for each partition; two image headers have room at the end.
pub fn two_images() -> Vec<u8> {
    let mut image = two_partitions(0x0010_0010);
    image.resize(468 + 2 * image_header::BYTES, 0);
    edit(&mut image, 0, &[(table::IMAGES, 2), (table::IMAGE_HEADERS, 117)]);
    edit_image_header(&mut image, 468, 48, 1);
    edit_image_header(&mut image, 468 + image_header::BYTES, 84, 1);
    image
}

/// Whether the checksums printed for the bench image are those of its words.
pub fn checksums_as_printed() -> bool {
    let (image, second) = (bench_image(), two_partitions(0x0010_0010));
    let of_image_header = |image: &[u8]| get(image, IMAGE_HEADER + image_header::CHECKSUM);
    get(&image, CHECKSUM) == 0x4965_60C2
        && get(&image, HEADER + CHECKSUM) == 0x0410_005D
        && of_image_header(&image) == 0x31
        && of_image_header(&second) == 0x32
}

/// Edits the table or a partition header.
pub fn edit(image: &mut [u8], header: usize, edits: &[(usize, u32)]) {
    edits.iter().for_each(|&(field, value)| put(image, header + field, value));
    put_checksum_right(image, header);
}

pub fn edit_image_header(image: &mut [u8], header: usize, first: u32, count: u32) {
    put(image, header + image_header::FIRST, first);
    put(image, header + image_header::COUNT, count);
    put_image_checksum_right(image, header);
}
