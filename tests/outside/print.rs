//! The second reader's print of the program's whole input, from document 01 alone.
//!
//! "A program reads standard input: version byte 1, image length (4 bytes, big-endian), table place (4 bytes, big-endian), the image. The
//! image is at most 65,527 bytes. It prints number and p; if accepted, a line with the head and one line a partition. It prints `envelope`
//! for input of another version, a longer stated length, or too few or too many bytes." Assumes nothing: any input has a print.

use crate::reader::{self, HEAD, ROW, ROWS_BYTES};

pub const LONGEST: usize = 65_527;
/// The bytes before the image: version, length and place.
pub const HEADER: usize = 9;

pub fn print(input: &[u8]) -> String {
    match open(input) {
        Some((image, place)) => print_answer(image, place),
        None => "envelope\n".to_string(),
    }
}

/// The image and the table place, unless the envelope is faulty.
fn open(input: &[u8]) -> Option<(&[u8], u64)> {
    let (&[version, a, b, c, d, e, f, g, h], image) = input.split_first_chunk::<HEADER>()?;
    let length = u64::from(u32::from_be_bytes([a, b, c, d]));
    let place = u64::from(u32::from_be_bytes([e, f, g, h]));
    let sound = version == 1 && length <= LONGEST as u64 && length == image.len() as u64;
    sound.then_some((image, place))
}

fn print_answer(image: &[u8], place: u64) -> String {
    let mut rows = [0; ROWS_BYTES];
    let answer = reader::read(image, place, &mut rows);
    let mut lines = line(&[answer / 64, answer % 64]);
    if answer == 0 {
        let numbers: Vec<u64> = rows.chunks_exact(8).map(little_endian).collect();
        let (head, rest) = numbers.split_at(HEAD);
        lines += &line(head);
        let partitions = head[2] as usize;
        rest.chunks_exact(ROW).take(partitions).for_each(|row| lines += &line(row));
    }
    lines
}

fn little_endian(bytes: &[u8]) -> u64 {
    bytes.iter().rev().fold(0, |number, &byte| number << 8 | u64::from(byte))
}

/// Decimal numbers with a space between them, and a line feed.
fn line(numbers: &[u64]) -> String {
    let words: Vec<String> = numbers.iter().map(u64::to_string).collect();
    words.join(" ") + "\n"
}
