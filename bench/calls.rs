//! The calls that are counted or timed: each reader's answer to each question.

use std::error::Error;
use std::hint::black_box;

use crate::archive::{Archive, Subject};
use crate::fields::{get, table};
use crate::reader;

#[derive(Clone, Copy)]
pub enum Question {
    Read,
    Bill,
    Owner,
}

impl Question {
    pub fn parse(name: &str) -> Result<Question, Box<dyn Error>> {
        match name {
            "read" => Ok(Question::Read),
            "bill" => Ok(Question::Bill),
            "owner" => Ok(Question::Owner),
            _ => Err("QUESTION is read, bill or owner".into()),
        }
    }
}

pub struct Reader {
    read: fn(&[u8], u64, &mut [u8]) -> u64,
    bill: fn(&[u8], u64) -> u64,
    owner: fn(&[u8], u64, u64) -> u64,
}

pub const ARCHIVE: Reader = Reader { read: archive_read, bill: archive_bill, owner: archive_owner };
pub const RUST: Reader = Reader { read: rust_read, bill: rust_bill, owner: rust_owner };

// The six counted functions. They keep their names and are never inlined, so that callgrind can be told to count within one of them; the
// black box keeps a call from becoming a jump, which would leave the function before the work begins.

#[no_mangle]
#[inline(never)]
fn archive_read(image: &[u8], place: u64, rows: &mut [u8]) -> u64 {
    black_box(Archive.read(image, place, rows))
}

#[no_mangle]
#[inline(never)]
fn archive_bill(image: &[u8], place: u64) -> u64 {
    black_box(Archive.bill(image, place))
}

#[no_mangle]
#[inline(never)]
fn archive_owner(image: &[u8], place: u64, p: u64) -> u64 {
    black_box(Archive.owner(image, place, p))
}

#[no_mangle]
#[inline(never)]
fn rust_read(image: &[u8], place: u64, rows: &mut [u8]) -> u64 {
    black_box(reader::read(image, place, rows))
}

#[no_mangle]
#[inline(never)]
fn rust_bill(image: &[u8], place: u64) -> u64 {
    black_box(reader::bill(image, place))
}

#[no_mangle]
#[inline(never)]
fn rust_owner(image: &[u8], place: u64, p: u64) -> u64 {
    black_box(reader::owner(image, place, p))
}

impl Reader {
    pub fn ask(&self, question: Question, image: &[u8], place: u64, rows: &mut [u8]) -> u64 {
        match question {
            Question::Read => (self.read)(image, place, rows),
            Question::Bill => (self.bill)(image, place),
            Question::Owner => (self.owner)(image, place, last_partition(image, place)),
        }
    }
}

/// The number of partitions, 0 if there is no table at this place.
fn last_partition(image: &[u8], place: u64) -> u64 {
    let at = place as usize + table::PARTITIONS;
    image.get(at..at + 4).map_or(0, |word| get(word, 0).into())
}
