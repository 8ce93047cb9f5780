//! What a call costs: makes images, and has the archive and a plain Rust reader answer on them, once to be counted or often to be timed.
//!
//! `shape.rs` has the images, `calls.rs` the calls, `timing.rs` the times. The plain reader is the second reader of tests/outside. Linked
//! against the archive: rustc --edition 2021 -C opt-level=3 -L DIR -l static=pdi_host -o OUT bench.rs
//! `bench/run` has callgrind count. Assumes 64-bit Linux, and that nobody writes an image file while it is mapped.

// The outside test uses more of these modules than the benchmark does.
#[allow(dead_code)]
#[path = "../tests/outside/archive.rs"]
mod archive;
mod calls;
#[allow(dead_code)]
#[path = "../tests/outside/fields.rs"]
mod fields;
#[allow(dead_code)]
#[path = "../tests/outside/limits.rs"]
mod limits;
#[allow(dead_code)]
#[path = "../tests/outside/reader.rs"]
mod reader;
mod shape;
mod timing;

use std::error::Error;
use std::ffi::{c_int, c_void};
use std::fs::File;
use std::os::fd::AsRawFd;
use std::process::ExitCode;

use calls::{Question, ARCHIVE, RUST};
use limits::ROWS_BYTES;
use shape::Shape;
use timing::{processes, time};

const HELP: &str = "usage: bench make N BLOCKS KIND LENGTH FILE LAYOUT
       bench count WHO QUESTION FILE PLACE
       bench time FILE PLACE
       bench processes COMMAND... [-- COMMAND...]...
  N          partitions
  BLOCKS     1 for a hash block of the most entries for the table and each partition, 0 for none
  KIND       full or partial
  LENGTH     of the image in bytes, a multiple of 4; 0 for the shortest
  LAYOUT     near, far, long: all parts in the order of the chain, and the last span after the others, at the image's end, or after the
             others and over all the rest; reversed: the last partition's parts lie first; mixed: in no order; images: as near, and each
             partition has an image of its own, while else one image owns them all
  WHO        archive or rust: who is called once, in a function of the name WHO_QUESTION
  QUESTION   read, bill, or owner, which is asked of the last partition
make prints the table place. time prints, for each question, the nanoseconds of a call of the archive and of the Rust reader, and the
ratio; processes prints the microseconds of each command. All of these are medians.";

/// A row buffer. Its alignment also puts the stack frame that holds it, and with it the frames of the calls, at a multiple of a cache line:
/// else what glibc's copies cost would depend on the length of the environment, which lies above them on the stack.
#[derive(PartialEq)]
#[repr(align(64))]
struct Rows([u8; ROWS_BYTES]);

impl Rows {
    fn of(byte: u8) -> Rows {
        Rows([byte; ROWS_BYTES])
    }
}

type Outcome = Result<(), Box<dyn Error>>;

/// One call to be counted. The other reader is asked too: a count means something only if both accept and write the same rows.
fn count(who: &str, question: Question, image: &[u8], place: u64) -> Outcome {
    let (counted, other) = match who {
        "archive" => (ARCHIVE, RUST),
        "rust" => (RUST, ARCHIVE),
        _ => return Err("WHO is archive or rust".into()),
    };
    let (mut rows, mut others_rows) = (Rows::of(0xEE), Rows::of(0xEE));
    let answer = counted.ask(question, image, place, &mut rows.0);
    let others_answer = other.ask(question, image, place, &mut others_rows.0);
    if answer != others_answer || rows != others_rows {
        return Err("the two readers differ".into());
    }
    match (question, answer) {
        (Question::Read, 0) | (Question::Bill | Question::Owner, 1..) => Ok(()),
        _ => Err("the image is refused".into()),
    }
}

extern "C" {
    fn mmap(address: *mut c_void, length: usize, protection: c_int, flags: c_int, file: c_int, offset: i64) -> *mut c_void;
}

/// The file's bytes, mapped until the program ends: only pages that a reader looks at are ever fetched.
fn map(path: &str) -> Result<&'static [u8], Box<dyn Error>> {
    const READ: c_int = 1;
    const PRIVATE: c_int = 2;
    let file = File::open(path)?;
    let length = usize::try_from(file.metadata()?.len())?;
    // SAFETY: asks for a new mapping anywhere; no memory in use is touched.
    let mapped = unsafe { mmap(std::ptr::null_mut(), length, READ, PRIVATE, file.as_raw_fd(), 0) };
    if mapped as isize == -1 {
        return Err(std::io::Error::last_os_error().into());
    }
    // SAFETY: so many bytes are mapped and never unmapped, and nobody writes the file, as assumed above.
    Ok(unsafe { std::slice::from_raw_parts(mapped.cast(), length) })
}

fn run(arguments: &[&str]) -> Outcome {
    match arguments {
        &["make", n, blocks, kind, length, file, layout] => Shape::parse(n, blocks, kind, length, layout)?.make(file),
        &["count", who, name, file, place] => count(who, Question::parse(name)?, map(file)?, place.parse()?),
        &["time", file, place] => time(map(file)?, place.parse()?),
        ["processes", commands @ ..] => processes(&commands.split(|&word| word == "--").collect::<Vec<_>>()),
        _ => Err(HELP.into()),
    }
}

fn main() -> ExitCode {
    let arguments: Vec<String> = std::env::args().skip(1).collect();
    match run(&arguments.iter().map(String::as_str).collect::<Vec<_>>()) {
        Ok(()) => ExitCode::SUCCESS,
        Err(error) => {
            eprintln!("bench: {error}");
            ExitCode::from(2)
        }
    }
}
