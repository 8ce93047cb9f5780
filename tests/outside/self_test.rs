//! Whether the comparisons find readers and programs with known mistakes, and whether an unreadable page stops a reading past an image.

use std::os::unix::process::ExitStatusExt;
use std::process::{Command, Stdio};

use crate::checks::Checks;
use crate::inputs::{input, Input};
use crate::memory::Region;
use crate::mistaken_prints;
use crate::mistakes::{Mistaken, MISTAKES, RIGHT};
use crate::program::{compare, Ended};
use crate::run::Feeder;

/// Within so many images each mistake must be found.
pub const SELF_TEST_IMAGES: u64 = 20_000;
/// The same for the inputs of a program.
pub const SELF_TEST_INPUTS: u64 = 2_000;
pub const TOUCH_GUARD: &str = "--touch-guard";

pub fn self_test(checks: &mut Checks, seed: u64) {
    test_readers(checks, seed);
    test_prints(checks, seed);
    checks.check("an unreadable page stops a reading past the image", guard_stops());
}

fn test_readers(checks: &mut Checks, seed: u64) {
    let found = |subject: &Mistaken| {
        let mut feeder = Feeder::new()?;
        Some((0..SELF_TEST_IMAGES).find(|&index| feeder.feed(subject, seed, index).is_err()))
    };
    checks.check("no difference where there is no mistake", found(&RIGHT) == Some(None));
    for mistake in &MISTAKES {
        match found(mistake) {
            Some(Some(index)) => checks.check(&format!("found in image {index}: {}", mistake.name), true),
            _ => checks.check(&format!("not found: {}", mistake.name), false),
        }
    }
}

fn test_prints(checks: &mut Checks, seed: u64) {
    let inputs: Vec<Input> = (0..SELF_TEST_INPUTS).map(|index| input(seed, index)).collect();
    let found = |program: fn(&[u8]) -> Ended| inputs.iter().position(|input| compare(input, &program(&input.bytes)).is_err());
    checks.check("no difference where a print has no mistake", found(mistaken_prints::RIGHT).is_none());
    for (name, program) in mistaken_prints::MISTAKES {
        match found(program) {
            Some(index) => checks.check(&format!("found in input {index}: {name}"), true),
            None => checks.check(&format!("not found: {name}"), false),
        }
    }
}

/// Runs this program again to read past a region, and looks whether a signal ended it.
fn guard_stops() -> bool {
    let Ok(program) = std::env::current_exe() else { return false };
    let status = Command::new(program).arg(TOUCH_GUARD).stdout(Stdio::null()).stderr(Stdio::null()).status();
    status.is_ok_and(|status| status.signal().is_some())
}

/// What that run does; the process should not live to print.
pub fn touch_guard() {
    let byte = Region::new(1).map(|region| region.touch_guard());
    println!("{byte:?}");
}
