//! Compares the C archive with an independent second reader, on the outline's bench cases, on generated images and on very large ones; and
//! the program's print with the second reader's.
//!
//! Linked against the archive: rustc --edition 2021 -C opt-level=3 -L DIR -l static=pdi_host -o OUT main.rs
//! Each named check counts one in the last line; the exit status is 0 only if none failed. Assumes 64-bit Linux.

mod archive;
mod bench_cases;
mod bench_image;
mod checks;
mod compare;
mod damage;
mod damage_blocks;
mod damage_boot;
mod damage_chain;
mod damage_images;
mod damage_partition;
mod damage_ranges;
mod damage_table;
mod edits;
mod envelope_faults;
mod envelopes;
mod fields;
mod images;
mod inputs;
mod large;
mod layout;
mod layout_words;
mod limits;
mod memory;
mod mistaken_images;
mod mistaken_prints;
mod mistaken_rules;
mod mistakes;
mod options;
mod plan;
mod plan_partitions;
mod print;
mod program;
mod random;
mod reached;
mod reader;
mod run;
mod self_test;
mod tally;

use std::path::Path;
use std::process::ExitCode;

use archive::{null_with_length_0, Archive, Subject};
use bench_cases::cases;
use bench_image::checksums_as_printed;
use checks::Checks;
use compare::What;
use large::Large;
use mistakes::RIGHT;
use options::{parse, Options, HELP};
use program::run_all;
use run::Feeder;
use self_test::{self_test, touch_guard, SELF_TEST_IMAGES, SELF_TEST_INPUTS, TOUCH_GUARD};
use tally::Tally;

fn main() -> ExitCode {
    let arguments: Vec<String> = std::env::args().skip(1).collect();
    if arguments.iter().any(|argument| argument == "--help") {
        println!("{HELP}");
        return ExitCode::SUCCESS;
    }
    if arguments == [TOUCH_GUARD] {
        touch_guard();
        return ExitCode::SUCCESS;
    }
    let Some(options) = parse(&arguments) else {
        eprintln!("{HELP}");
        return ExitCode::from(2);
    };
    let mut checks = Checks::default();
    match &options.program {
        _ if options.self_test => self_test(&mut checks, options.seed),
        Some(program) => test_program(&mut checks, program, &options),
        None => test_archive(&mut checks, &options),
    }
    checks.finish()
}

fn test_archive(checks: &mut Checks, options: &Options) {
    checks.check("the second reader's limits are those of pdi.h", limits::reader_agrees());
    test_bench(checks);
    checks.check("null pointers with length 0", null_with_length_0());
    test_generated(checks, options);
    test_large(checks);
}

fn test_bench(checks: &mut Checks) {
    checks.check("the bench image's checksums are those printed", checksums_as_printed());
    let cases = cases();
    test_cases(checks, "archive", &Archive, &cases);
    test_cases(checks, "second reader", &RIGHT, &cases);
}

fn test_cases(checks: &mut Checks, who: &str, subject: &impl Subject, cases: &[bench_cases::Case]) {
    let failed: Vec<&str> = cases.iter().filter(|case| !case.holds(subject)).map(|case| case.name).collect();
    failed.iter().for_each(|name| println!("  bench case fails: {name}"));
    checks.check(&format!("bench cases, {who}: {} of {}", cases.len() - failed.len(), cases.len()), failed.is_empty());
}

fn test_generated(checks: &mut Checks, options: &Options) {
    println!("generated images: {} from number {} on, seed {}", options.images, options.first, options.seed);
    let Some(mut feeder) = Feeder::new() else { return checks.check("memory for the generated images", false) };
    feeder.run(&Archive, options.seed, options.first, options.images);
    let tally = &feeder.tally;
    tally.print();
    let fed = tally.fed;
    checks.check(&format!("generated images: {fed} fed, all of them"), fed == options.images);
    checks.check("generated images: no difference in an answer", tally.differing(What::Answer) == 0);
    checks.check("generated images: no difference in the rows or around them", tally.differing(What::Rows) == 0);
    checks.check("generated images: no image changed", tally.differing(What::Image) == 0);
    if options.images >= SELF_TEST_IMAGES {
        test_reach(checks, tally);
    } else {
        println!("  under {SELF_TEST_IMAGES} images can't reach everything: not asked whether every number is hit");
    }
}

/// Whether the generated images reach what they are meant to reach.
fn test_reach(checks: &mut Checks, tally: &Tally) {
    checks.check("every number is hit", tally.by_number.iter().all(|&count| count > 0));
    let kinds = [tally.full, tally.partial, tally.with_entries, tally.of_one, tally.of_most, tally.out_of_order];
    let images = [tally.of_one_image, tally.of_some_images, tally.of_most_images];
    checks.check("every kind of accepted image is hit", kinds.iter().chain(&images).all(|&count| count > 0));
    checks.check("every deliberate damage reaches its rule and partition", tally.aimed == tally.hit);
    checks.check("valid images have the rows and owners planned", tally.as_planned > 0 && tally.otherwise == 0);
    checks.check("no reading past an image: unreadable pages", tally.before_guard > 0 && tally.after_guard > 0);
}

fn test_program(checks: &mut Checks, program: &Path, options: &Options) {
    println!("inputs of the program: {} from number {} on, seed {}", options.inputs, options.first, options.seed);
    let reached = run_all(program, options);
    reached.print();
    checks.check(&format!("the program: {} inputs, all of them", reached.inputs), reached.inputs == options.inputs);
    checks.check("the program: no difference in its output or its status", reached.differences == 0);
    if options.inputs >= SELF_TEST_INPUTS {
        checks.check("the program: every number, every kind of input and of image is hit", reached.is_whole());
    } else {
        println!("  under {SELF_TEST_INPUTS} inputs can't reach everything: not asked whether every kind is hit");
    }
}

fn test_large(checks: &mut Checks) {
    let Some(mut large) = Large::new(&Archive) else { return checks.check("memory for the large images", false) };
    large.run();
    checks.check(&format!("large images: {}", large.images), large.failures == 0);
}
