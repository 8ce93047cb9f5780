//! Runs the program on generated inputs, each in a process of its own, and compares its whole output, its standard error and its status
//! with the second reader's print.
//!
//! Several inputs are under way at once. A pause only changes how the program's reads fall: no answer depends on it.

use std::io::{self, Write};
use std::path::Path;
use std::process::{ChildStdin, Command, Stdio};
use std::sync::atomic::{AtomicU64, Ordering};
use std::thread;
use std::time::Duration;

use crate::inputs::{input, Feeding, Input};
use crate::options::Options;
use crate::print::print;
use crate::random::Random;
use crate::reached::Reached;

const AT_ONCE: usize = 4;
const MOST_DIFFERENCES: u64 = 10;
const PAUSE: Duration = Duration::from_micros(100);
/// So many pieces at the start have a pause before them: the envelope's header has 9 bytes.
const PAUSED_PIECES: usize = 16;

/// What a process leaves behind. The status is that of its exit, if no signal ended it.
#[derive(PartialEq)]
pub struct Ended {
    pub output: Vec<u8>,
    pub errors: Vec<u8>,
    pub status: Option<i32>,
}

impl Ended {
    /// Status 0, and nothing on standard error.
    pub fn well(output: String) -> Ended {
        Ended { output: output.into_bytes(), errors: Vec::new(), status: Some(0) }
    }

    fn shown(&self) -> String {
        let [output, errors] = [&self.output, &self.errors].map(|bytes| String::from_utf8_lossy(bytes).into_owned());
        format!("status {:?}, standard output {output:?}, standard error {errors:?}", self.status)
    }
}

/// The second reader's print, or what is wrong.
pub fn compare(input: &Input, ended: &Ended) -> Result<String, String> {
    let printed = print(&input.bytes);
    let first = printed.lines().next().unwrap_or("");
    if input.wanted.as_deref().is_some_and(|wanted| wanted != first) {
        return Err(format!("made for {:?}, the second reader prints {first:?}", input.wanted));
    }
    let wanted = Ended::well(printed);
    match *ended == wanted {
        true => Ok(String::from_utf8_lossy(&wanted.output).into_owned()),
        false => Err(format!("second reader: {}\n    program: {}", wanted.shown(), ended.shown())),
    }
}

/// Runs all inputs; differences are printed, and the input is left in a file, until there are too many.
pub fn run_all(program: &Path, options: &Options) -> Reached {
    let end = options.first.saturating_add(options.inputs);
    let (next, differences) = (AtomicU64::new(options.first), AtomicU64::new(0));
    let work = || {
        let mut reached = Reached::default();
        while differences.load(Ordering::Relaxed) < MOST_DIFFERENCES {
            let index = next.fetch_add(1, Ordering::Relaxed);
            if index >= end {
                break;
            }
            let input = input(options.seed, index);
            let ended = run(program, &input, &mut Random::new(!options.seed, index));
            match ended.map_err(|error| error.to_string()).and_then(|ended| compare(&input, &ended)) {
                Ok(printed) => reached.count(&input, &printed),
                Err(fault) => {
                    differences.fetch_add(1, Ordering::Relaxed);
                    report(&input, options.seed, index, &fault);
                }
            }
        }
        reached
    };
    let mut all = thread::scope(|scope| {
        let workers: Vec<_> = (0..AT_ONCE).map(|_| scope.spawn(work)).collect();
        workers.into_iter().filter_map(|worker| worker.join().ok()).fold(Reached::default(), Reached::and)
    });
    all.differences = differences.into_inner();
    all
}

fn run(program: &Path, input: &Input, random: &mut Random) -> io::Result<Ended> {
    let piped = Stdio::piped;
    let mut child = Command::new(program).stdin(piped()).stdout(piped()).stderr(piped()).spawn()?;
    let stdin = child.stdin.take();
    let output = thread::scope(|scope| {
        scope.spawn(move || stdin.map(|stdin| feed(stdin, input, random)));
        child.wait_with_output()
    })?;
    Ok(Ended { output: output.stdout, errors: output.stderr, status: output.status.code() })
}

/// Writes the input and closes the pipe. A program may end before it has read everything, so an error here says nothing.
fn feed(mut stdin: ChildStdin, input: &Input, random: &mut Random) -> Option<()> {
    let (most, paused) = match input.feeding {
        Feeding::Whole => return stdin.write_all(&input.bytes).ok(),
        Feeding::Pieces(most) => (most, false),
        Feeding::Paused(most) => (most, true),
    };
    let mut rest = &input.bytes[..];
    for number in 0.. {
        let (piece, others) = rest.split_at(rest.len().min(1 + random.index(most)));
        if paused && (number < PAUSED_PIECES || others.is_empty()) {
            thread::sleep(PAUSE);
        }
        if piece.is_empty() {
            break;
        }
        stdin.write_all(piece).ok()?;
        rest = others;
    }
    Some(())
}

fn report(input: &Input, seed: u64, index: u64, fault: &str) {
    let file = std::env::temp_dir().join(format!("pdi-input-{seed}-{index}.bin"));
    let left = match std::fs::write(&file, &input.bytes) {
        Ok(()) => format!("the input is in {}", file.display()),
        Err(error) => format!("the input could not be written to {}: {error}", file.display()),
    };
    // One call, as others print meanwhile.
    println!(
        "  difference in input {index} of seed {seed}: {}\n    {fault}\n    {left}\n    to see it alone: --first {index} --inputs 1",
        input.kind
    );
}
