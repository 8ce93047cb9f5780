//! How long calls and whole processes take. All times are medians of many turns.

use std::error::Error;
use std::hint::black_box;
use std::process::{Command, Stdio};
use std::time::{Duration, Instant};

use crate::calls::{Question, Reader, ARCHIVE, RUST};
use crate::{count, Outcome, Rows};

/// How often the readers, or the processes, take turns.
const READER_TURNS: usize = 101;
const PROCESS_TURNS: usize = 31;
/// The calls of a turn. Long beside the clock's grain, short beside the time in which a machine changes its pace.
const TURN: Duration = Duration::from_micros(500);

/// Nanoseconds of a call of each reader, and the ratio. The readers take turns in one run, and a ratio is of two neighbouring turns, so
/// that a change of the machine's pace reaches both.
pub fn time(image: &[u8], place: u64) -> Outcome {
    for (name, question) in [("read", Question::Read), ("bill", Question::Bill), ("owner", Question::Owner)] {
        count("archive", question, image, place)?;
        let turn = |reader: &Reader, calls| nanoseconds_a_call(reader, question, image, place, calls);
        let calls = enough_calls(|calls| turn(&ARCHIVE, calls));
        let turns: Vec<(f64, f64)> = (0..READER_TURNS).map(|_| (turn(&ARCHIVE, calls), turn(&RUST, calls))).collect();
        let median_of = |value: fn(&(f64, f64)) -> f64| median(turns.iter().map(value).collect());
        println!("{name} {:.0} {:.0} {:.2}", median_of(|turn| turn.0), median_of(|turn| turn.1), median_of(|turn| turn.0 / turn.1));
    }
    Ok(())
}

fn nanoseconds_a_call(reader: &Reader, question: Question, image: &[u8], place: u64, calls: u32) -> f64 {
    let mut rows = Rows::of(0);
    let start = Instant::now();
    for _ in 0..calls {
        reader.ask(question, black_box(image), black_box(place), black_box(&mut rows.0));
    }
    start.elapsed().as_nanos() as f64 / f64::from(calls)
}

/// How many calls fill a turn.
fn enough_calls(nanoseconds_a_call: impl Fn(u32) -> f64) -> u32 {
    let mut calls = 1;
    while nanoseconds_a_call(calls) * f64::from(calls) < TURN.as_nanos() as f64 {
        calls *= 2;
    }
    calls
}

fn median(mut numbers: Vec<f64>) -> f64 {
    numbers.sort_by(f64::total_cmp);
    numbers[numbers.len() / 2]
}

/// Microseconds of whole processes, start and end included. They take turns too.
pub fn processes(commands: &[&[&str]]) -> Outcome {
    let mut times = vec![Vec::new(); commands.len()];
    for _ in 0..PROCESS_TURNS {
        for (command, times) in commands.iter().zip(&mut times) {
            times.push(microseconds(command)?);
        }
    }
    let medians: Vec<String> = times.into_iter().map(|times| format!("{:.0}", median(times))).collect();
    println!("{}", medians.join(" "));
    Ok(())
}

fn microseconds(command: &[&str]) -> Result<f64, Box<dyn Error>> {
    let [program, arguments @ ..] = command else { return Err("a command is missing".into()) };
    let start = Instant::now();
    let status = Command::new(program).args(arguments).stdout(Stdio::null()).status()?;
    let passed = start.elapsed();
    if !status.success() {
        return Err(format!("{program}: {status}").into());
    }
    Ok(passed.as_secs_f64() * 1e6)
}
