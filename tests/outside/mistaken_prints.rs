//! Programs with a known mistake in what they print, each of which the comparison must find: the second reader's print, altered where such
//! a program errs.

use crate::print::{print, HEADER, LONGEST};
use crate::program::Ended;

type Program = fn(&[u8]) -> Ended;

pub const RIGHT: Program = |input| Ended::well(print(input));

pub const MISTAKES: [(&str, Program); 16] = [
    ("p before number", |input| Ended::well(p_first(&print(input)))),
    ("one number for every refusal", |input| Ended::well(one_number(print(input)))),
    ("p left out", |input| Ended::well(print(input).replacen(" 0\n", "\n", 1))),
    ("`enevlope`", |input| Ended::well(print(input).replace("envelope", "enevlope"))),
    ("`0 0` for a faulty envelope", |input| Ended::well(print(input).replace("envelope", "0 0"))),
    ("only the first row", |input| Ended::well(lines_of(&print(input), 3))),
    ("no rows", |input| Ended::well(lines_of(&print(input), 2))),
    ("no line feed at the end", |input| Ended::well(print(input).trim_end().to_string())),
    ("a space at the end of a line", |input| Ended::well(print(input).replace('\n', " \n"))),
    ("a long input cut", |input| Ended::well(print(&input[..input.len().min(HEADER + LONGEST)]))),
    ("bytes after the image not looked at", |input| Ended::well(print(&input[..input.len().min(stated_end(input))]))),
    ("the low half of the length alone", |input| Ended::well(print(&without(input, &[1, 2])))),
    ("the low half of the place alone", |input| Ended::well(print(&without(input, &[5, 6])))),
    ("the place ignored", |input| Ended::well(print(&without(input, &[5, 6, 7, 8])))),
    ("status 1 for a refusal", |input| Ended { status: Some(i32::from(!print(input).starts_with("0 "))), ..RIGHT(input) }),
    ("words on standard error", |input| Ended { errors: b"envelope\n".to_vec(), ..RIGHT(input) }),
];

fn p_first(printed: &str) -> String {
    let (first, rest) = printed.split_once('\n').unwrap_or((printed, ""));
    let words: Vec<&str> = first.split(' ').rev().collect();
    words.join(" ") + "\n" + rest
}

fn one_number(printed: String) -> String {
    if printed.starts_with("0 ") || printed.starts_with('e') { printed } else { "3 0\n".to_string() }
}

fn lines_of(printed: &str, most: usize) -> String {
    printed.split_inclusive('\n').take(most).collect()
}

/// Where the image ends by the stated length.
fn stated_end(input: &[u8]) -> usize {
    let length = input.iter().skip(1).take(4).fold(0, |length, &byte| length << 8 | usize::from(byte));
    HEADER + length
}

/// The input with 0 in these bytes.
fn without(input: &[u8], bytes: &[usize]) -> Vec<u8> {
    let mut other = input.to_vec();
    bytes.iter().filter(|&&at| at < input.len()).for_each(|&at| other[at] = 0);
    other
}
