//! What the command line asks for.

use std::path::PathBuf;

pub const HELP: &str = "usage: outside [--images N] [--seed S] [--first I]
       outside --program PATH [--inputs N] [--seed S] [--first I]
       outside --self-test [--seed S]
  --images N      how many generated images to compare (200000)
  --program PATH  compare this program's print with the second reader's instead
  --inputs N      how many inputs it is given (2400)
  --seed S        the seed that images and inputs are made from (20240229)
  --first I       the number of the first one (0)
  --self-test     look instead whether the comparisons find known mistakes; neither archive nor program is asked
A reading outside a lent image ends the program by a signal.";

pub struct Options {
    pub images: u64,
    pub program: Option<PathBuf>,
    pub inputs: u64,
    pub seed: u64,
    pub first: u64,
    pub self_test: bool,
}

/// Nothing where a word is no sound one.
pub fn parse(arguments: &[String]) -> Option<Options> {
    let mut options = Options { images: 200_000, program: None, inputs: 2_400, seed: 20_240_229, first: 0, self_test: false };
    let mut rest = arguments.iter();
    while let Some(argument) = rest.next() {
        match argument.as_str() {
            "--images" => options.images = rest.next()?.parse().ok()?,
            "--program" => options.program = Some(rest.next()?.into()),
            "--inputs" => options.inputs = rest.next()?.parse().ok()?,
            "--seed" => options.seed = rest.next()?.parse().ok()?,
            "--first" => options.first = rest.next()?.parse().ok()?,
            "--self-test" => options.self_test = true,
            _ => return None,
        }
    }
    Some(options)
}
