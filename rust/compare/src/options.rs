//! What the program is asked for.

use std::ops::Range;
use std::path::PathBuf;
use std::time::{SystemTime, UNIX_EPOCH};

pub struct Options {
    pub part: Part,
    /// Where differences are written.
    pub folder: PathBuf,
}

/// What is compared.
pub enum Part {
    Everything,
    Loads,
    Questions,
    Sheets,
    Amendments,
    /// Loads, questions, sheets and amendments of these seeds.
    Seeds(Range<u64>),
}

pub const USAGE: &str =
    "usage: compare [--loads | --questions | --sheets | --amendments | --seed S --count N] [FOLDER]";

pub fn asked(arguments: &[String]) -> Option<Options> {
    let arguments: Vec<&str> = arguments.iter().map(String::as_str).collect();
    let (part, rest) = match arguments[..] {
        ["--loads", ref rest @ ..] => (Part::Loads, rest),
        ["--questions", ref rest @ ..] => (Part::Questions, rest),
        ["--sheets", ref rest @ ..] => (Part::Sheets, rest),
        ["--amendments", ref rest @ ..] => (Part::Amendments, rest),
        ["--seed", first, "--count", count, ref rest @ ..] => {
            let first: u64 = first.parse().ok()?;
            (Part::Seeds(first..first.checked_add(count.parse().ok()?)?), rest)
        }
        ref rest => (Part::Everything, rest),
    };
    let folder = match *rest {
        [] => "target/differences",
        [folder] if !folder.starts_with('-') => folder,
        _ => return None,
    };
    Some(Options { part, folder: folder.into() })
}

/// Seeds that no other day has.
pub fn seeds_of_today(count: u64) -> Range<u64> {
    const SECONDS_IN_DAY: u64 = 86_400;
    let since = SystemTime::now().duration_since(UNIX_EPOCH).map_or(0, |since| since.as_secs());
    let first = since / SECONDS_IN_DAY * 1_000_000;
    first..first + count
}
