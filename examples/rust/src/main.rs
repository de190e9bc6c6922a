//! Loads a delivery and asks for one change, from Rust.
//!
//! cargo run -- ../delivery 1 2 14122015 3 1 15122015

use std::path::Path;
use std::process::ExitCode;
use std::{env, fs, io};

use proved::{Side, Verdict, FILES};

const NAMES: [&str; FILES] = [
    "DELIVERY", "COMPANY", "COUNTRY", "TRNSMODE", "TIMEZONE", "STATIONS", "FOOTNOTE", "TIMETBLS", "CHANGES",
    "XFOOTNOTE", "XCHANGES",
];

/// The words of a row, by file (docs/TABLES.md).
const WIDTHS: [usize; FILES] = [6, 6, 6, 6, 6, 6, 14, 7, 6, 14, 7];

fn main() -> ExitCode {
    let words: Vec<String> = env::args().skip(1).collect();
    let Some((folder, from, to)) = asked(&words) else {
        eprintln!("usage: change DELIVERY SERVICE STOP DATE SERVICE STOP DATE");
        return ExitCode::from(2);
    };
    match answer(Path::new(folder), from, to) {
        Ok(status) => ExitCode::from(status),
        Err(error) => {
            eprintln!("{folder}: {error}");
            ExitCode::from(2)
        }
    }
}

fn asked(words: &[String]) -> Option<(&str, Side, Side)> {
    let [folder, numbers @ ..] = words else { return None };
    let numbers: Vec<u64> = numbers.iter().map(|word| word.parse().ok()).collect::<Option<_>>()?;
    let [service, stop, date, to_service, to_stop, to_date] = numbers[..] else { return None };
    Some((folder, Side { service, stop, date }, Side { service: to_service, stop: to_stop, date: to_date }))
}

/// A file's bytes; one that is not there has none.
fn read(path: &Path) -> io::Result<Vec<u8>> {
    match fs::read(path) {
        Err(error) if error.kind() == io::ErrorKind::NotFound => Ok(Vec::new()),
        read => read,
    }
}

fn answer(folder: &Path, from: Side, to: Side) -> io::Result<u8> {
    let mut files: [Vec<u8>; FILES] = Default::default();
    for (file, name) in files.iter_mut().zip(NAMES) {
        *file = read(&folder.join(name))?;
    }
    // Room for every CR LF, a remainder behind the last, and a hundred lines more.
    let lines = |file: &Vec<u8>| file.windows(2).filter(|pair| pair == b"\r\n").count() + 101;
    let mut tables: [Vec<u64>; FILES] = std::array::from_fn(|k| vec![0; lines(&files[k]) * WIDTHS[k]]);
    let loaded = proved::load(files.each_ref().map(Vec::as_slice), tables.each_mut().map(Vec::as_mut_slice));
    if !loaded.is_accepted() {
        let file = NAMES.get((loaded.file as usize).wrapping_sub(1)).unwrap_or(&"");
        println!("refused {} {file} {} {}", loaded.number, loaded.ordinal, loaded.line);
        return Ok(1);
    }
    let change = match proved::change(tables.each_ref().map(Vec::as_slice), from, to) {
        Ok(change) => change,
        Err(refusal) => {
            println!("refused {}", refusal.0);
            return Ok(1);
        }
    };
    let (verdict, status) = match change.verdict {
        Verdict::Yes => ("yes", 0),
        Verdict::No(_) => ("no", 3),
        Verdict::Unsettled => ("unsettled", 4),
    };
    print!("{verdict}");
    if let Some(gap) = change.gap {
        print!(" gap {gap}");
    }
    if let Some(needed) = change.needed {
        print!(" needed {needed}");
    }
    println!();
    Ok(status)
}
