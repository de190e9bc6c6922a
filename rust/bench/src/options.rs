//! What the program is asked for.

use std::time::Duration;

use crate::plan::{Plan, Table};

pub const USAGE: &str = "\
usage: bench [--loads | --amendments | --sheets | --files] [--max-services N] [--seconds N]
       bench --stack";

pub enum Asked {
    Tables(Options),
    /// One row of a table, which the program asks of itself.
    Measure(Plan),
    Stack,
}

#[derive(Clone, Copy)]
pub struct Options {
    /// One table alone.
    pub only: Option<Table>,
    pub max_services: usize,
    pub limit: Duration,
}

const DEFAULT: Options = Options { only: None, max_services: 60_000, limit: Duration::from_secs(60) };

pub fn asked(arguments: &[String]) -> Option<Asked> {
    let arguments: Vec<&str> = arguments.iter().map(String::as_str).collect();
    match arguments[..] {
        ["measure", ref words @ ..] => Plan::of_words(words).map(Asked::Measure),
        ["--stack"] => Some(Asked::Stack),
        _ => options(&arguments, DEFAULT).map(Asked::Tables),
    }
}

fn options(arguments: &[&str], so_far: Options) -> Option<Options> {
    match *arguments {
        [] => Some(so_far),
        ["--max-services", count, ref rest @ ..] => {
            options(rest, Options { max_services: count.parse().ok()?, ..so_far })
        }
        ["--seconds", count, ref rest @ ..] => {
            options(rest, Options { limit: Duration::from_secs(count.parse().ok()?), ..so_far })
        }
        [option, ref rest @ ..] => {
            let table = Table::ALL.into_iter().find(|table| format!("--{table}") == option)?;
            options(rest, Options { only: Some(table), ..so_far })
        }
    }
}
