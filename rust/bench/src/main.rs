//! Times the proved crates and the second program side by side. Four tables:
//! loads of large deliveries, with keys that rise and keys in any order, with
//! soundness of their tables and a change; amendments of them; sheets of a thousand
//! changes, beside a plain program over the same tables; and loads of deliveries
//! with many of one thing, in no order.
//!
//! usage: bench [--loads | --amendments | --sheets | --files] [--max-services N] [--seconds N]
//!        bench --stack
//!
//! Each delivery is measured in a process of its own, once for each table, which
//! is ended when it has taken the seconds given (60 if none are). Deliveries of
//! 500,000 services are measured where --max-services asks for them.
//!
//! The columns of loads that are no program's: `count lines`, the ends of
//! TIMETBLS' lines counted; `read files`, each byte of all files read once;
//! `write tables`, each word of all tables written once: what the machine can do
//! at best, in the same rounds.
//!
//! The columns of amendments: `amend`, the proved amendment of tables where they
//! stand, the mean of five in a row on services anywhere in the file; `sound`,
//! `is_sound` on the same tables, which an amendment tests first, and what is
//! left beside it; `load`, the proved load of the delivery that the five make,
//! into tables of the same rooms, and the amendment's share of it; `second, of
//! its store`, the second program's amendment of a store that it has in memory,
//! with an index, and tests no more; `second, of tables`, what the proved
//! amendment does: tables opened, which tests them, amended, and encoded into
//! new ones.
//!
//! The columns of sheets: `sheet`, a thousand changes in one call of the proved
//! crates, with its test of the tables; `sound`, `is_sound` on the same tables; what
//! is left of the sheet beside that, and beside a sheet of no questions; `of ten
//! thousand`, the same of a sheet ten times as long, for each thousand: it is less
//! hidden by the test's own time. The plain program (`plain.rs`) tests nothing: its
//! `maps` are made once from the tables' words, its questions are asked of them.
//! Changes are `usual`, of which at least half need a time; at stations that are
//! neither in CHANGES nor in XCHANGES; and of a service that is not held. All
//! programs must agree on every word of every answer.
//!
//! The columns of long files: `growth`, the time beside that of the same work
//! with a quarter of the things: 4 where times grow with their number, 16 where
//! they grow with its square.
//!
//! `--stack` measures no time, but the stack that the proved functions take.

mod amendments;
mod files;
mod limits;
mod loads;
mod options;
mod paint;
mod plain;
mod plan;
mod rounds;
mod sheets;
mod stack;
mod words;

use std::process::{Child, Command, ExitCode, ExitStatus, Stdio};
use std::time::{Duration, Instant};
use std::{env, io, thread};

use crate::options::{asked, Asked, Options, USAGE};
use crate::plan::{Plan, Table};

fn main() -> ExitCode {
    let arguments: Vec<String> = env::args().skip(1).collect();
    let done = match asked(&arguments) {
        Some(Asked::Measure(plan)) => {
            println!("{}{}", plan.cells(), measured(plan));
            Ok(())
        }
        Some(Asked::Tables(options)) => tables(options),
        Some(Asked::Stack) => {
            stack::print();
            Ok(())
        }
        None => {
            eprintln!("{USAGE}");
            return ExitCode::from(2);
        }
    };
    match done {
        Ok(()) => ExitCode::SUCCESS,
        Err(error) => {
            eprintln!("A measurement could not be run: {error}.");
            ExitCode::FAILURE
        }
    }
}

fn measured(plan: Plan) -> String {
    match plan {
        Plan::Loads(size) => loads::row(size),
        Plan::Amendments(size) => amendments::row(size),
        Plan::Sheets(size, kind) => sheets::row(size, kind),
        Plan::Files(many) => files::row(many),
    }
}

fn tables(options: Options) -> io::Result<()> {
    println!("{}", conditions());
    for table in Table::ALL.into_iter().filter(|table| options.only.is_none_or(|only| only == *table)) {
        let heading = match table {
            Table::Loads => loads::HEADING,
            Table::Amendments => amendments::HEADING,
            Table::Sheets => sheets::HEADING,
            Table::Files => files::HEADING,
        };
        println!("\n{heading}");
        for plan in table.rows(options.max_services) {
            measure_within(options.limit, plan)?;
        }
    }
    Ok(())
}

/// Under what conditions the tables were measured.
fn conditions() -> String {
    let cores = thread::available_parallelism().map_or(0, usize::from);
    let machine = match proved::EMULATED {
        true => "The proved crates run under an emulator and are handed everything through pipes, the second program runs on the machine itself: their ratio says nothing, growth with size does.",
        false => "Both run on the machine itself.",
    };
    format!(
        "{cores} cores ({}). {machine}\nTables are lent full of junk, their memory touched before: the proved load clears them in its time. The second program's time is its load and the encoding into new tables; soundness, which every question tests first, is held against it. The plain program beside the sheets runs on the machine itself and tests nothing.",
        env::consts::ARCH,
    )
}

fn measure_within(limit: Duration, plan: Plan) -> io::Result<()> {
    let mut measuring = start(plan)?;
    match ended(&mut measuring, limit)? {
        Some(status) if status.success() => Ok(()),
        Some(status) => Err(io::Error::other(status.to_string())),
        None => {
            measuring.kill()?;
            measuring.wait()?;
            println!("{} skipped: it takes more than {limit:?} |", plan.cells());
            Ok(())
        }
    }
}

/// Starts this program again for one row, which it prints itself.
fn start(plan: Plan) -> io::Result<Child> {
    Command::new(env::current_exe()?).arg("measure").args(plan.words()).stdin(Stdio::null()).spawn()
}

/// Waits for the process; answers how it ended, if it did within the time.
fn ended(process: &mut Child, limit: Duration) -> io::Result<Option<ExitStatus>> {
    let start = Instant::now();
    while start.elapsed() < limit {
        if let Some(status) = process.try_wait()? {
            return Ok(Some(status));
        }
        thread::sleep(Duration::from_millis(20));
    }
    Ok(None)
}
