//! The command line.

use std::path::PathBuf;

use clap::error::ErrorKind;
use clap::{Args, CommandFactory, Parser, Subcommand};
use clap_complete::Shell;

use crate::dates;
use crate::explain::questions::packed;
use crate::sheet::Wanted;

const ABOUT: &str = "\
Is that change safe to sell? Checks timetable deliveries (IFF 4.2.4), keeps them in stores,
answers the connections desk's questions from them, and amends single services. What is
decided is decided by functions that are proved.";

#[derive(Parser)]
#[command(
    name = "calyxcabin",
    version,
    about = ABOUT,
    after_help = STATUSES,
    subcommand_required = true,
    arg_required_else_help = true
)]
pub struct Cli {
    /// Answer with one JSON object on one line.
    #[arg(long, global = true, display_order = 100)]
    pub json: bool,
    #[command(subcommand)]
    pub command: Command,
}

const STATUSES: &str = "\
Dates are written 05122015, 2015-12-05 or \"5 Dec 2015\".
Exit status: 0 accepted, answered or Yes; 1 refused by number; 2 usage, or a file that
cannot be read or written; 3 No; 4 Unsettled.

Example:
  calyxcabin open examples/delivery night-boats
  calyxcabin change night-boats 1 2 2015-12-14 3 1 2015-12-15";

#[derive(Subcommand)]
pub enum Command {
    /// Check a delivery: accepted, or its first fault in words
    #[command(after_help = "\
The folder has the files DELIVERY, COMPANY, COUNTRY, TRNSMODE, TIMEZONE, STATIONS, FOOTNOTE,
TIMETBLS, and perhaps CHANGES, XFOOTNOTE, XCHANGES; small letters and .dat are understood.

Example:
  calyxcabin check examples/delivery")]
    Check {
        /// The delivery's folder
        delivery: PathBuf,
    },
    /// Load a delivery and keep it in a store
    #[command(after_help = "\
Example:
  calyxcabin open examples/delivery night-boats --spare 500")]
    Open {
        /// The delivery's folder
        delivery: PathBuf,
        /// The store's folder, which is made
        store: PathBuf,
        /// Room for so many lines in each table beyond the file's own, for
        /// amendments; else a tenth, at least 100
        #[arg(long, value_name = "LINES", value_parser = clap::value_parser!(u32).range(0..=1_000_000))]
        spare: Option<u32>,
        /// Put the delivery into the place of the one that the store has, whose
        /// amendments go with it
        #[arg(long)]
        replace: bool,
    },
    /// Can one change from one service to another?
    #[command(after_help = "\
The first service is left at its stop (2 or later) on its date, the second is boarded at its
stop (any but the last) on its date. A date is that of the service's first departure.
Where the needed time is that of XCHANGES, the exceptions that apply are shown with their
places on the desk's card (calyxcabin card), and why one of them counts.
Exit status: 0 Yes, 3 No, 4 Unsettled, 1 refused.

Example:
  calyxcabin change night-boats 1 2 2015-12-14 3 1 2015-12-15")]
    Change {
        /// The store's folder
        store: PathBuf,
        /// The service to leave
        #[arg(value_name = "SERVICE", value_parser = number)]
        from_service: u64,
        /// Its stop
        #[arg(value_name = "STOP", value_parser = number)]
        from_stop: u64,
        /// Its date
        #[arg(value_name = "DATE", value_parser = dates::parse)]
        from_date: u64,
        /// The service to board
        #[arg(value_name = "SERVICE", value_parser = number)]
        to_service: u64,
        /// Its stop
        #[arg(value_name = "STOP", value_parser = number)]
        to_stop: u64,
        /// Its date
        #[arg(value_name = "DATE", value_parser = dates::parse)]
        to_date: u64,
    },
    /// Does a service run on a leg on a date?
    #[command(after_help = "\
Leg 1 goes from stop 1 to stop 2. The status is 0 whether it runs or not.

Example:
  calyxcabin runs night-boats 1 1 \"14 Dec 2015\"")]
    Runs {
        /// The store's folder
        store: PathBuf,
        /// Its number, behind `#` in TIMETBLS
        #[arg(value_parser = number)]
        service: u64,
        /// From 1: leg 1 goes from stop 1 to stop 2
        #[arg(value_parser = number)]
        leg: u64,
        /// That of its first departure
        #[arg(value_parser = dates::parse)]
        date: u64,
    },
    /// When does a service call at a stop?
    #[command(after_help = "\
Each time is shown with the day it falls on, which may be days after the service's date, and
goes by the zone's clocks of that day. It does not ask whether the service runs.

Example:
  calyxcabin stop night-boats 1 2 14122015")]
    Stop {
        /// The store's folder
        store: PathBuf,
        /// Its number, behind `#` in TIMETBLS
        #[arg(value_parser = number)]
        service: u64,
        /// From 1
        #[arg(value_parser = number)]
        stop: u64,
        /// That of its first departure
        #[arg(value_parser = dates::parse)]
        date: u64,
    },
    /// Show a service: its stops, times, where one may board or alight
    #[command(after_help = "\
Example:
  calyxcabin service night-boats 1 2015-12-14")]
    Service {
        /// The store's folder
        store: PathBuf,
        /// Its number, behind `#` in TIMETBLS
        #[arg(value_parser = number)]
        service: u64,
        /// Also tell whether it runs on this date, and on which days its times fall
        #[arg(value_parser = dates::parse)]
        date: Option<u64>,
    },
    /// Show a station: name, change time, flag, who calls there
    #[command(after_help = "\
Example:
  calyxcabin station night-boats HVH")]
    Station {
        /// The store's folder
        store: PathBuf,
        /// Its short name in STATIONS
        code: String,
    },
    /// Show a station's connection sheet: each arrival of a day, and the changes from it
    #[command(after_help = "\
Arrivals are those whose time falls on DATE by the station's clocks, whatever their service day.
Below each stand the departures after it, from its own minute on; services that do not run then
are left out. Into a spreadsheet or a program it goes as --csv or --json, onto paper as --html.

Example:
  calyxcabin sheet night-boats HVH 2015-12-15
  calyxcabin sheet night-boats HVH 2015-12-15 --from 06:00 --to 12:00 --within 90
  calyxcabin sheet night-boats HVH 2015-12-15 --html > sheet.html")]
    Sheet(SheetAsked),
    /// Show a service's lines as they stand now
    #[command(after_help = "\
Into a file or a pipe they go byte by byte, with CR LF: to be edited, and amended with.

Example:
  calyxcabin lines night-boats 1 > block")]
    Lines {
        /// The store's folder
        store: PathBuf,
        /// Its number, behind `#` in TIMETBLS
        #[arg(value_parser = number)]
        service: u64,
    },
    /// Replace the lines of a service by those of a file
    #[command(after_help = "\
The file has the whole block: `#` and the service's eight digits, then its records, each line
ended by CR LF. Refused, or stopped at any moment, the store is as it was.

Example:
  calyxcabin lines night-boats 1 > block      # edit it, then
  calyxcabin amend night-boats 1 block")]
    Amend {
        /// The store's folder
        store: PathBuf,
        /// Its number, behind `#` in TIMETBLS
        #[arg(value_parser = number)]
        service: u64,
        /// The file with the block
        file: PathBuf,
    },
    /// Show the desk's card: which exception of XCHANGES counts
    #[command(after_help = "\
Sixteen patterns with their places, from all wildcards to none: of the exceptions that apply to
a change, the one with the highest place counts. `change` tells the places of those that apply.

Example:
  calyxcabin card")]
    Card,
    /// Answer questions from standard input, one JSON object a line
    #[command(after_help = "\
Questions, dates as DDMMYYYY:
  runs SERVICE LEG DATE
  stop SERVICE STOP DATE
  change SERVICE STOP DATE SERVICE STOP DATE
  name CODE
  lines SERVICE
  amend SERVICE FILE

Example:
  echo 'change 1 2 14122015 3 1 15122015' | calyxcabin ask night-boats")]
    Ask {
        /// The store's folder
        store: PathBuf,
    },
    /// Write a script that completes commands in a shell
    #[command(after_help = "\
Example:
  calyxcabin completions bash > ~/.local/share/bash-completion/completions/calyxcabin")]
    Completions {
        /// The shell
        shell: Shell,
    },
}

/// What a sheet is asked for.
#[derive(Args)]
pub struct SheetAsked {
    /// The store's folder
    pub store: PathBuf,
    /// The station's short name in STATIONS
    pub station: String,
    /// The day on which services arrive
    #[arg(value_parser = dates::parse)]
    pub date: u64,
    /// Arrivals from this time of the day on
    #[arg(long, value_name = "HH:MM", default_value = "00:00", value_parser = dates::time_of_day)]
    pub from: i64,
    /// Arrivals up to this time of the day, which counts too
    #[arg(long, value_name = "HH:MM", default_value = "23:59", value_parser = dates::time_of_day)]
    pub to: i64,
    /// Departures up to so many minutes after an arrival, by the reference clock
    #[arg(long, value_name = "MINUTES", default_value_t = 240, value_parser = clap::value_parser!(i64).range(0..=10_080))]
    pub within: i64,
    /// Answer with a page to be printed
    #[arg(long, conflicts_with = "csv")]
    pub html: bool,
    /// Answer with comma-separated values, one row a change
    #[arg(long)]
    pub csv: bool,
}

impl SheetAsked {
    pub fn wanted(&self) -> Wanted {
        let &SheetAsked { date, from, to, within, .. } = self;
        Wanted { station: packed(&self.station), date, from, to, within }
    }

    fn mistake(&self, json: bool) -> Option<(ErrorKind, String)> {
        let form = if self.html { "--html" } else { "--csv" };
        if json && (self.html || self.csv) {
            let why = format!("the argument '--json' cannot be used with '{form}'");
            return Some((ErrorKind::ArgumentConflict, why));
        }
        let [from, to] = [self.from, self.to].map(dates::face);
        let why = format!(
            "`--from {from}` is after `--to {to}`. A sheet is of one day: give the earlier time first."
        );
        (self.from > self.to).then_some((ErrorKind::ValueValidation, why))
    }
}

impl Cli {
    /// What is wrong with a command line whose words are right one by one.
    pub fn mistake(&self) -> Option<clap::Error> {
        let Command::Sheet(asked) = &self.command else { return None };
        let (kind, why) = asked.mistake(self.json)?;
        let mut whole = Cli::command();
        whole.build();
        let command = whole.find_subcommand_mut("sheet")?;
        Some(command.error(kind, why))
    }
}

fn number(text: &str) -> Result<u64, String> {
    dates::number_of_any_size(text).ok_or_else(|| format!("`{text}` is no number. Write digits alone."))
}
