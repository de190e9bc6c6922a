//! The proved load, amendments, soundness and questions, called from safe Rust.
//!
//! What they answer and leave is said by the contracts of the functions in
//! `crates/exports`, which ask nothing of their callers: so the calls are safe
//! for every file and every table.
//!
//! The archive of the proved crates is for x86-64. On any other machine its
//! functions run in a process of its own under `qemu-x86_64`: the answers
//! are the same, and times say nothing. `tools/native-archive` makes an archive
//! for the machine itself, which is linked where `PROVED_NATIVE` is set.

// Both are compiled everywhere, so that neither can go wrong unseen on a machine
// that takes the other.
#[cfg_attr(linked, allow(dead_code))]
mod emulated;
#[cfg_attr(not(linked), allow(dead_code))]
mod linked;
mod questions;

#[cfg(not(linked))]
use emulated as archive;
#[cfg(linked)]
use linked as archive;
pub use questions::*;

/// Whether the archive's functions run under an emulator.
pub const EMULATED: bool = cfg!(not(linked));

/// How many files a delivery has.
pub const FILES: usize = 11;

type Files<'a> = [&'a [u8]; FILES];
type Tables<'a> = [&'a mut [u64]; FILES];
type LentTables<'a> = [&'a [u64]; FILES];

/// An answer as the archive gives it: the refusal's number, its file, ordinal
/// and line, the days and the services.
type Words = [u64; 6];

/// What a load or an amendment answers, all that its contract fixes: an accepted
/// one has no refusal and no place, a refused one no days and no services. Files
/// are numbered from 1, in reading order.
#[derive(Clone, Copy, Debug, PartialEq, Eq)]
pub struct Answer {
    pub number: u64,
    pub file: u64,
    pub ordinal: u64,
    pub line: u64,
    pub days: u64,
    pub services: u64,
}

impl Answer {
    fn of([number, file, ordinal, line, days, services]: Words) -> Answer {
        Answer { number, file, ordinal, line, days, services }
    }

    pub fn accepted(days: u64, services: u64) -> Answer {
        Answer { number: 0, file: 0, ordinal: 0, line: 0, days, services }
    }

    pub fn refused(number: u64, file: u64, ordinal: u64, line: u64) -> Answer {
        Answer { number, file, ordinal, line, days: 0, services: 0 }
    }

    pub fn is_accepted(&self) -> bool {
        self.number == 0
    }
}

/// What no call answers in any place: a word that is left as it was shows.
const UNANSWERED: u64 = u64::MAX;

/// Loads a delivery into eleven tables. Files and tables stand in reading
/// order; an absent file is empty. A refused load leaves every table zero.
/// Linked into this program it needs up to 1.5 MB of the thread's stack
/// (`tools/measure-stack`).
pub fn load(files: [&[u8]; FILES], tables: [&mut [u64]; FILES]) -> Answer {
    let mut words: Words = [UNANSWERED; 6];
    archive::load(files, tables, &mut words);
    Answer::of(words)
}

/// The tables of a store that is amended, lent where they stand: TIMETBLS to be
/// written, the others to be read.
pub struct AmendedTables<'t> {
    /// DELIVERY to FOOTNOTE.
    pub before: [&'t [u64]; 7],
    pub timetbls: &'t mut [u64],
    /// CHANGES to XCHANGES.
    pub behind: [&'t [u64]; 3],
}

impl<'t> From<Tables<'t>> for AmendedTables<'t> {
    /// Of eleven tables in reading order.
    fn from(tables: Tables<'t>) -> AmendedTables<'t> {
        let [delivery, company, country, trnsmode, timezone, stations, footnote, timetbls, changes, xfootnote, xchanges] =
            tables;
        AmendedTables {
            before: [delivery, company, country, trnsmode, timezone, stations, footnote],
            timetbls,
            behind: [changes, xfootnote, xchanges],
        }
    }
}

/// Replaces the lines of a held service by a block's. A refused amendment leaves
/// TIMETBLS as it was; 16 is for tables that are not sound.
pub fn amend(tables: AmendedTables, service: u64, block: &[u8]) -> Answer {
    let mut words: Words = [UNANSWERED; 6];
    archive::amend(tables, service, block, &mut words);
    Answer::of(words)
}
