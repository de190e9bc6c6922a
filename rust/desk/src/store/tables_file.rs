//! The file of the eleven tables: 64-bit words, lowest byte first. A head of 28
//! words: `calyxtab`, the version, how many amendments the tables have, eleven
//! lengths, eleven counts of words in use, the sum of these, a 0, the sum of the
//! head. Then the tables, each in its whole length, so that they can be read
//! where they stand. No hole is left behind the words in use: to read one may
//! need room that a full disk does not have.

use std::fs::File;
use std::io;
use std::path::{Path, PathBuf};

use memmap2::MmapOptions;

use super::opened;
use crate::disk::{bytes_of, read_words, sum_words, write_synced};
use crate::files::FILES;
use crate::tables::{Tables, Words};
use crate::trouble::Trouble;

const HEAD: usize = 3 + 2 * FILES + 3;
const MARK: u64 = u64::from_le_bytes(*b"calyxtab");
const VERSION: u64 = 1;
const SUM: usize = HEAD - 3;
const SUM_OF_HEAD: usize = HEAD - 1;

pub struct Read {
    pub tables: Tables,
    pub amendments: u64,
    pub sum: u64,
}

impl Read {
    pub fn lengths(&self) -> [usize; FILES] {
        self.tables.0.each_ref().map(|words| words.len())
    }
}

/// Why tables could not be read, and how many amendments they are known to have.
pub struct Unread {
    pub why: String,
    pub amendments: u64,
}

impl From<&str> for Unread {
    fn from(why: &str) -> Unread {
        Unread { why: why.into(), amendments: 0 }
    }
}

const CUT_SHORT: &str = "The store's tables are cut short";
const NOT_READ: &str = "The store's tables cannot be read";
const DAMAGED: &str = "The head of the store's tables is damaged";

pub fn path(folder: &Path) -> PathBuf {
    folder.join("tables")
}

/// The sum of all words of the tables.
pub fn sum(tables: &Tables) -> u64 {
    sum_words(&tables.0.each_ref().map(|table| sum_words(table)))
}

/// Reads the tables, or says in what way they are not there.
pub fn read(folder: &Path) -> Result<Read, Unread> {
    let path = path(folder);
    let file = match opened(&path) {
        Ok(file) => file,
        Err(trouble) if trouble.gone => return Err("The store's tables are missing".into()),
        Err(_) => return Err(NOT_READ.into()),
    };
    let mut head = [0; HEAD];
    read_words(&file, 0, &mut head).map_err(|_| Unread::from(CUT_SHORT))?;
    if head[0] != MARK || head[1] != VERSION || head[SUM_OF_HEAD] != sum_words(&head[..SUM_OF_HEAD]) {
        return Err(DAMAGED.into());
    }
    let lengths: [u64; FILES] = std::array::from_fn(|place| head[3 + place]);
    let places = places(&lengths).ok_or(Unread::from(DAMAGED))?;
    let unread = |why: &str| Unread { why: why.into(), amendments: head[2] };
    if file.metadata().map_err(|_| unread(NOT_READ))?.len() < places[FILES] {
        return Err(unread(CUT_SHORT));
    }
    let mut tables = Tables::default();
    for (place, table) in tables.0.iter_mut().enumerate() {
        *table = words_of(&file, places[place], lengths[place] as usize).map_err(|_| unread(NOT_READ))?;
    }
    Ok(Read { tables, amendments: head[2], sum: head[SUM] })
}

/// Where each table begins in the file, and where the last ends, in bytes.
fn places(lengths: &[u64; FILES]) -> Option<[u64; FILES + 1]> {
    let mut places = [(HEAD * size_of::<u64>()) as u64; FILES + 1];
    for (place, length) in lengths.iter().enumerate() {
        let bytes = length.checked_mul(size_of::<u64>() as u64)?;
        places[place + 1] = places[place].checked_add(bytes)?;
    }
    Some(places)
}

fn words_of(file: &File, from: u64, length: usize) -> io::Result<Words> {
    if length == 0 || cfg!(target_endian = "big") {
        let mut words = vec![0; length];
        read_words(file, from, &mut words)?;
        return Ok(Words::Own(words));
    }
    // SAFETY: a store's file of tables is put into its place when it is whole,
    // and never written to again.
    let map = unsafe { MmapOptions::new().offset(from).len(length * size_of::<u64>()).map_copy(file)? };
    Ok(Words::Mapped(map))
}

/// Writes the tables into a file and waits until the disk has it.
pub fn write(path: &Path, tables: &Tables, amendments: u64, written: impl FnMut(u64)) -> Result<(), Trouble> {
    let used: [usize; FILES] = std::array::from_fn(|place| tables.used(place));
    let mut head = [0; HEAD];
    (head[0], head[1], head[2]) = (MARK, VERSION, amendments);
    for place in 0..FILES {
        (head[3 + place], head[3 + FILES + place]) = (tables.0[place].len() as u64, used[place] as u64);
    }
    head[SUM] = sum(tables);
    head[SUM_OF_HEAD] = sum_words(&head[..SUM_OF_HEAD]);
    let words = tables.0.each_ref().map(|table| bytes_of(table));
    let head = bytes_of(&head);
    let mut parts: Vec<&[u8]> = vec![&head];
    parts.extend(words.iter().map(|words| &words[..]));
    let done: io::Result<()> = write_synced(path, &parts, written);
    done.map_err(|error| Trouble::writing(path, &error))
}
