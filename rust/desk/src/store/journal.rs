//! The journal: a file for each accepted amendment, `1`, `2`, .. : a line with
//! its number, its service, its length and its sum, then the block as it came.

use std::collections::BTreeMap;
use std::fs;
use std::io::ErrorKind;
use std::path::{Path, PathBuf};

use crate::disk::{sum_bytes, write_synced};
use crate::trouble::Trouble;

pub struct Entry {
    pub service: u64,
    pub block: Vec<u8>,
}

pub fn folder(delivery: &Path) -> PathBuf {
    delivery.join("journal")
}

pub fn path(delivery: &Path, number: u64) -> PathBuf {
    folder(delivery).join(number.to_string())
}

pub fn has(delivery: &Path, number: u64) -> bool {
    path(delivery, number).exists()
}

/// So many amendments, in words.
pub fn counted(amendments: u64) -> String {
    match amendments {
        0 => "journal, which is empty".into(),
        1 => "journal of 1 amendment".into(),
        more => format!("journal of {more} amendments"),
    }
}

fn head(number: u64, service: u64, block: &[u8]) -> String {
    let said = format!("calyxcabin amendment {number} service {service:08} bytes {}", block.len());
    let sum = sum_bytes(&[said.as_bytes(), block].concat());
    format!("{said} sum {sum:016x}\r\n")
}

/// Writes an amendment into a file and waits until the disk has it.
pub fn write(path: &Path, number: u64, service: u64, block: &[u8]) -> Result<(), Trouble> {
    let head = head(number, service, block);
    write_synced(path, &[head.as_bytes(), block], |_| ()).map_err(|error| Trouble::writing(path, &error))
}

/// The highest number in the journal.
fn highest(delivery: &Path) -> Result<u64, Trouble> {
    let folder = folder(delivery);
    let entries = fs::read_dir(&folder).map_err(|error| Trouble::reading(&folder, &error))?;
    let number = |name: std::ffi::OsString| name.to_str()?.parse::<u64>().ok();
    Ok(entries.flatten().filter_map(|entry| number(entry.file_name())).max().unwrap_or(0))
}

fn entry(delivery: &Path, number: u64) -> Result<Entry, Trouble> {
    let path = path(delivery, number);
    let bytes = fs::read(&path).map_err(|error| match error.kind() {
        ErrorKind::NotFound => {
            Trouble::missing(format!("Amendment {number} is missing: {}.", path.display()))
        }
        _ => Trouble::reading(&path, &error),
    })?;
    parse(&bytes, number)
        .ok_or_else(|| Trouble::new(format!("Amendment {number} in {} is damaged.", path.display())))
}

fn parse(bytes: &[u8], number: u64) -> Option<Entry> {
    let end = bytes.windows(2).position(|pair| pair == b"\r\n")? + 2;
    let (line, block) = bytes.split_at(end);
    let line = std::str::from_utf8(line).ok()?;
    let service = line.split(' ').nth(4)?.parse().ok()?;
    (head(number, service, block) == line).then(|| Entry { service, block: block.to_vec() })
}

/// All amendments, in order; every one must be there, as many as are known of.
pub fn read(delivery: &Path, known: u64) -> Result<Vec<Entry>, Trouble> {
    (1..=highest(delivery)?.max(known)).map(|number| entry(delivery, number)).collect()
}

/// The last block of a service. A damaged amendment before it does no harm; one
/// behind it may be of this service.
pub fn last_of(delivery: &Path, known: u64, service: u64) -> Result<Option<Vec<u8>>, Trouble> {
    for number in (1..=highest(delivery)?.max(known)).rev() {
        let entry = entry(delivery, number).map_err(|trouble| {
            trouble.and("The service's lines cannot be told: they may have been amended there. The tables, and so all other answers, are right.")
        })?;
        if entry.service == service {
            return Ok(Some(entry.block));
        }
    }
    Ok(None)
}

/// The TIMETBLS text in which each amended service has its last block.
pub fn edited(text: &[u8], entries: &[Entry]) -> Result<Vec<u8>, Trouble> {
    let latest: BTreeMap<u64, &[u8]> =
        entries.iter().map(|entry| (entry.service, &entry.block[..])).collect();
    let mut places = Vec::new();
    for (&service, &block) in &latest {
        let held = proved::lines_now(text, &[], service).map_err(|_| {
            Trouble::new(format!("The journal amends service {service:08}, which TIMETBLS does not have."))
        })?;
        places.push((held.as_ptr() as usize - text.as_ptr() as usize, held.len(), block));
    }
    places.sort();
    let (mut edited, mut from) = (Vec::with_capacity(text.len()), 0);
    for (start, length, block) in places {
        edited.extend_from_slice(&text[from..start]);
        edited.extend_from_slice(block);
        from = start + length;
    }
    edited.extend_from_slice(&text[from..]);
    Ok(edited)
}
