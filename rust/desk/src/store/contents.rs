//! What a store has: which delivery counts, and its files by length, sum and
//! room in lines. Written twice, as `current` and as the delivery's `contents`.

use std::fmt::Write;
use std::fs;
use std::io::ErrorKind;
use std::path::{Path, PathBuf};

use super::{note, read_small};
use crate::disk::sum_bytes;
use crate::files::{read_up_to, Texts, FILES, NAMES};
use crate::loading::Rooms;
use crate::tables::WIDTHS;
use crate::trouble::Trouble;

pub const NAME: &str = "current";
pub const COPY: &str = "contents";
const FIRST_LINE: &str = "calyxcabin store 1";

#[derive(Clone, PartialEq)]
pub struct Contents {
    /// The number of the delivery's folder.
    pub number: u64,
    files: [(u64, u64); FILES],
    pub rooms: Rooms,
}

impl Contents {
    pub fn of(number: u64, texts: &Texts, rooms: Rooms) -> Contents {
        Contents { number, files: texts.slices().map(|text| (text.len() as u64, sum_bytes(text))), rooms }
    }

    pub fn folder(&self, root: &Path) -> PathBuf {
        root.join(self.number.to_string())
    }

    /// The words of each table.
    pub fn lengths(&self) -> [usize; FILES] {
        let mut lengths = self.rooms;
        lengths.iter_mut().zip(WIDTHS).for_each(|(length, width)| *length *= width);
        lengths
    }

    pub fn bytes(&self) -> u64 {
        self.files.iter().map(|(length, _)| length).sum()
    }

    pub fn text(&self, root: &Path, file: usize) -> Result<Vec<u8>, Trouble> {
        let (length, sum) = self.files[file];
        if length == 0 {
            return Ok(Vec::new());
        }
        let path = self.folder(root).join("delivery").join(NAMES[file]);
        let text =
            read_up_to(&path, length.saturating_add(1), |_| ()).map_err(|error| match error.kind() {
                ErrorKind::NotFound => Trouble::missing(format!(
                    "{} is missing. Put that file of the delivery there again.",
                    path.display()
                )),
                _ => Trouble::reading(&path, &error),
            })?;
        if (text.len() as u64, sum_bytes(&text)) != (length, sum) {
            return Err(Trouble::new(format!(
                "{} is damaged: it is not the file that was opened. Put that file of the delivery there again.",
                path.display()
            )));
        }
        Ok(text)
    }

    pub fn written(&self) -> String {
        let mut text = format!("{FIRST_LINE}\ndelivery {}\n", self.number);
        for ((name, (length, sum)), room) in NAMES.iter().zip(&self.files).zip(&self.rooms) {
            // Writing to a String does not fail.
            let _ = writeln!(text, "{name} {length} {sum:016x} {room}");
        }
        let sum = sum_line(&text);
        text + &sum
    }

    fn parse(text: &str) -> Result<Contents, Unread> {
        let body = text.rfind("sum ").map(|end| &text[..end]).ok_or(Unread::Damaged)?;
        if text[body.len()..] != sum_line(body) {
            return Err(Unread::Damaged);
        }
        let (first, rest) = body.split_once('\n').ok_or(Unread::Damaged)?;
        if first != FIRST_LINE {
            return Err(Unread::OtherVersion);
        }
        Contents::of_lines(rest).ok_or(Unread::Damaged)
    }

    fn of_lines(body: &str) -> Option<Contents> {
        let mut lines = body.lines();
        let number = lines.next()?.strip_prefix("delivery ")?.parse().ok()?;
        let (mut files, mut rooms) = ([(0, 0); FILES], [0; FILES]);
        for place in 0..FILES {
            let words: Vec<&str> = lines.next()?.split(' ').collect();
            let [name, length, sum, room] = words[..] else { return None };
            (name == NAMES[place]).then_some(())?;
            files[place] = (length.parse().ok()?, u64::from_str_radix(sum, 16).ok()?);
            rooms[place] = room.parse().ok()?;
        }
        Some(Contents { number, files, rooms })
    }
}

/// The last line, which tells damage of those before.
fn sum_line(body: &str) -> String {
    format!("sum {:016x}\n", sum_bytes(body.as_bytes()))
}

/// Why what is written cannot be taken.
enum Unread {
    Damaged,
    OtherVersion,
}

/// What the store has, by either of the two writings.
pub fn find(root: &Path) -> Result<Contents, Trouble> {
    let path = root.join(NAME);
    match read_small(&path).map(|text| Contents::parse(&text)) {
        Ok(Ok(contents)) => return Ok(contents),
        Ok(Err(Unread::OtherVersion)) => {
            return Err(Trouble::new(format!(
                "{} is a store of another version of calyxcabin. Open the delivery again with this one.",
                root.display()
            )));
        }
        Err(error) if error.kind() == ErrorKind::PermissionDenied => {
            return Err(Trouble::reading(&path, &error));
        }
        Ok(Err(Unread::Damaged)) | Err(_) => (),
    }
    let copies = copies(root)?;
    match &copies[..] {
        [only] => {
            note(&format!("{} is damaged or missing; its copy was taken.", path.display()));
            Ok(only.clone())
        }
        [] => Err(no_store(root)),
        _ => Err(Trouble::new(format!(
            "{} is damaged, and the store has more than one delivery. Open the delivery again.",
            path.display()
        ))),
    }
}

/// Whether there is a store, damaged or not.
pub fn is_there(root: &Path) -> bool {
    root.join(NAME).exists() || copies(root).is_ok_and(|copies| !copies.is_empty())
}

/// Whether `current` is as it should be.
pub fn is_written(root: &Path, contents: &Contents) -> bool {
    read_small(&root.join(NAME)).is_ok_and(|text| text == contents.written())
}

fn no_store(root: &Path) -> Trouble {
    let place = root.display();
    let looks_like_delivery = crate::files::Delivery::find(root).is_ok_and(|found| found.paths[0].is_some());
    let why = match looks_like_delivery {
        true => format!("{place} is a delivery and no store. First: calyxcabin open {place} STORE"),
        false => format!(
            "{place} is no store, or its `open` was not finished. Make one: calyxcabin open DELIVERY {place}"
        ),
    };
    Trouble::new(why)
}

/// The numbers of the folders that deliveries are kept in.
pub fn numbers(root: &Path) -> Result<Vec<u64>, Trouble> {
    let entries = fs::read_dir(root).map_err(|error| Trouble::reading(root, &error))?;
    let number = |name: std::ffi::OsString| name.to_str()?.parse().ok();
    Ok(entries.flatten().filter_map(|entry| number(entry.file_name())).collect())
}

fn copies(root: &Path) -> Result<Vec<Contents>, Trouble> {
    let copy = |number: u64| {
        let text = read_small(&root.join(number.to_string()).join(COPY)).ok()?;
        Contents::parse(&text).ok().filter(|contents| contents.number == number)
    };
    Ok(numbers(root)?.into_iter().filter_map(copy).collect())
}
