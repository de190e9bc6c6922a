//! The eleven files of a delivery, and their texts as a folder has them.

use std::fs::{self, File};
use std::io::{self, Read, Seek, SeekFrom};
use std::path::{Path, PathBuf};

use crate::disk::read_bytes;
use crate::memory::zeros;
use crate::progress::Progress;
use crate::trouble::Trouble;

pub const FILES: usize = proved::FILES;

/// The files' names, in reading order.
pub const NAMES: [&str; FILES] = [
    "DELIVERY",
    "COMPANY",
    "COUNTRY",
    "TRNSMODE",
    "TIMEZONE",
    "STATIONS",
    "FOOTNOTE",
    "TIMETBLS",
    "CHANGES",
    "XFOOTNOTE",
    "XCHANGES",
];

/// The files' places in reading order.
pub mod place {
    pub const DELIVERY: usize = 0;
    pub const COMPANY: usize = 1;
    pub const COUNTRY: usize = 2;
    pub const TRNSMODE: usize = 3;
    pub const TIMEZONE: usize = 4;
    pub const STATIONS: usize = 5;
    pub const FOOTNOTE: usize = 6;
    pub const TIMETBLS: usize = 7;
    pub const CHANGES: usize = 8;
    pub const XFOOTNOTE: usize = 9;
    pub const XCHANGES: usize = 10;
}

/// The largest length of a file. No more than a byte beyond it is read: what
/// follows could not change the refusal.
pub const LONGEST_FILE: u64 = 268_435_455;

/// The texts of a delivery, in reading order; an absent file is empty.
pub struct Texts(pub [Vec<u8>; FILES]);

impl Texts {
    pub fn slices(&self) -> [&[u8]; FILES] {
        self.0.each_ref().map(Vec::as_slice)
    }
}

/// A delivery in a folder: where each file is, if it is there.
pub struct Delivery {
    pub paths: [Option<PathBuf>; FILES],
}

impl Delivery {
    /// Looks the files up. A name counts in capitals or small letters, with
    /// nothing or `.dat` behind it; two files for one name are one too many.
    pub fn find(folder: &Path) -> Result<Delivery, Trouble> {
        let entries = fs::read_dir(folder).map_err(|error| no_folder(folder, &error))?;
        let mut paths: [Option<PathBuf>; FILES] = Default::default();
        for entry in entries {
            let path = entry.map_err(|error| no_folder(folder, &error))?.path();
            let Some(place) = path.file_name().and_then(|name| place_of(&name.to_string_lossy())) else {
                continue;
            };
            if let Some(other) = paths[place].replace(path.clone()) {
                return Err(Trouble::new(format!(
                    "There are two files for {}: {} and {}. Take one of them away, so that it is clear which one counts.",
                    NAMES[place],
                    other.display(),
                    path.display()
                )));
            }
        }
        Ok(Delivery { paths })
    }

    /// Reads the files.
    pub fn read(&self, progress: &Progress) -> Result<Texts, Trouble> {
        let sizes = self.paths.each_ref().map(|path| path.as_ref().map_or(0, |path| size_of(path)));
        let bar = progress.bytes("reading", sizes.iter().sum());
        let mut texts: [Vec<u8>; FILES] = Default::default();
        for (place, path) in self.paths.iter().enumerate() {
            let Some(path) = path else { continue };
            bar.at(NAMES[place]);
            texts[place] = read_up_to(path, LONGEST_FILE + 1, |read| bar.more(read))
                .map_err(|error| Trouble::reading(path, &error))?;
        }
        Ok(Texts(texts))
    }
}

fn place_of(name: &str) -> Option<usize> {
    let upper = name.to_ascii_uppercase();
    let stem = upper.strip_suffix(".DAT").unwrap_or(&upper);
    NAMES.iter().position(|&name| name == stem)
}

fn size_of(path: &Path) -> u64 {
    fs::metadata(path).map_or(0, |data| data.len())
}

fn no_folder(folder: &Path, error: &io::Error) -> Trouble {
    match error.kind() {
        io::ErrorKind::NotADirectory => Trouble::new(format!(
            "{} is a file. Give the folder in which DELIVERY, COMPANY and the other files are.",
            folder.display()
        )),
        _ => Trouble::reading(folder, error),
    }
}

/// A file's bytes, up to so many. They are read and not mapped: another program
/// may write to the file meanwhile, or cut it short.
pub fn read_up_to(path: &Path, most: u64, mut read: impl FnMut(u64)) -> io::Result<Vec<u8>> {
    const STEP: usize = 32 << 20;
    let mut file = File::open(path)?;
    let mut bytes = zeros(file.metadata()?.len().min(most) as usize);
    let mut filled = 0;
    for piece in bytes.chunks_mut(STEP) {
        // A file that has become shorter, or that is not read from any place, is
        // read below.
        if read_bytes(&file, filled, piece).is_err() {
            break;
        }
        filled += piece.len() as u64;
        read(piece.len() as u64);
    }
    bytes.truncate(filled as usize);
    if filled > 0 {
        file.seek(SeekFrom::Start(filled))?;
    }
    let mut rest = file.take(most - filled);
    loop {
        let more = rest.by_ref().take(STEP as u64).read_to_end(&mut bytes)? as u64;
        if more == 0 {
            return Ok(bytes);
        }
        read(more);
    }
}

/// How many lines a text has: one for each CR LF, and what remains behind the
/// last. Rooms are made by it; what a line is, the load decides.
pub fn count_lines(text: &[u8]) -> usize {
    let Some(after_first) = text.get(1..) else { return 0 };
    let runs = text.chunks(255).zip(after_first.chunks(255));
    let ends_in = |(firsts, seconds): (&[u8], &[u8])| -> u8 {
        firsts.iter().zip(seconds).map(|(&a, &b)| u8::from(a == b'\r') & u8::from(b == b'\n')).sum()
    };
    runs.map(|run| usize::from(ends_in(run))).sum::<usize>() + usize::from(!text.ends_with(b"\r\n"))
}

/// Bytes as the Latin-1 characters that they are.
pub fn latin(bytes: &[u8]) -> String {
    bytes.iter().map(|&byte| char::from(byte)).collect()
}

/// A text as Latin-1 bytes; none if it has other characters.
pub fn to_latin(text: &str) -> Option<Vec<u8>> {
    text.chars().map(|letter| u8::try_from(u32::from(letter)).ok()).collect()
}

/// The lines of a text without their CR LF, and whether they had one.
#[derive(Clone)]
pub struct Lines<'a>(&'a [u8]);

#[derive(Clone, Copy, Debug)]
pub struct Line<'a> {
    pub text: &'a [u8],
    pub ended: bool,
}

pub fn lines(text: &[u8]) -> Lines<'_> {
    Lines(text)
}

impl<'a> Iterator for Lines<'a> {
    type Item = Line<'a>;

    fn next(&mut self) -> Option<Line<'a>> {
        if self.0.is_empty() {
            return None;
        }
        let Some(end) = self.0.windows(2).position(|pair| pair == b"\r\n") else {
            return Some(Line { text: std::mem::take(&mut self.0), ended: false });
        };
        let (text, rest) = self.0.split_at(end);
        self.0 = &rest[2..];
        Some(Line { text, ended: true })
    }
}

#[cfg(test)]
mod tests {
    use super::*;

    #[test]
    fn files_are_read_up_to_so_many_bytes() {
        let path = std::env::temp_dir().join(format!("calyxcabin-read-{}", std::process::id()));
        let bytes: Vec<u8> = (0..9_000_007u32).map(|place| (place ^ place >> 8) as u8).collect();
        for length in [0, 1, 4 << 20, bytes.len()] {
            fs::write(&path, &bytes[..length]).unwrap();
            for most in [0, 1, length / 2, length, length + 1, usize::MAX] {
                let mut told = 0;
                let read = read_up_to(&path, most as u64, |more| told += more).unwrap();
                assert!(read == bytes[..length.min(most)] && told == read.len() as u64);
            }
        }
        fs::remove_file(&path).unwrap();
        assert!(read_up_to(&path, 1, |_| ()).is_err());
        assert!(read_up_to(&std::env::temp_dir(), 1, |_| ()).is_err());
        // It does not tell its length.
        let told = Path::new("/proc/self/maps");
        assert!(!told.exists() || read_up_to(told, u64::MAX, |_| ()).unwrap().len() > 1);
    }
}
