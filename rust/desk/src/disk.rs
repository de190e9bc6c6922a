//! Bytes that are on the disk when a call returns, and sums that tell damage.

use std::borrow::Cow;
use std::fs::{self, File};
use std::io::{self, ErrorKind, Write};
use std::os::unix::fs::FileExt;
use std::path::Path;

use crate::memory::in_parts;

const FACTOR: u64 = 0x9E37_79B9_7F4A_7C15;
const LANES: usize = 4;

/// A sum of words. Each step can be undone, so a change within one word always
/// changes the sum; any other, but for one in some 10^19.
pub fn sum_words(words: &[u64]) -> u64 {
    let mut lanes: [u64; LANES] = [1, 2, 3, 4];
    let parts = words.chunks_exact(LANES);
    let rest = parts.remainder();
    for part in parts {
        for (lane, word) in lanes.iter_mut().zip(part) {
            *lane = step(*lane, *word);
        }
    }
    let all = rest.iter().chain(&lanes);
    all.fold(step(0, words.len() as u64), |sum, &word| step(sum, word))
}

pub fn sum_bytes(bytes: &[u8]) -> u64 {
    let mut lanes: [u64; LANES] = [1, 2, 3, 4];
    let mut parts = bytes.chunks_exact(LANES * 8);
    for part in &mut parts {
        for (lane, word) in lanes.iter_mut().zip(part.chunks_exact(8)) {
            *lane = step(*lane, u64::from_le_bytes(word.try_into().expect("eight bytes")));
        }
    }
    let rest = parts.remainder().iter().map(|&byte| u64::from(byte));
    rest.chain(lanes).fold(step(0, bytes.len() as u64), step)
}

fn step(sum: u64, word: u64) -> u64 {
    let mixed = (sum ^ word).wrapping_mul(FACTOR);
    mixed ^ mixed >> 32
}

/// Writes a file and waits until the disk has it.
pub fn write_synced(path: &Path, parts: &[&[u8]], mut written: impl FnMut(u64)) -> io::Result<()> {
    const STEP: usize = 4 << 20;
    let mut file = File::create(path)?;
    for part in parts {
        for piece in part.chunks(STEP) {
            file.write_all(piece)?;
            written(piece.len() as u64);
        }
    }
    file.sync_all()
}

/// Waits until the disk has a folder's names.
pub fn sync_folder(folder: &Path) -> io::Result<()> {
    File::open(folder)?.sync_all()
}

/// Puts a file that is on the disk into the place of another, at one moment.
pub fn put(from: &Path, to: &Path) -> io::Result<()> {
    fs::rename(from, to)?;
    sync_folder(to.parent().unwrap_or(Path::new(".")))
}

/// Fills bytes from a place of a file; many of them in several parts at once.
pub fn read_bytes(file: &File, from: u64, bytes: &mut [u8]) -> io::Result<()> {
    let read = in_parts(bytes, |start, part| file.read_exact_at(part, from + start as u64));
    read.into_iter().try_for_each(|part| part.unwrap_or(Err(ErrorKind::Other.into())))
}

/// Fills words from a place of a file that has them with the lowest byte first.
pub fn read_words(file: &File, from: u64, words: &mut [u64]) -> io::Result<()> {
    read_bytes(file, from, bytes_of_mut(words))?;
    if cfg!(target_endian = "big") {
        words.iter_mut().for_each(|word| *word = u64::from_le(*word));
    }
    Ok(())
}

fn bytes_of_mut(words: &mut [u64]) -> &mut [u8] {
    // SAFETY: the words' own memory, as long as it is and borrowed alone; every
    // byte of a word is a byte, and every eight bytes are a word.
    unsafe { std::slice::from_raw_parts_mut(words.as_mut_ptr().cast(), size_of_val(words)) }
}

/// The bytes of words, lowest first.
pub fn bytes_of(words: &[u64]) -> Cow<'_, [u8]> {
    if cfg!(target_endian = "big") {
        return words.iter().flat_map(|word| word.to_le_bytes()).collect::<Vec<u8>>().into();
    }
    // SAFETY: the words' own memory, as long as it is and borrowed as long; every
    // byte of a word is a byte.
    let bytes: &[u8] = unsafe { std::slice::from_raw_parts(words.as_ptr().cast(), size_of_val(words)) };
    bytes.into()
}

#[cfg(test)]
mod tests {
    use super::*;

    #[test]
    fn every_bit_counts() {
        let words: Vec<u64> = (0..23u64).map(|k| k.wrapping_mul(FACTOR)).collect();
        let bytes = bytes_of(&words[..9]);
        let (sum, sum_b) = (sum_words(&words), sum_bytes(&bytes[..71]));
        for bit in 0..words.len() * 64 {
            let mut other = words.clone();
            other[bit / 64] ^= 1 << (bit % 64);
            assert_ne!(sum_words(&other), sum);
        }
        for bit in 0..71 * 8 {
            let mut other = bytes.to_vec();
            other[bit / 8] ^= 1 << (bit % 8);
            assert_ne!(sum_bytes(&other[..71]), sum_b);
        }
        for shorter in 0..71 {
            assert_ne!(sum_bytes(&bytes[..shorter]), sum_b);
        }
    }
}
