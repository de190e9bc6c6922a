//! Fields, codes and texts.

use std::collections::HashSet;

use crate::rng::Rng;

/// Lines, each with its CR LF.
#[derive(Clone, Debug, Default)]
pub struct Lines(pub Vec<u8>);

impl Lines {
    /// A line of these parts.
    pub fn line(&mut self, parts: &[&[u8]]) {
        for part in parts {
            self.0.extend_from_slice(part);
        }
        self.0.extend_from_slice(b"\r\n");
    }
}

/// The lines of a text without their CR LF; a remainder is the last of them.
pub fn split(text: &[u8]) -> Vec<Vec<u8>> {
    let mut lines = Vec::new();
    let mut line = Vec::new();
    for &byte in text {
        line.push(byte);
        if line.ends_with(b"\r\n") {
            line.truncate(line.len() - 2);
            lines.push(std::mem::take(&mut line));
        }
    }
    if !line.is_empty() {
        lines.push(line);
    }
    lines
}

pub fn join(lines: &[Vec<u8>]) -> Vec<u8> {
    lines.iter().flat_map(|line| line.iter().chain(b"\r\n")).copied().collect()
}

pub fn number(value: u64, width: usize) -> Vec<u8> {
    format!("{value:0width$}").into_bytes()
}

pub fn padded(text: &[u8], width: usize) -> Vec<u8> {
    let mut field = text.to_vec();
    field.resize(width, b' ');
    field
}

/// An allowed byte, often one from 160 on.
fn allowed(rng: &mut Rng) -> u8 {
    if rng.percent(30) {
        return 160 + rng.below(96) as u8;
    }
    32 + rng.below(95) as u8
}

fn letter(rng: &mut Rng) -> u8 {
    b'a' + rng.below(26) as u8
}

/// A free text: words, odd bytes or blanks.
pub fn free(rng: &mut Rng, width: usize) -> Vec<u8> {
    match rng.below(10) {
        0 => vec![b' '; width],
        1 | 2 => (0..width).map(|_| allowed(rng)).collect(),
        _ => {
            let length = 1 + rng.below(width);
            padded(&(0..length).map(|_| letter(rng)).collect::<Vec<_>>(), width)
        }
    }
}

/// A code: mostly letters and then blanks, sometimes any bytes, never blank.
pub fn code(rng: &mut Rng, width: usize) -> Vec<u8> {
    let mut field = match rng.below(12) {
        0 => (0..width).map(|_| allowed(rng)).collect(),
        1 => padded(&[*rng.pick(b"@#*,-+0 ")], width),
        _ => {
            let length = 1 + rng.below(width);
            padded(&(0..length).map(|_| letter(rng)).collect::<Vec<_>>(), width)
        }
    };
    if field.iter().all(|&byte| byte == b' ') {
        field[width - 1] = letter(rng);
    }
    field
}

/// `count` different fields, in the order they were made.
pub fn distinct(count: usize, mut make: impl FnMut() -> Vec<u8>) -> Vec<Vec<u8>> {
    let mut seen = HashSet::new();
    let mut fields = Vec::with_capacity(count);
    while fields.len() < count {
        let field = make();
        if seen.insert(field.clone()) {
            fields.push(field);
        }
    }
    fields
}

/// `count` different rising numbers from `first` to `last`.
pub fn rising(rng: &mut Rng, count: usize, first: u64, last: u64) -> Vec<u64> {
    let step = (last - first + 1) as usize / count.max(1);
    let mut next = first;
    let mut numbers = Vec::with_capacity(count);
    for _ in 0..count {
        numbers.push(next + rng.below(step) as u64);
        next += step as u64;
    }
    numbers
}
