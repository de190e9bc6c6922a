//! What the machine can do with the same files and tables at best: how far a
//! load is from it tells how much there is to gain.

use std::hint::black_box;
use std::time::Duration;

use compare::{Files, Tables};
use deliveries::place::TIMETBLS;

use crate::rounds::timed;

/// The best times.
pub struct Limits {
    /// The ends of TIMETBLS' lines counted.
    pub count_lines: Duration,
    /// Every byte of all files read.
    pub read_files: Duration,
    /// Every word of all tables written.
    pub write_tables: Duration,
}

impl Limits {
    pub const NONE: Limits =
        Limits { count_lines: Duration::MAX, read_files: Duration::MAX, write_tables: Duration::MAX };

    /// The tables are left with any words.
    pub fn measure(&mut self, files: Files, tables: &mut Tables) {
        let ends = timed(&mut self.count_lines, || line_ends(black_box(files[TIMETBLS])));
        assert!(ends == second::count_lines(files[TIMETBLS]), "Lines are counted wrong.");
        timed(&mut self.read_files, || black_box(black_box(files).map(sum)));
        timed(&mut self.write_tables, || {
            for table in tables.iter_mut() {
                black_box(table).fill(black_box(1));
            }
        });
        black_box(tables);
    }
}

/// A byte counts so many without passing its limit, many of them at once.
const RUN: usize = 240;

/// How often CR LF stands in the text.
fn line_ends(text: &[u8]) -> usize {
    let behind = text.get(1..).unwrap_or_default();
    let in_run = |(firsts, nexts): (&[u8], &[u8])| {
        let ends =
            firsts.iter().zip(nexts).map(|(&first, &next)| u8::from((first == b'\r') & (next == b'\n')));
        usize::from(ends.sum::<u8>())
    };
    text.chunks(RUN).zip(behind.chunks(RUN)).map(in_run).sum()
}

/// Of the words of eight bytes that the file holds, and of the bytes left over.
fn sum(file: &[u8]) -> u64 {
    let (words, rest) = file.as_chunks::<8>();
    let words = words.iter().map(|&word| u64::from_le_bytes(word));
    words.chain(rest.iter().map(|&byte| u64::from(byte))).fold(0, u64::wrapping_add)
}

#[cfg(test)]
mod tests {
    use super::*;

    #[test]
    fn ends_of_lines_are_counted_wherever_they_stand() {
        for length in 0..3 * RUN {
            let line = [vec![b'a'; length], b"\r\n".to_vec()].concat();
            assert_eq!(line_ends(&line), 1);
            assert_eq!(line_ends(&line[..length + 1]), 0);
            assert_eq!(line_ends(&[line.clone(), line].concat()), 2);
        }
        assert_eq!(line_ends(&b"\r\n".repeat(10_000)), 10_000);
    }

    #[test]
    fn every_byte_is_summed() {
        assert_eq!(sum(&[1; 19]), 2 * 0x0101_0101_0101_0101 + 3);
    }
}
