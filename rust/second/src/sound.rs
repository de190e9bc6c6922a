//! Soundness of lent tables.
//!
//! Tables are sound exactly when some delivery loads into them. So the rows
//! are written out as such a delivery, with made-up texts in the columns that
//! are not kept; the delivery is loaded, and its tables are compared with the
//! ones that were lent, unused places and derived words included.

use crate::encode::{encode, rooms_of, width, NO_LETTER};
use crate::files::{File, FILES};
use crate::load::load;
use crate::refusals::{Fault, Refusal};
use crate::store::Store;
use crate::values::Day;

/// The store that the tables show; 16 if they are not sound.
pub fn open(tables: &[Vec<u64>; FILES]) -> Result<Store, Refusal> {
    examine(tables).map_err(|_| Fault::NotSound.nowhere())
}

/// Why tables are not sound.
#[derive(Clone, Copy, Debug, PartialEq, Eq)]
pub enum Unsound {
    /// A row stands for no line: its first word is none of the file's letters,
    /// or a number has too many digits for its field.
    NoSuchLine,
    /// The delivery that the rows stand for is refused.
    Refused(Refusal),
    /// The delivery's own tables differ in unused places or derived words.
    OtherTables,
}

/// The store that the tables show, or why they are not sound.
pub fn examine(tables: &[Vec<u64>; FILES]) -> Result<Store, Unsound> {
    let texts = texts_of(tables).ok_or(Unsound::NoSuchLine)?;
    let lens = tables.each_ref().map(Vec::len);
    let store = load(&texts.each_ref().map(Vec::as_slice), &rooms_of(&lens)).map_err(Unsound::Refused)?;
    if encode(&store, &lens) != *tables {
        return Err(Unsound::OtherTables);
    }
    Ok(store)
}

fn texts_of(tables: &[Vec<u64>; FILES]) -> Option<[Vec<u8>; FILES]> {
    let days = days_of(&tables[File::Delivery.index()]);
    let mut texts: [Vec<u8>; FILES] = Default::default();
    for file in File::ALL {
        texts[file.index()] = text_of(file, &tables[file.index()], days)?;
    }
    Some(texts)
}

/// The days of validity, which give the vectors their length; 0 where the
/// first line has no such days, which the load then refuses.
fn days_of(delivery: &[u64]) -> usize {
    let day = |place: usize| delivery.get(place).copied().and_then(Day::from_written);
    let days = day(2).zip(day(3)).map(|(first, last)| last.days_after(first) + 1);
    days.and_then(|days| usize::try_from(days).ok()).unwrap_or(0)
}

/// The file that the rows of a table stand for. Rows end at the first that is
/// unused; the comparison afterwards sees to what lies beyond.
fn text_of(file: File, table: &[u64], days: usize) -> Option<Vec<u8>> {
    let mut text = Text::default();
    let rows = table.chunks_exact(width(file)).take_while(|row| row[0] != 0);
    for (row, number) in rows.zip(0..) {
        let letter = u8::try_from(row[0]).ok()?;
        match (file, letter) {
            _ if number == 0 => first_line(&mut text, row)?,
            (_, b'@') => return None,
            (File::Footnote | File::XFootnote, 1) => vector(&mut text, row, days),
            (File::TimeZone | File::Footnote | File::XFootnote, _) => grouped(&mut text, file, letter, row)?,
            (File::Changes | File::XChanges, _) => change(&mut text, file, letter, row)?,
            (File::TimeTbls, _) => record(&mut text, letter, row)?,
            _ if row[0] == NO_LETTER => plain_row(&mut text, file, row, number)?,
            _ => return None,
        }
        text.end_line();
    }
    Some(text.bytes)
}

/// A text being written, field by field. A value that does not fit its field
/// makes the whole none.
#[derive(Default)]
struct Text {
    bytes: Vec<u8>,
}

impl Text {
    fn literal(&mut self, text: &[u8]) -> Option<&mut Self> {
        self.bytes.extend_from_slice(text);
        Some(self)
    }

    fn number(&mut self, value: u64, digits: usize) -> Option<&mut Self> {
        let written = format!("{value:0digits$}");
        (written.len() == digits).then_some(())?;
        self.literal(written.as_bytes())
    }

    fn code(&mut self, value: u64, length: usize) -> Option<&mut Self> {
        let bytes = value.to_be_bytes();
        let (above, field) = bytes.split_at(bytes.len() - length);
        above.iter().all(|&byte| byte == 0).then_some(())?;
        self.literal(field)
    }

    /// A company or the wildcard in its place.
    fn company(&mut self, value: u64) -> Option<&mut Self> {
        if value < 1000 {
            return self.number(value, 3);
        }
        self.code(value, 3)
    }

    fn comma(&mut self) -> Option<&mut Self> {
        self.literal(b",")
    }

    fn end_line(&mut self) {
        self.bytes.extend_from_slice(b"\r\n");
    }
}

const BLANKS: [u8; 30] = [b' '; 30];

fn first_line(text: &mut Text, row: &[u64]) -> Option<()> {
    (row[0] == u64::from(b'@')).then_some(())?;
    text.literal(b"@")?.number(row[1], 3)?.comma()?.number(row[2], 8)?.comma()?;
    text.number(row[3], 8)?.comma()?.number(row[4], 4)?.comma()?.literal(&BLANKS)?;
    Some(())
}

/// A row of a file without letters; its number makes its texts unique.
fn plain_row(text: &mut Text, file: File, row: &[u64], number: u64) -> Option<()> {
    match file {
        File::Company => {
            text.number(row[1], 3)?.comma()?.number(number, 10)?.comma()?;
            text.number(number, 30)?.comma()?.number(row[2], 4)?
        }
        File::Country => text.code(row[1], 4)?.comma()?.number(row[2], 1)?.comma()?.number(number, 30)?,
        File::TrnsMode => text.code(row[1], 4)?.comma()?.number(number, 30)?,
        File::Stations => {
            text.number(row[1], 1)?.comma()?.code(row[2], 7)?.comma()?.number(row[3], 2)?;
            text.literal(b",  ,")?.code(row[4], 4)?.comma()?.number(row[5], 4)?;
            text.literal(b",  ,      ,      ,")?.literal(&BLANKS)?
        }
        _ => return None,
    };
    Some(())
}

/// A record of TIMEZONE, or the `#` of a footnote.
fn grouped(text: &mut Text, file: File, letter: u8, row: &[u64]) -> Option<()> {
    text.literal(&[letter])?;
    match (file, letter) {
        (File::TimeZone, b'#') => text.number(row[1], 4)?,
        (File::TimeZone, b'+' | b'-') => {
            text.number(row[1], 2)?.comma()?.number(row[2], 8)?.comma()?.number(row[3], 8)?
        }
        (File::Footnote | File::XFootnote, b'#') => text.number(row[1], 5)?,
        _ => return None,
    };
    Some(())
}

fn vector(text: &mut Text, row: &[u64], days: usize) {
    let bits = row[1..].iter().flat_map(|word| (0..64).map(move |bit| word >> bit & 1));
    text.bytes.extend(bits.take(days).map(|bit| b'0' + bit as u8));
}

fn change(text: &mut Text, file: File, letter: u8, row: &[u64]) -> Option<()> {
    text.literal(&[letter])?;
    match (file, letter) {
        (_, b'#') => text.code(row[1], 7)?,
        (File::Changes, b'-') => {
            text.number(row[1], 8)?.comma()?.number(row[2], 8)?.comma()?.number(row[3], 2)?
        }
        (File::XChanges, b'-') => {
            text.company(row[1])?.comma()?.code(row[2], 4)?.comma()?.company(row[3])?.comma()?;
            text.code(row[4], 4)?.comma()?.number(row[5], 3)?.comma()?.number(row[6], 5)?
        }
        _ => return None,
    };
    Some(())
}

fn record(text: &mut Text, letter: u8, row: &[u64]) -> Option<()> {
    text.literal(&[letter])?;
    match letter {
        b'#' => text.number(row[1], 8)?,
        b'%' => {
            text.number(row[1], 3)?.comma()?.number(row[2], 5)?.literal(b",       ,")?;
            text.number(row[3], 3)?.comma()?.number(row[4], 3)?.comma()?.literal(&BLANKS)?
        }
        b'-' => text.number(row[1], 5)?.comma()?.number(row[2], 3)?.comma()?.number(row[3], 3)?,
        b'&' => text.code(row[1], 4)?.comma()?.number(row[2], 3)?.comma()?.number(row[3], 3)?,
        b'*' => {
            text.code(row[1], 4)?.comma()?.number(row[2], 3)?.comma()?;
            text.number(row[3], 3)?.comma()?.number(row[4], 5)?
        }
        b'>' | b'.' | b'<' => text.code(row[1], 7)?.comma()?.number(row[2], 4)?,
        b'+' => text.code(row[1], 7)?.comma()?.number(row[2], 4)?.comma()?.number(row[3], 4)?,
        b';' => text.code(row[1], 7)?,
        b'?' => text.literal(b"     ,     ,")?.number(row[1], 5)?,
        _ => return None,
    };
    Some(())
}
