//! Columns: the length of every record and the places of its commas.

use crate::lines::Line;
use crate::refusals::Fault;

/// A record's length without CR LF and the columns, from 1, of its commas.
pub struct Layout {
    length: usize,
    commas: &'static [usize],
}

pub const FIRST_LINE: Layout = Layout { length: 58, commas: &[5, 14, 23, 28] };
pub const COMPANY: Layout = Layout { length: 50, commas: &[4, 15, 46] };
pub const COUNTRY: Layout = Layout { length: 37, commas: &[5, 7] };
pub const TRNSMODE: Layout = Layout { length: 35, commas: &[5] };
pub const ZONE: Layout = Layout { length: 5, commas: &[] };
pub const PERIOD: Layout = Layout { length: 21, commas: &[4, 13] };
pub const STATIONS: Layout = Layout { length: 73, commas: &[2, 10, 13, 16, 21, 26, 29, 36, 43] };
pub const FOOTNOTE: Layout = Layout { length: 6, commas: &[] };
pub const SERVICE: Layout = Layout { length: 9, commas: &[] };
pub const SERVICE_NUMBER: Layout = Layout { length: 57, commas: &[5, 11, 19, 23, 27] };
pub const VALIDITY: Layout = Layout { length: 14, commas: &[7, 11] };
pub const MODE: Layout = Layout { length: 13, commas: &[6, 10] };
pub const ATTRIBUTE: Layout = Layout { length: 19, commas: &[6, 10, 14] };
pub const ONE_TIME_STOP: Layout = Layout { length: 13, commas: &[9] };
pub const INTERVAL: Layout = Layout { length: 18, commas: &[9, 14] };
pub const PASSED: Layout = Layout { length: 8, commas: &[] };
pub const PLATFORM: Layout = Layout { length: 18, commas: &[7, 13] };
pub const CHANGES_STATION: Layout = Layout { length: 8, commas: &[] };
pub const CHANGES_PAIR: Layout = Layout { length: 21, commas: &[10, 19] };
pub const XCHANGES_ROW: Layout = Layout { length: 28, commas: &[5, 10, 14, 19, 23] };

impl Layout {
    /// A vector has one column for each day of validity.
    pub fn vector(days: usize) -> Layout {
        Layout { length: days, commas: &[] }
    }

    /// The whole layout test of a line: length, commas, bytes and CR LF.
    #[inline]
    pub fn check(&self, line: Line) -> Result<(), Fault> {
        let fits = line.ended
            && line.text.len() == self.length
            && self.commas.iter().all(|&column| line.text[column - 1] == b',')
            && all_allowed(line.text);
        fits.then_some(()).ok_or(Fault::Layout)
    }

    /// The bytes that a record of this layout takes in its file.
    pub fn bytes(&self) -> usize {
        self.length + b"\r\n".len()
    }
}

/// Allowed bytes are 32 to 126 and 160 to 255. The fold never leaves early,
/// so it compiles to a few vector instructions.
fn all_allowed(text: &[u8]) -> bool {
    text.iter().fold(true, |so_far, &byte| so_far & (matches!(byte, 32..=126) | (byte >= 160)))
}

/// The field from column `first` to column `last`, both from 1 and included.
#[inline]
pub fn columns(text: &[u8], first: usize, last: usize) -> &[u8] {
    &text[first - 1..last]
}
