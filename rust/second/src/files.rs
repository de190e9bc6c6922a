//! The eleven files and their reading order.

/// A file of the delivery, in reading order.
#[derive(Clone, Copy, Debug, PartialEq, Eq, Hash)]
pub enum File {
    Delivery,
    Company,
    Country,
    TrnsMode,
    TimeZone,
    Stations,
    Footnote,
    TimeTbls,
    Changes,
    XFootnote,
    XChanges,
}

/// How many files a delivery has.
pub const FILES: usize = 11;

/// The largest length of a file in bytes.
pub const LONGEST_FILE: usize = 268_435_455;

impl File {
    /// Every file, in reading order.
    pub const ALL: [File; FILES] = [
        File::Delivery,
        File::Company,
        File::Country,
        File::TrnsMode,
        File::TimeZone,
        File::Stations,
        File::Footnote,
        File::TimeTbls,
        File::Changes,
        File::XFootnote,
        File::XChanges,
    ];

    /// The file's place in arrays of eleven, from 0.
    pub fn index(self) -> usize {
        self as usize
    }

    /// The file's number in a refusal, from 1.
    pub fn number(self) -> u8 {
        self as u8 + 1
    }

    pub fn name(self) -> &'static str {
        match self {
            File::Delivery => "DELIVERY",
            File::Company => "COMPANY",
            File::Country => "COUNTRY",
            File::TrnsMode => "TRNSMODE",
            File::TimeZone => "TIMEZONE",
            File::Stations => "STATIONS",
            File::Footnote => "FOOTNOTE",
            File::TimeTbls => "TIMETBLS",
            File::Changes => "CHANGES",
            File::XFootnote => "XFOOTNOTE",
            File::XChanges => "XCHANGES",
        }
    }

    /// The last three files may be absent, but XCHANGES cannot do without the
    /// footnotes it names.
    pub fn is_needed(self, xchanges_present: bool) -> bool {
        match self {
            File::Changes | File::XChanges => false,
            File::XFootnote => xchanges_present,
            _ => true,
        }
    }
}
