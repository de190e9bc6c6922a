//! Refusals: what is wrong, by number, and where.

use crate::files::File;

/// What is wrong; the discriminant is the refusal's number.
#[derive(Clone, Copy, Debug, PartialEq, Eq)]
#[repr(u8)]
pub enum Fault {
    TooLong = 1,
    NoRoom = 2,
    Absent = 3,
    Layout = 4,
    Value = 5,
    FirstLine = 6,
    Order = 7,
    Duplicate = 8,
    Reference = 9,
    Legs = 10,
    NotOneBlock = 11,
    UnknownService = 12,
    NoSuchStop = 13,
    NotInValidity = 14,
    NoZonePeriod = 15,
    NotSound = 16,
    NoSuchStation = 17,
    ListTooShort = 23,
}

/// A refusal as the desk sees it. `file` is 1 to 11, or 0 where there is none;
/// `ordinal` counts the blocks of TIMETBLS and is 0 elsewhere.
#[derive(Clone, Copy, Debug, PartialEq, Eq, Hash)]
pub struct Refusal {
    pub number: u8,
    pub file: u8,
    pub ordinal: u64,
    pub line: u64,
}

impl Fault {
    /// The fault at a line. Outside TIMETBLS the ordinal is 0.
    pub fn at(self, file: File, ordinal: u64, line: u64) -> Refusal {
        Refusal { number: self as u8, file: file.number(), ordinal, line }
    }

    /// The fault of a file as a whole.
    pub fn of(self, file: File) -> Refusal {
        self.at(file, 0, 0)
    }

    /// The fault of a call, which has no place.
    pub fn nowhere(self) -> Refusal {
        Refusal { number: self as u8, file: 0, ordinal: 0, line: 0 }
    }
}
