//! Values: numbers, codes, days and times.

use crate::refusals::Fault;

/// A number field: digits and nothing else.
#[inline]
pub fn number(field: &[u8]) -> Result<u32, Fault> {
    let mut value = 0;
    for &byte in field {
        let digit = byte.wrapping_sub(b'0');
        if digit > 9 {
            return Err(Fault::Value);
        }
        value = value * 10 + u32::from(digit);
    }
    Ok(value)
}

/// A number field of at most four digits.
#[inline]
pub fn short_number(field: &[u8]) -> Result<u16, Fault> {
    debug_assert!(field.len() <= 4);
    number(field).map(|value| value as u16)
}

/// A field as one word, base 256 with the first byte highest.
#[inline]
pub fn pack(field: &[u8]) -> u64 {
    debug_assert!(field.len() <= 8);
    field.iter().fold(0, |word, &byte| word << 8 | u64::from(byte))
}

/// A code field, packed: any bytes but not all blank.
#[inline]
pub fn code(field: &[u8]) -> Result<u64, Fault> {
    if field.iter().all(|&byte| byte == b' ') {
        return Err(Fault::Value);
    }
    Ok(pack(field))
}

/// `*` followed by blanks over the whole field.
pub fn is_wildcard(field: &[u8]) -> bool {
    matches!(field, [b'*', blanks @ ..] if blanks.iter().all(|&byte| byte == b' '))
}

const DAYS_BEFORE_MONTH: [u32; 12] = [0, 31, 59, 90, 120, 151, 181, 212, 243, 273, 304, 334];
const DAYS_IN_YEAR: u32 = 365;
const FEBRUARY: usize = 2;

/// A day of the Gregorian calendar in the years 1600 to 9999: the number
/// DDMMYYYY it was written as, and its place in the count of all days.
#[derive(Clone, Copy, Debug, PartialEq, Eq)]
pub struct Day {
    written: u32,
    count: u32,
}

impl Day {
    /// The day written as DDMMYYYY; none if there is no such day.
    pub fn from_written(written: u64) -> Option<Day> {
        let written = u32::try_from(written).ok()?;
        let (day, month, year) = (written / 1_000_000, written / 10_000 % 100, written % 10_000);
        if year < 1600 || !(1..=12).contains(&month) {
            return None;
        }
        let month = month as usize;
        if day < 1 || day > days_in_month(month, year) {
            return None;
        }
        let leap_day = u32::from(is_leap(year) && month > FEBRUARY);
        let count = days_before_year(year) + DAYS_BEFORE_MONTH[month - 1] + leap_day + day;
        Some(Day { written, count })
    }

    pub fn written(self) -> u32 {
        self.written
    }

    /// How many days after `earlier` this day is; negative if before.
    pub fn days_after(self, earlier: Day) -> i32 {
        self.count as i32 - earlier.count as i32
    }

    /// The day's place in the count of all days.
    pub fn count(self) -> u32 {
        self.count
    }
}

fn is_leap(year: u32) -> bool {
    year.is_multiple_of(4) && (!year.is_multiple_of(100) || year.is_multiple_of(400))
}

fn days_before_year(year: u32) -> u32 {
    let past = year - 1;
    past * DAYS_IN_YEAR + past / 4 - past / 100 + past / 400
}

fn days_in_month(month: usize, year: u32) -> u32 {
    let end = DAYS_BEFORE_MONTH.get(month).copied().unwrap_or(DAYS_IN_YEAR);
    end - DAYS_BEFORE_MONTH[month - 1] + u32::from(month == FEBRUARY && is_leap(year))
}

/// A day field.
pub fn day(field: &[u8]) -> Result<Day, Fault> {
    Day::from_written(u64::from(number(field)?)).ok_or(Fault::Value)
}

/// Two day fields, the first not after the last.
pub fn days(first: &[u8], last: &[u8]) -> Result<(Day, Day), Fault> {
    let (first, last) = (day(first)?, day(last)?);
    if last.days_after(first) < 0 {
        return Err(Fault::Value);
    }
    Ok((first, last))
}

/// Minutes on the clocks of a station's zone, from 0000 of the service day.
#[derive(Clone, Copy, Debug, PartialEq, Eq, PartialOrd, Ord)]
pub struct LocalMinutes(pub i32);

/// Minutes on the reference clock, from 0000 of the service day.
#[derive(Clone, Copy, Debug, PartialEq, Eq, PartialOrd, Ord)]
pub struct ReferenceMinutes(pub i32);

/// What `+` writes where nobody alights or boards.
pub const NO_TIME: u16 = 9999;

/// A time of day as written: HHMM, hours 00 to 99, minutes 00 to 59.
#[derive(Clone, Copy, Debug, PartialEq, Eq, PartialOrd, Ord)]
pub struct Clock(u16);

impl Clock {
    pub fn from_written(written: u16) -> Option<Clock> {
        (written < 10_000 && written % 100 < 60).then_some(Clock(written))
    }

    pub fn written(self) -> u16 {
        self.0
    }

    pub fn minutes(self) -> LocalMinutes {
        LocalMinutes(i32::from(self.0 / 100) * 60 + i32::from(self.0 % 100))
    }
}

/// A time field that must hold a time.
#[inline]
pub fn clock(field: &[u8]) -> Result<Clock, Fault> {
    Clock::from_written(short_number(field)?).ok_or(Fault::Value)
}

/// A time field that may hold 9999 for no time.
#[inline]
pub fn clock_or_none(field: &[u8]) -> Result<Option<Clock>, Fault> {
    match short_number(field)? {
        NO_TIME => Ok(None),
        written => Clock::from_written(written).map(Some).ok_or(Fault::Value),
    }
}

#[cfg(test)]
mod tests {
    use super::*;

    fn span(first: u64, last: u64) -> i32 {
        Day::from_written(last).unwrap().days_after(Day::from_written(first).unwrap()) + 1
    }

    #[test]
    fn p1_p2_p3_days_of_validity() {
        assert_eq!(span(13122015, 10122016), 364);
        assert_eq!(span(28091997, 23051998), 238);
        assert_eq!(span(1012015, 10032017), 800);
        assert_eq!(span(1012015, 11032017), 801);
    }

    #[test]
    fn p4_leap_days() {
        assert!(Day::from_written(29022000).is_some());
        assert!(Day::from_written(29021900).is_none());
        assert!(Day::from_written(29022016).is_some());
        assert!(Day::from_written(29022015).is_none());
    }

    #[test]
    fn days_of_the_calendar() {
        for good in [1011600, 31129999, 30042015, 31012015, 28022015] {
            assert!(Day::from_written(good).is_some(), "{good}");
        }
        for bad in [
            31121599,
            0,
            1002015,
            1132015,
            12015,
            32012015,
            31042015,
            101012015,
            u64::MAX,
            (1 << 32) + 1012015,
        ] {
            assert!(Day::from_written(bad).is_none(), "{bad}");
        }
        assert_eq!(span(28022015, 1032015), 2);
        assert_eq!(span(28022016, 1032016), 3);
        assert_eq!(span(31121999, 1012000), 2);
        assert_eq!(span(28022000, 1032000), 3);
        assert_eq!(span(28022100, 1032100), 2);
    }

    #[test]
    fn p5_times() {
        let minutes = |field: &[u8]| clock(field).map(|time| time.minutes().0);
        assert_eq!(minutes(b"0000"), Ok(0));
        assert_eq!(minutes(b"2500"), Ok(1500));
        assert_eq!(minutes(b"9959"), Ok(5999));
        assert_eq!(minutes(b"9960"), Err(Fault::Value));
        assert_eq!(minutes(b"0060"), Err(Fault::Value));
        assert_eq!(minutes(b"9999"), Err(Fault::Value));
        assert_eq!(clock_or_none(b"9999"), Ok(None));
        assert_eq!(clock_or_none(b"9960"), Err(Fault::Value));
        assert_eq!(clock_or_none(b" 999"), Err(Fault::Value));
    }

    #[test]
    fn wildcards_fill_the_field() {
        assert!(is_wildcard(b"*   "));
        assert!(is_wildcard(b"*  "));
        for field in [&b" *  "[..], b"**  ", b"*  x", b"    ", b"IC  "] {
            assert!(!is_wildcard(field));
        }
    }
}
