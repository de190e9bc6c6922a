//! Days as numbers.

/// The days before each month of a year that is no leap year.
const BEFORE_MONTH: [u64; 13] = [0, 31, 59, 90, 120, 151, 181, 212, 243, 273, 304, 334, 365];

/// The number of a day, counted from the first of the year 1, by its date DDMMYYYY;
/// none if there is no such day in the years 1600 to 9999.
pub fn day_number(date: u64) -> Option<i64> {
    let (day, month, year) = (date / 1_000_000, date / 10_000 % 100, date % 10_000);
    if year < 1600 || !(1..=12).contains(&month) {
        return None;
    }
    let leap = year.is_multiple_of(4) && (!year.is_multiple_of(100) || year.is_multiple_of(400));
    let month = month as usize;
    let in_month = BEFORE_MONTH[month] - BEFORE_MONTH[month - 1] + u64::from(leap && month == 2);
    if !(1..=in_month).contains(&day) {
        return None;
    }
    let years = year - 1;
    let before_year = years * 365 + years / 4 - years / 100 + years / 400;
    let before_month = BEFORE_MONTH[month - 1] + u64::from(leap && month > 2);
    Some((before_year + before_month + day - 1) as i64)
}
