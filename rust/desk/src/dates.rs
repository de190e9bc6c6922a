//! Days and times as people write and read them. What a day is, the proved
//! functions decide; here forms are taken apart and put together.

const MONTHS: [&str; 12] = [
    "January",
    "February",
    "March",
    "April",
    "May",
    "June",
    "July",
    "August",
    "September",
    "October",
    "November",
    "December",
];

/// The days of the week from 1 January 1600, a Saturday, on.
const WEEKDAYS: [&str; 7] = ["Sat", "Sun", "Mon", "Tue", "Wed", "Thu", "Fri"];

pub const MINUTES_IN_DAY: i64 = 1440;

/// The number DDMMYYYY of a date as 05122015, 2015-12-05 or `5 Dec 2015`.
pub fn parse(text: &str) -> Result<u64, String> {
    let text = text.trim();
    number_of_any_size(text)
        .or_else(|| iso(text))
        .or_else(|| worded(text))
        .ok_or_else(|| format!("`{text}` is no date. Write it as 05122015, 2015-12-05 or \"5 Dec 2015\"."))
}

/// A number of any size. One beyond 64 bits names nothing, like the largest.
pub fn number_of_any_size(text: &str) -> Option<u64> {
    let digits = !text.is_empty() && text.bytes().all(|byte| byte.is_ascii_digit());
    digits.then(|| text.parse().unwrap_or(u64::MAX))
}

fn iso(text: &str) -> Option<u64> {
    let parts: Vec<&str> = text.split('-').collect();
    let [year, month, day] = parts[..] else { return None };
    let sizes = (year.len(), month.len(), day.len());
    let small = |part: &str| number_of_any_size(part);
    matches!(sizes, (4, 1..=2, 1..=2)).then(|| written(small(day)?, small(month)?, small(year)?)).flatten()
}

fn worded(text: &str) -> Option<u64> {
    let parts: Vec<&str> = text.split([' ', '-', '.']).filter(|part| !part.is_empty()).collect();
    let [day, month, year] = parts[..] else { return None };
    if day.len() > 2 || year.len() != 4 {
        return None;
    }
    let month = month_of(month)?;
    written(number_of_any_size(day)?, month, number_of_any_size(year)?)
}

fn month_of(name: &str) -> Option<u64> {
    let name = name.to_ascii_lowercase();
    let fits = |month: &str| name.len() >= 3 && month.to_ascii_lowercase().starts_with(&name);
    MONTHS.iter().position(|month| fits(month)).map(|place| place as u64 + 1)
}

fn written(day: u64, month: u64, year: u64) -> Option<u64> {
    Some(day * 1_000_000 + month * 10_000 + year)
}

/// Minutes from 00:00 of a time of day as 07:30, 7:30 or 0730.
pub fn time_of_day(text: &str) -> Result<i64, String> {
    let parts = match text.split_once(':') {
        Some((hours, minutes)) if hours.len() <= 2 && minutes.len() == 2 => Some((hours, minutes)),
        None if text.len() == 4 => text.split_at_checked(2),
        _ => None,
    };
    parts
        .and_then(|(hours, minutes)| Some((number_of_any_size(hours)?, number_of_any_size(minutes)?)))
        .filter(|&(hours, minutes)| hours < 24 && minutes < 60)
        .map(|(hours, minutes)| (hours * 60 + minutes) as i64)
        .ok_or_else(|| format!("`{text}` is no time of day. Write it as 07:30, from 00:00 to 23:59."))
}

/// A date as `5 Dec 2015`; a number that is none as it is.
pub fn date(number: u64) -> String {
    let (day, month, year) = (number / 1_000_000, number / 10_000 % 100, number % 10_000);
    match MONTHS.get((month as usize).wrapping_sub(1)) {
        Some(name) if (1..=31).contains(&day) => format!("{day} {} {year}", &name[..3]),
        _ => format!("{number:08}"),
    }
}

/// A date as `2015-12-05`.
pub fn iso_date(number: u64) -> String {
    format!("{:04}-{:02}-{:02}", number % 10_000, number / 10_000 % 100, number / 1_000_000)
}

/// How many days a date is after 1 January 1600, to say what lies before what.
pub fn count(number: u64) -> Option<i64> {
    let (day, month, year) =
        ((number / 1_000_000) as i64, (number / 10_000 % 100) as i64, (number % 10_000) as i64);
    let leap = year % 4 == 0 && (year % 100 != 0 || year % 400 == 0);
    let length = match month {
        4 | 6 | 9 | 11 => 30,
        2 if leap => 29,
        2 => 28,
        1..=12 => 31,
        _ => return None,
    };
    if year < 1600 || number > 99_999_999 || !(1..=length).contains(&day) {
        return None;
    }
    // Days of the months before, as if March began the year.
    let (year, month) = if month > 2 { (year, month - 3) } else { (year - 1, month + 9) };
    let days = |year: i64| 365 * year + year / 4 - year / 100 + year / 400;
    Some(days(year) - days(1599) + (153 * month + 2) / 5 + day - 1 - 306)
}

/// The number DDMMYYYY of a day, counted from 1 January 1600; none before that
/// day or after the year 9999.
pub fn number_of(day: i64) -> Option<u64> {
    // Years as if March began them, so that a leap day is the last of its year.
    let from_march = day - 60;
    let (cycle, in_cycle) = (from_march.div_euclid(146_097), from_march.rem_euclid(146_097));
    let year_of_cycle = (in_cycle - in_cycle / 1_460 + in_cycle / 36_524 - in_cycle / 146_096) / 365;
    let in_year = in_cycle - (365 * year_of_cycle + year_of_cycle / 4 - year_of_cycle / 100);
    let month = (5 * in_year + 2) / 153;
    let day_of_month = in_year - (153 * month + 2) / 5 + 1;
    let (month, next_year) = if month < 10 { (month + 3, 0) } else { (month - 9, 1) };
    let year = 1600 + 400 * cycle + year_of_cycle + next_year;
    (1600..=9999).contains(&year).then_some((day_of_month * 1_000_000 + month * 10_000 + year) as u64)
}

/// A date with its day of the week, `Sat 5 Dec 2015`; a number that is none as it is.
pub fn weekday(number: u64) -> String {
    match count(number) {
        Some(day) => format!("{} {}", WEEKDAYS[day.rem_euclid(7) as usize], date(number)),
        None => date(number),
    }
}

/// The date on which minutes from 0000 of a service day fall; none where that day
/// has none, after 31 December 9999.
pub fn date_of(minutes: i64, service_day: u64) -> Option<u64> {
    number_of(count(service_day)? + minutes.div_euclid(MINUTES_IN_DAY))
}

/// The same in words, `Tue 15 Dec 2015`; where it has no date, `the day after 31 Dec 9999`.
pub fn day_of(minutes: i64, service_day: u64) -> String {
    match date_of(minutes, service_day) {
        Some(day) => weekday(day),
        None => format!("{} {}", apart(minutes.div_euclid(MINUTES_IN_DAY)), date(service_day)),
    }
}

/// What the clock shows: `01:10`.
pub fn face(minutes: i64) -> String {
    let minute = minutes.rem_euclid(MINUTES_IN_DAY);
    format!("{:02}:{:02}", minute / 60, minute % 60)
}

/// Minutes from 0000 of the service day in hours and minutes, as TIMETBLS has
/// them: `25:10`.
pub fn hours(minutes: i64) -> String {
    format!("{:02}:{:02}", minutes / 60, minutes % 60)
}

/// Minutes from 0000 of a service day that is not known as a time: `23:50`,
/// `01:10 the day after (25:10)`.
pub fn time(minutes: i64) -> String {
    match minutes.div_euclid(MINUTES_IN_DAY) {
        0 => face(minutes),
        days => format!("{} {} ({})", face(minutes), apart(days), hours(minutes)),
    }
}

/// Minutes from 0000 of a service day as a time and its own day: `01:10 on Tue 15 Dec 2015`.
pub fn on_day(minutes: i64, service_day: u64) -> String {
    let on = if date_of(minutes, service_day).is_some() { " on" } else { "" };
    format!("{}{on} {}", face(minutes), day_of(minutes, service_day))
}

/// The same, and where that is not the service day, how it stands in TIMETBLS:
/// `01:10 on Tue 15 Dec 2015 (25:10 of service day 14 Dec 2015)`.
pub fn time_on(minutes: i64, service_day: u64) -> String {
    match minutes.div_euclid(MINUTES_IN_DAY) {
        0 => on_day(minutes, service_day),
        _ => format!(
            "{} ({} of service day {})",
            on_day(minutes, service_day),
            hours(minutes),
            date(service_day)
        ),
    }
}

/// The same for a column of such times: `01:10 on Tue 15 Dec 2015 (25:10)`.
pub fn brief_time_on(minutes: i64, service_day: u64) -> String {
    match minutes.div_euclid(MINUTES_IN_DAY) {
        0 => on_day(minutes, service_day),
        _ => format!("{} ({})", on_day(minutes, service_day), hours(minutes)),
    }
}

/// The reference clock's time beside a local one: with its day where that is
/// another.
pub fn beside(local: i64, reference: i64, service_day: u64) -> String {
    match local.div_euclid(MINUTES_IN_DAY) == reference.div_euclid(MINUTES_IN_DAY) {
        true => face(reference),
        false => on_day(reference, service_day),
    }
}

/// The minutes from one time to another as the clocks show them, each with its
/// service day.
pub fn between(from: (i64, u64), to: (i64, u64)) -> Option<i64> {
    let shown = |(minutes, day): (i64, u64)| Some(count(day)? * MINUTES_IN_DAY + minutes);
    Some(shown(to)? - shown(from)?)
}

/// A time as it is written, HHMM.
pub fn clock(written: u64) -> i64 {
    (written / 100 * 60 + written % 100) as i64
}

fn apart(days: i64) -> String {
    match days {
        0 => "the day itself".into(),
        1 => "the day after".into(),
        -1 => "the day before".into(),
        2.. => format!("{days} days after"),
        _ => format!("{} days before", -days),
    }
}

/// Minutes as a length: `130 minutes (2 h 10)`.
pub fn length(minutes: i64) -> String {
    let unit = if minutes.abs() == 1 { "minute" } else { "minutes" };
    match minutes.abs() {
        0..60 => format!("{minutes} {unit}"),
        size => format!(
            "{minutes} {unit} ({}{} h {:02})",
            if minutes < 0 { "-" } else { "" },
            size / 60,
            size % 60
        ),
    }
}

#[cfg(test)]
mod tests {
    use super::*;

    #[test]
    fn dates_in_three_forms() {
        let forms = [
            "05122015",
            "5122015",
            "2015-12-05",
            "2015-12-5",
            "5 Dec 2015",
            "05 december 2015",
            "5-Dec-2015",
        ];
        for form in forms {
            assert_eq!(parse(form), Ok(5_122_015), "{form}");
        }
        for form in
            ["", "5 Xyz 2015", "5 De 2015", "05-12-2015", "2015/12/05", "-1", "5 Dec", "tomorrow", "5 Dec 15"]
        {
            assert!(parse(form).is_err(), "{form}");
        }
        assert_eq!(parse("99999999999999999999999"), Ok(u64::MAX));
        assert_eq!(date(5_122_015), "5 Dec 2015");
        assert_eq!(date(99_999_999), "99999999");
    }

    #[test]
    fn times_of_a_day() {
        for (form, minutes) in [("07:30", 450), ("7:30", 450), ("0730", 450), ("00:00", 0), ("23:59", 1439)] {
            assert_eq!(time_of_day(form), Ok(minutes), "{form}");
        }
        for form in
            ["24:00", "2400", "07:60", "7:5", "730", "007:30", ":30", "07:", "", "-1:00", "é30", "noon"]
        {
            let why = time_of_day(form).unwrap_err();
            assert_eq!(why, format!("`{form}` is no time of day. Write it as 07:30, from 00:00 to 23:59."));
        }
        assert_eq!(iso_date(5_122_015), "2015-12-05");
    }

    #[test]
    fn times_and_lengths() {
        assert_eq!(time(1430), "23:50");
        assert_eq!(time(1510), "01:10 the day after (25:10)");
        assert_eq!(time(3000), "02:00 2 days after (50:00)");
        assert_eq!(time(5999), "03:59 4 days after (99:59)");
        assert_eq!(length(59), "59 minutes");
        assert_eq!(length(130), "130 minutes (2 h 10)");
        assert_eq!(length(-90), "-90 minutes (-1 h 30)");
    }

    /// The clocks change on 29 March 2015, a Sunday.
    #[test]
    fn times_have_days_of_their_own() {
        assert_eq!(time_on(1320, 28_032_015), "22:00 on Sat 28 Mar 2015");
        assert_eq!(time_on(1439, 28_032_015), "23:59 on Sat 28 Mar 2015");
        assert_eq!(time_on(1440, 28_032_015), "00:00 on Sun 29 Mar 2015 (24:00 of service day 28 Mar 2015)");
        assert_eq!(time_on(1860, 28_032_015), "07:00 on Sun 29 Mar 2015 (31:00 of service day 28 Mar 2015)");
        assert_eq!(time_on(5999, 28_032_015), "03:59 on Wed 1 Apr 2015 (99:59 of service day 28 Mar 2015)");
        assert_eq!(date_of(1860, 28_032_015), Some(29_032_015));
        assert_eq!(date_of(0, 28_032_015), Some(28_032_015));
        assert_eq!(beside(1860, 1740, 28_032_015), "05:00");
        assert_eq!(beside(30, -30, 28_032_015), "23:30 on Fri 27 Mar 2015");
        assert_eq!(beside(1430, 1490, 28_032_015), "00:50 on Sun 29 Mar 2015");
    }

    #[test]
    fn days_without_a_date_are_told_from_the_last() {
        let (first, last) = (1_011_600, 31_129_999);
        assert_eq!(weekday(last), "Fri 31 Dec 9999");
        assert_eq!(date_of(1439, last), Some(last));
        assert_eq!(date_of(1440, last), None);
        assert_eq!(day_of(1860, last), "the day after 31 Dec 9999");
        assert_eq!(time_on(1860, last), "07:00 the day after 31 Dec 9999 (31:00 of service day 31 Dec 9999)");
        assert_eq!(time_on(5999, last), "03:59 4 days after 31 Dec 9999 (99:59 of service day 31 Dec 9999)");
        assert_eq!(on_day(-30, first), "23:30 the day before 1 Jan 1600");
    }

    #[test]
    fn days_are_counted_and_told_again() {
        for day in 0..=count(31_129_999).unwrap() {
            assert_eq!(number_of(day).and_then(count), Some(day));
        }
        assert_eq!([number_of(-1), number_of(count(31_129_999).unwrap() + 1)], [None, None]);
    }

    #[test]
    fn days_are_counted() {
        let span = |first, last| count(last).unwrap() - count(first).unwrap() + 1;
        assert_eq!(span(13_122_015, 10_122_016), 364);
        assert_eq!(span(28_091_997, 23_051_998), 238);
        assert_eq!(span(1_012_015, 10_032_017), 800);
        assert_eq!(span(28_022_016, 1_032_016), 3);
        assert_eq!(count(1_011_600), Some(0));
        for none in [29_021_900, 31_042_015, 0, 32_012_015, 1_011_599, 1_132_015, 101_012_015] {
            assert_eq!(count(none), None, "{none}");
        }
    }
}
