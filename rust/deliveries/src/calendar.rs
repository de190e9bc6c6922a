//! Days as numbers, counted from 1 January 1600.

/// The last day of the year 9999, after 21 times 400 years.
pub const LAST: i64 = 21 * DAYS_IN_400_YEARS - 1;

const DAYS_IN_400_YEARS: i64 = 146_097;

/// The days from 1 March 1600 to the first of each month, from March on.
const MARCH_ON: [i64; 12] = [0, 31, 61, 92, 122, 153, 184, 214, 245, 275, 306, 337];

/// January and February of 1600, a leap year.
const BEFORE_MARCH: i64 = 60;

/// The number DDMMYYYY of a day. Years are taken to begin in March, so that
/// the leap day is the last of its year.
pub fn written(day: i64) -> u64 {
    let from_march = day - BEFORE_MARCH + DAYS_IN_400_YEARS;
    let (cycles, in_cycle) = (from_march / DAYS_IN_400_YEARS, from_march % DAYS_IN_400_YEARS);
    let centuries = (in_cycle / 36_524).min(3);
    let in_century = in_cycle - centuries * 36_524;
    let (fours, in_four) = (in_century / 1_461, in_century % 1_461);
    let years = (in_four / 365).min(3);
    let in_year = in_four - years * 365;
    let month = MARCH_ON.iter().rposition(|&start| start <= in_year).expect("March begins at 0");
    let day = in_year - MARCH_ON[month] + 1;
    let (month, later_year) = if month < 10 { (month + 3, 0) } else { (month - 9, 1) };
    let year = 1200 + cycles * 400 + centuries * 100 + fours * 4 + years + later_year;
    day as u64 * 1_000_000 + month as u64 * 10_000 + year as u64
}

/// The day with this number DDMMYYYY, which must be that of a day.
pub fn counted(date: u64) -> i64 {
    let in_order = |date: u64| (date % 10_000, date / 10_000 % 100, date / 1_000_000);
    let (mut first, mut last) = (0, LAST);
    while first < last {
        let middle = (first + last) / 2;
        match in_order(written(middle)) < in_order(date) {
            true => first = middle + 1,
            false => last = middle,
        }
    }
    first
}

#[cfg(test)]
mod tests {
    use super::*;

    #[test]
    fn known_days() {
        let known = [
            (0, 1011600),
            (59, 29021600),
            (60, 1031600),
            (365, 31121600),
            (366, 1011601),
            (146_096, 31121999),
            (146_097, 1012000),
            (146_097 + 59, 29022000),
            (LAST, 31129999),
        ];
        for (day, date) in known {
            assert_eq!(written(day), date);
            assert_eq!(counted(date), day);
        }
    }

    #[test]
    fn both_programs_count_alike() {
        let mut before = second::Day::from_written(written(0)).unwrap();
        for day in 1..=LAST {
            let next = second::Day::from_written(written(day)).expect("a day");
            assert_eq!(next.days_after(before), 1);
            before = next;
        }
    }
}
