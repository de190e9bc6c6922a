//! More services than marks and an index tell apart one by one: in no order, and
//! with some that come twice.

use std::io;

use compare::{by_second, lengths_of, with_spare_words, Tables};
use deliveries::place::TIMETBLS;
use deliveries::{crowded, Case, Rng};

use crate::comparison::Comparison;

/// So many that some share all their marks with others.
const SERVICES: usize = 200_000;
/// A service's line is `#` and so many digits.
const DIGITS: usize = 8;
/// Words of a row of TIMETBLS, and the tag and place of a service in its own.
const WIDTH: usize = 7;
const TAG: u64 = b'#' as u64;
const SERVICE: usize = 1;

/// A delivery and where the blocks of its TIMETBLS begin.
#[derive(Clone)]
struct Crowd {
    case: Case,
    heads: Vec<usize>,
}

impl Crowd {
    fn new() -> Crowd {
        let (_, case) = crowded(1, SERVICES);
        let text = &case.files[TIMETBLS];
        let starts = |at: &usize| text[*at] == b'#' && text[*at - 1] == b'\n';
        let heads = (1..text.len()).filter(starts).collect();
        Crowd { case, heads }
    }

    /// The block of an ordinal names the service of another.
    fn repeat(&mut self, ordinal: usize, of: usize) {
        let (to, from) = (self.heads[ordinal - 1] + 1, self.heads[of - 1] + 1);
        self.case.files[TIMETBLS].copy_within(from..from + DIGITS, to);
    }

    /// The second line of the block of an ordinal begins with no known letter.
    fn spoil(&mut self, ordinal: usize) {
        let second = self.heads[ordinal - 1] + 1 + DIGITS + 2;
        self.case.files[TIMETBLS][second] = b'!';
    }
}

/// Loads, each with the number, ordinal and line that document 01 asks for; and
/// soundness of the tables. Answers what is wrong.
pub fn compare_all(comparison: &mut Comparison) -> io::Result<Vec<String>> {
    if proved::EMULATED {
        return Ok(Vec::new());
    }
    let made = Crowd::new();
    let all = made.heads.len();
    let (early, middle, late) = (all / 3, all / 2, all - 1);
    let loads = [
        ("as-made", vec![], None, [0, 0, 0]),
        ("one-twice", vec![(late, early)], None, [8, late, 1]),
        ("two-twice", vec![(late, early), (middle, 1)], None, [8, middle, 1]),
        ("one-three-times", vec![(late, early), (middle, early)], None, [8, middle, 1]),
        ("fault-before", vec![(late, early)], Some(middle), [4, middle, 2]),
        ("fault-behind", vec![(middle, early)], Some(late), [8, middle, 1]),
        ("fault-within", vec![(late, early)], Some(late), [8, late, 1]),
    ];
    let mut complaints = Vec::new();
    for (name, repeated, spoiled, expected) in loads {
        let mut crowd = made.clone();
        repeated.into_iter().for_each(|(ordinal, of)| crowd.repeat(ordinal, of));
        spoiled.into_iter().for_each(|ordinal| crowd.spoil(ordinal));
        let lengths = with_spare_words(&mut Rng::new(1), lengths_of(&crowd.case.rooms));
        let name = format!("crowded-{name}");
        let answer = comparison.compare(&name, crowd.case.texts(), lengths)?;
        let told = [answer.number, answer.ordinal, answer.line].map(|word| word as usize);
        if told != expected {
            complaints.push(format!("{name} is {told:?}, not {expected:?}."));
        }
    }
    complaints.extend(compare_tables(comparison, &made)?);
    Ok(complaints)
}

/// Tables as loaded, and with the service of one block put into another's row.
fn compare_tables(comparison: &mut Comparison, Crowd { case, .. }: &Crowd) -> io::Result<Vec<String>> {
    let mut tables: Tables = by_second(case.texts(), &lengths_of(&case.rooms)).tables;
    let mut complaints = Vec::new();
    if comparison.compare_soundness("crowded-tables", &tables)?.is_err() {
        complaints.push("crowded-tables are not sound.".into());
    }
    let timetbls = &mut tables[TIMETBLS];
    let heads: Vec<usize> = (0..timetbls.len() / WIDTH).filter(|row| timetbls[row * WIDTH] == TAG).collect();
    let (one, other) = (heads[heads.len() / 3], heads[heads.len() - 2]);
    timetbls[other * WIDTH + SERVICE] = timetbls[one * WIDTH + SERVICE];
    if comparison.compare_soundness("crowded-tables-one-twice", &tables)?.is_ok() {
        complaints.push("crowded-tables-one-twice are sound.".into());
    }
    Ok(complaints)
}
