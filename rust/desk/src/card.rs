//! The desk's card, and why one exception of XCHANGES counts before the others.
//!
//! The needed time is the proved answer's; places on the card are the proved
//! `rank`'s. What is found here is shown only where it comes to that needed time.

use std::cmp::Reverse;
use std::collections::HashMap;

use proved::{Change, Keys, Side, Source};

use crate::answers::{self, Changed};
use crate::dates;
use crate::explain::questions::code;
use crate::files::latin;
use crate::files::place::*;
use crate::records::{pack, unpack};
use crate::tables::{has, Group, Service, Tables};
use crate::trouble::Trouble;

/// `*` and blanks, packed, as docs/TABLES.md has them.
const ANY_COMPANY: u64 = 0x2a_20_20;
const ANY_MODE: u64 = 0x2a_20_20_20;

/// The keys of an exception, as they are called.
const NAMES: [&str; 4] = ["the from company", "the from mode", "the to company", "the to mode"];

pub const RULE: &str = "Of the exceptions that apply to a change, the one with the highest place counts, \
                        whatever the times; with the same place, the one with the larger time.";

/// Which of from company, from mode, to company and to mode are named.
#[derive(Clone, Copy, Debug, PartialEq, Eq)]
pub struct Pattern(pub [bool; 4]);

impl Pattern {
    fn of(keys: &Keys) -> Pattern {
        Pattern([
            keys.from_company != ANY_COMPANY,
            keys.from_mode != ANY_MODE,
            keys.to_company != ANY_COMPANY,
            keys.to_mode != ANY_MODE,
        ])
    }

    /// Keys of this pattern; what they name does not matter to their place.
    fn keys(self) -> Keys {
        let Pattern([from_company, from_mode, to_company, to_mode]) = self;
        let company = |named: bool| if named { 1 } else { ANY_COMPANY };
        let mode = |named: bool| if named { pack(b"A   ") } else { ANY_MODE };
        Keys {
            from_company: company(from_company),
            from_mode: mode(from_mode),
            to_company: company(to_company),
            to_mode: mode(to_mode),
        }
    }

    /// `c` and `m` for what is named, `*` for what is not.
    pub fn letters(self) -> String {
        self.0.iter().zip("cmcm".chars()).map(|(&named, letter)| if named { letter } else { '*' }).collect()
    }

    /// `names the from company and the to mode`.
    fn meaning(self) -> String {
        let named = NAMES.iter().zip(self.0).filter(|(_, named)| *named).map(|(name, _)| name.to_string());
        match listed(&named.collect::<Vec<_>>()) {
            names if names.is_empty() => "names nothing".into(),
            names => format!("names {names}"),
        }
    }
}

/// `a`, `a and b`, `a, b and c`.
fn listed(parts: &[String]) -> String {
    match parts {
        [] => String::new(),
        [only] => only.clone(),
        [before @ .., last] => format!("{} and {last}", before.join(", ")),
    }
}

/// The sixteen patterns by their places.
pub fn card() -> Result<Vec<(u64, Pattern)>, Trouble> {
    let all = (0..proved::PATTERNS).map(|bits| Pattern([8, 4, 2, 1].map(|bit| bits & bit != 0)));
    let mut card: Vec<(u64, Pattern)> = all.map(|pattern| (proved::rank(pattern.keys()), pattern)).collect();
    card.sort_by_key(|(place, _)| *place);
    match card.iter().map(|(place, _)| *place).eq(0..proved::PATTERNS) {
        true => Ok(card),
        false => {
            Err(Trouble::new("Two patterns have one place on the card: the program is not as it was proved."))
        }
    }
}

pub fn card_text(card: &[(u64, Pattern)]) -> String {
    let mut text = "The desk's card: which exception of XCHANGES counts before which\n".to_string();
    text += "A pattern tells from company, from mode, to company, to mode: c and m are named, * is any.\n\
             From is the service that one leaves, on the leg before the change; to is the one boarded, \
             on the leg after it.\n\n";
    for (place, pattern) in card {
        text += &format!("{place:>2}  {}  {}\n", pattern.letters(), pattern.meaning());
    }
    text + &format!("\n{RULE}\n")
}

pub fn card_answer(card: &[(u64, Pattern)]) -> answers::Card {
    let entry = |(place, pattern): &(u64, Pattern)| {
        let [from_company, from_mode, to_company, to_mode] = pattern.0;
        answers::CardEntry {
            place: *place,
            pattern: pattern.letters(),
            from_company,
            from_mode,
            to_company,
            to_mode,
            meaning: pattern.meaning(),
        }
    };
    answers::Card { card: card.iter().map(entry).collect(), rule: RULE }
}

/// An exception that applies to a change.
#[derive(Clone, Debug, PartialEq, Eq)]
pub struct Exception {
    /// Its line in XCHANGES.
    line: u64,
    keys: Keys,
    time: u64,
    footnote: u64,
    /// Its place on the card.
    place: u64,
}

impl Exception {
    /// The four keys as the supplier wrote them.
    fn written(&self) -> [String; 4] {
        let company = |key: u64| match key {
            ANY_COMPANY => "*  ".to_string(),
            number => format!("{number:03}"),
        };
        let mode = |key: u64| latin(&unpack(key, 4));
        let Keys { from_company, from_mode, to_company, to_mode } = self.keys;
        [company(from_company), mode(from_mode), company(to_company), mode(to_mode)]
    }
}

/// The exceptions of a store, by station, and the days on which they hold.
pub struct Exceptions<'t> {
    groups: HashMap<u64, Group<'t>>,
    vectors: HashMap<u64, &'t [u64]>,
    /// The first day of validity.
    first: Option<i64>,
}

impl<'t> Exceptions<'t> {
    pub fn of(tables: &'t Tables) -> Exceptions<'t> {
        Exceptions {
            groups: tables.groups(XCHANGES).map(|group| (group.key, group)).collect(),
            vectors: tables.vectors(XFOOTNOTE),
            first: dates::count(tables.validity().first),
        }
    }

    /// Those that apply to a change between two services, in the order of the file;
    /// none where the tables do not show what was asked.
    pub fn between(
        &self,
        [left, boarded]: [Option<Service>; 2],
        from: Side,
        to: Side,
    ) -> Option<Vec<Exception>> {
        let (left, boarded) = (left?, boarded?);
        // A comes along the leg before its stop, B goes on along the leg after it.
        let (from_leg, to_leg) = (from.stop.checked_sub(1)?, to.stop);
        let ridden = Keys {
            from_company: left.on_leg(b'%', from_leg)?[1],
            from_mode: left.on_leg(b'&', from_leg)?[1],
            to_company: boarded.on_leg(b'%', to_leg)?[1],
            to_mode: boarded.on_leg(b'&', to_leg)?[1],
        };
        self.applied(left.stop(from.stop)?.station, &ridden, from.date)
    }

    /// Those of a station that fit what is ridden, on the date of the service that
    /// one leaves; none where that is no date of validity.
    pub fn applied(&self, station: u64, ridden: &Keys, date: u64) -> Option<Vec<Exception>> {
        let day = usize::try_from(dates::count(date)? - self.first?).ok()?;
        let is_marked = |footnote: u64| self.vectors.get(&footnote).is_some_and(|vector| has(vector, day));
        let rows = self.groups.get(&station).into_iter().flat_map(|group| group.rows());
        let applied = rows.filter_map(|(row, line)| {
            let keys = Keys { from_company: row[1], from_mode: row[2], to_company: row[3], to_mode: row[4] };
            let exception =
                || Exception { line, keys, time: row[5], footnote: row[6], place: proved::rank(keys) };
            (fits(&keys, ridden) && is_marked(row[6])).then(exception)
        });
        Some(applied.collect())
    }
}

fn fits(keys: &Keys, ridden: &Keys) -> bool {
    let company = |key: u64, ridden: u64| key == ANY_COMPANY || key == ridden;
    let mode = |key: u64, ridden: u64| key == ANY_MODE || key == ridden;
    company(keys.from_company, ridden.from_company)
        && mode(keys.from_mode, ridden.from_mode)
        && company(keys.to_company, ridden.to_company)
        && mode(keys.to_mode, ridden.to_mode)
}

/// Why an exception counts before the others.
#[derive(Clone, Copy, Debug, PartialEq, Eq)]
pub enum Because {
    Only,
    HigherPlace,
    LargerTime,
    /// All others of its place have its time.
    SameTime,
    /// What was found does not come to the needed time: nothing is made of it.
    Unexplained,
}

/// The exceptions that apply, the one that counts first, and why it counts; none
/// where that is not explained.
#[derive(Clone, Debug, PartialEq, Eq)]
pub struct Reasoned {
    exceptions: Vec<Exception>,
    because: Because,
}

/// Why the needed time of a change is what it is, where it is that of an exception.
pub fn reasoned(change: &Change, applied: impl FnOnce() -> Option<Vec<Exception>>) -> Option<Reasoned> {
    let needed = change.needed.filter(|_| change.source == Some(Source::XChanges))?;
    let mut exceptions = applied().unwrap_or_default();
    exceptions.sort_by_key(|exception| (Reverse(exception.place), Reverse(exception.time), exception.line));
    let Some(best) = exceptions.first().filter(|best| best.time == needed) else {
        return Some(Reasoned { exceptions: Vec::new(), because: Because::Unexplained });
    };
    let because = match exceptions.iter().rfind(|other| other.place == best.place) {
        _ if exceptions.len() == 1 => Because::Only,
        Some(last) if last.line == best.line => Because::HigherPlace,
        Some(last) if last.time == best.time => Because::SameTime,
        _ => Because::LargerTime,
    };
    Some(Reasoned { exceptions, because })
}

impl Reasoned {
    /// The line of the exception that counts.
    pub fn line(&self) -> Option<u64> {
        self.exceptions.first().map(|best| best.line)
    }

    /// What is said beside a needed time of XCHANGES.
    pub fn text(&self, station: u64) -> String {
        let mut text = format!("  card    {}\n", self.sentence(station));
        let last = self.exceptions.iter().map(|exception| exception.line).max().unwrap_or(0);
        let width = last.to_string().len();
        for (at, exception) in self.exceptions.iter().enumerate() {
            // The row as the supplier wrote it, from the keys on.
            text += &format!(
                "          line {:>width$}  {},{:03},{:05}  place {:>2} ({})  {}{}\n",
                exception.line,
                exception.written().join(","),
                exception.time,
                exception.footnote,
                exception.place,
                Pattern::of(&exception.keys).letters(),
                dates::length(exception.time as i64),
                if at == 0 { ", which counts" } else { "" }
            );
        }
        text
    }

    fn sentence(&self, station: u64) -> String {
        let place = self.exceptions.first().map_or(0, |best| best.place);
        let beside = self.exceptions.iter().filter(|other| other.place == place);
        let mut lines: Vec<u64> = beside.map(|other| other.line).collect();
        lines.sort();
        let lines = listed(&lines.iter().map(u64::to_string).collect::<Vec<_>>());
        let mut lower: Vec<u64> =
            self.exceptions.iter().map(|other| other.place).filter(|&other| other != place).collect();
        lower.dedup();
        let highest = if lower.is_empty() { "" } else { ", the highest" };
        match self.because {
            Because::Only => "only one exception applies:".into(),
            Because::HigherPlace => {
                let places = if lower.len() == 1 { "place" } else { "places" };
                let lower = listed(&lower.iter().map(u64::to_string).collect::<Vec<_>>());
                format!("place {place} counts before {places} {lower}, whatever the times:")
            }
            Because::LargerTime => {
                format!("lines {lines} have the same place {place}{highest}, and the larger time counts:")
            }
            Because::SameTime => {
                format!("lines {lines} have the same place {place}{highest}, and the same time:")
            }
            Because::Unexplained => format!(
                "cannot be told: the exceptions that the program finds for {} do not come to the needed \
                 time. The answer stands; tell whoever keeps the program.",
                code(station)
            ),
        }
    }
}

/// The answer for programs, with the reason where the needed time is that of XCHANGES.
pub fn changed(change: &Change, reasoned: Option<&Reasoned>) -> Changed {
    let Some(Reasoned { exceptions, because }) = reasoned else { return Changed::of(change) };
    let told = exceptions.iter().enumerate().map(|(at, exception)| {
        let [from_company, from_mode, to_company, to_mode] = exception.written();
        answers::Exception {
            line: exception.line,
            from_company,
            from_mode,
            to_company,
            to_mode,
            time: exception.time,
            footnote: exception.footnote,
            pattern: Pattern::of(&exception.keys).letters(),
            place: exception.place,
            counts: at == 0,
        }
    });
    let word = match because {
        Because::Only => "only",
        Because::HigherPlace => "higher-place",
        Because::LargerTime => "larger-time",
        Because::SameTime => "same-time",
        Because::Unexplained => "unexplained",
    };
    let exceptions = (*because != Because::Unexplained).then(|| told.collect());
    Changed { exceptions, because: Some(word), ..Changed::of(change) }
}

#[cfg(test)]
mod tests {
    use super::*;
    use crate::files::FILES;
    use crate::loading::{load_texts, rooms_with, Spare};

    const HEAD: &str = "@100,01012015,03012015,0001,Of exceptions                 \n";

    /// A train of company 100, mode IC, arrives at the pier; a ship of company 200
    /// leaves it. XCHANGES begins with a station of its own, so that rows under the
    /// pier stand from line 5 on.
    fn tables(exceptions: &str) -> Tables {
        let company = |number: u64| format!("{number},{number:<10},{number:<30},0400\n");
        let block = |number: u64, company: u64, mode: &str, stops: &str| {
            let operator = format!("%{company},00001,       ,000,999,{:30}", "");
            format!("#{number:08}\n{operator}\n-00000,000,999\n&{mode},000,999\n{stops}")
        };
        let station = |name: &str| format!("1,{name},05,00,NL  ,0001,00,000000,000000,{name:30}\n");
        let rows: [String; FILES] = [
            String::new(),
            company(100) + &company(200),
            format!("NL  ,1,{:30}\n", "Nederland"),
            format!("IC  ,{:30}\nSHIP,{:30}\n", "Intercity", "Ferry"),
            "#0001\n+01,01012015,31122015\n".into(),
            station("home   ") + &station("pier   "),
            "#00000\n111\n".into(),
            block(1, 100, "IC  ", ">home   ,0900\n<pier   ,1000\n")
                + &block(2, 200, "SHIP", ">pier   ,2700\n<home   ,2800\n"),
            String::new(),
            "#00001\n111\n#00002\n110\n".into(),
            format!("#home   \n-*  ,*   ,*  ,*   ,077,00001\n#pier   \n{exceptions}"),
        ];
        let texts = rows.map(|rows| (HEAD.to_string() + &rows).replace('\n', "\r\n").into_bytes());
        let texts = texts.each_ref().map(Vec::as_slice);
        let (answer, tables) = load_texts(texts, &rooms_with(texts, Spare::Lines(0)));
        assert!(answer.is_accepted(), "{answer:?}");
        tables
    }

    const FROM: Side = Side { service: 1, stop: 2, date: 2_012_015 };
    const TO: Side = Side { service: 2, stop: 1, date: 2_012_015 };

    fn found(tables: &Tables, from: Side, to: Side) -> Option<Vec<Exception>> {
        Exceptions::of(tables).between([from, to].map(|side| tables.service(side.service)), from, to)
    }

    /// The needed time as it is proved, and what is said of it.
    fn told(exceptions: &str, from: Side) -> (u64, String) {
        let tables = tables(exceptions);
        let change = proved::change(tables.lent(), from, TO).expect("an answer");
        let needed = change.needed.expect("a needed time");
        let reasoned = reasoned(&change, || found(&tables, from, TO)).expect("a time of XCHANGES");
        (needed, reasoned.text(pack(b"pier   ")))
    }

    #[test]
    fn the_only_exception() {
        let said = "  card    only one exception applies:
          line 5  *  ,IC  ,*  ,*   ,012,00001  place  4 (*m**)  12 minutes, which counts
";
        assert_eq!(told("-*  ,IC  ,*  ,*   ,012,00001\n", FROM), (12, said.into()));
        // Others do not apply: keys that do not fit, and a footnote without that day.
        let others = "-*  ,IC  ,*  ,*   ,012,00001\n-200,*   ,*  ,*   ,013,00001\n\
                      -*  ,SHIP,*  ,*   ,014,00001\n-*  ,*   ,100,*   ,015,00001\n\
                      -*  ,*   ,*  ,IC  ,016,00001\n-*  ,IC  ,*  ,*   ,017,00002\n";
        assert_eq!(told(others, Side { date: 3_012_015, ..FROM }), (12, said.into()));
    }

    #[test]
    fn a_higher_place() {
        let rows = "-*  ,IC  ,200,SHIP,090,00001\n-100,*   ,*  ,*   ,012,00001\n\
                    -*  ,IC  ,200,SHIP,080,00002\n-*  ,*   ,*  ,*   ,005,00001\n";
        let said = "  card    place 8 counts before places 7 and 0, whatever the times:
          line 6  100,*   ,*  ,*   ,012,00001  place  8 (c***)  12 minutes, which counts
          line 5  *  ,IC  ,200,SHIP,090,00001  place  7 (*mcm)  90 minutes (1 h 30)
          line 7  *  ,IC  ,200,SHIP,080,00002  place  7 (*mcm)  80 minutes (1 h 20)
          line 8  *  ,*   ,*  ,*   ,005,00001  place  0 (****)  5 minutes
";
        assert_eq!(told(rows, FROM), (12, said.into()));
    }

    #[test]
    fn the_same_place() {
        let rows = "-100,IC  ,*  ,*   ,012,00001\n-100,IC  ,*  ,*   ,020,00002\n";
        let said = "  card    lines 5 and 6 have the same place 12, and the larger time counts:
          line 6  100,IC  ,*  ,*   ,020,00002  place 12 (cm**)  20 minutes, which counts
          line 5  100,IC  ,*  ,*   ,012,00001  place 12 (cm**)  12 minutes
";
        assert_eq!(told(rows, FROM), (20, said.into()));
        let rows =
            "-100,IC  ,*  ,*   ,012,00001\n-*  ,*   ,*  ,*   ,099,00002\n-100,IC  ,*  ,*   ,012,00002\n";
        let said = "  card    lines 5 and 7 have the same place 12, the highest, and the same time:
          line 5  100,IC  ,*  ,*   ,012,00001  place 12 (cm**)  12 minutes, which counts
          line 7  100,IC  ,*  ,*   ,012,00002  place 12 (cm**)  12 minutes
          line 6  *  ,*   ,*  ,*   ,099,00002  place  0 (****)  99 minutes (1 h 39)
";
        assert_eq!(told(rows, FROM), (12, said.into()));
    }

    /// Tables that do not fit an answer give no reason for it.
    #[test]
    fn no_false_reason() {
        let cannot = "  card    cannot be told: the exceptions that the program finds for pier do not \
                      come to the needed time. The answer stands; tell whoever keeps the program.\n";
        let tables = tables("-*  ,IC  ,*  ,*   ,012,00001\n-*  ,*   ,*  ,*   ,020,00001\n");
        let change = proved::change(tables.lent(), FROM, TO).expect("an answer");
        let all = || found(&tables, FROM, TO);
        let because = |needed: u64, exceptions: Option<Vec<Exception>>| {
            let change = Change { needed: Some(needed), ..change };
            reasoned(&change, || exceptions).expect("a time of XCHANGES").because
        };
        assert_eq!(because(12, all()), Because::HigherPlace);
        // Another time, also that of an exception that does not count.
        for needed in [0, 13, 20, 999] {
            assert_eq!(because(needed, all()), Because::Unexplained);
        }
        assert_eq!(because(12, Some(Vec::new())), Because::Unexplained);
        let unexplained = reasoned(&change, || None).expect("a time of XCHANGES");
        assert_eq!(unexplained.text(pack(b"pier   ")), cannot);
        let told = changed(&change, Some(&unexplained));
        assert!(told.exceptions.is_none() && told.because == Some("unexplained"));
        // No reason is given for a time that is not of XCHANGES.
        assert_eq!(reasoned(&Change { source: Some(Source::Stations), ..change }, all), None);
        // What the tables do not have is not looked for elsewhere.
        for (from, to) in [
            (Side { service: 3, ..FROM }, TO),
            (Side { stop: 0, ..FROM }, TO),
            (Side { stop: 1, ..FROM }, TO),
            (Side { stop: 3, ..FROM }, TO),
            (Side { date: 31_122_014, ..FROM }, TO),
            (Side { date: 99, ..FROM }, TO),
            (FROM, Side { stop: 2, ..TO }),
            (FROM, Side { stop: u64::MAX, ..TO }),
        ] {
            assert_eq!(found(&tables, from, to), None, "{from:?} {to:?}");
        }
        assert_eq!(found(&Tables::default(), FROM, TO), None);
    }

    #[test]
    fn patterns_in_words() {
        let told = |named| (Pattern(named).letters(), Pattern(named).meaning());
        assert_eq!(told([false; 4]), ("****".into(), "names nothing".into()));
        assert_eq!(told([false, false, false, true]), ("***m".into(), "names the to mode".into()));
        assert_eq!(
            told([true, false, true, false]),
            ("c*c*".into(), "names the from company and the to company".into())
        );
        assert_eq!(
            told([true, true, true, true]).1,
            "names the from company, the from mode, the to company and the to mode"
        );
        for bits in 0..16 {
            let pattern = Pattern([8, 4, 2, 1].map(|bit| bits & bit != 0));
            assert_eq!(Pattern::of(&pattern.keys()), pattern);
        }
    }
}
