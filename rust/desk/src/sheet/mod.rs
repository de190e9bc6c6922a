//! The connection sheet of a station on a date: each arrival, the departures behind
//! it, and whether one can change.
//!
//! Every verdict is the proved `sheet`'s. What it is asked is found in the tables,
//! and shown only where it fits what was answered.

mod csv;
mod found;
mod html;
mod text;
mod words;

use std::cell::OnceCell;
use std::collections::HashMap;

use proved::{Change, Keys, Refusal, Side, Source};

use crate::answers::{self, Date, Named, Onward, Sheet, SheetCall};
use crate::card::{self, Exceptions};
use crate::dates;
use crate::explain::questions::code;
use crate::files::latin;
use crate::files::place::CHANGES;
use crate::names::{Names, Operators};
use crate::records::unpack;
use crate::store::Store;
use crate::tables::{Station, Tables};
use crate::trouble::Trouble;

pub use csv::csv;
pub use found::Wanted;
use found::{Call, Found};
pub use html::html;
pub use text::text;

/// So many changes are put to the tables in one call, at most: what is asked and
/// answered then takes no more than some megabytes.
const TOGETHER: usize = 1 << 17;

/// What the tables have for a sheet, and what is answered.
pub struct Answered {
    station: Station,
    found: Found,
    /// One for each change, arrival by arrival.
    answers: Vec<Result<Change, Refusal>>,
}

/// A sheet from tables. 16, 17, 14.
pub fn answered(tables: &Tables, wanted: &Wanted) -> Result<Answered, Refusal> {
    let station = tables.station(wanted.station);
    let found = station.and_then(|station| Found::of(tables, &station, wanted));
    let mut changes = found.as_ref().map_or(Vec::new(), Found::changes);
    // A change of any service to itself tells whether the date is a day of validity.
    let of_date = tables.services().next().map(|service| {
        let side = |stop: u64| Side { service: service.number(), stop, date: wanted.date };
        (side(2), side(1))
    });
    changes.extend(of_date);
    let mut answers = put(tables, &changes, TOGETHER)?;
    let station = station.ok_or(Refusal(17))?;
    if of_date.is_some() {
        answers.pop().transpose()?;
    }
    found.map(|found| Answered { station, found, answers }).ok_or(Refusal(14))
}

/// Puts changes to the tables, so many in one call at most. Soundness is tested also
/// where there are none.
fn put(
    tables: &Tables,
    changes: &[(Side, Side)],
    together: usize,
) -> Result<Vec<Result<Change, Refusal>>, Refusal> {
    let (first, more) = changes.split_at(changes.len().min(together));
    let mut answers = proved::sheet(tables.lent(), first)?;
    for part in more.chunks(together) {
        answers.extend(proved::sheet(tables.lent(), part)?);
    }
    Ok(answers)
}

/// The station's name and the calls of a sheet as they are told.
pub struct Calls {
    name: Option<String>,
    arrivals: Vec<SheetCall>,
    departures: Vec<SheetCall>,
}

impl Calls {
    pub fn of(store: &Store, Answered { station, found, .. }: &Answered) -> Result<Calls, Trouble> {
        let all = || found.arrivals.iter().chain(&found.departures);
        let names = Names::of(store)?;
        let stations = names.of_all(all().map(|call| call.end).collect());
        let operators = Operators::of(store)?;
        let mut companies = HashMap::new();
        for company in all().map(|call| call.company) {
            companies.entry(company).or_insert_with(|| operators.code_and_name(company).unzip());
        }
        let company = |call: &Call| companies.get(&call.company).cloned().unwrap_or_default();
        let told = |call: &Call| SheetCall {
            service: call.side.service,
            stop: call.side.stop,
            service_date: Date(call.side.date),
            local: call.local,
            date: dates::date_of(call.local, call.side.date).map(Date),
            company: call.company,
            company_code: company(call).0,
            company_name: company(call).1,
            number: call.number,
            mode: latin(&unpack(call.mode, 4)),
            origin: None,
            destination: None,
        };
        let end = |call: &Call| {
            Some(Named { station: latin(&unpack(call.end, 7)), name: stations.get(&call.end).cloned() })
        };
        let arrivals = found.arrivals.iter().map(|call| SheetCall { origin: end(call), ..told(call) });
        let departures =
            found.departures.iter().map(|call| SheetCall { destination: end(call), ..told(call) });
        Ok(Calls {
            name: names.station(station.code),
            arrivals: arrivals.collect(),
            departures: departures.collect(),
        })
    }
}

/// The sheet as it is told.
pub fn told<'c>(
    store: &Store,
    wanted: &Wanted,
    Answered { station, found, answers }: &Answered,
    calls: &'c Calls,
) -> Result<Sheet<'c>, Trouble> {
    let lines = Lines::of(&store.tables, station);
    let mut counts = answers::SheetCounts { arrivals: found.arrivals.len(), ..Default::default() };
    let mut arrivals = Vec::with_capacity(found.arrivals.len());
    let mut rest = answers.iter();
    for (from, arrival) in found.arrivals.iter().zip(&calls.arrivals) {
        let mut changes = Vec::new();
        for place in found.behind(from) {
            let to = &found.departures[place];
            let fitting = rest.next().filter(|answer| fits(from, to, answer));
            let answer = *fitting.ok_or_else(Trouble::not_shown)?;
            let line = answer.ok().and_then(|change| lines.of_change(from, to, &change));
            counts.count(&answer);
            changes.push(Onward { answer, line, to: &calls.departures[place] });
        }
        arrivals.push(answers::Arrival { call: arrival, changes });
    }
    let validity = store.tables.validity();
    Ok(Sheet {
        station: latin(&unpack(station.code, 7)),
        name: calls.name.clone(),
        date: Date(wanted.date),
        from: wanted.from,
        to: wanted.to,
        within: wanted.within,
        delivery: answers::SheetDelivery {
            version: store.tables.version(),
            first: Date(validity.first),
            last: Date(validity.last),
            amendments: store.amendments,
        },
        counts,
        arrivals,
        notes: notes(&store.tables, station, found),
    })
}

/// Whether an answer is one to what was found: the two times are as far apart as they
/// were found to be. A zone may lack a period (15).
fn fits(from: &Call, to: &Call, answer: &Result<Change, Refusal>) -> bool {
    match answer {
        Ok(change) => change.gap.map(i64::from) == Some(to.reference - from.reference),
        Err(Refusal(number)) => *number == 15,
    }
}

/// What the sheet lacks, since the delivery does.
fn notes(tables: &Tables, station: &Station, found: &Found) -> Vec<String> {
    let validity = tables.validity();
    let before = format!(
        "Services of days before {}, the delivery's first, are not in it: those that would still call at {} on \
         this day are missing.",
        dates::date(validity.first),
        code(station.code)
    );
    let behind = format!(
        "Services of days after {}, the delivery's last, are not in it: their departures are missing.",
        dates::date(validity.last)
    );
    let notes = [(found.lacks_before, before), (found.lacks_behind, behind)];
    notes.into_iter().filter(|(lacks, _)| *lacks).map(|(_, note)| note).collect()
}

/// The lines of the files that changes at a station rest on.
struct Lines<'t> {
    tables: &'t Tables,
    station: &'t Station,
    /// Those of CHANGES by their services.
    pairs: HashMap<(u64, u64), u64>,
    exceptions: OnceCell<Exceptions<'t>>,
}

impl<'t> Lines<'t> {
    fn of(tables: &'t Tables, station: &'t Station) -> Lines<'t> {
        let group = tables.groups(CHANGES).find(|group| group.key == station.code);
        let rows = group.iter().flat_map(|group| group.rows());
        let pairs = rows.map(|(row, line)| ((row[1], row[2]), line)).collect();
        Lines { tables, station, pairs, exceptions: OnceCell::new() }
    }

    /// The line that a change rests on, as far as it can be told.
    fn of_change(&self, from: &Call, to: &Call, change: &Change) -> Option<u64> {
        match change.source? {
            Source::Changes => self.pairs.get(&(from.side.service, to.side.service)).copied(),
            Source::Stations => Some(self.station.line),
            Source::XChanges => {
                let ridden = Keys {
                    from_company: from.company,
                    from_mode: from.mode,
                    to_company: to.company,
                    to_mode: to.mode,
                };
                let exceptions = self.exceptions.get_or_init(|| Exceptions::of(self.tables));
                let applied = || exceptions.applied(self.station.code, &ridden, from.side.date);
                card::reasoned(change, applied)?.line()
            }
        }
    }
}

#[cfg(test)]
mod tests {
    use super::*;
    use crate::explain::questions::packed;
    use crate::files::place::{DELIVERY, STATIONS, TIMETBLS};
    use crate::loading::example;
    use crate::tables::WIDTHS;

    fn wanted(station: &str, date: u64) -> Wanted {
        Wanted { station: packed(station), date, from: 0, to: 1439, within: 240 }
    }

    fn refused(tables: &Tables, station: &str, date: u64) -> Option<u64> {
        answered(tables, &wanted(station, date)).err().map(|Refusal(number)| number)
    }

    /// 16 comes before all, whatever is asked for, and then 17 before 14.
    #[test]
    fn refusals_in_their_turn() {
        let mut tables = example();
        let asked = [("HVH", 15_122_015), ("XYZ", 15_122_015), ("HVH", 1), ("XYZ", 1)];
        let numbers = |tables: &Tables| asked.map(|(station, date)| refused(tables, station, date));
        assert_eq!(numbers(&tables), [None, Some(17), Some(14), Some(17)]);
        assert_eq!(refused(&tables, "HVH", u64::MAX), Some(14));
        tables.0[STATIONS][WIDTHS[STATIONS] + 1] = 10;
        assert_eq!(numbers(&tables), [Some(16); 4]);
        assert_eq!(numbers(&Tables::default()), [Some(16); 4]);
    }

    /// However many are put in one call, the answers are the same.
    #[test]
    fn changes_in_parts() {
        let tables = example();
        let station = tables.station(packed("HVH")).unwrap();
        let week = Wanted { within: 10_080, ..wanted("HVH", 15_122_015) };
        let changes = Found::of(&tables, &station, &week).unwrap().changes();
        let alone: Vec<_> =
            changes.iter().map(|&(from, to)| proved::change(tables.lent(), from, to)).collect();
        assert!(changes.len() > 20, "{}", changes.len());
        for together in [1, 2, 7, changes.len() - 1, changes.len(), TOGETHER] {
            assert_eq!(put(&tables, &changes, together), Ok(alone.clone()), "{together}");
        }
        assert_eq!(put(&tables, &[], TOGETHER), Ok(Vec::new()));
    }

    /// Without any service a date is one of validity or not, and nothing arrives.
    #[test]
    fn a_delivery_without_services() {
        let mut tables = example();
        let width = WIDTHS[TIMETBLS];
        tables.0[TIMETBLS][width..].fill(0);
        // CHANGES names services.
        tables.0[CHANGES].fill(0);
        assert!(answered(&tables, &wanted("HVH", 15_122_015)).is_ok_and(|sheet| sheet.answers.is_empty()));
        assert_eq!(refused(&tables, "HVH", 12_122_015), Some(14));
        assert_eq!(refused(&tables, "XYZ", 15_122_015), Some(17));
    }

    /// What is found in words that no load leaves ends in a refusal, not in a panic.
    #[test]
    fn any_words_may_be_looked_at() {
        let words = [0, 1, 35, 60, 9_999, 99_999_999, u64::from(u32::MAX), u64::MAX, packed("HVH")];
        for file in 0..crate::files::FILES {
            let length = example().used(file);
            for (place, word) in (0..length).flat_map(|place| words.map(|word| (place, word))) {
                let mut tables = example();
                tables.0[file][place] = word;
                let sound = proved::is_sound(tables.lent());
                let number = refused(&tables, "HVH", 15_122_015);
                assert_eq!(number == Some(16), !sound, "{file} {place} {word}");
            }
        }
        assert!(example().used(DELIVERY) > 0);
    }
}
