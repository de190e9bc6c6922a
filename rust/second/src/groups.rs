//! The files, TIMETBLS apart, whose records come in groups opened by `#`:
//! TIMEZONE, FOOTNOTE and XFOOTNOTE, CHANGES, XCHANGES.

use std::collections::BTreeMap;

use crate::columns::{self, columns, Layout};
use crate::files::File;
use crate::hash::HashSet;
use crate::lines::{Line, Lines};
use crate::refusals::{Fault, Refusal};
use crate::store::*;
use crate::values::{code, days, is_wildcard, number, short_number};

/// A reader of grouped records, given one line at a time.
trait Groups<'a> {
    /// All tests of one line after the first.
    fn read(&mut self, line: Line<'a>) -> Result<(), Fault>;

    /// Whether the open group, if there is one, may end here.
    fn may_end(&self) -> bool {
        true
    }
}

/// Reads every line. A group that ends too soon is reported at its last line
/// before the line that ends it is looked at.
fn each_line<'a>(file: File, lines: Lines<'a>, groups: &mut impl Groups<'a>) -> Result<(), Refusal> {
    let mut last = 1;
    for line in lines {
        if line.letter() == Some(b'#') && !groups.may_end() {
            break;
        }
        last += 1;
        groups.read(line).map_err(|fault| fault.at(file, 0, last))?;
    }
    if !groups.may_end() {
        return Err(Fault::Order.at(file, 0, last));
    }
    Ok(())
}

/// TIMEZONE.
#[derive(Default)]
struct ZoneReader {
    zones: Keyed<u16, Zone>,
    /// The open zone's periods, by the counts of their first and last days.
    taken: BTreeMap<u32, u32>,
}

pub fn zones(lines: Lines) -> Result<Keyed<u16, Zone>, Refusal> {
    let mut reader = ZoneReader::default();
    each_line(File::TimeZone, lines, &mut reader)?;
    Ok(reader.zones)
}

impl<'a> Groups<'a> for ZoneReader {
    fn read(&mut self, line: Line<'a>) -> Result<(), Fault> {
        match line.letter() {
            Some(b'#') => self.open(line),
            Some(b'+') => self.add(line, Sign::Ahead),
            Some(b'-') => self.add(line, Sign::Behind),
            Some(b'@') => Err(Fault::Order),
            _ => Err(Fault::Layout),
        }
    }

    fn may_end(&self) -> bool {
        self.zones.rows().last().is_none_or(|zone| !zone.periods.is_empty())
    }
}

impl ZoneReader {
    fn open(&mut self, line: Line) -> Result<(), Fault> {
        columns::ZONE.check(line)?;
        let number = short_number(columns(line.text, 2, 5))?;
        self.zones.claim(number)?;
        self.zones.push(Zone { number, periods: Vec::new() });
        self.taken.clear();
        Ok(())
    }

    fn add(&mut self, line: Line, sign: Sign) -> Result<(), Fault> {
        let zone = self.zones.last_mut().ok_or(Fault::Order)?;
        columns::PERIOD.check(line)?;
        let hours = short_number(columns(line.text, 2, 3))?;
        let (first_day, last_day) = days(columns(line.text, 5, 12), columns(line.text, 14, 21))?;
        // The periods taken so far share no day, so only the last one that
        // begins early enough can reach the new one.
        let neighbour = self.taken.range(..=last_day.count()).next_back();
        if neighbour.is_some_and(|(_, &end)| end >= first_day.count()) {
            return Err(Fault::Duplicate);
        }
        self.taken.insert(first_day.count(), last_day.count());
        zone.periods.push(Period { sign, hours, first_day, last_day });
        Ok(())
    }
}

/// FOOTNOTE and XFOOTNOTE.
struct FootnoteReader {
    vector: Layout,
    footnotes: Footnotes,
    /// The number of a `#` whose vector has not come yet.
    awaiting: Option<u32>,
}

pub fn footnotes(file: File, lines: Lines, days: usize) -> Result<Footnotes, Refusal> {
    let mut reader =
        FootnoteReader { vector: Layout::vector(days), footnotes: Keyed::default(), awaiting: None };
    each_line(file, lines, &mut reader)?;
    Ok(reader.footnotes)
}

impl<'a> Groups<'a> for FootnoteReader {
    fn read(&mut self, line: Line<'a>) -> Result<(), Fault> {
        match (line.letter(), self.awaiting) {
            (Some(b'#'), _) => self.open(line),
            (Some(b'0' | b'1'), Some(number)) => self.add(line, number),
            (Some(b'0' | b'1' | b'@'), _) => Err(Fault::Order),
            _ => Err(Fault::Layout),
        }
    }

    fn may_end(&self) -> bool {
        self.awaiting.is_none()
    }
}

impl FootnoteReader {
    fn open(&mut self, line: Line) -> Result<(), Fault> {
        columns::FOOTNOTE.check(line)?;
        let number = number(columns(line.text, 2, 6))?;
        self.footnotes.claim(number)?;
        self.awaiting = Some(number);
        Ok(())
    }

    fn add(&mut self, line: Line, number: u32) -> Result<(), Fault> {
        self.vector.check(line)?;
        self.footnotes.push(Footnote { number, vector: vector(line.text)? });
        self.awaiting = None;
        Ok(())
    }
}

fn vector(text: &[u8]) -> Result<Vector, Fault> {
    let mut words = [0; VECTOR_WORDS];
    for (word, days) in words.iter_mut().zip(text.chunks(64)) {
        for (bit, day) in days.iter().enumerate() {
            let runs = day.wrapping_sub(b'0');
            if runs > 1 {
                return Err(Fault::Value);
            }
            *word |= u64::from(runs) << bit;
        }
    }
    Ok(Vector(words))
}

/// The `#` of CHANGES and XCHANGES: its station's code, new in the file, and
/// the station's place.
fn change_station<T>(
    line: Line,
    stations: &Keyed<u64, Station>,
    groups: &mut Keyed<u64, T>,
) -> Result<u32, Fault> {
    columns::CHANGES_STATION.check(line)?;
    let short_name = code(columns(line.text, 2, 8))?;
    groups.claim(short_name)?;
    stations.refer(short_name)
}

/// CHANGES.
struct ChangeReader<'s> {
    stations: &'s Keyed<u64, Station>,
    services: &'s Keyed<u32, Service>,
    changes: Changes,
}

pub fn changes(
    lines: Lines,
    stations: &Keyed<u64, Station>,
    services: &Keyed<u32, Service>,
) -> Result<Changes, Refusal> {
    let mut reader = ChangeReader { stations, services, changes: Changes::default() };
    each_line(File::Changes, lines, &mut reader)?;
    Ok(reader.changes)
}

impl<'a> Groups<'a> for ChangeReader<'_> {
    fn read(&mut self, line: Line<'a>) -> Result<(), Fault> {
        match line.letter() {
            Some(b'#') => {
                let groups = &mut self.changes.stations;
                let station = change_station(line, self.stations, groups)?;
                groups.push(ChangeStation { station, pairs: Vec::new() });
                Ok(())
            }
            Some(b'-') => self.add(line),
            Some(b'@') => Err(Fault::Order),
            _ => Err(Fault::Layout),
        }
    }
}

impl ChangeReader<'_> {
    fn add(&mut self, line: Line) -> Result<(), Fault> {
        let group = self.changes.stations.last_mut().ok_or(Fault::Order)?;
        columns::CHANGES_PAIR.check(line)?;
        let from = number(columns(line.text, 2, 9))?;
        let to = number(columns(line.text, 11, 18))?;
        let possibility = match columns(line.text, 20, 21) {
            b"00" => Possibility::Impossible,
            b"01" => Possibility::Possible,
            b"02" => Possibility::Guaranteed,
            _ => return Err(Fault::Value),
        };
        if self.changes.pairs.insert((group.station, from, to), possibility).is_some() {
            return Err(Fault::Duplicate);
        }
        self.services.refer(from)?;
        self.services.refer(to)?;
        group.pairs.push(ChangePair { from, to, possibility });
        Ok(())
    }
}

/// What XCHANGES rows are looked up in.
pub struct XReferences<'s> {
    pub companies: &'s Keyed<u16, Company>,
    pub modes: &'s Keyed<u64, Mode>,
    pub stations: &'s Keyed<u64, Station>,
    pub xfootnotes: &'s Footnotes,
}

/// The place of an XCHANGES station, and the four keys of a row under it with
/// the row's footnote, as written.
type XKeys = (u32, Option<u16>, Option<u64>, Option<u16>, Option<u64>, u32);

/// XCHANGES.
struct XChangeReader<'s> {
    references: XReferences<'s>,
    xchanges: XChanges,
    taken: HashSet<XKeys>,
}

pub fn xchanges(lines: Lines, references: XReferences) -> Result<XChanges, Refusal> {
    let mut reader = XChangeReader { references, xchanges: Keyed::default(), taken: HashSet::default() };
    each_line(File::XChanges, lines, &mut reader)?;
    Ok(reader.xchanges)
}

impl<'a> Groups<'a> for XChangeReader<'_> {
    fn read(&mut self, line: Line<'a>) -> Result<(), Fault> {
        match line.letter() {
            Some(b'#') => {
                let station = change_station(line, self.references.stations, &mut self.xchanges)?;
                self.xchanges.push(XChangeStation { station, rows: Vec::new() });
                Ok(())
            }
            Some(b'-') => self.add(line),
            Some(b'@') => Err(Fault::Order),
            _ => Err(Fault::Layout),
        }
    }
}

impl XChangeReader<'_> {
    fn add(&mut self, line: Line) -> Result<(), Fault> {
        let group = self.xchanges.last_mut().ok_or(Fault::Order)?;
        columns::XCHANGES_ROW.check(line)?;
        let from_company = unless_wildcard(columns(line.text, 2, 4), short_number)?;
        let from_mode = unless_wildcard(columns(line.text, 6, 9), code)?;
        let to_company = unless_wildcard(columns(line.text, 11, 13), short_number)?;
        let to_mode = unless_wildcard(columns(line.text, 15, 18), code)?;
        let time = short_number(columns(line.text, 20, 22))?;
        let footnote = number(columns(line.text, 24, 28))?;
        if !self.taken.insert((group.station, from_company, from_mode, to_company, to_mode, footnote)) {
            return Err(Fault::Duplicate);
        }
        let XReferences { companies, modes, xfootnotes, .. } = &self.references;
        for company in [from_company, to_company].into_iter().flatten() {
            companies.refer(company)?;
        }
        let refer_mode = |code: Option<u64>| code.map(|code| modes.refer(code)).transpose();
        group.rows.push(XChange {
            from_company,
            from_mode: refer_mode(from_mode)?,
            to_company,
            to_mode: refer_mode(to_mode)?,
            time,
            footnote: xfootnotes.refer(footnote)?,
        });
        Ok(())
    }
}

/// None for the wildcard, else the field as `read` takes it.
fn unless_wildcard<T>(field: &[u8], read: impl Fn(&[u8]) -> Result<T, Fault>) -> Result<Option<T>, Fault> {
    if is_wildcard(field) {
        return Ok(None);
    }
    read(field).map(Some)
}
