//! The files without record letters, in which every line after the first is a
//! row: COMPANY, COUNTRY, TRNSMODE and STATIONS.

use crate::columns::{self, columns, Layout};
use crate::files::File;
use crate::hash::HashSet;
use crate::lines::Lines;
use crate::refusals::{Fault, Refusal};
use crate::store::{Company, Country, Keyed, Mode, Station, Zone, MOST_MODES};
use crate::values::{clock, code, number, short_number};

/// Reads every row, first its layout and then what `row` tests.
fn each_row<'a>(
    file: File,
    lines: Lines<'a>,
    layout: &Layout,
    mut row: impl FnMut(&'a [u8]) -> Result<(), Fault>,
) -> Result<(), Refusal> {
    for (line, number) in lines.zip(2..) {
        let tested = layout.check(line).and_then(|()| row(line.text));
        tested.map_err(|fault| fault.at(file, 0, number))?;
    }
    Ok(())
}

/// Texts that must differ from row to row, blanks included.
#[derive(Default)]
struct Unique<'a>(HashSet<&'a [u8]>);

impl<'a> Unique<'a> {
    fn claim(&mut self, text: &'a [u8]) -> Result<(), Fault> {
        self.0.insert(text).then_some(()).ok_or(Fault::Duplicate)
    }
}

fn require(holds: bool) -> Result<(), Fault> {
    holds.then_some(()).ok_or(Fault::Value)
}

pub fn companies(lines: Lines) -> Result<Keyed<u16, Company>, Refusal> {
    let mut companies = Keyed::default();
    let (mut codes, mut names) = (Unique::default(), Unique::default());
    each_row(File::Company, lines, &columns::COMPANY, |text| {
        let number = short_number(columns(text, 1, 3))?;
        let day_turn = clock(columns(text, 47, 50))?;
        require(number >= 1 && day_turn.written() < 2400)?;
        companies.claim(number)?;
        codes.claim(columns(text, 5, 14))?;
        names.claim(columns(text, 16, 45))?;
        companies.push(Company { number, day_turn });
        Ok(())
    })?;
    Ok(companies)
}

pub fn countries(lines: Lines) -> Result<Keyed<u64, Country>, Refusal> {
    let mut countries = Keyed::default();
    let mut names = Unique::default();
    each_row(File::Country, lines, &columns::COUNTRY, |text| {
        let code = code(columns(text, 1, 4))?;
        let inland = number(columns(text, 6, 6))?;
        require(inland <= 1)?;
        countries.claim(code)?;
        names.claim(columns(text, 8, 37))?;
        countries.push(Country { code, inland: inland == 1 });
        Ok(())
    })?;
    Ok(countries)
}

pub fn modes(lines: Lines) -> Result<Keyed<u64, Mode>, Refusal> {
    let mut modes = Keyed::default();
    let mut texts = Unique::default();
    each_row(File::TrnsMode, lines, &columns::TRNSMODE, |text| {
        let code = code(columns(text, 1, 4))?;
        require(modes.rows().len() < MOST_MODES)?;
        modes.claim(code)?;
        texts.claim(columns(text, 6, 35))?;
        modes.push(Mode { code });
        Ok(())
    })?;
    Ok(modes)
}

pub fn stations(
    lines: Lines,
    countries: &Keyed<u64, Country>,
    zones: &Keyed<u16, Zone>,
) -> Result<Keyed<u64, Station>, Refusal> {
    let mut stations = Keyed::default();
    each_row(File::Stations, lines, &columns::STATIONS, |text| {
        let flag = number(columns(text, 1, 1))? as u8;
        let short_name = code(columns(text, 3, 9))?;
        let change_time = short_number(columns(text, 11, 12))?;
        let country = code(columns(text, 17, 20))?;
        let zone = short_number(columns(text, 22, 25))?;
        stations.claim(short_name)?;
        let country = countries.refer(country)?;
        let zone = zones.refer(zone)?;
        stations.push(Station { flag, short_name, change_time, country, zone });
        Ok(())
    })?;
    Ok(stations)
}
