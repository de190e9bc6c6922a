//! The eleven tables of 64-bit words that show a store.

use crate::files::{File, FILES};
use crate::store::*;
use crate::values::{Clock, NO_TIME};

/// The words of a row in each table.
const WIDTHS: [usize; FILES] = [6, 6, 6, 6, 6, 6, 14, 7, 6, 14, 7];

/// The first word of a row without a record letter.
pub(crate) const NO_LETTER: u64 = 1;
/// `*` and two blanks, packed.
pub(crate) const ANY_COMPANY: u64 = 0x2a_20_20;
/// `*` and three blanks, packed.
pub(crate) const ANY_MODE: u64 = 0x2a_20_20_20;

pub fn width(file: File) -> usize {
    WIDTHS[file.index()]
}

/// The rooms in lines of tables with these lengths in words.
pub fn rooms_of(lens: &[usize; FILES]) -> [usize; FILES] {
    File::ALL.map(|file| lens[file.index()] / width(file))
}

/// The tables after a refused load.
pub fn zeroes(lens: &[usize; FILES]) -> [Vec<u64>; FILES] {
    lens.map(|len| vec![0; len])
}

/// The tables of a store, each as long in words as `lens` says; the rooms of
/// the load must have been those of these lengths.
pub fn encode(store: &Store, lens: &[usize; FILES]) -> [Vec<u64>; FILES] {
    File::ALL.map(|file| {
        let mut table = Table::new(lens[file.index()], width(file));
        fill(store, file, &mut table);
        table.words
    })
}

fn fill(store: &Store, file: File, table: &mut Table) {
    match file {
        File::Delivery => table.first_line(&store.header, [].into_iter()),
        File::Company => companies(store, table),
        File::Country => countries(store, table),
        File::TrnsMode => modes(store, table),
        File::TimeZone => zones(store, table),
        File::Stations => stations(store, table),
        File::Footnote => footnotes(store, &store.footnotes, table),
        File::TimeTbls => services(store, table),
        File::Changes => store.changes.iter().for_each(|changes| change_stations(store, changes, table)),
        File::XFootnote => store.xfootnotes.iter().for_each(|rows| footnotes(store, rows, table)),
        File::XChanges => store.xchanges.iter().for_each(|rows| xchange_stations(store, rows, table)),
    }
}

/// A table being filled, row after row.
struct Table {
    words: Vec<u64>,
    width: usize,
    next: usize,
}

impl Table {
    fn new(len: usize, width: usize) -> Self {
        Table { words: vec![0; len], width, next: 0 }
    }

    /// Writes the next row; the words it does not name stay zero.
    fn row(&mut self, words: &[u64]) {
        let row = &mut self.words[self.next..][..self.width];
        row[..words.len()].copy_from_slice(words);
        self.next += self.width;
    }

    /// The first line, with whether the file's keys rise.
    fn first_line(&mut self, header: &Header, keys: impl Iterator<Item = u64>) {
        self.row(&first_line(header, keys));
    }
}

fn first_line(header: &Header, keys: impl Iterator<Item = u64>) -> [u64; 6] {
    [
        u64::from(b'@'),
        u64::from(header.company),
        u64::from(header.first_day.written()),
        u64::from(header.last_day.written()),
        u64::from(header.version),
        u64::from(keys.is_sorted_by(|earlier, later| earlier < later)),
    ]
}

fn companies(store: &Store, table: &mut Table) {
    let rows = store.companies.rows();
    table.first_line(&store.header, rows.iter().map(|row| u64::from(row.number)));
    for row in rows {
        table.row(&[NO_LETTER, u64::from(row.number), u64::from(row.day_turn.written())]);
    }
}

fn countries(store: &Store, table: &mut Table) {
    let rows = store.countries.rows();
    table.first_line(&store.header, rows.iter().map(|row| row.code));
    for row in rows {
        table.row(&[NO_LETTER, row.code, u64::from(row.inland)]);
    }
}

fn modes(store: &Store, table: &mut Table) {
    let rows = store.modes.rows();
    table.first_line(&store.header, rows.iter().map(|row| row.code));
    for row in rows {
        table.row(&[NO_LETTER, row.code]);
    }
}

fn zones(store: &Store, table: &mut Table) {
    let rows = store.zones.rows();
    table.first_line(&store.header, rows.iter().map(|row| u64::from(row.number)));
    for zone in rows {
        table.row(&[u64::from(b'#'), u64::from(zone.number)]);
        for period in &zone.periods {
            let letter = match period.sign {
                Sign::Ahead => b'+',
                Sign::Behind => b'-',
            };
            let (first, last) = (period.first_day.written(), period.last_day.written());
            table.row(&[u64::from(letter), u64::from(period.hours), u64::from(first), u64::from(last)]);
        }
    }
}

fn stations(store: &Store, table: &mut Table) {
    let rows = store.stations.rows();
    table.first_line(&store.header, rows.iter().map(|row| row.short_name));
    for row in rows {
        table.row(&[
            NO_LETTER,
            u64::from(row.flag),
            row.short_name,
            u64::from(row.change_time),
            store.countries.row(row.country).code,
            u64::from(store.zones.row(row.zone).number),
        ]);
    }
}

fn footnotes(store: &Store, footnotes: &Footnotes, table: &mut Table) {
    let rows = footnotes.rows();
    table.first_line(&store.header, rows.iter().map(|row| u64::from(row.number)));
    for Footnote { number, vector } in rows {
        table.row(&[u64::from(b'#'), u64::from(*number)]);
        let mut words = [NO_LETTER; 1 + VECTOR_WORDS];
        words[1..].copy_from_slice(&vector.0);
        table.row(&words);
    }
}

fn services(store: &Store, table: &mut Table) {
    let rows = store.timetable.services.rows();
    let [letter, company, first, last, version, rises] =
        first_line(&store.header, rows.iter().map(|row| u64::from(row.number)));
    table.row(&[letter, company, first, last, version, rises, 1]);
    for service in rows {
        let (lines, stops) = (service.lines() as u64, u64::from(service.stops));
        table.row(&[u64::from(b'#'), u64::from(service.number), lines, stops, 0, 0, 1]);
        for (record, line) in service.records.iter().zip(2..) {
            let [letter, a, b, c, d] = record_words(store, record);
            table.row(&[letter, a, b, c, d, 0, line]);
        }
    }
}

fn record_words(store: &Store, record: &Record) -> [u64; 5] {
    let station = |place: u32| store.stations.row(place).short_name;
    let footnote = |place: u32| u64::from(store.footnotes.row(place).number);
    let stop = |letter: u8, place: u32, time: Clock| {
        [u64::from(letter), station(place), u64::from(time.written()), 0, 0]
    };
    let perhaps = |time: Option<Clock>| u64::from(time.map_or(NO_TIME, Clock::written));
    let ends = |span: Span| (u64::from(span.first), u64::from(span.last));
    match *record {
        Record::Number { company, number, span } => {
            let (first, last) = ends(span);
            [u64::from(b'%'), u64::from(company), u64::from(number), first, last]
        }
        Record::Validity { footnote: place, span } => {
            let (first, last) = ends(span);
            [u64::from(b'-'), footnote(place), first, last, 0]
        }
        Record::Mode { mode, span } => {
            let (first, last) = ends(span);
            [u64::from(b'&'), store.modes.row(mode).code, first, last, 0]
        }
        Record::Attribute { code, span, footnote: place } => {
            let (first, last) = ends(span);
            [u64::from(b'*'), u64::from(code), first, last, footnote(place)]
        }
        Record::Start { station, departure } => stop(b'>', station, departure),
        Record::Through { station, time } => stop(b'.', station, time),
        Record::Final { station, arrival } => stop(b'<', station, arrival),
        Record::Interval { station: place, arrival, departure } => {
            [u64::from(b'+'), station(place), perhaps(arrival), perhaps(departure), 0]
        }
        Record::Passed { station: place } => [u64::from(b';'), station(place), 0, 0, 0],
        Record::Platform { footnote: place } => [u64::from(b'?'), footnote(place), 0, 0, 0],
    }
}

fn change_stations(store: &Store, changes: &Changes, table: &mut Table) {
    let groups = changes.stations.rows();
    let station = |group: &ChangeStation| store.stations.row(group.station).short_name;
    table.first_line(&store.header, groups.iter().map(station));
    for group in groups {
        table.row(&[u64::from(b'#'), station(group)]);
        for pair in &group.pairs {
            let possibility = match pair.possibility {
                Possibility::Impossible => 0,
                Possibility::Possible => 1,
                Possibility::Guaranteed => 2,
            };
            table.row(&[u64::from(b'-'), u64::from(pair.from), u64::from(pair.to), possibility]);
        }
    }
}

fn xchange_stations(store: &Store, xchanges: &XChanges, table: &mut Table) {
    let groups = xchanges.rows();
    let station = |group: &XChangeStation| store.stations.row(group.station).short_name;
    let company = |number: Option<u16>| number.map_or(ANY_COMPANY, u64::from);
    let mode = |place: Option<u32>| place.map_or(ANY_MODE, |place| store.modes.row(place).code);
    let xfootnotes = store.xfootnotes.as_ref().expect("XCHANGES is held with XFOOTNOTE only");
    table.first_line(&store.header, groups.iter().map(station));
    for group in groups {
        table.row(&[u64::from(b'#'), station(group)]);
        for row in &group.rows {
            table.row(&[
                u64::from(b'-'),
                company(row.from_company),
                mode(row.from_mode),
                company(row.to_company),
                mode(row.to_mode),
                u64::from(row.time),
                u64::from(xfootnotes.row(row.footnote).number),
            ]);
        }
    }
}
