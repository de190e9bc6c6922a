//! TIMETBLS: the blocks of the services and the order of their records.

use crate::columns::{self, columns};
use crate::files::File;
use crate::legs;
use crate::lines::{Line, Lines};
use crate::refusals::{Fault, Refusal};
use crate::store::{Company, Footnotes, Keyed, Mode, Record, Service, Span, Station, Store, MOST_STOPS};
use crate::values::{clock, clock_or_none, code, number, short_number};

/// What the records of a service are looked up in.
#[derive(Clone, Copy)]
pub struct References<'s> {
    pub companies: &'s Keyed<u16, Company>,
    pub modes: &'s Keyed<u64, Mode>,
    pub stations: &'s Keyed<u64, Station>,
    pub footnotes: &'s Footnotes,
}

impl<'s> References<'s> {
    pub fn of(store: &'s Store) -> Self {
        References {
            companies: &store.companies,
            modes: &store.modes,
            stations: &store.stations,
            footnotes: &store.footnotes,
        }
    }
}

/// How far a block has come.
#[derive(Clone, Copy)]
enum Place {
    Opened,
    Numbers,
    Validities,
    Modes,
    Attributes,
    /// At a stop, which a platform record may follow.
    AtStop,
    UnderWay,
    /// At the last stop, which a platform record may follow.
    AtEnd,
    Ended,
}

impl Place {
    /// The place after a record with this letter, if the letter is known
    /// (else 4) and may come here (else 7).
    fn after(self, letter: Option<u8>) -> Result<Place, Fault> {
        use Place::*;
        match (self, letter) {
            (Opened | Numbers, Some(b'%')) => Ok(Numbers),
            (Numbers | Validities, Some(b'-')) => Ok(Validities),
            (Validities | Modes, Some(b'&')) => Ok(Modes),
            (Modes | Attributes, Some(b'*')) => Ok(Attributes),
            (Modes | Attributes, Some(b'>')) => Ok(AtStop),
            (AtStop | UnderWay, Some(b'.' | b'+')) => Ok(AtStop),
            (AtStop | UnderWay, Some(b';')) => Ok(UnderWay),
            (AtStop, Some(b'?')) => Ok(UnderWay),
            (AtStop | UnderWay, Some(b'<')) => Ok(AtEnd),
            (AtEnd, Some(b'?')) => Ok(Ended),
            _ => Err(misplaced(letter)),
        }
    }

    fn may_end(self) -> bool {
        matches!(self, Place::AtEnd | Place::Ended)
    }
}

/// The fault of a line that may not stand where it does, whatever it holds.
fn misplaced(letter: Option<u8>) -> Fault {
    match letter {
        Some(b'@' | b'#' | b'%' | b'-' | b'&' | b'*' | b'>' | b'.' | b'+' | b';' | b'<' | b'?') => {
            Fault::Order
        }
        _ => Fault::Layout,
    }
}

/// Reads blocks, one after another; the records gathered so far are reused.
pub struct BlockReader<'s> {
    references: References<'s>,
    place: Place,
    stops: u16,
    records: Vec<Record>,
}

impl<'s> BlockReader<'s> {
    pub fn new(references: References<'s>) -> Self {
        BlockReader { references, place: Place::Opened, stops: 0, records: Vec::new() }
    }

    /// Reads a block after its `#`: every line up to the next `#`, then the
    /// block as a whole.
    pub fn block(&mut self, number: u32, ordinal: u64, lines: &mut Lines) -> Result<Service, Refusal> {
        self.place = Place::Opened;
        self.stops = 0;
        self.records.clear();
        let mut last = 1;
        while let Some(line) = lines.next_in_group() {
            last += 1;
            self.line(line).map_err(|fault| fault.at(File::TimeTbls, ordinal, last))?;
        }
        if !self.place.may_end() {
            return Err(Fault::Order.at(File::TimeTbls, ordinal, last));
        }
        legs::settle(&mut self.records, self.stops).map_err(|fault| fault.at(File::TimeTbls, ordinal, 1))?;
        Ok(Service { number, stops: self.stops, records: self.records.as_slice().into() })
    }

    fn line(&mut self, line: Line) -> Result<(), Fault> {
        self.place = self.place.after(line.letter())?;
        let record = match line.text[0] {
            b'%' => self.service_number(line),
            b'-' => self.validity(line),
            b'&' => self.mode(line),
            b'*' => self.attribute(line),
            b';' => self.passed(line),
            b'?' => self.platform(line),
            b'+' => self.interval(line),
            letter => self.one_time_stop(line, letter),
        }?;
        self.records.push(record);
        Ok(())
    }

    fn service_number(&self, line: Line) -> Result<Record, Fault> {
        columns::SERVICE_NUMBER.check(line)?;
        let company = short_number(columns(line.text, 2, 4))?;
        let number = number(columns(line.text, 6, 10))?;
        let span = span(line.text, 20)?;
        self.references.companies.refer(company)?;
        Ok(Record::Number { company, number, span })
    }

    fn validity(&self, line: Line) -> Result<Record, Fault> {
        columns::VALIDITY.check(line)?;
        let footnote = number(columns(line.text, 2, 6))?;
        let span = span(line.text, 8)?;
        let footnote = self.references.footnotes.refer(footnote)?;
        Ok(Record::Validity { footnote, span })
    }

    fn mode(&self, line: Line) -> Result<Record, Fault> {
        columns::MODE.check(line)?;
        let mode = code(columns(line.text, 2, 5))?;
        let span = span(line.text, 7)?;
        let mode = self.references.modes.refer(mode)?;
        Ok(Record::Mode { mode, span })
    }

    fn attribute(&self, line: Line) -> Result<Record, Fault> {
        columns::ATTRIBUTE.check(line)?;
        let code = code(columns(line.text, 2, 5))? as u32;
        let span = span(line.text, 7)?;
        let footnote = number(columns(line.text, 15, 19))?;
        let footnote = self.references.footnotes.refer(footnote)?;
        Ok(Record::Attribute { code, span, footnote })
    }

    /// `>`, `.` and `<`.
    fn one_time_stop(&mut self, line: Line, letter: u8) -> Result<Record, Fault> {
        columns::ONE_TIME_STOP.check(line)?;
        let station = code(columns(line.text, 2, 8))?;
        let time = clock(columns(line.text, 10, 13))?;
        self.count_stop()?;
        let station = self.references.stations.refer(station)?;
        Ok(match letter {
            b'>' => Record::Start { station, departure: time },
            b'<' => Record::Final { station, arrival: time },
            _ => Record::Through { station, time },
        })
    }

    fn interval(&mut self, line: Line) -> Result<Record, Fault> {
        columns::INTERVAL.check(line)?;
        let station = code(columns(line.text, 2, 8))?;
        let arrival = clock_or_none(columns(line.text, 10, 13))?;
        let departure = clock_or_none(columns(line.text, 15, 18))?;
        let in_order = match (arrival, departure) {
            (Some(arrival), Some(departure)) => arrival < departure,
            (None, None) => false,
            _ => true,
        };
        if !in_order {
            return Err(Fault::Value);
        }
        self.count_stop()?;
        let station = self.references.stations.refer(station)?;
        Ok(Record::Interval { station, arrival, departure })
    }

    fn passed(&self, line: Line) -> Result<Record, Fault> {
        columns::PASSED.check(line)?;
        let station = code(columns(line.text, 2, 8))?;
        let station = self.references.stations.refer(station)?;
        Ok(Record::Passed { station })
    }

    fn platform(&self, line: Line) -> Result<Record, Fault> {
        columns::PLATFORM.check(line)?;
        let footnote = number(columns(line.text, 14, 18))?;
        let footnote = self.references.footnotes.refer(footnote)?;
        Ok(Record::Platform { footnote })
    }

    fn count_stop(&mut self) -> Result<(), Fault> {
        if self.stops == MOST_STOPS {
            return Err(Fault::Value);
        }
        self.stops += 1;
        Ok(())
    }
}

/// Two stop numbers of three digits, a comma between them.
fn span(text: &[u8], column: usize) -> Result<Span, Fault> {
    let first = short_number(columns(text, column, column + 2))?;
    let last = short_number(columns(text, column + 4, column + 6))?;
    Ok(Span { first, last })
}

/// Reads the lines of TIMETBLS after the first.
pub fn services(mut lines: Lines, references: References) -> Result<Keyed<u32, Service>, Refusal> {
    let mut services = Keyed::default();
    let mut reader = BlockReader::new(references);
    if let Some(stray) = lines.next_in_group() {
        return Err(misplaced(stray.letter()).at(File::TimeTbls, 0, 2));
    }
    let mut ordinal = 0;
    while let Some(opening) = lines.next() {
        ordinal += 1;
        let number = service(opening, &mut services).map_err(|fault| fault.at(File::TimeTbls, ordinal, 1))?;
        services.push(reader.block(number, ordinal, &mut lines)?);
    }
    Ok(services)
}

/// The `#` of a block: a service that is new in the file.
fn service(line: Line, services: &mut Keyed<u32, Service>) -> Result<u32, Fault> {
    columns::SERVICE.check(line)?;
    let number = number(columns(line.text, 2, 9))?;
    services.claim(number)?;
    Ok(number)
}
