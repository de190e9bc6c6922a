//! Loading a delivery: the tests of whole files, then all lines in order.

use crate::columns::{self, columns};
use crate::files::{File, FILES, LONGEST_FILE};
use crate::groups::{self, XReferences};
use crate::lines::{self, Line, Lines};
use crate::refusals::{Fault, Refusal};
use crate::rows;
use crate::store::{Header, Store, Timetable, MOST_DAYS};
use crate::timetbls::{self, References};
use crate::values::{days, short_number};

/// Loads a delivery. Files and rooms stand in reading order; an absent file is
/// empty, and a room counts lines, the first line included.
pub fn load(files: &[&[u8]; FILES], rooms: &[usize; FILES]) -> Result<Store, Refusal> {
    test_files(files, rooms)?;
    let text = |file: File| files[file.index()];
    let delivery = delivery(text(File::Delivery))?;
    let lines_of = |file: File| delivery.lines_of(file, text(file));

    let companies = rows::companies(lines_of(File::Company)?)?;
    companies.refer(delivery.header.company).map_err(|fault| fault.at(File::Delivery, 0, 1))?;
    let countries = rows::countries(lines_of(File::Country)?)?;
    let modes = rows::modes(lines_of(File::TrnsMode)?)?;
    let zones = groups::zones(lines_of(File::TimeZone)?)?;
    let stations = rows::stations(lines_of(File::Stations)?, &countries, &zones)?;
    let days = delivery.header.days();
    let footnotes = groups::footnotes(File::Footnote, lines_of(File::Footnote)?, days)?;
    let references =
        References { companies: &companies, modes: &modes, stations: &stations, footnotes: &footnotes };
    let services = timetbls::services(lines_of(File::TimeTbls)?, references)?;

    let if_present = |file: File| (!text(file).is_empty()).then_some(file);
    let changes = if_present(File::Changes)
        .map(|file| groups::changes(lines_of(file)?, &stations, &services))
        .transpose()?;
    let xfootnotes =
        if_present(File::XFootnote).map(|file| groups::footnotes(file, lines_of(file)?, days)).transpose()?;
    let xchanges = if_present(File::XChanges)
        .zip(xfootnotes.as_ref())
        .map(|(file, xfootnotes)| {
            let references =
                XReferences { companies: &companies, modes: &modes, stations: &stations, xfootnotes };
            groups::xchanges(lines_of(file)?, references)
        })
        .transpose()?;

    let timetable = Timetable {
        lines: 1 + services.rows().iter().map(|service| service.lines()).sum::<usize>(),
        bytes: text(File::TimeTbls).len(),
        room: rooms[File::TimeTbls.index()],
        services,
    };
    let header = delivery.header;
    Ok(Store {
        header,
        companies,
        countries,
        modes,
        zones,
        stations,
        footnotes,
        timetable,
        changes,
        xfootnotes,
        xchanges,
    })
}

/// Tests 1, 3 and 2, each over all files in order.
fn test_files(files: &[&[u8]; FILES], rooms: &[usize; FILES]) -> Result<(), Refusal> {
    let refuse_first = |fault: Fault, refused: &dyn Fn(File) -> bool| {
        let first = File::ALL.into_iter().find(|&file| refused(file));
        first.map_or(Ok(()), |file| Err(fault.of(file)))
    };
    let text = |file: File| files[file.index()];
    let xchanges_present = !text(File::XChanges).is_empty();
    refuse_first(Fault::TooLong, &|file| text(file).len() > LONGEST_FILE)?;
    refuse_first(Fault::Absent, &|file| text(file).is_empty() && file.is_needed(xchanges_present))?;
    refuse_first(Fault::NoRoom, &|file| lines::count(text(file)) > rooms[file.index()])
}

/// DELIVERY: its first line as it stands, which all files repeat, and what is
/// kept of it.
struct Delivery<'a> {
    text: &'a [u8],
    header: Header,
}

fn delivery(text: &[u8]) -> Result<Delivery<'_>, Refusal> {
    let mut lines = Lines::of(text);
    let first = first_line(&mut lines).map_err(|fault| fault.at(File::Delivery, 0, 1))?;
    let header = header(first.text).map_err(|fault| fault.at(File::Delivery, 0, 1))?;
    match lines.next() {
        None => Ok(Delivery { text: first.text, header }),
        Some(_) => Err(Fault::Order.at(File::Delivery, 0, 2)),
    }
}

impl Delivery<'_> {
    /// The lines after the first of another file. A first line equal to
    /// DELIVERY's needs no test of its values.
    fn lines_of<'f>(&self, file: File, text: &'f [u8]) -> Result<Lines<'f>, Refusal> {
        let mut lines = Lines::of(text);
        let first = first_line(&mut lines).map_err(|fault| fault.at(file, 0, 1))?;
        if first.text != self.text {
            return Err(Fault::FirstLine.at(file, 0, 1));
        }
        Ok(lines)
    }
}

fn first_line<'a>(lines: &mut Lines<'a>) -> Result<Line<'a>, Fault> {
    let line = lines.next().filter(|line| line.letter() == Some(b'@')).ok_or(Fault::Order)?;
    columns::FIRST_LINE.check(line)?;
    Ok(line)
}

fn header(text: &[u8]) -> Result<Header, Fault> {
    let company = short_number(columns(text, 2, 4))?;
    let (first_day, last_day) = days(columns(text, 6, 13), columns(text, 15, 22))?;
    let version = short_number(columns(text, 24, 27))?;
    let header = Header { company, first_day, last_day, version };
    if header.days() > MOST_DAYS {
        return Err(Fault::Value);
    }
    Ok(header)
}
