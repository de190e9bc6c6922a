//! Questions from standard input, answers one a line.

use std::cell::LazyCell;
use std::collections::{HashMap, HashSet};
use std::ffi::OsStr;
use std::io::{self, BufRead, BufReader, Read, Write};
use std::os::unix::ffi::OsStrExt;
use std::path::Path;
use std::slice;
use std::thread::{self, Builder};

use proved::{Change, Refusal, Side, Source};
use serde::Serialize;

use crate::answers::{json, Accepted, Error, Refused, Runs, Stop, TextLines};
use crate::card::{self, Exceptions};
use crate::commands::{name_of, read_block};
use crate::dates::number_of_any_size;
use crate::files::latin;
use crate::files::place::STATIONS;
use crate::progress::Progress;
use crate::store::{Lock, Store};
use crate::tables::{Service, Tables};
use crate::trouble::Trouble;

/// A question, taken apart.
enum Question<'a> {
    Runs { service: u64, leg: u64, date: u64 },
    Stop { service: u64, stop: u64, date: u64 },
    Change { from: Side, to: Side },
    Name(String),
    Lines(u64),
    Amend { service: u64, file: &'a Path },
}

/// A line: a question, or why it is none.
type Line<'a> = Result<Question<'a>, String>;

const FORMS: &str = "runs S L D, stop S I D, change S I D S I D, name CODE, lines S or amend S FILE";

/// So many lines that have come are answered together, at most.
const TOGETHER: usize = 10_000;

/// So many of them may be questions that test soundness each by itself, so that
/// answers are not held back for long.
const BY_THEMSELVES: usize = 64;

/// The stack of a thread that asks: the proved functions keep indexes on it.
const STACK: usize = 4 << 20;

/// Answers every line of the input, in order. Questions to the tables that have
/// come together are put to them at once.
pub fn ask(root: &Path, input: impl Read, mut output: impl Write) -> Result<(), Trouble> {
    let mut desk = Desk { root, store: Store::read(root, &Progress::hidden())?, stations: None };
    // Damaged or unsound tables are made again, or refused, before any answer.
    desk.store.sound(&Progress::hidden())?;
    let mut input = BufReader::with_capacity(1 << 20, input);
    loop {
        let lines = next_lines(&mut input)
            .map_err(|error| Trouble::new(format!("Standard input cannot be read: {error}.")))?;
        if lines.is_empty() {
            return Ok(());
        }
        let questions: Vec<Line> = lines.iter().map(|line| parse(line)).collect();
        let mut rest = &questions[..];
        while !rest.is_empty() {
            let (now, later) = rest.split_at(together(rest).max(1));
            rest = later;
            let answers: String = desk.answers(now).into_iter().map(|answer| answer + "\n").collect();
            match output.write_all(answers.as_bytes()).and_then(|()| output.flush()) {
                Ok(()) => (),
                // Nobody reads any more.
                Err(error) if error.kind() == io::ErrorKind::BrokenPipe => return Ok(()),
                Err(error) => {
                    return Err(Trouble::new(format!("Standard output cannot be written: {error}.")))
                }
            }
        }
    }
}

/// How many lines, from the first on, are answered together: those that ask the tables
/// alone, or nothing.
fn together(lines: &[Line]) -> usize {
    let mut by_themselves = 0;
    let fits = |line: &&Line| match line {
        Ok(Question::Runs { .. } | Question::Stop { .. }) => {
            by_themselves += 1;
            by_themselves <= BY_THEMSELVES
        }
        Ok(Question::Change { .. }) | Err(_) => true,
        Ok(Question::Name(_) | Question::Lines(_) | Question::Amend { .. }) => false,
    };
    lines.iter().take_while(fits).count()
}

/// The answers of lines that are answered together. The changes are put to the tables
/// by one call, the other questions by one each, on all processors. 16.
fn answered(tables: &Tables, lines: &[Line]) -> Result<Vec<String>, Refusal> {
    let asked = |line: &Line| match line {
        Ok(Question::Change { from, to }) => Some((*from, *to)),
        _ => None,
    };
    let of_changes: Vec<(Side, Side)> = lines.iter().filter_map(asked).collect();
    let others: Vec<&Question> =
        lines.iter().flatten().filter(|question| !matches!(question, Question::Change { .. })).collect();
    let threads = thread::available_parallelism().map_or(1, usize::from);
    let (changed, answers) = thread::scope(|scope| {
        let start = |share| Builder::new().stack_size(STACK).spawn_scoped(scope, move || each(tables, share));
        let shares = others.chunks(others.len().div_ceil(threads).max(1));
        let started: Vec<_> = shares.map(|share| (share, start(share))).collect();
        let changed = changes(tables, &of_changes);
        // What no thread was to be had for is asked here.
        let ended = started.into_iter().map(|(share, thread)| {
            thread.ok().and_then(|thread| thread.join().ok()).unwrap_or_else(|| each(tables, share))
        });
        (changed, ended.collect::<Result<Vec<_>, Refusal>>())
    });
    let (mut changed, mut answers) = (changed?.into_iter(), answers?.into_iter().flatten());
    let next = |line: &Line| match line {
        Ok(Question::Change { .. }) => changed.next(),
        Ok(_) => answers.next(),
        Err(why) => Some(error(why.clone())),
    };
    Ok(lines.iter().filter_map(next).collect())
}

/// The answers of changes, by one call. 16.
fn changes(tables: &Tables, asked: &[(Side, Side)]) -> Result<Vec<String>, Refusal> {
    if asked.is_empty() {
        return Ok(Vec::new());
    }
    let answers = proved::sheet(tables.lent(), asked)?;
    // Reasons are looked for where there are any: one pass finds the services.
    let excepted = |(answer, _): &(&Result<Change, Refusal>, &(Side, Side))| {
        answer.is_ok_and(|change| change.source == Some(Source::XChanges))
    };
    let excepted = answers.iter().zip(asked).filter(excepted);
    let wanted: HashSet<u64> = excepted.flat_map(|(_, (from, to))| [from.service, to.service]).collect();
    let services: HashMap<u64, Service> = match wanted.is_empty() {
        true => HashMap::new(),
        false => tables
            .services()
            .filter(|service| wanted.contains(&service.number()))
            .map(|service| (service.number(), service))
            .collect(),
    };
    let exceptions = LazyCell::new(|| Exceptions::of(tables));
    let told = |(answer, &(from, to)): (&Result<Change, Refusal>, &(Side, Side))| match answer {
        Ok(change) => {
            let both = || [from, to].map(|side| services.get(&side.service).copied());
            let reasoned = card::reasoned(change, || exceptions.between(both(), from, to));
            json(&card::changed(change, reasoned.as_ref()))
        }
        Err(refusal) => json(&Refused::nowhere(*refusal)),
    };
    Ok(answers.iter().zip(asked).map(told).collect())
}

/// The answers of other questions to the tables, by a call each. 16.
fn each(tables: &Tables, questions: &[&Question]) -> Result<Vec<String>, Refusal> {
    let answer = |question: &&Question| {
        let answer = match **question {
            Question::Runs { service, leg, date } => {
                proved::running_day(tables.lent(), service, leg, date).map(|running| json(&Runs::of(running)))
            }
            Question::Stop { service, stop, date } => proved::stop_time(tables.lent(), service, stop, date)
                .map(|times| json(&Stop::of(&times, date))),
            _ => Ok(String::new()),
        };
        match answer {
            // Such tables are made again first.
            Err(Refusal(16)) => answer,
            answer => Ok(answer.unwrap_or_else(|refusal| json(&Refused::nowhere(refusal)))),
        }
    };
    questions.iter().map(answer).collect()
}

/// The next line, which is waited for, and those behind it that have come too.
fn next_lines(input: &mut BufReader<impl Read>) -> io::Result<Vec<Vec<u8>>> {
    let mut lines: Vec<Vec<u8>> = Vec::new();
    while lines.is_empty() || (lines.len() < TOGETHER && input.buffer().contains(&b'\n')) {
        let mut line = Vec::new();
        if input.read_until(b'\n', &mut line)? == 0 {
            break;
        }
        for end in [b'\n', b'\r'] {
            line.pop_if(|last| *last == end);
        }
        lines.push(line);
    }
    Ok(lines)
}

fn error(error: String) -> String {
    json(&Error { error })
}

fn parse(line: &[u8]) -> Line<'_> {
    let (word, rest) = split(line);
    let numbers = || -> Option<Vec<u64>> {
        let words = rest.split(|&byte| byte == b' ').filter(|word| !word.is_empty());
        words.map(|word| number_of_any_size(std::str::from_utf8(word).ok()?)).collect()
    };
    let question = match word {
        b"runs" => numbers().and_then(|numbers| match numbers[..] {
            [service, leg, date] => Some(Question::Runs { service, leg, date }),
            _ => None,
        }),
        b"stop" => numbers().and_then(|numbers| match numbers[..] {
            [service, stop, date] => Some(Question::Stop { service, stop, date }),
            _ => None,
        }),
        b"change" => numbers().and_then(|numbers| match numbers[..] {
            [service, stop, date, to_service, to_stop, to_date] => Some(Question::Change {
                from: Side { service, stop, date },
                to: Side { service: to_service, stop: to_stop, date: to_date },
            }),
            _ => None,
        }),
        b"name" => Some(Question::Name(text_of(rest))),
        b"lines" => numbers().and_then(|numbers| match numbers[..] {
            [service] => Some(Question::Lines(service)),
            _ => None,
        }),
        b"amend" => {
            let (service, file) = split(rest);
            let service = std::str::from_utf8(service).ok().and_then(number_of_any_size);
            let file = (!file.is_empty()).then(|| Path::new(OsStr::from_bytes(file)));
            service.zip(file).map(|(service, file)| Question::Amend { service, file })
        }
        _ => None,
    };
    question
        .ok_or_else(|| format!("`{}` is no question: write {FORMS}", text_of(&line[..line.len().min(200)])))
}

/// The first word, and the rest behind one blank.
fn split(line: &[u8]) -> (&[u8], &[u8]) {
    match line.iter().position(|&byte| byte == b' ') {
        Some(at) => (&line[..at], &line[at + 1..]),
        None => (line, &[]),
    }
}

/// UTF-8, and where it is none, Latin-1.
fn text_of(bytes: &[u8]) -> String {
    String::from_utf8(bytes.to_vec()).unwrap_or_else(|_| latin(bytes))
}

/// The store that questions are put to, as others may have amended it.
struct Desk<'a> {
    root: &'a Path,
    store: Store,
    stations: Option<Vec<u8>>,
}

impl Desk<'_> {
    /// Answers lines that are answered together, or one.
    fn answers(&mut self, lines: &[Line]) -> Vec<String> {
        if let Some(answers) = self.at_once(lines) {
            return answers;
        }
        let answer = |line: &Line| self.settled(line).unwrap_or_else(|trouble| error(trouble.to_string()));
        lines.iter().map(answer).collect()
    }

    /// The answers of all lines from the tables as they stand. None where that is not to
    /// be had: then they are put one by one.
    fn at_once(&mut self, lines: &[Line]) -> Option<Vec<String>> {
        if lines.len() < 2 {
            return None;
        }
        self.refresh().ok()?;
        self.store.ask(&Progress::hidden(), |tables| answered(tables, lines)).ok()?.ok()
    }

    /// Reads the store again where another program has written it.
    fn refresh(&mut self) -> Result<(), Trouble> {
        if self.store.is_stale() {
            self.store = Store::read(self.root, &Progress::hidden())?;
            self.stations = None;
        }
        Ok(())
    }

    /// An answer, from the new delivery where one is put into the store meanwhile.
    fn settled(&mut self, line: &Line) -> Result<String, Trouble> {
        const TRIES: usize = 5;
        let mut answer = self.answer(line);
        for _ in 1..TRIES {
            match &answer {
                Err(trouble) if trouble.gone && self.store.is_stale() => answer = self.answer(line),
                _ => break,
            }
        }
        answer
    }

    fn answer(&mut self, line: &Line) -> Result<String, Trouble> {
        let question = match line {
            Ok(question) => question,
            Err(why) => return Ok(error(why.clone())),
        };
        if let &Question::Amend { service, file } = question {
            return self.amend(service, file);
        }
        self.refresh()?;
        Ok(match *question {
            Question::Name(ref code) => {
                if self.stations.is_none() {
                    self.stations = Some(self.store.text(STATIONS)?);
                }
                told(name_of(self.stations.as_deref().unwrap_or_default(), code))
            }
            Question::Lines(service) => {
                told(self.store.lines(service)?.map(|lines| TextLines { lines: latin(&lines) }))
            }
            _ => {
                let ask = |tables: &Tables| answered(tables, slice::from_ref(line));
                let answers = self.store.ask(&Progress::hidden(), ask)?;
                answers.map_or_else(|refusal| json(&Refused::nowhere(refusal)), |answers| answers.concat())
            }
        })
    }

    fn amend(&mut self, service: u64, file: &Path) -> Result<String, Trouble> {
        let block = read_block(file)?;
        let _lock = Lock::taken(self.root)?;
        if self.store.is_stale() {
            self.store = Store::read_locked(self.root, &Progress::hidden())?;
            self.stations = None;
        }
        self.store.locked = true;
        let answer = self.store.amend(service, &block, &Progress::hidden());
        self.store.locked = false;
        let answer = answer?;
        Ok(match answer.is_accepted() {
            true => json(&Accepted::of(&answer)),
            false => json(&Refused::of(&answer)),
        })
    }
}

fn told<T: Serialize>(answer: Result<T, Refusal>) -> String {
    match answer {
        Ok(answer) => json(&answer),
        Err(refusal) => json(&Refused::nowhere(refusal)),
    }
}

#[cfg(test)]
mod tests {
    use super::*;
    use crate::loading::example;
    use crate::tables::WIDTHS;

    fn lines(text: &str) -> Vec<Line<'_>> {
        text.lines().map(|line| parse(line.as_bytes())).collect()
    }

    #[test]
    fn questions_to_the_tables_are_answered_together() {
        let count = |text: &str| together(&lines(text));
        let change = "change 1 2 14122015 3 1 15122015\n";
        assert_eq!(count(&change.repeat(5_000)), 5_000);
        assert_eq!(count(&format!("{change}nonsense\nruns 1 1 1\nstop 1 1 1\n{change}")), 5);
        for other in ["name HVH", "lines 1", "amend 1 block"] {
            assert_eq!(count(&format!("{change}{change}{other}\n{change}")), 2);
            assert_eq!(count(other), 0);
        }
        // Each of these tests soundness by itself.
        let runs = format!("runs 1 1 14122015\n{change}");
        assert_eq!(count(&runs.repeat(BY_THEMSELVES)), 2 * BY_THEMSELVES);
        assert_eq!(count(&runs.repeat(BY_THEMSELVES + 1)), 2 * BY_THEMSELVES);
    }

    #[test]
    fn tables_that_are_not_sound_answer_nothing() {
        let mut tables = example();
        let text = "change 1 2 14122015 3 1 15122015\nnonsense\nruns 1 1 25122015\nchange 9 1 1 1 1 1\n";
        let answers = answered(&tables, &lines(text)).unwrap();
        assert_eq!(answers.len(), 4);
        assert!(answers[0].starts_with("{\"change\":\"unsettled\"") && answers[1].starts_with("{\"error\""));
        assert_eq!(answers[2], "{\"runs\":false}");
        assert!(answers[3].starts_with("{\"refused\":{\"number\":12"));
        // The first station's flag is no figure.
        tables.0[STATIONS][WIDTHS[STATIONS] + 1] = 10;
        for text in [text, "change 9 1 1 1 1 1", "runs 1 1 25122015", "stop 9 9 9"] {
            assert_eq!(answered(&tables, &lines(text)), Err(Refusal(16)), "{text}");
        }
        assert!(answered(&tables, &lines("nonsense")).is_ok());
    }
}
