//! A run of many comparisons: its counts, and what becomes of a difference.

use std::fmt::Debug;
use std::panic::{catch_unwind, AssertUnwindSafe};
use std::path::{Path, PathBuf};
use std::{fs, io};

use compare::answers::{
    asked_of_proved, asked_of_second, changes_of_second, proved_side, sheet_of_proved, Answered, Examined,
    Lent, Sides,
};
use compare::{
    amended_by_proved, amended_by_second, by_proved, by_second, filled_by_proved, filled_by_second, junk,
    Files, Filled, Lengths, Outcome, Tables,
};
use deliveries::{folder, Amendment, Question, Rng, Sheet, Tally, NAMES};
use proved::{Answer, Keys, ANSWER_WORDS};
use second::encode::width;
use second::sound::examine;
use second::{zeroes, File};

/// So many differences are written out; the others are only counted.
const WRITTEN: usize = 5;

pub struct Comparison {
    folder: PathBuf,
    differences: usize,
    rng: Rng,
}

impl Comparison {
    /// Differing deliveries are written into folders below this one.
    pub fn new(folder: PathBuf) -> Comparison {
        Comparison { folder, differences: 0, rng: Rng::new(1) }
    }

    pub fn differences(&self) -> usize {
        self.differences
    }

    /// What is wrong, if the two programs differ.
    pub fn complaint(&self) -> Option<String> {
        let (count, folder) = (self.differences, self.folder.display());
        (count > 0).then(|| format!("The two programs differ {count} times; the first are in {folder}."))
    }

    /// Hands the delivery to both programs and compares all they answer and
    /// leave. Answers what the second program says.
    pub fn compare(&mut self, name: &str, files: Files, lengths: Lengths) -> io::Result<Answer> {
        let second = by_second(files, &lengths);
        let proved = by_proved(files, junk(&mut self.rng, &lengths));
        if proved != second {
            self.note(name, |path| {
                folder::write(&files, path)?;
                let told = explained(&lengths, ("proved", &proved), ("second", &second));
                fs::write(path.join("answers.txt"), told)
            })?;
        }
        Ok(second.answer)
    }

    /// Has both programs amend tables, which the second has examined before, and
    /// compares all they answer and leave. Answers what the second program comes
    /// to.
    pub fn compare_amendment(
        &mut self,
        name: &str,
        tables: &Tables,
        examined: &mut Examined,
        amendment: &Amendment,
    ) -> io::Result<Outcome> {
        let Amendment { service, block } = amendment;
        let second = amended_by_second(examined, tables, *service, block);
        let proved = amended_by_proved(tables.clone(), *service, block);
        if proved != second {
            self.note(name, |path| {
                let lengths = tables.each_ref().map(Vec::len);
                let told = explained(&lengths, ("proved", &proved), ("second", &second));
                fs::write(path.join("answers.txt"), format!("service {service}\n{told}"))?;
                fs::write(path.join("block"), block)?;
                fs::write(path.join("tables.txt"), written(tables))
            })?;
        }
        Ok(second)
    }

    /// Holds what an amendment came to against the proved load of the edited
    /// text into tables as long. A refused load leaves zeros, where a refused
    /// amendment leaves what it found.
    pub fn compare_edited(&mut self, name: &str, files: Files, amended: &Outcome) -> io::Result<()> {
        let lengths = amended.tables.each_ref().map(Vec::len);
        let loaded = by_proved(files, junk(&mut self.rng, &lengths));
        let expected = match amended.answer.is_accepted() {
            true => amended,
            false => &Outcome { answer: amended.answer, tables: zeroes(&lengths) },
        };
        if loaded != *expected {
            self.note(name, |path| {
                folder::write(&files, path)?;
                let told = explained(&lengths, ("loaded", &loaded), ("amended", expected));
                fs::write(path.join("answers.txt"), told)
            })?;
        }
        Ok(())
    }

    /// Asks both programs whether tables are sound. Answers what the second
    /// program finds.
    pub fn compare_soundness(&mut self, name: &str, tables: &Tables) -> io::Result<Examined> {
        let second = examine(tables);
        let proved = answered(|| proved::is_sound(tables.each_ref().map(Vec::as_slice)));
        if proved != Some(second.is_ok()) {
            self.note(name, |path| {
                let found = second.as_ref().map_or_else(|unsound| format!("{unsound:?}"), |_| "sound".into());
                write_answers(path, &"whether the tables are sound", &proved, &found)?;
                fs::write(path.join("tables.txt"), written(tables))
            })?;
        }
        Ok(second)
    }

    /// Puts a question to both programs. Answers what the second program says.
    pub fn compare_answers(
        &mut self,
        name: &str,
        question: &Question,
        lent: Lent,
        examined: &Examined,
    ) -> io::Result<Answered> {
        let second = asked_of_second(question, lent, examined);
        let proved = answered(|| asked_of_proved(question, lent));
        if proved != Some(second) {
            self.note(name, |path| {
                write_answers(path, question, &proved, &second)?;
                fs::write(path.join("tables.txt"), written(lent.tables))?;
                fs::write(path.join("STATIONS"), lent.stations)?;
                fs::write(path.join("TIMETBLS"), lent.timetbls)
            })?;
        }
        Ok(second)
    }

    /// Has both programs fill in a sheet, and compares the number and every word of
    /// the list. Answers what the second program comes to.
    pub fn compare_sheet(&mut self, name: &str, sheet: &Sheet, tables: &Tables) -> io::Result<Filled> {
        let second = filled_by_second(sheet, tables);
        let proved = answered(|| filled_by_proved(sheet, tables));
        if proved.as_ref() != Some(&second) {
            self.note(name, |path| {
                write_answers(path, sheet, &proved, &second)?;
                fs::write(path.join("tables.txt"), written(tables))
            })?;
        }
        Ok(second)
    }

    /// Asks the proved crates for changes by one call and the second program for one
    /// after the other. Answers what the second program says.
    pub fn compare_changes(
        &mut self,
        name: &str,
        changes: &[Sides],
        tables: &Tables,
        examined: &Examined,
    ) -> io::Result<Vec<Answered>> {
        let second = changes_of_second(changes, tables, examined);
        let proved = answered(|| sheet_of_proved(changes, tables));
        let is_same = match (&proved, examined) {
            (Some(Ok(answers)), Ok(_)) => *answers == second,
            (Some(Err(16)), Err(_)) => true,
            _ => false,
        };
        if !is_same {
            self.note(name, |path| {
                write_answers(path, &changes, &proved, &second)?;
                fs::write(path.join("tables.txt"), written(tables))
            })?;
        }
        Ok(second)
    }

    /// Holds an answer on a sheet against the proved crates' answer to the change by
    /// itself, word for word.
    pub fn compare_single(
        &mut self,
        name: &str,
        (from, to): Sides,
        tables: &Tables,
        on_sheet: [u64; ANSWER_WORDS],
    ) -> io::Result<()> {
        let lent = tables.each_ref().map(Vec::as_slice);
        let single = proved::change_words(lent, proved_side(from), proved_side(to));
        if single != on_sheet {
            self.note(name, |path| {
                let told =
                    format!("asked: {from:?}, {to:?}\nsingle: {single:?}\non the sheet: {on_sheet:?}\n");
                fs::write(path.join("answers.txt"), told)?;
                fs::write(path.join("tables.txt"), written(tables))
            })?;
        }
        Ok(())
    }

    /// Asks both programs for the rank of an exception. Answers what the second
    /// program says.
    pub fn compare_rank(&mut self, name: &str, keys: Keys) -> io::Result<u64> {
        let Keys { from_company, from_mode, to_company, to_mode } = keys;
        let second = second::rank(from_company, from_mode, to_company, to_mode);
        let proved = answered(|| proved::rank(keys));
        if proved != Some(second) {
            self.note(name, |path| write_answers(path, &keys, &proved, &second))?;
        }
        Ok(second)
    }

    /// Counts a difference, and writes out the first of them.
    fn note(&mut self, name: &str, write: impl FnOnce(&Path) -> io::Result<()>) -> io::Result<()> {
        self.differences += 1;
        eprintln!("{name}: the two programs differ.");
        if self.differences > WRITTEN {
            return Ok(());
        }
        let path = self.folder.join(name);
        fs::create_dir_all(&path)?;
        write(&path)
    }
}

/// What the archive answers; none where its contracts shut that out, of which
/// the panic has told.
fn answered<T>(ask: impl FnOnce() -> T) -> Option<T> {
    catch_unwind(AssertUnwindSafe(ask)).ok()
}

fn write_answers(
    path: &Path,
    asked: &dyn Debug,
    proved: &Option<impl Debug>,
    second: &impl Debug,
) -> io::Result<()> {
    let proved = proved.as_ref().map_or("what its contracts shut out".into(), |answer| format!("{answer:?}"));
    fs::write(path.join("answers.txt"), format!("asked: {asked:?}\nproved: {proved}\nsecond: {second:?}\n"))
}

/// The tables, a line for each row.
fn written(tables: &Tables) -> String {
    let mut lines = Vec::new();
    for file in File::ALL {
        lines.push(format!("{}, {} words", file.name(), tables[file.index()].len()));
        let rows = tables[file.index()].chunks(width(file));
        lines.extend(rows.map(|row| row.iter().map(u64::to_string).collect::<Vec<_>>().join(" ")));
    }
    lines.join("\n") + "\n"
}

/// Both answers, the lengths of the tables, and where these first differ.
fn explained(lengths: &Lengths, left: (&str, &Outcome), right: (&str, &Outcome)) -> String {
    let ((left_name, left), (right_name, right)) = (left, right);
    let mut lines = vec![
        format!("{left_name}: {}", shown(left.answer)),
        format!("{right_name}: {}", shown(right.answer)),
        format!("words lent: {}", lengths.map(|length| length.to_string()).join(" ")),
    ];
    for (name, (left, right)) in NAMES.iter().zip(left.tables.iter().zip(&right.tables)) {
        let unlike = left.iter().zip(right).position(|(left, right)| left != right);
        lines.extend(unlike.map(|word| format!("{name}, word {word}: {} and {}", left[word], right[word])));
    }
    lines.join("\n") + "\n"
}

/// An answer as the check program of document 01 shows it, and in brackets what
/// should be zero and is not.
pub fn shown(answer: Answer) -> String {
    let Answer { number, file, ordinal, line, days, services } = answer;
    let (said, silent) = match answer.is_accepted() {
        true => (format!("accepted {days} {services}"), vec![file, ordinal, line]),
        false => {
            let name = (file as usize).checked_sub(1).and_then(|place| NAMES.get(place)).unwrap_or(&"?");
            (format!("refused {number} {name} {ordinal} {line}"), vec![days, services])
        }
    };
    match silent.iter().all(|&word| word == 0) {
        true => said,
        false => format!("{said} {silent:?}"),
    }
}

/// Counts the answer.
pub fn count(tally: &mut Tally, answer: Answer) {
    match answer.is_accepted() {
        true => tally.accept(),
        // Numbers of refusals and files are far below 256.
        false => tally.refuse(answer.number as u8, answer.file as u8),
    }
}
