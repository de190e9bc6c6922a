//! The functions of the archive in an x86-64 process under `qemu-x86_64`.
//!
//! Both sides speak in 64-bit words, lowest byte first. The first word asked is
//! the call. For a load follow: the lengths of the eleven files in bytes, which
//! of them are not sent since they are large and hold zeros alone, the lengths
//! of the eleven tables in words, what the six words of the answer and the
//! tables hold, then the other files. Answered: the six words, then the tables.
//!
//! For any other call follow: six numbers, those beyond the call's own zero;
//! what seven words and four minutes hold, of which the call writes its own;
//! the lengths in bytes of thirteen slices, those beyond the call's own zero;
//! then the slices. Answered: the seven words and the four minutes; then the
//! slice that the call has written, if it writes one: TIMETBLS of an amendment,
//! the answers of a sheet.

use std::io::{self, BufWriter, Read, Write};
use std::process::{Child, ChildStdin, ChildStdout, Command, Stdio};
use std::sync::{Mutex, PoisonError};

use crate::{AmendedTables, Files, Keys, LentTables, Side, Tables, Words};

const WORD: usize = size_of::<u64>();

/// The most slices that a call is lent: eleven tables, questions and answers.
const SLICES: usize = 13;

/// Bytes are gathered so far before they are sent; larger files go by themselves.
const GATHERED: usize = 1 << 20;

/// Started by the first call; it ends when its input does, with this process.
static SERVANT: Mutex<Option<Servant>> = Mutex::new(None);

struct Servant {
    questions: BufWriter<ChildStdin>,
    answers: ChildStdout,
    _process: Child,
}

/// The calls by number, as `servant.c` has them.
enum Call {
    Load,
    IsSound,
    RunningDay,
    StopTime,
    Change,
    Name,
    LinesNow,
    Amend,
    Rank,
    Sheet,
}

pub fn load(files: Files, tables: Tables, answer: &mut Words) {
    with_servant(|servant| servant.load(files, tables, answer))
}

pub fn is_sound(tables: LentTables) -> u64 {
    let mut answer = [u64::MAX];
    ask_tables(Call::IsSound, tables, &[], &mut answer, &mut []);
    answer[0]
}

pub fn running_day(tables: LentTables, service: u64, leg: u64, date: u64, answer: &mut [u64; 2]) {
    ask_tables(Call::RunningDay, tables, &[service, leg, date], answer, &mut [])
}

pub fn stop_time(
    tables: LentTables,
    service: u64,
    stop: u64,
    date: u64,
    answer: &mut [u64; 4],
    minutes: &mut [i32; 4],
) {
    ask_tables(Call::StopTime, tables, &[service, stop, date], answer, minutes)
}

pub fn change(tables: LentTables, from: Side, to: Side, answer: &mut [u64; 7], gap: &mut [i32; 1]) {
    let numbers = [from.service, from.stop, from.date, to.service, to.stop, to.date];
    ask_tables(Call::Change, tables, &numbers, answer, gap)
}

pub fn sheet(tables: LentTables, questions: &[u64], answers: &mut [u64]) -> u64 {
    let mut number = [u64::MAX];
    let bytes: Vec<Vec<u8>> = tables.into_iter().chain([questions, &*answers]).map(bytes_of).collect();
    let lent: Vec<&[u8]> = bytes.iter().map(Vec::as_slice).collect();
    with_servant(|servant| {
        servant.ask(Call::Sheet, &lent, &[], &mut number, &mut [])?;
        servant.receive(answers)
    });
    number[0]
}

pub fn name(stations: &[u8], short: u64, answer: &mut [u64; 3]) {
    ask(Call::Name, &[stations], &[short], answer, &mut [])
}

pub fn lines_now(text: &[u8], block: &[u8], service: u64, answer: &mut [u64; 4]) {
    ask(Call::LinesNow, &[text, block], &[service], answer, &mut [])
}

pub fn rank(keys: Keys) -> u64 {
    let mut answer = [u64::MAX];
    let numbers = [keys.from_company, keys.from_mode, keys.to_company, keys.to_mode];
    ask(Call::Rank, &[], &numbers, &mut answer, &mut []);
    answer[0]
}

pub fn amend(tables: AmendedTables, service: u64, block: &[u8], answer: &mut Words) {
    let AmendedTables { before, timetbls, behind } = tables;
    let all = before.iter().copied().chain([&*timetbls]).chain(behind);
    let bytes: Vec<Vec<u8>> = all.map(bytes_of).collect();
    let lent: Vec<&[u8]> = bytes.iter().map(Vec::as_slice).chain([block]).collect();
    with_servant(|servant| {
        servant.ask(Call::Amend, &lent, &[service], answer, &mut [])?;
        servant.receive(timetbls)
    })
}

/// Another process has no other way to the tables than a copy of them.
fn ask_tables(call: Call, tables: LentTables, numbers: &[u64], words: &mut [u64], minutes: &mut [i32]) {
    let bytes = tables.map(bytes_of);
    ask(call, &bytes.each_ref().map(Vec::as_slice), numbers, words, minutes)
}

fn ask(call: Call, lent: &[&[u8]], numbers: &[u64], words: &mut [u64], minutes: &mut [i32]) {
    with_servant(|servant| servant.ask(call, lent, numbers, words, minutes))
}

fn with_servant(work: impl FnOnce(&mut Servant) -> io::Result<()>) {
    let mut servant = SERVANT.lock().unwrap_or_else(PoisonError::into_inner);
    let done = started(&mut servant).and_then(work);
    done.unwrap_or_else(|error| panic!("The emulated archive does not answer: {error}."))
}

fn started(servant: &mut Option<Servant>) -> io::Result<&mut Servant> {
    if servant.is_none() {
        *servant = Some(Servant::start()?);
    }
    servant.as_mut().ok_or_else(|| io::ErrorKind::NotConnected.into())
}

/// A file of the largest length takes longer through a pipe than a load of it.
fn is_large_and_blank(file: &[u8]) -> bool {
    const ZEROS: [u8; 4096] = [0; 4096];
    file.len() > GATHERED && file.chunks(ZEROS.len()).all(|part| part == &ZEROS[..part.len()])
}

fn bytes_of(words: &[u64]) -> Vec<u8> {
    words.iter().flat_map(|word| word.to_le_bytes()).collect()
}

/// The numbers, and zeros up to so many.
fn padded<const COUNT: usize>(numbers: impl IntoIterator<Item = u64>) -> [u64; COUNT] {
    let mut all = [0; COUNT];
    all.iter_mut().zip(numbers).for_each(|(place, number)| *place = number);
    all
}

impl Servant {
    fn start() -> io::Result<Servant> {
        let mut process = Command::new(env!("PROVED_EMULATOR"))
            .arg(env!("PROVED_SERVANT"))
            .stdin(Stdio::piped())
            .stdout(Stdio::piped())
            .spawn()?;
        let pipes = process.stdin.take().zip(process.stdout.take());
        let (stdin, answers) = pipes.ok_or(io::ErrorKind::NotConnected)?;
        Ok(Servant { questions: BufWriter::with_capacity(GATHERED, stdin), answers, _process: process })
    }

    fn load(&mut self, files: Files, tables: Tables, answer: &mut Words) -> io::Result<()> {
        let blank = files.map(is_large_and_blank);
        self.send(&[Call::Load as u64])?;
        self.send(&files.map(|file| file.len() as u64))?;
        self.send(&blank.map(u64::from))?;
        self.send(&tables.each_ref().map(|table| table.len() as u64))?;
        self.send(answer)?;
        for table in &tables {
            self.send(table)?;
        }
        for (file, _) in files.iter().zip(blank).filter(|(_, blank)| !blank) {
            self.questions.write_all(file)?;
        }
        self.questions.flush()?;

        self.receive(answer)?;
        for table in tables {
            self.receive(table)?;
        }
        Ok(())
    }

    fn ask(
        &mut self,
        call: Call,
        lent: &[&[u8]],
        numbers: &[u64],
        words: &mut [u64],
        minutes: &mut [i32],
    ) -> io::Result<()> {
        let mut all_words: [u64; 7] = padded(words.iter().copied());
        // The sign goes along: a minute's word is its two's complement.
        let mut all_minutes: [u64; 4] = padded(minutes.iter().map(|&minute| i64::from(minute) as u64));
        self.send(&[call as u64])?;
        self.send(&padded::<6>(numbers.iter().copied()))?;
        self.send(&all_words)?;
        self.send(&all_minutes)?;
        self.send(&padded::<SLICES>(lent.iter().map(|slice| slice.len() as u64)))?;
        for slice in lent {
            self.questions.write_all(slice)?;
        }
        self.questions.flush()?;

        self.receive(&mut all_words)?;
        self.receive(&mut all_minutes)?;
        words.iter_mut().zip(all_words).for_each(|(word, answered)| *word = answered);
        minutes.iter_mut().zip(all_minutes).for_each(|(minute, answered)| *minute = answered as i32);
        Ok(())
    }

    fn send(&mut self, words: &[u64]) -> io::Result<()> {
        self.questions.write_all(&bytes_of(words))
    }

    fn receive(&mut self, words: &mut [u64]) -> io::Result<()> {
        let mut bytes = vec![0; words.len() * WORD];
        self.answers.read_exact(&mut bytes)?;
        for (word, bytes) in words.iter_mut().zip(bytes.chunks_exact(WORD)) {
            *word = u64::from_le_bytes(bytes.try_into().expect("a word's bytes"));
        }
        Ok(())
    }
}
