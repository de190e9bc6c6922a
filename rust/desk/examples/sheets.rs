//! Times sheets of changes on a store of 60,000 services, from start to exit of the
//! program, beside the second program answering the same, in the same rounds.
//!
//! cargo run --release --example sheets -- [SERVICES [CHANGES]]
//!
//! The second program is a process of its own too: this one, started with `tables FILE`,
//! the store's file of tables, or `files FOLDER`, the delivery. It opens the tables,
//! which tests them, or loads the files; then it answers the changes that come by its
//! standard input. It looks at no sums, tells nothing of exceptions, and is handed the
//! changes of a station's sheet, which the program finds by itself.

mod runs;

use std::io::Write;
use std::path::{Path, PathBuf};
use std::{array, env, fs, io};

use deliveries::connections::{connections, Connections};
use deliveries::tables::Tables;
use deliveries::{calendar, connected, folder, Rng, World, FILES, NAMES};
use runs::{program, run, Times};
use second::questions::{Change, Reason, Side, Source, Verdict};
use second::{Refusal, Store};
use serde_json::{json, Value};

/// Rounds, of which the best times are taken.
const ROUNDS: usize = 10;

/// How often a round runs each command. The first run may find that the machine has
/// taken back the memory that the one before had.
const RUNS: usize = 2;

/// So many stations are looked at for one with about as many changes as are asked for.
const LOOKED_AT: usize = 10;

const HEADING: &str = "\
| what | changes | with a needed time | s | median | second, of the store's tables s | second, of the delivery's files s | beside second, of tables | beside second, of files |
|---|---|---|---|---|---|---|---|---|";

fn main() {
    let words: Vec<String> = env::args().skip(1).collect();
    let words: Vec<&str> = words.iter().map(String::as_str).collect();
    match words[..] {
        ["tables", file] => answer_lines(&second::open(&tables_in(Path::new(file))).expect("sound tables")),
        ["files", folder] => answer_lines(&loaded(Path::new(folder))),
        _ => {
            let mut numbers = words.iter().map(|word| word.parse().expect("a number"));
            let services = numbers.next().unwrap_or(60_000);
            let changes = numbers.next().unwrap_or(1_000);
            let work = env::temp_dir().join(format!("calyxcabin-sheets-{}", std::process::id()));
            fs::create_dir_all(&work).expect("a folder");
            measure(&work, services, changes);
            fs::remove_dir_all(&work).expect("the folder goes");
        }
    }
}

fn measure(work: &Path, services: usize, changes: usize) {
    let (world, case) = connected(1, services, true);
    let desk = Desk { program: program(), delivery: work.join("delivery"), store: work.join("store") };
    folder::write(&case.texts(), &desk.delivery).expect("the delivery is written");
    run(&desk.program, &["open"], &[&desk.delivery, &desk.store], "");

    let lines = usual_lines(&world, &tables_in(&desk.tables()), changes);
    let one = lines.split_inclusive('\n').take(1).collect();
    let mut works = [desk.asks(one), desk.asks(lines), desk.tells_a_sheet(&world, changes)];
    let mut start = Times::default();
    for _ in 0..ROUNDS * RUNS {
        start.of(|| run(&desk.program, &["--version"], &[], ""));
        works.iter_mut().flat_map(|work| &mut work.runs).for_each(Run::time);
    }
    println!("{services} services; the best of {ROUNDS} rounds, from start to exit.\n\n{HEADING}");
    works.iter().for_each(Work::print);
    println!("\nTo start and to exit alone takes {:.3} s.", start.best());
}

/// The program, and what it works on.
struct Desk {
    program: PathBuf,
    delivery: PathBuf,
    store: PathBuf,
}

impl Desk {
    /// The file of the store's tables.
    fn tables(&self) -> PathBuf {
        self.store.join("1/tables")
    }

    /// `ask` with these lines.
    fn asks(&self, lines: String) -> Work {
        let run = Run::new(&self.program, &["ask"], &self.store, &lines);
        let answers = run.answers();
        self.beside_second("`ask`".into(), run, answers, &lines)
    }

    /// The sheet of a station on the day in the middle of validity: of some stations
    /// the one whose changes are nearest to so many.
    fn tells_a_sheet(&self, world: &World, count: usize) -> Work {
        let date = format!("{:08}", calendar::written(world.first_day + world.days as i64 / 2));
        let codes = world.stations.iter().filter_map(|code| std::str::from_utf8(code).ok());
        let codes =
            codes.map(str::trim_end).filter(|code| code.bytes().all(|byte| byte.is_ascii_lowercase()));
        let sheets = codes.take(LOOKED_AT).map(|code| {
            let run = Run::new(&self.program, &["sheet", code, &date, "--json"], &self.store, "");
            let changes = changes_of(&serde_json::from_slice(&run.said).expect("JSON"));
            (format!("`sheet`, {code} on {date}"), run, changes)
        });
        let nearest = sheets.min_by_key(|(_, _, changes)| changes.len().abs_diff(count));
        let (what, run, changes) = nearest.expect("a station");
        let (lines, answers): (Vec<String>, Vec<Answer>) = changes.into_iter().unzip();
        self.beside_second(what, run, answers, &lines.concat())
    }

    /// The run, which gave these answers, and the second program's for the same changes.
    fn beside_second(&self, what: String, run: Run, answers: Vec<Answer>, lines: &str) -> Work {
        let itself = env::current_exe().expect("this program's path");
        let of_tables = Run::new(&itself, &["tables"], &self.tables(), lines);
        let of_files = Run::new(&itself, &["files"], &self.delivery, lines);
        for second in [&of_tables, &of_files] {
            assert!(second.answers() == answers, "The two programs differ.");
        }
        Work { what, answers, runs: [run, of_tables, of_files] }
    }
}

/// Lines for `ask`: changes from all over the delivery.
fn usual_lines(world: &World, tables: &Tables, count: usize) -> String {
    let changes = connections(&mut Rng::new(1), world, tables, Connections::Usual, count);
    let words = |side: deliveries::questions::Side| format!("{} {} {}", side.service, side.stop, side.date);
    changes.into_iter().map(|(from, to)| format!("change {} {}\n", words(from), words(to))).collect()
}

/// The changes of a sheet as lines for `ask`, and their answers.
fn changes_of(sheet: &Value) -> Vec<(String, Answer)> {
    let list = |value: &Value| value.as_array().cloned().unwrap_or_default();
    let words = |call: &Value| {
        let date = call["service_date"].as_str().unwrap_or_default();
        format!("{} {} {date}", call["service"], call["stop"])
    };
    let of_arrival = |arrival: Value| {
        let change = |change: &Value| {
            (format!("change {} {}\n", words(&arrival), words(&change["to"])), answer_in(change))
        };
        list(&arrival["changes"]).iter().map(change).collect::<Vec<_>>()
    };
    list(&sheet["arrivals"]).into_iter().flat_map(of_arrival).collect()
}

/// What both programs tell of a change: the number of its refusal, the verdict, why not,
/// gap, source and needed time.
type Answer = [Value; 6];

fn answer_in(told: &Value) -> Answer {
    let number = told["refused"]["number"].clone();
    let [verdict, reason, gap, source, needed] =
        ["change", "reason", "gap", "source", "needed"].map(|key| told[key].clone());
    [number, verdict, reason, gap, source, needed]
}

/// A command that answers changes, and the second program's two ways beside it.
struct Work {
    what: String,
    answers: Vec<Answer>,
    runs: [Run; 3],
}

impl Work {
    fn print(&self) {
        let needed = self.answers.iter().filter(|[.., needed]| !needed.is_null()).count();
        let [own, of_tables, of_files] = self.runs.each_ref().map(|run| run.times.best());
        println!(
            "| {} | {} | {needed} | {own:.3} | {:.3} | {of_tables:.3} | {of_files:.3} | {:.2} | {:.2} |",
            self.what,
            self.answers.len(),
            self.runs[0].times.median(),
            own / of_tables,
            own / of_files,
        );
    }
}

/// A process that is run again and again, and what it says each time.
struct Run {
    program: PathBuf,
    words: Vec<String>,
    path: PathBuf,
    input: String,
    said: Vec<u8>,
    times: Times,
}

impl Run {
    /// Runs it once. The path comes behind the first word.
    fn new(program: &Path, words: &[&str], path: &Path, input: &str) -> Run {
        let said = run(program, words, &[path], input).stdout;
        let words = words.iter().map(|word| word.to_string()).collect();
        Run {
            program: program.into(),
            words,
            path: path.into(),
            input: input.into(),
            said,
            times: Times::default(),
        }
    }

    fn time(&mut self) {
        let words: Vec<&str> = self.words.iter().map(String::as_str).collect();
        let output = self.times.of(|| run(&self.program, &words, &[&self.path], &self.input));
        assert!(output.stdout == self.said, "{words:?} says now this and now that.");
    }

    /// One a line.
    fn answers(&self) -> Vec<Answer> {
        let lines = self.said.split_inclusive(|&byte| byte == b'\n');
        lines.map(|line| answer_in(&serde_json::from_slice(line).expect("JSON"))).collect()
    }
}

/// The tables in a store's file, behind a head of 28 words with their lengths from the
/// fourth on (docs/PROGRAM.md).
fn tables_in(file: &Path) -> Tables {
    let bytes = fs::read(file).expect("the store's tables");
    let (words, _) = bytes.as_chunks::<8>();
    let (head, mut rest) = words.split_at(28);
    array::from_fn(|table| {
        let length = u64::from_le_bytes(head[3 + table]) as usize;
        let (table, behind) = rest.split_at(length);
        rest = behind;
        table.iter().map(|&word| u64::from_le_bytes(word)).collect()
    })
}

/// The delivery in a folder, loaded by the second program.
fn loaded(folder: &Path) -> Store {
    let texts: [Vec<u8>; FILES] = NAMES.map(|name| fs::read(folder.join(name)).unwrap_or_default());
    let rooms = texts.each_ref().map(|text| second::count_lines(text));
    second::load(&texts.each_ref().map(Vec::as_slice), &rooms).expect("a sound delivery")
}

/// The second program's answers to the changes of standard input.
fn answer_lines(store: &Store) {
    let input = io::read_to_string(io::stdin()).expect("standard input");
    let answers: String = input.lines().map(|line| told(asked(store, line)).to_string() + "\n").collect();
    io::stdout().write_all(answers.as_bytes()).expect("standard output");
}

fn asked(store: &Store, line: &str) -> Result<Change, Refusal> {
    let numbers = line.split(' ').skip(1).map(|word| word.parse().expect("a number"));
    let [service, stop, date, to_service, to_stop, to_date]: [u64; 6] =
        numbers.collect::<Vec<_>>().try_into().expect("six numbers");
    let from = Side { service, stop, date };
    second::change(store, from, Side { service: to_service, stop: to_stop, date: to_date })
}

/// In the words of `ask`.
fn told(answer: Result<Change, Refusal>) -> Value {
    let change = match answer {
        Ok(change) => change,
        Err(refusal) => return json!({ "refused": { "number": refusal.number } }),
    };
    let (verdict, reason) = match change.verdict {
        Verdict::Yes => ("yes", None),
        Verdict::Unsettled => ("unsettled", None),
        Verdict::No(reason) => ("no", Some(reason_word(reason))),
    };
    let source = change.source.map(|source| match source {
        Source::Changes => "changes",
        Source::Stations => "stations",
        Source::XChanges => "xchanges",
    });
    json!({ "change": verdict, "reason": reason, "gap": change.gap, "source": source, "needed": change.needed })
}

fn reason_word(reason: Reason) -> &'static str {
    match reason {
        Reason::SameServiceAndDate => "same-service-and-date",
        Reason::FromDoesNotRun => "from-rests",
        Reason::ToDoesNotRun => "to-rests",
        Reason::StationsDiffer => "stations-differ",
        Reason::NobodyAlights => "nobody-alights",
        Reason::NobodyBoards => "nobody-boards",
        Reason::PairImpossible => "pair-00",
        Reason::NoChangesHere => "flag-0",
        Reason::GapTooShort => "gap-below-needed",
    }
}
