//! Times the program on a store of 60,000 services, beside the second program's
//! load of the same delivery, in the same rounds.
//!
//! cargo run --release --example speed -- [SERVICES [QUESTIONS]]

mod runs;

use std::collections::HashMap;
use std::fs;
use std::path::{Path, PathBuf};

use deliveries::place::TIMETBLS;
use deliveries::{calendar, folder, large, question_on_tables, Case, Question, Rng, World};
use runs::{program, Times};

/// Rounds, of which the best times are taken.
const ROUNDS: usize = 10;

/// So many questions that test soundness each by itself are asked.
const BY_THEMSELVES: usize = 64;

/// How often a round runs a command. The first run may find that the machine has
/// taken back the memory that the one before had.
const RUNS: usize = 2;

fn main() {
    let mut numbers = std::env::args().skip(1).map(|word| word.parse().expect("a number"));
    let services: usize = numbers.next().unwrap_or(60_000);
    let questions: usize = numbers.next().unwrap_or(1_000);
    let work = std::env::temp_dir().join(format!("calyxcabin-speed-{}", std::process::id()));
    fs::create_dir_all(&work).expect("a folder");
    measure(&work, services, questions);
    fs::remove_dir_all(&work).expect("the folder goes");
}

fn measure(work: &Path, services: usize, questions: usize) {
    let (world, case) = large(1, services, true);
    let (delivery, store) = (work.join("delivery"), work.join("store"));
    folder::write(&case.texts(), &delivery).expect("the delivery is written");
    let lines: usize = case.files.iter().map(|file| second::count_lines(file)).sum();
    let megabytes = case.files.iter().map(Vec::len).sum::<usize>() as f64 / 1e6;
    println!("{services} services, {lines} lines, {megabytes:.1} MB; the best of {ROUNDS} rounds, from start to exit of the program.\n");

    let program = program();
    let run = |words: &[&str], paths: &[&Path], input: &str| runs::run(&program, words, paths, input);
    let mut rng = Rng::new(1);
    let asked = change(&mut rng, &world, &case);
    let change: Vec<&str> = asked.split(' ').collect();
    let service = change[1].to_string();
    let block = run(&["lines", &service], &[&made(&run, &delivery, &store)], "").stdout;
    let file = work.join("block");
    fs::write(&file, block).expect("the block is written");
    let file = file.to_str().expect("a path in UTF-8").to_string();

    let [code, date] = busiest(&world, &case);
    let sheet = ["sheet", "--json", "--", &code, &date];
    let counts = counts(&run(&sheet, &[&store], "").stdout);

    let mut times: [Times; 9] = Default::default();
    let [second, load, sound, start, check, open, changed, amended, sheets] = &mut times;
    for _ in 0..ROUNDS {
        let lengths: [usize; 11] =
            std::array::from_fn(|file| second::count_lines(&case.files[file]) * WIDTHS[file]);
        second.of(|| {
            let store = second::load(&case.texts(), &second::rooms_of(&lengths)).expect("a sound delivery");
            assert_eq!(second::encode(&store, &lengths).len(), 11);
        });
        let mut tables = lengths.map(|length| vec![u64::MAX; length]);
        load.of(|| {
            let answer = proved::load(case.texts(), tables.each_mut().map(Vec::as_mut_slice));
            assert!(answer.is_accepted());
        });
        sound.of(|| assert!(proved::is_sound(tables.each_ref().map(Vec::as_slice))));
        drop(tables);
        for _ in 0..RUNS {
            start.of(|| drop(run(&["--version"], &[], "")));
            check.of(|| drop(run(&["check"], &[&delivery], "")));
            changed.of(|| drop(run(&change, &[&store], "")));
            amended.of(|| drop(run(&["amend", &service, &file], &[&store], "")));
            sheets.of(|| drop(run(&sheet, &[&store], "")));
        }
        open.of(|| drop(run(&["open", "--replace"], &[&delivery, &store], "")));
    }
    println!("| what | s | median | beside the second program's load |");
    println!("|---|---|---|---|");
    let row = |what: &str, times: &Times| {
        let beside = times.best() / second.best();
        println!("| {what} | {:.3} | {:.3} | {beside:.2} |", times.best(), times.median());
    };
    row("the second program's load and its tables, in this process", second);
    row("the proved load, in this process", load);
    row("soundness, in this process", sound);
    row("`--version`: start and exit alone", start);
    row("`change`", changed);
    row(&format!("`sheet` of the busiest station: {counts}"), sheets);
    row("`check`", check);
    row("`open`", open);
    row("`amend`", amended);
    println!();
    let held = |what: &str, part: f64, whole: &str, goal: f64| {
        let met = if part <= goal { "met" } else { "missed" };
        println!("{what} takes {part:.2} of {whole}; the goal, at most {goal:.2}, is {met}.");
    };
    held("`change`", changed.best() / second.best(), "the second program's load", 0.5);
    held("`check`", check.best() / load.best(), "the proved load's own time", 1.25);
    let beside = |what: &str, times: &Times, part: &str, own: &Times, rest: &str| {
        let (more, start) = (times.best() - own.best(), start.best());
        println!("Beside {part}, {what} takes {more:.3} s: {start:.3} to start and to exit, else {rest}.");
    };
    beside("`check`", check, "the load", load, "files that are read and memory for the tables");
    beside("`change`", changed, "soundness", sound, "lookups, names and pages that are mapped");
    beside("`sheet`", sheets, "soundness", sound, "what it lists, its changes and its text");
    if questions > 0 {
        let is_change = |question: &Question| matches!(question, Question::Change { .. });
        let mut any = std::iter::repeat_with(|| question_on_tables(&mut rng, &world));
        let changes: Vec<Question> = any.by_ref().filter(is_change).take(questions).collect();
        let others: Vec<Question> = any.filter(|question| !is_change(question)).take(BY_THEMSELVES).collect();
        for (what, asked) in [("changes", changes), ("`runs` and `stop`", others)] {
            let input: String = asked.iter().map(|question| line(question) + "\n").collect();
            let mut times = Times::default();
            times.of(|| {
                let said = run(&["ask"], &[&store], &input);
                assert_eq!(said.stdout.iter().filter(|&&byte| byte == b'\n').count(), asked.len());
            });
            let (count, all, each) = (asked.len(), times.best(), times.best() * 1e3 / asked.len() as f64);
            println!("`ask` with {count} {what}: {all:.3} s, {each:.2} ms each.");
        }
    }
}

/// The station at which most services call, and a day in the middle of validity.
fn busiest(world: &World, case: &Case) -> [String; 2] {
    let mut calls: HashMap<&[u8], usize> = HashMap::new();
    let is_stop = |line: &&[u8]| line.first().is_some_and(|letter| b">.+<".contains(letter));
    for line in case.files[TIMETBLS].split(|&byte| byte == b'\n').filter(is_stop) {
        *calls.entry(&line[1..8]).or_default() += 1;
    }
    let (code, _) = calls.into_iter().max_by_key(|(code, calls)| (*calls, *code)).expect("a station");
    let day = world.first_day + world.days as i64 / 2;
    [code.iter().map(|&byte| char::from(byte)).collect(), format!("{:08}", calendar::written(day))]
}

/// How much is on a sheet.
fn counts(sheet: &[u8]) -> String {
    let sheet: serde_json::Value = serde_json::from_slice(sheet).expect("a sheet in JSON");
    let counts = &sheet["counts"];
    format!("{} arrivals, {} changes", counts["arrivals"], counts["changes"])
}

const WIDTHS: [usize; 11] = [6, 6, 6, 6, 6, 6, 14, 7, 6, 14, 7];

fn made(
    run: &impl Fn(&[&str], &[&Path], &str) -> std::process::Output,
    delivery: &Path,
    store: &Path,
) -> PathBuf {
    run(&["open"], &[delivery, store], "");
    store.to_path_buf()
}

/// A change that comes as far as a needed time, by the second program.
fn change(rng: &mut Rng, world: &World, case: &Case) -> String {
    let store = second::load(&case.texts(), &case.rooms).expect("a sound delivery");
    loop {
        let question = question_on_tables(rng, world);
        let Question::Change { from, to } = &question else { continue };
        let side = |side: &deliveries::questions::Side| second::questions::Side {
            service: side.service,
            stop: side.stop,
            date: side.date,
        };
        if second::change(&store, side(from), side(to)).is_ok_and(|change| change.needed.is_some()) {
            return line(&question);
        }
    }
}

fn line(question: &Question) -> String {
    match question {
        Question::RunningDay { service, leg, date } => format!("runs {service} {leg} {date}"),
        Question::StopTime { service, stop, date } => format!("stop {service} {stop} {date}"),
        Question::Change { from: a, to: b } => {
            format!("change {} {} {} {} {} {}", a.service, a.stop, a.date, b.service, b.stop, b.date)
        }
        other => unreachable!("{other:?} is not asked of tables"),
    }
}
