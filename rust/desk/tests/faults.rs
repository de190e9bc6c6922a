//! Faults: the process killed, the disk full, the store damaged, rights lacking,
//! files that changed on the way. Never a lost amendment that was answered
//! accepted, never a wrong answer, always a sentence that helps.

mod common;

use std::fs::{self, Permissions};
use std::io::Write;
use std::os::unix::fs::PermissionsExt;
use std::path::{Path, PathBuf};
use std::process::{Command, Stdio};
use std::thread::sleep;
use std::time::{Duration, Instant};

use common::*;
use deliveries::{folder as write_folder, large, Rng};
use serde_json::Value;

const KILLS: usize = 100;
const SERVICES: usize = 400;

/// Starts the program and kills it after a time; what it had written.
fn killed(command: &mut Command, after: Duration, input: &[u8]) -> Said {
    let mut process = command
        .stdin(Stdio::piped())
        .stdout(Stdio::piped())
        .stderr(Stdio::piped())
        .spawn()
        .expect("the program runs");
    let mut pipe = process.stdin.take().expect("its input");
    let input = input.to_vec();
    let writing = std::thread::spawn(move || drop(pipe.write_all(&input)));
    let start = Instant::now();
    while start.elapsed() < after {
        sleep(Duration::from_micros(100));
    }
    // It may have ended by itself.
    let _ = process.kill();
    let output = process.wait_with_output().expect("the program ends");
    writing.join().expect("the input is written");
    Said::of(output)
}

/// Two deliveries that differ in what every question below answers.
fn two_deliveries(folder: &Path) -> [PathBuf; 2] {
    [1, 2].map(|seed| {
        let path = folder.join(format!("delivery {seed}"));
        write_folder::write(&large(seed, SERVICES, true).1.texts(), &path).expect("a delivery");
        path
    })
}

/// How long a run of the program takes.
fn time_of(mut work: impl FnMut()) -> Duration {
    let start = Instant::now();
    work();
    start.elapsed()
}

/// `open` killed at a hundred random moments: the store is the one before or
/// the one after.
#[test]
fn open_is_all_or_nothing() {
    let folder = folder("killed open");
    let deliveries = two_deliveries(&folder);
    let store = folder.join("store");
    // A few services of each.
    let services =
        [1, 2].map(|seed| large(seed, SERVICES, true).0.services.into_iter().step_by(SERVICES / 8));
    let questions: String =
        services.into_iter().flatten().map(|held| format!("lines {}\n", held.number)).collect();
    let state = || ask(&store, &questions).out;
    let mut expected = Vec::new();
    let mut longest = Duration::ZERO;
    for delivery in &deliveries {
        longest = longest.max(time_of(|| {
            line("open {} {} --replace", &[delivery, &store]).is(0, "Accepted");
        }));
        expected.push(state());
    }
    assert_ne!(expected[0], expected[1]);
    fs::remove_dir_all(&store).unwrap();
    let mut rng = Rng::new(7);
    let (mut none, mut seen) = (0, [0, 0]);
    let mut before: Option<usize> = None;
    for kill in 0..KILLS {
        // Every fourth time the store is made from nothing.
        if kill % 4 == 0 {
            let _ = fs::remove_dir_all(&store);
            before = None;
        }
        let after = before.map_or(0, |held| 1 - held);
        let wait = longest.mul_f64(rng.below(1200) as f64 / 1000.0);
        let mut command = Command::new(PROGRAM);
        let done =
            killed(command.arg("open").arg(&deliveries[after]).arg(&store).arg("--replace"), wait, b"");
        let said = ask(&store, &questions);
        let held = match said.status {
            Some(0) => {
                Some(expected.iter().position(|answers| *answers == said.out).expect("one of the two stores"))
            }
            _ => {
                assert!(
                    said.err.contains("is no store, or its `open` was not finished")
                        || said.err.contains("it is not there"),
                    "{said:?}"
                );
                None
            }
        };
        assert!(held == before || held == Some(after), "kill {kill}: {held:?} after {before:?}");
        if done.status == Some(0) {
            assert_eq!(held, Some(after), "kill {kill}: it was answered accepted");
        }
        match held {
            None => none += 1,
            Some(held) => seen[held] += 1,
        }
        before = held;
    }
    println!("open killed {KILLS} times within {longest:?}: no store {none}, stores {seen:?}");
    // Whatever was left over, the next `open` makes a store.
    line("open {} {} --replace", &[&deliveries[0], &store]).is(0, "Accepted");
    assert_eq!(state(), expected[0]);
    let left: Vec<_> = fs::read_dir(&store).unwrap().flatten().map(|entry| entry.file_name()).collect();
    assert_eq!(left.len(), 3, "{left:?}");
}

/// Runs of `amend` killed at a hundred random moments: every amendment that was
/// answered accepted is there, and at most one that was not yet answered.
#[test]
fn amend_is_all_or_nothing() {
    let folder = folder("killed amend");
    let store = opened(&folder);
    let held = block(&store, 1);
    // Amendment k of a run departs at k minutes after midnight.
    let clock = |minute: usize| format!(",{:02}{:02}", minute / 60, minute % 60);
    const RUN: usize = 60;
    for minute in 0..=RUN {
        fs::write(folder.join(minute.to_string()), with(&held, ",2200", &clock(minute))).unwrap();
    }
    let run_of = |from: usize| -> String {
        (from..=RUN)
            .map(|minute| format!("amend 1 {}\n", folder.join(minute.to_string()).display()))
            .collect()
    };
    let longest = time_of(|| {
        let said = ask(&store, &run_of(0));
        assert!(answers(&said).iter().all(|answer| answer["accepted"].is_object()), "{said:?}");
    });
    let minute_now = || {
        let said = ask(&store, "stop 1 1 14122015\nlines 1\n");
        assert_eq!(said.status, Some(0), "{said:?}");
        let answers = answers(&said);
        let by_tables = answers[0]["departure"]["local"].as_u64().expect("a departure") as usize;
        let by_lines = answers[1]["lines"].as_str().expect("lines").to_string();
        assert!(by_lines.contains(&format!(">HVH    {}", clock(by_tables))), "{by_lines} but {by_tables}");
        by_tables
    };
    let mut rng = Rng::new(11);
    let (mut accepted_in_all, mut unanswered) = (0, 0);
    for kill in 0..KILLS {
        fs::write(folder.join("first"), with(&held, ",2200", &clock(0))).unwrap();
        line("amend {} 1 {}", &[&store, &folder.join("first")]).is(0, "Accepted");
        assert_eq!(minute_now(), 0);
        let mut accepted = 0;
        if kill % 4 == 0 {
            // A run of single commands.
            for minute in 1..8 {
                let wait = longest.mul_f64(rng.below(1000) as f64 / 1000.0 / 6.0);
                let mut command = Command::new(PROGRAM);
                let file = folder.join(minute.to_string());
                let done = killed(command.arg("amend").arg(&store).arg("1").arg(file), wait, b"");
                if done.status != Some(0) {
                    break;
                }
                accepted = minute;
            }
        } else {
            let wait = longest.mul_f64(rng.below(1000) as f64 / 1000.0);
            let mut command = Command::new(PROGRAM);
            let done = killed(command.arg("ask").arg(&store), wait, run_of(1).as_bytes());
            accepted = done
                .out
                .lines()
                .filter(|line| line.starts_with("{\"accepted\"") && line.ends_with('}'))
                .count();
        }
        let now = minute_now();
        assert!(now == accepted || now == accepted + 1, "kill {kill}: {accepted} accepted, {now} kept");
        accepted_in_all += accepted;
        unanswered += now - accepted;
    }
    println!("amend killed {KILLS} times within {longest:?}: {accepted_in_all} accepted and kept, {unanswered} kept and not answered");
}

/// While a store is replaced again and again, whoever reads it sees the one
/// delivery or the other, whole.
#[test]
fn readers_never_see_half() {
    use std::sync::atomic::{AtomicBool, Ordering};
    let folder = folder("readers");
    let other = folder.join("other");
    copy(&example(), &other);
    for (name, old, new) in [("STATIONS", "Harwich Int", "Harwich Par"), ("TIMETBLS", ",2200", ",2130")] {
        let text = fs::read(other.join(name)).unwrap();
        fs::write(other.join(name), with(&text, old, new)).unwrap();
    }
    let store = folder.join("store");
    let questions = "stop 1 1 14122015\nlines 1\nname HAR\n";
    let see = || {
        let service = line("service {} 1 14122015", &[&store]);
        assert_eq!((service.status, service.err.as_str()), (Some(0), ""), "{service:?}");
        let lines = line("lines {} 1", &[&store]);
        assert_eq!((lines.status, lines.err.as_str()), (Some(0), ""), "{lines:?}");
        let asked = ask(&store, questions);
        assert_eq!((asked.status, asked.err.as_str()), (Some(0), ""), "{asked:?}");
        (service.out, lines.out, asked.out)
    };
    let deliveries = [example(), other];
    let seen = deliveries.each_ref().map(|delivery| {
        line("open {} {} --replace", &[delivery, &store]).is(0, "Accepted");
        see()
    });
    let done = AtomicBool::new(false);
    std::thread::scope(|scope| {
        let readers: Vec<_> = (0..3)
            .map(|_| {
                scope.spawn(|| {
                    let mut read = 0;
                    while !done.load(Ordering::Relaxed) {
                        let (service, lines, asked) = see();
                        assert!(seen.iter().any(|seen| seen.0 == service), "{service}");
                        assert!(seen.iter().any(|seen| seen.1 == lines), "{lines}");
                        // The three answers may come from before and after.
                        for (at, answer) in asked.lines().enumerate() {
                            assert!(
                                seen.iter().any(|seen| seen.2.lines().nth(at) == Some(answer)),
                                "{answer}"
                            );
                        }
                        read += 1;
                    }
                    read
                })
            })
            .collect();
        for round in 0..60 {
            line("open {} {} --replace", &[&deliveries[round % 2], &store]).is(0, "Accepted");
        }
        done.store(true, Ordering::Relaxed);
        let read: Vec<usize> = readers.into_iter().map(|reader| reader.join().expect("a reader")).collect();
        println!("60 deliveries, read {read:?} times meanwhile");
    });
}

fn limited(blocks: usize, arguments: &[&str]) -> Said {
    let script = format!("ulimit -f {blocks}; exec \"$0\" \"$@\"");
    Said::of(
        Command::new("bash").arg("-c").arg(script).arg(PROGRAM).args(arguments).output().expect("bash runs"),
    )
}

/// No more room on the disk, at every size: nothing is changed, and it is said.
#[test]
fn a_full_disk_is_told() {
    let folder = folder("full");
    let delivery = &two_deliveries(&folder)[0];
    let (store, other) = (folder.join("store"), folder.join("other"));
    line("open {} {}", &[delivery, &store]).is(0, "Accepted");
    let service = large(1, SERVICES, true).0.services[3].number;
    let (held, file) = (block(&store, service), folder.join("block"));
    fs::write(&file, &held).unwrap();
    let before: Vec<_> = files(&store).iter().map(|path| (path.clone(), fs::read(path).unwrap())).collect();
    let text = |path: &Path| path.to_str().unwrap().to_string();
    // In blocks of 1024 bytes: from none up to what the tables need.
    let needed = before.iter().map(|(_, bytes)| bytes.len().div_ceil(1024)).max().unwrap();
    for blocks in [0, 1, 2, 5, needed / 2, needed - 1] {
        let said = limited(blocks, &["open", &text(delivery), &text(&other)]);
        said.is(2, "a file may not be that large here").is(2, "Nothing was changed.");
        assert!(!other.exists(), "{:?}", files(&other));
        let said = limited(blocks, &["open", &text(delivery), &text(&store), "--replace"]);
        said.is(2, "a file may not be that large here");
        let said = limited(blocks, &["amend", &text(&store), &service.to_string(), &text(&file)]);
        said.is(2, "The amendment is not kept, and the store is as it was.");
        let now: Vec<_> = files(&store).iter().map(|path| (path.clone(), fs::read(path).unwrap())).collect();
        assert!(now == before, "{blocks} blocks: {:?}", now.iter().map(|(path, _)| path).collect::<Vec<_>>());
    }
    limited(needed + 1, &["amend", &text(&store), &service.to_string(), &text(&file)]).is(0, "Accepted");
}

/// The same with a file system that is full, where one can be made.
#[test]
fn a_full_file_system_is_told() {
    let folder = folder("small disk");
    let small = folder.join("disk");
    fs::create_dir(&small).unwrap();
    let mounted = Command::new("mount").args(["-t", "tmpfs", "-o", "size=2m", "tmpfs"]).arg(&small).output();
    if !mounted.is_ok_and(|output| output.status.success()) {
        println!("no file system can be made here: left to `ulimit -f`");
        return;
    }
    let tried = std::panic::catch_unwind(|| {
        let store = small.join("store");
        line("open {} {}", &[&example(), &store]).is(0, "Accepted");
        let file = folder.join("block");
        let held = block(&store, 1);
        fs::write(&file, with(&held, ",2200", ",2130")).unwrap();
        let mut filling = fs::File::create(small.join("filling")).unwrap();
        while filling.write_all(&[0; 1024]).is_ok() {}
        line("amend {} 1 {}", &[&store, &file]).is(2, "the disk is full").is(2, "The amendment is not kept");
        line("open {} {} --replace", &[&example(), &store])
            .is(2, "the disk is full")
            .is(2, "Nothing was changed.");
        assert_eq!(block(&store, 1), held);
        drop(filling);
        fs::remove_file(small.join("filling")).unwrap();
        line("amend {} 1 {}", &[&store, &file]).is(0, "amendment 1");
    });
    let _ = Command::new("umount").arg(&small).status();
    if let Err(failed) = tried {
        std::panic::resume_unwind(failed);
    }
}

const QUESTIONS: &str = "stop 1 1 14122015\nruns 4 1 19122015\nchange 1 2 14122015 3 1 15122015\nname HVH\nname ZZZ\nlines 1\nlines 2\nlines 3\nchange 5 3 14122015 1 1 14122015\n";

/// A store with two amendments, and what it answers.
fn damaged_store(folder: &Path) -> (PathBuf, Vec<Value>) {
    let store = opened(folder);
    let file = folder.join("block");
    for (service, old, new) in [(1, ",2200", ",2130"), (2, ",2300", ",2245")] {
        fs::write(&file, with(&block(&store, service), old, new)).unwrap();
        line(&format!("amend {{}} {service} {{}}"), &[&store, &file]).is(0, "Accepted");
    }
    let said = ask(&store, QUESTIONS);
    assert_eq!((said.status, said.err.as_str()), (Some(0), ""));
    (store, answers(&said))
}

/// Right answers, or errors in their place, or no answer with a sentence.
/// Whether all were right.
fn right_or_told(store: &Path, right: &[Value], what: &str) -> bool {
    let said = ask(store, QUESTIONS);
    match said.status {
        Some(2) => {
            assert!(
                said.out.is_empty() && said.err.contains("calyxcabin: ") && said.err.len() > 40,
                "{what}: {said:?}"
            );
            false
        }
        Some(0) => {
            let now = answers(&said);
            assert_eq!(now.len(), right.len(), "{what}: {said:?}");
            for (now, right) in now.iter().zip(right) {
                assert!(now == right || now["error"].is_string(), "{what}: {now} and not {right}");
            }
            now == right
        }
        _ => panic!("{what}: {said:?}"),
    }
}

/// Bits flipped in each file, each file cut short at several places, each file
/// away: never a wrong answer. Damaged tables are made again as they were.
#[test]
fn damage_is_noticed() {
    let folder = folder("damage");
    let (store, right) = damaged_store(&folder);
    let whole = folder.join("whole");
    copy(&store, &whole);
    let mut rng = Rng::new(3);
    let (mut tried, mut all_right) = (0, 0);
    for path in files(&whole) {
        let inner = path.strip_prefix(&whole).unwrap();
        let bytes = fs::read(&path).unwrap();
        let mut damages: Vec<(String, Option<Vec<u8>>)> =
            vec![("away".into(), None), ("empty".into(), Some(Vec::new()))];
        for _ in 0..12 {
            if bytes.is_empty() {
                continue;
            }
            let bit = rng.below(bytes.len() * 8);
            let mut flipped = bytes.clone();
            flipped[bit / 8] ^= 1 << (bit % 8);
            damages.push((format!("bit {bit}"), Some(flipped)));
            damages.push((format!("cut at {}", bit / 8), Some(bytes[..bit / 8].to_vec())));
        }
        for (damage, bytes) in damages {
            let what = format!("{} {damage}", inner.display());
            let _ = fs::remove_dir_all(&store);
            copy(&whole, &store);
            match bytes {
                None => fs::remove_file(store.join(inner)).unwrap(),
                Some(bytes) => fs::write(store.join(inner), bytes).unwrap(),
            }
            tried += 1;
            let all = right_or_told(&store, &right, &what);
            all_right += usize::from(all);
            let name = inner.file_name().unwrap();
            if name == "tables" {
                assert!(all, "{what}: tables are made again");
                assert!(
                    fs::read(store.join(inner)).unwrap() == fs::read(&path).unwrap(),
                    "{what}: as they were"
                );
                let said = ask(&store, QUESTIONS);
                assert_eq!((said.status, said.err.as_str()), (Some(0), ""), "{what}: once is enough");
            }
            if ["current", "contents", "lock"].iter().any(|other| name == *other) {
                assert!(all, "{what}: the other copy is taken");
            }
        }
    }
    println!("{tried} damages, {all_right} without any answer lacking");
    // Tables damaged, and what they are made from: the store is refused.
    let _ = fs::remove_dir_all(&store);
    copy(&whole, &store);
    fs::write(store.join("1/tables"), b"").unwrap();
    fs::write(store.join("1/journal/2"), b"").unwrap();
    line("runs {} 1 1 14122015", &[&store])
        .is(2, "they cannot be made again: Amendment 2")
        .is(2, "open the delivery again into a new store");
    // An amendment after damage to an older one is kept.
    let _ = fs::remove_dir_all(&store);
    copy(&whole, &store);
    fs::remove_file(store.join("1/tables")).unwrap();
    let file = folder.join("block");
    fs::write(&file, with(&block(&store, 1), ",2130", ",2115")).unwrap();
    line("amend {} 1 {}", &[&store, &file]).is(0, "amendment 3");
    // A process that was stopped between journal and tables.
    let tables = fs::read(store.join("1/tables")).unwrap();
    fs::copy(whole.join("1/tables"), store.join("1/tables")).unwrap();
    line("stop {} 1 1 14122015", &[&store])
        .is(0, "21:15")
        .is(0, "lack the last amendment; they were made again");
    assert!(fs::read(store.join("1/tables")).unwrap() == tables);
}

/// The program for a user without rights, if this one may become another.
fn as_nobody(arguments: &[&str]) -> Option<Said> {
    // The program's own folder may be closed to others.
    let program = Path::new("/tmp").join(format!("calyxcabin-{}", std::process::id()));
    // By another process: a file that this one has open cannot be run.
    Command::new("install").args(["-m", "755", PROGRAM]).arg(&program).status().ok()?;
    let output = Command::new("setpriv")
        .args(["--reuid=65534", "--regid=65534", "--clear-groups"])
        .arg(&program)
        .args(arguments)
        .current_dir("/")
        .output();
    let _ = fs::remove_file(&program);
    let said = Said::of(output.ok()?);
    match said.status {
        // What setpriv itself says.
        Some(1 | 126 | 127) if said.err.contains("setpriv") => None,
        _ => Some(said),
    }
}

#[test]
fn rights_are_told() {
    let folder = PathBuf::from(format!("/tmp/calyxcabin-rights-{}", std::process::id()));
    let _ = fs::remove_dir_all(&*folder);
    fs::create_dir_all(&folder).unwrap();
    copy(&example(), &folder.join("delivery"));
    let store = opened(&folder);
    let mode = |path: &Path, mode: u32| fs::set_permissions(path, Permissions::from_mode(mode)).unwrap();
    mode(&folder, 0o755);
    mode(&store, 0o755);
    let text = |path: &Path| path.to_str().unwrap().to_string();
    let (delivery, stored) = (text(&folder.join("delivery")), text(&store));
    let file = folder.join("block");
    fs::write(&file, block(&store, 1)).unwrap();
    let Some(said) = as_nobody(&["runs", &stored, "1", "1", "14122015"]) else {
        println!("no other user can be taken here");
        return;
    };
    said.is(0, "runs on 14 Dec 2015");
    let nobody = |arguments: &[&str]| as_nobody(arguments).expect("another user");
    nobody(&["check", &delivery]).is(0, "Accepted");
    nobody(&["open", &delivery, &text(&folder.join("new"))]).is(2, "you may not write there");
    nobody(&["open", &delivery, &stored, "--replace"]).is(2, "you may not write there");
    nobody(&["amend", &stored, "1", &text(&file)]).is(2, "you may not write there");
    // Damaged tables are made again for the answer, though they cannot be kept.
    fs::write(store.join("1/tables"), b"").unwrap();
    let said = nobody(&["stop", &stored, "1", "1", "14122015"]);
    said.is(0, "22:00 on Mon 14 Dec 2015").is(0, "they were made again").is(0, "They could not be kept");
    mode(&folder.join("delivery/STATIONS"), 0o600);
    nobody(&["check", &delivery]).is(2, "STATIONS cannot be read: you may not read it");
    mode(&folder.join("delivery"), 0o700);
    nobody(&["check", &delivery]).is(2, "you may not read it");
    mode(&store, 0o700);
    nobody(&["runs", &stored, "1", "1", "14122015"]).is(2, "you may not read it");
    fs::remove_dir_all(&folder).unwrap();
}

#[test]
fn names_with_blanks_and_other_alphabets() {
    let folder = folder("ночной паром Ω");
    let delivery = folder.join("поставка nº 1 – été");
    copy(&example(), &delivery);
    // A name and a short name beyond ASCII, as Latin-1 has them.
    for name in ["STATIONS", "TIMETBLS", "CHANGES", "XCHANGES"] {
        let text = fs::read(delivery.join(name)).unwrap();
        let text = with(&text, "HVH    ", "HÖK    ");
        let text = if name == "STATIONS" { with(&text, "Hoek van", "H\u{f6}k van ") } else { text };
        fs::write(delivery.join(name), text).unwrap();
    }
    let store = folder.join("the store of π");
    let said = line("open {} {}", &[&delivery, &store]);
    if said.status == Some(1) {
        panic!("{said:?}");
    }
    said.is(0, "the store of π");
    line("station {} HÖK", &[&store]).is(0, "HÖK Hök van");
    line("station {} Ωmega", &[&store]).is(1, "Refused 17");
    let said = ask(&store, "name HÖK\nname 北京\nlines 1\n");
    let answers = answers(&said);
    assert!(answers[0]["name"].as_str().unwrap().starts_with("Hök van"), "{said:?}");
    assert_eq!(answers[1]["refused"]["number"], 17);
    assert!(answers[2]["lines"].as_str().unwrap().contains(">HÖK    ,2200"));
    let file = folder.join("блок с пробелами");
    fs::write(&file, with(&block(&store, 1), ",2200", ",2130")).unwrap();
    let said = ask(&store, &format!("amend 1 {}\n", file.display()));
    assert!(said.out.starts_with("{\"accepted\""), "{said:?}");
    line("amend {} 1 {}", &[&store, &file]).is(0, "amendment 2");
}

#[test]
fn line_ends_lost_on_the_way() {
    let folder = folder("line ends");
    for (files, told) in [
        (&["DELIVERY"][..], "DELIVERY, line 1"),
        (&["TIMETBLS"], "TIMETBLS, line 1"),
        (&["STATIONS", "XCHANGES"], "STATIONS, line 1"),
    ] {
        let _ = fs::remove_dir_all(&*folder);
        copy(&example(), &folder);
        for name in files {
            let text = fs::read(folder.join(name)).unwrap();
            fs::write(folder.join(name), with(&text, "\r\n", "\n")).unwrap();
        }
        line("check {}", &[&folder])
            .is(1, "Refused 4")
            .is(1, told)
            .is(1, "CR LF was lost on the way: fetch the file again in binary mode");
    }
}

#[test]
fn files_in_small_letters() {
    let folder = folder("small letters");
    copy(&example(), &folder);
    for name in deliveries::NAMES {
        fs::rename(folder.join(name), folder.join(format!("{}.dat", name.to_lowercase()))).unwrap();
    }
    fs::write(folder.join("readme.txt"), "not a file of the delivery").unwrap();
    line("check {}", &[&folder]).is(0, "Accepted: 364 days");
    let store = folder.join("store");
    line("open {} {}", &[&folder, &store]).is(0, "Accepted");
    line("station {} HAR", &[&store]).is(0, "Harwich International");
    fs::copy(folder.join("delivery.dat"), folder.join("DELIVERY")).unwrap();
    line("check {}", &[&folder]).is(2, "There are two files for DELIVERY");
}
