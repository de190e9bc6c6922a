//! The program as its users run it, on real folders.
#![allow(dead_code)] // Each test takes what it needs.

use std::ffi::OsStr;
use std::fs;
use std::io::Write;
use std::path::{Path, PathBuf};
use std::process::{Command, Output, Stdio};

use second::questions::{Change, Reason, Source, Verdict};
use serde_json::{Map, Value};

pub const PROGRAM: &str = env!("CARGO_BIN_EXE_calyxcabin");

/// The delivery of the repository that README speaks of.
pub fn example() -> PathBuf {
    Path::new(env!("CARGO_MANIFEST_DIR")).join("../../examples/delivery")
}

/// An empty folder of its own for a test, in memory where there is room for it; removed when the test has passed.
pub struct Folder(PathBuf);

impl std::ops::Deref for Folder {
    type Target = Path;

    fn deref(&self) -> &Path {
        &self.0
    }
}

impl Drop for Folder {
    fn drop(&mut self) {
        if !std::thread::panicking() {
            let _ = fs::remove_dir_all(&self.0);
        }
    }
}

pub fn folder(name: &str) -> Folder {
    let memory = Path::new("/dev/shm");
    let above = match fs::create_dir_all(memory.join("calyxcabin-tests")) {
        Ok(()) => memory.join("calyxcabin-tests"),
        Err(_) => Path::new(env!("CARGO_TARGET_TMPDIR")).to_path_buf(),
    };
    let folder = above.join(format!("{name} {}", std::process::id()));
    let _ = fs::remove_dir_all(&folder);
    fs::create_dir_all(&folder).expect("a folder for the test");
    Folder(folder)
}

/// What the program said: status, standard output, standard error.
pub struct Said {
    pub status: Option<i32>,
    pub out: String,
    pub err: String,
    pub raw: Vec<u8>,
}

impl std::fmt::Debug for Said {
    fn fmt(&self, out: &mut std::fmt::Formatter) -> std::fmt::Result {
        write!(out, "status {:?}\n{}\n{}", self.status, self.out, self.err)
    }
}

impl Said {
    pub fn of(output: Output) -> Said {
        Said {
            status: output.status.code(),
            out: String::from_utf8_lossy(&output.stdout).into_owned(),
            err: String::from_utf8_lossy(&output.stderr).into_owned(),
            raw: output.stdout,
        }
    }

    /// With this status, and this in what was said.
    #[track_caller]
    pub fn is(&self, status: i32, part: &str) -> &Said {
        assert_eq!(self.status, Some(status), "{self:#?}");
        assert!(self.out.contains(part) || self.err.contains(part), "`{part}` is missing: {self:#?}");
        self
    }

    pub fn json(&self) -> Value {
        serde_json::from_str(&self.out).unwrap_or_else(|error| panic!("{error}: {self:#?}"))
    }
}

/// Runs the program.
pub fn run<S: AsRef<OsStr>>(arguments: impl IntoIterator<Item = S>) -> Said {
    Said::of(Command::new(PROGRAM).args(arguments).output().expect("the program runs"))
}

/// Runs the program on a line of words; `{}` stands for a path.
pub fn line(words: &str, paths: &[&Path]) -> Said {
    let mut paths = paths.iter();
    let words = words.split(' ').map(|word| match word {
        "{}" => paths.next().expect("a path").as_os_str().to_owned(),
        word => word.into(),
    });
    run(words)
}

/// Puts questions to `ask`.
pub fn ask(store: &Path, questions: &str) -> Said {
    let mut asking = Command::new(PROGRAM)
        .arg("ask")
        .arg(store)
        .stdin(Stdio::piped())
        .stdout(Stdio::piped())
        .stderr(Stdio::piped())
        .spawn()
        .expect("the program runs");
    let mut input = asking.stdin.take().expect("its input");
    let questions = questions.to_string();
    let writing = std::thread::spawn(move || {
        // The program may have ended before it read all.
        let _ = input.write_all(questions.as_bytes());
    });
    let output = asking.wait_with_output().expect("the program ends");
    writing.join().expect("all is written");
    Said::of(output)
}

/// Answers, each as JSON.
pub fn answers(said: &Said) -> Vec<Value> {
    said.out.lines().map(|line| serde_json::from_str(line).expect("an answer in JSON")).collect()
}

/// Copies a folder with all that is in it.
pub fn copy(from: &Path, to: &Path) {
    fs::create_dir_all(to).expect("a folder");
    for entry in fs::read_dir(from).expect("a folder to copy").flatten() {
        let target = to.join(entry.file_name());
        match entry.path().is_dir() {
            true => copy(&entry.path(), &target),
            false => drop(fs::copy(entry.path(), target).expect("a file is copied")),
        }
    }
}

/// All files under a folder.
pub fn files(folder: &Path) -> Vec<PathBuf> {
    let mut found: Vec<PathBuf> = Vec::new();
    for entry in fs::read_dir(folder).expect("a folder").flatten() {
        match entry.path().is_dir() {
            true => found.extend(files(&entry.path())),
            false => found.push(entry.path()),
        }
    }
    found.sort();
    found
}

/// The example's delivery in a store, and the lines of a service of it.
pub fn opened(folder: &Path) -> PathBuf {
    let store = folder.join("store");
    line("open {} {}", &[&example(), &store]).is(0, "Accepted");
    store
}

/// The block of a service as it stands.
pub fn block(store: &Path, service: u64) -> Vec<u8> {
    let said = run([OsStr::new("lines"), store.as_os_str(), OsStr::new(&service.to_string())]);
    assert_eq!(said.status, Some(0), "{said:#?}");
    said.raw
}

/// A block with some of its text replaced.
pub fn with(block: &[u8], old: &str, new: &str) -> Vec<u8> {
    let text: String = block.iter().map(|&byte| char::from(byte)).collect();
    assert!(text.contains(old), "{old} in {text}");
    text.replace(old, new).chars().map(|letter| letter as u8).collect()
}

/// A change of the second program's as this one tells it.
pub fn changed(change: Change) -> Value {
    let mut told = Map::new();
    let (verdict, reason) = match change.verdict {
        Verdict::Yes => ("yes", None),
        Verdict::Unsettled => ("unsettled", None),
        Verdict::No(reason) => (
            "no",
            Some(match reason {
                Reason::SameServiceAndDate => "same-service-and-date",
                Reason::FromDoesNotRun => "from-rests",
                Reason::ToDoesNotRun => "to-rests",
                Reason::StationsDiffer => "stations-differ",
                Reason::NobodyAlights => "nobody-alights",
                Reason::NobodyBoards => "nobody-boards",
                Reason::PairImpossible => "pair-00",
                Reason::NoChangesHere => "flag-0",
                Reason::GapTooShort => "gap-below-needed",
            }),
        ),
    };
    told.insert("change".into(), verdict.into());
    let source = change.source.map(|source| match source {
        Source::Changes => "changes",
        Source::Stations => "stations",
        Source::XChanges => "xchanges",
    });
    let parts = [
        ("reason", reason.map(Value::from)),
        ("gap", change.gap.map(Value::from)),
        ("source", source.map(Value::from)),
        ("needed", change.needed.map(Value::from)),
    ];
    told.extend(parts.into_iter().filter_map(|(key, part)| Some((key.to_string(), part?))));
    told.into()
}
