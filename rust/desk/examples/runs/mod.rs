//! Programs run from start to exit, and their times.

use std::io::Write;
use std::path::{Path, PathBuf};
use std::process::{Command, Output, Stdio};
use std::time::Instant;

/// The program, which stands beside the folder of examples.
pub fn program() -> PathBuf {
    let own = std::env::current_exe().expect("this program's path");
    own.parent().and_then(Path::parent).expect("target/release").join("calyxcabin")
}

/// Runs a program with these words, the paths behind the first of them, until it has
/// answered.
pub fn run(program: &Path, words: &[&str], paths: &[&Path], input: &str) -> Output {
    let mut process = Command::new(program)
        .arg(words[0])
        .args(paths)
        .args(&words[1..])
        .stdin(Stdio::piped())
        .stdout(Stdio::piped())
        .spawn()
        .expect("the program runs");
    let mut pipe = process.stdin.take().expect("its input");
    let input = input.to_string();
    let writing = std::thread::spawn(move || drop(pipe.write_all(input.as_bytes())));
    let output = process.wait_with_output().expect("the program ends");
    writing.join().expect("the input is written");
    assert!(matches!(output.status.code(), Some(0 | 3 | 4)), "{words:?}: {output:?}");
    output
}

/// The times of the same work, in seconds.
#[derive(Default)]
pub struct Times(Vec<f64>);

impl Times {
    pub fn of<T>(&mut self, work: impl FnOnce() -> T) -> T {
        let start = Instant::now();
        let result = work();
        self.0.push(start.elapsed().as_secs_f64());
        self.0.sort_by(f64::total_cmp);
        result
    }

    pub fn best(&self) -> f64 {
        self.0[0]
    }

    pub fn median(&self) -> f64 {
        self.0[self.0.len() / 2]
    }
}
