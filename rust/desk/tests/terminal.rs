//! A session in a pseudo-terminal, which util-linux's `script` makes.

mod common;

use std::path::Path;
use std::process::Command;

use common::*;
use deliveries::{folder as write_folder, large};

/// What a terminal is shown by the program, and its status.
fn on_terminal(arguments: &[&str]) -> Option<Said> {
    let words: Vec<String> =
        std::iter::once(PROGRAM).chain(arguments.iter().copied()).map(|word| format!("'{word}'")).collect();
    let output = Command::new("script")
        .args(["-qec", &words.join(" "), "/dev/null"])
        .env("TERM", "xterm")
        .env_remove("NO_COLOR")
        .output();
    output.ok().map(Said::of)
}

#[test]
fn a_terminal_shows_progress_and_colour() {
    let folder = folder("terminal");
    let delivery = folder.join("delivery");
    write_folder::write(&large(1, 3_000, true).1.texts(), &delivery).unwrap();
    let text = |path: &Path| path.to_str().unwrap().to_string();
    let store = text(&folder.join("store"));
    let Some(said) = on_terminal(&["check", &text(&delivery)]) else {
        println!("there is no `script` here");
        return;
    };
    said.is(0, "\x1b[1;32mAccepted\x1b[0m").is(0, "reading").is(0, "checking").is(0, "counting");
    on_terminal(&["open", &text(&delivery), &store]).unwrap().is(0, "saving").is(0, "Accepted");
    // Not a word of that on pipes.
    let said = line("check {}", &[&delivery]);
    assert!(said.err.is_empty() && !said.out.contains('\x1b'), "{said:?}");
    let night = text(&folder.join("night"));
    on_terminal(&["open", &text(&example()), &night]).unwrap().is(0, "Accepted");
    on_terminal(&["change", &night, "1", "2", "14122015", "3", "1", "15122015"])
        .unwrap()
        .is(4, "\x1b[1;33mUnsettled\x1b[0m: ");
    on_terminal(&["change", &night, "1", "2", "14122015", "5", "1", "15122015"])
        .unwrap()
        .is(3, "\x1b[1;31mNo\x1b[0m: ");
    on_terminal(&["sheet", &night, "HVH", "15122015"])
        .unwrap()
        .is(0, "\x1b[1mHVH Hoek van Holland Haven, Tue 15 Dec 2015\x1b[0m")
        .is(0, "  to RTD Rotterdam Centraal       \x1b[1;31mNo\x1b[0m       37      45  ")
        .is(0, "  to HAR Harwich International    \x1b[1;32mYes\x1b[0m      48       0  ");
    on_terminal(&["sheet", &night, "HAR", "15122015"])
        .unwrap()
        .is(0, "\x1b[1;33mUnsettled\x1b[0m  130      99  ");
    on_terminal(&["lines", &night, "1"]).unwrap().is(0, "#00000001\r\n");
    on_terminal(&["change", &night, "1", "2", "14122015", "3", "1", "15122015", "--json"])
        .unwrap()
        .is(4, "{\"change\":\"unsettled\"");
}
