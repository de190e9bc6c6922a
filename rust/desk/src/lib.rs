//! The program that the connections desk and its booking system use.
//!
//! Everything that matters is decided by the proved functions of the archive
//! (`proved`); what is here reads files, keeps them safe, and speaks.

mod answers;
mod ask;
mod card;
mod cli;
mod commands;
mod dates;
mod disk;
mod explain;
mod files;
mod loading;
mod memory;
mod names;
mod progress;
mod records;
mod sheet;
mod show;
mod speech;
mod store;
mod tables;
mod trouble;

use std::io::{self, stderr, stdin, stdout, Write};

use clap::{CommandFactory, Parser};

use crate::answers::{json, Error};
use crate::cli::{Cli, Command};
use crate::commands::{Desk, Told, DONE, TROUBLE};
use crate::progress::Progress;
use crate::speech::Colour;
use crate::trouble::Trouble;

/// Runs the program and answers its exit status.
pub fn run() -> u8 {
    let cli = Cli::parse();
    if let Some(mistake) = cli.mistake() {
        mistake.exit();
    }
    let done = match &cli.command {
        Command::Ask { store } => {
            ask::ask(store, stdin().lock(), stdout().lock()).map(|()| Told::new(DONE, "", String::new()))
        }
        Command::Completions { shell } => {
            clap_complete::generate(*shell, &mut Cli::command(), "calyxcabin", &mut stdout());
            return DONE;
        }
        command => {
            let (progress, colour) = (Progress::on_terminal(), Colour::on_terminal());
            Desk { progress, colour, json: cli.json }.run(command)
        }
    };
    say(done, cli.json)
}

fn say(done: Result<Told, Trouble>, in_json: bool) -> u8 {
    let told = match done {
        Ok(told) => told,
        Err(trouble) if in_json => Told::new(TROUBLE, "", json(&Error { error: trouble.to_string() })),
        Err(trouble) => {
            eprintln!("calyxcabin: {trouble}");
            return TROUBLE;
        }
    };
    let written = match in_json && !told.json.is_empty() {
        true => writeln!(stdout(), "{}", told.json),
        false if told.aside => stderr().write_all(&told.text),
        false => stdout().write_all(&told.text),
    };
    match written.and_then(|()| stdout().flush()) {
        // Nobody reads any more.
        Err(error) if error.kind() != io::ErrorKind::BrokenPipe => {
            eprintln!("calyxcabin: standard output cannot be written: {error}.");
            TROUBLE
        }
        _ => told.status,
    }
}
