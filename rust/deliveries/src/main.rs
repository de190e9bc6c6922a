//! Writes a made-up delivery as a folder of files; absent files are left out.

use std::env;
use std::path::Path;
use std::process::ExitCode;

use deliveries::{damaged, excepted, folder, large, mixed, overnight, sound, Case};

const USAGE: &str = "usage: deliveries sound|overnight|excepted|damaged|mixed SEED FOLDER
       deliveries large SERVICES rising|shuffled SEED FOLDER";

fn main() -> ExitCode {
    let arguments: Vec<String> = env::args().skip(1).collect();
    let arguments: Vec<&str> = arguments.iter().map(String::as_str).collect();
    let Some((case, path)) = asked(&arguments) else {
        eprintln!("{USAGE}");
        return ExitCode::from(2);
    };
    if let Err(error) = folder::write(&case.texts(), Path::new(path)) {
        eprintln!("{path}: {error}");
        return ExitCode::FAILURE;
    }
    println!("rooms {}", case.rooms.map(|room| room.to_string()).join(" "));
    ExitCode::SUCCESS
}

fn asked<'a>(arguments: &[&'a str]) -> Option<(Case, &'a str)> {
    match *arguments {
        ["sound", seed, folder] => Some((sound(seed.parse().ok()?).1, folder)),
        ["overnight", seed, folder] => Some((overnight(seed.parse().ok()?).1, folder)),
        ["excepted", seed, folder] => Some((excepted(seed.parse().ok()?).1, folder)),
        ["damaged", seed, folder] => Some((damaged(seed.parse().ok()?), folder)),
        ["mixed", seed, folder] => Some((mixed(seed.parse().ok()?), folder)),
        ["large", services, order @ ("rising" | "shuffled"), seed, folder] => {
            let case = large(seed.parse().ok()?, services.parse().ok()?, order == "rising").1;
            Some((case, folder))
        }
        _ => None,
    }
}
