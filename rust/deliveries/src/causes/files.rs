//! Refusals of a file as a whole: 3 and 2. Those for length, 1, take files so
//! large that they are made elsewhere.

use crate::damage::lines_in;
use crate::place::*;
use crate::FILES;

use super::{Cause, Place};

pub fn causes() -> Vec<Cause> {
    let mut causes: Vec<Cause> = (DELIVERY..=TIMETBLS).map(absent).collect();
    causes.push(absent(XFOOTNOTE));
    causes.extend((0..FILES).map(no_room));
    causes.extend((0..FILES).map(no_room_for_remainder));
    causes
}

fn absent(file: usize) -> Cause {
    Cause::new(3, file, "file", "absent", move |_, case| {
        case.files[file].clear();
        Some(Place::FILE)
    })
}

fn no_room(file: usize) -> Cause {
    Cause::new(2, file, "file", "one line more than room", move |_, case| {
        case.rooms[file] = lines_in(&case.files[file]) - 1;
        Some(Place::FILE)
    })
}

/// A remainder without CR LF takes room too.
fn no_room_for_remainder(file: usize) -> Cause {
    Cause::new(2, file, "file", "no room for a remainder", move |rng, case| {
        case.rooms[file] = lines_in(&case.files[file]);
        case.files[file].push(*rng.pick(b"@#x \r\n"));
        Some(Place::FILE)
    })
}
