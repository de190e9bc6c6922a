//! Amendments for a delivery, and the delivery with its text edited by hand.

use std::ops::Range;

use crate::damage::damage_block;
use crate::place::TIMETBLS;
use crate::rng::Rng;
use crate::text::{number, Lines};
use crate::world::{write_block, World};
use crate::FILES;

const CR_LF: &[u8] = b"\r\n";

/// A service and the block that is to replace its lines.
#[derive(Clone, Debug)]
pub struct Amendment {
    pub service: u64,
    pub block: Vec<u8>,
}

/// A sound block for a held service half of the time; else a damaged one, one
/// for a service that is not held, or what is not one block.
pub fn amendment(rng: &mut Rng, world: &World) -> Amendment {
    let mut amendment = sound_amendment(rng, world);
    match rng.below(100) {
        0..=49 => (),
        50..=79 => damage_block(rng, &mut amendment.block),
        80..=89 => as_no_block(rng, &mut amendment),
        _ => rename(rng, &mut amendment),
    }
    amendment
}

fn sound_amendment(rng: &mut Rng, world: &World) -> Amendment {
    let service = match world.services.is_empty() {
        true => rng.below(100_000_000) as u64,
        false => rng.pick(&world.services).number,
    };
    let count = if rng.percent(3) { 998 } else { 2 + rng.below(7) };
    let stops: Vec<usize> = (0..count).map(|_| rng.below(world.stations.len())).collect();
    let mut lines = Lines::default();
    write_block(rng, world, service, &stops, &mut lines);
    Amendment { service, block: lines.0 }
}

/// Gives service and block another number, most likely one that is not held.
fn rename(rng: &mut Rng, amendment: &mut Amendment) {
    amendment.service = rng.below(100_000_000) as u64;
    amendment.block[1..9].copy_from_slice(&number(amendment.service, 8));
}

/// Makes what is not one block of it. A block that has not even a `#` line is
/// none as it stands.
pub fn as_no_block(rng: &mut Rng, amendment: &mut Amendment) {
    let block = &mut amendment.block;
    if block.len() < b"#00000000\r\n".len() {
        return;
    }
    match rng.below(7) {
        0 => block.clear(),
        1 => drop(block.pop()),
        2 => block.truncate(block.len() - 2),
        3 => block.extend([*rng.pick(b"#@"), b'\r', b'\n']),
        4 => block.insert(9, b' '),
        5 => block[rng.below(9)] = rng.word() as u8,
        _ => amendment.service = rng.word() >> rng.below(64),
    }
}

/// Test 11 as a search in the block's text.
pub fn is_one_block(service: u64, block: &[u8]) -> bool {
    let opening = format!("#{service:08}\r\n");
    let begins_a_line = |letter: u8| block.windows(3).any(|bytes| bytes == [b'\r', b'\n', letter]);
    opening.len() == 11
        && block.starts_with(opening.as_bytes())
        && block.ends_with(b"\r\n")
        && !begins_a_line(b'#')
        && !begins_a_line(b'@')
}

/// Where a service's lines stand in a TIMETBLS text: from its `#` line to the
/// next line beginning `#`, or the end.
pub fn lines_of(service: u64, timetbls: &[u8]) -> Option<Range<usize>> {
    let place_of = |part: &[u8], from: usize| {
        let found = timetbls[from..].windows(part.len()).position(|bytes| bytes == part);
        found.map(|place| from + place + CR_LF.len())
    };
    let opening = [b"\r\n#", &number(service, 8)[..], CR_LF].concat();
    let start = place_of(&opening, 0)?;
    let next = place_of(b"\r\n#", start);
    Some(start..next.unwrap_or(timetbls.len()))
}

/// The delivery in which the block stands in the place of the service's lines;
/// none if the service is not held.
pub fn edited(files: &[Vec<u8>; FILES], amendment: &Amendment) -> Option<[Vec<u8>; FILES]> {
    let text = &files[TIMETBLS];
    let held = lines_of(amendment.service, text)?;
    let edited = [&text[..held.start], &amendment.block, &text[held.end..]].concat();
    let mut files = files.clone();
    files[TIMETBLS] = edited;
    Some(files)
}
