//! Cases for a load: eleven files with rooms in lines.

use crate::causes::causes;
use crate::damage::{damage, lines_in};
use crate::place::*;
use crate::rng::Rng;
use crate::shape::Shape;
use crate::text::{join, split};
use crate::world::{self, World};
use crate::FILES;

/// A delivery, an empty file being absent, and the room for each file.
#[derive(Clone, Debug)]
pub struct Case {
    pub files: [Vec<u8>; FILES],
    pub rooms: [usize; FILES],
}

impl Case {
    fn new(rng: &mut Rng, files: [Vec<u8>; FILES]) -> Case {
        let exact = rng.percent(20);
        let rooms = files.each_ref().map(|file| lines_in(file) + if exact { 0 } else { rng.below(40) });
        Case { files, rooms }
    }

    pub fn texts(&self) -> [&[u8]; FILES] {
        self.files.each_ref().map(Vec::as_slice)
    }
}

/// A small sound delivery and what it is made of.
pub fn sound(seed: u64) -> (World, Case) {
    let mut rng = Rng::new(seed);
    let shape = Shape::small(&mut rng);
    shaped(&mut rng, &shape)
}

/// A small sound delivery that also stands at the borders of today's rules.
pub fn at_borders(seed: u64) -> (World, Case) {
    let mut rng = Rng::new(seed);
    let shape = Shape { at_borders: true, ..Shape::small(&mut rng) };
    shaped(&mut rng, &shape)
}

/// A sound delivery with two and more of everything and all files there.
pub fn full(seed: u64) -> (World, Case) {
    let mut rng = Rng::new(seed);
    let shape = Shape::full(&mut rng);
    shaped(&mut rng, &shape)
}

/// A small sound delivery of services that run over midnight while the clocks
/// change.
pub fn overnight(seed: u64) -> (World, Case) {
    let mut rng = Rng::new(seed);
    let shape = Shape::overnight(&mut rng);
    shaped(&mut rng, &shape)
}

/// A small sound delivery with changes to which several exceptions apply.
pub fn excepted(seed: u64) -> (World, Case) {
    let mut rng = Rng::new(seed);
    let shape = Shape::excepted(&mut rng);
    shaped(&mut rng, &shape)
}

/// A small sound delivery, each of these sorts in its turn.
pub fn of_each_sort(seed: u64) -> (World, Case) {
    match seed % 8 {
        0 | 4 => at_borders(seed),
        1 => full(seed),
        2 | 6 => overnight(seed),
        5 => excepted(seed),
        _ => sound(seed),
    }
}

fn shaped(rng: &mut Rng, shape: &Shape) -> (World, Case) {
    let (world, files) = world::make(rng, shape);
    let case = Case::new(rng, files);
    (world, case)
}

/// A small delivery with one to three damages; by chance it may still be sound.
pub fn damaged(seed: u64) -> Case {
    let (_, mut case) = sound(seed);
    let mut rng = Rng::new(!seed);
    let damages = *rng.pick(&[1, 1, 1, 2, 3]);
    for _ in 0..damages {
        damage(&mut rng, &mut case);
    }
    case
}

/// A sound delivery with this many services, some 20 lines each.
pub fn large(seed: u64, services: usize, rising: bool) -> (World, Case) {
    shaped(&mut Rng::new(seed), &Shape::large(services, rising))
}

/// The same with services that meet: some thousand pairs of CHANGES and rows of
/// XCHANGES at a few hundred stations, and most stations in neither.
pub fn connected(seed: u64, services: usize, rising: bool) -> (World, Case) {
    shaped(&mut Rng::new(seed), &Shape::connected(services, rising))
}

/// A sound delivery with this many services, some 10 lines each, in no order.
pub fn crowded(seed: u64, services: usize) -> (World, Case) {
    shaped(&mut Rng::new(seed), &Shape { stops: 2..=3, ..Shape::large(services, false) })
}

/// A border that document 01 draws.
#[derive(Clone, Copy, Debug, PartialEq, Eq)]
pub enum Limit {
    Stops(usize),
    /// So many stops, and a platform record after each.
    Platforms(usize),
    Modes(usize),
    Days(usize),
    /// Rooms that are just enough.
    RoomsExact,
    /// Rooms just enough but for one file, which lacks one line.
    RoomShort(usize),
}

/// Both sides of every border.
pub fn limits() -> Vec<Limit> {
    use Limit::*;
    let mut limits = vec![
        Stops(2),
        Stops(998),
        Stops(999),
        Platforms(998),
        Modes(64),
        Modes(65),
        Days(1),
        Days(800),
        Days(801),
        RoomsExact,
    ];
    limits.extend((0..FILES).map(RoomShort));
    limits
}

/// A delivery, sound in all else, that stands at the limit.
pub fn limit(seed: u64, limit: Limit) -> Case {
    let mut rng = Rng::new(seed);
    let mut shape = Shape::small(&mut rng);
    match limit {
        Limit::Stops(count) | Limit::Platforms(count) => {
            shape.services = 1..=2;
            shape.stops = count..=count;
        }
        Limit::Modes(count) => shape.modes = count..=count,
        Limit::Days(count) => shape.days = count..=count,
        Limit::RoomsExact => (),
        // A room of 0 suffices for an absent file.
        Limit::RoomShort(_) => {
            (shape.changes, shape.xfootnotes, shape.xchanges) = (true, true, true);
        }
    }
    let (_, mut case) = shaped(&mut rng, &shape);
    if let Limit::Platforms(_) = limit {
        add_platforms(&mut case);
    }
    if let Limit::RoomsExact | Limit::RoomShort(_) = limit {
        case.rooms = case.files.each_ref().map(|file| lines_in(file));
    }
    if let Limit::RoomShort(file) = limit {
        case.rooms[file] -= 1;
    }
    case
}

/// Gives every stop that has none a platform record.
fn add_platforms(case: &mut Case) {
    let footnote = split(&case.files[FOOTNOTE])[1][1..].to_vec();
    let platform = [&b"?     ,     ,"[..], &footnote].concat();
    let lines = split(&case.files[TIMETBLS]);
    let mut all = Vec::new();
    for (at, line) in lines.iter().enumerate() {
        all.push(line.clone());
        let is_stop = matches!(line[0], b'>' | b'.' | b'+' | b'<');
        if is_stop && !lines.get(at + 1).is_some_and(|next| next.starts_with(b"?")) {
            all.push(platform.clone());
        }
    }
    case.files[TIMETBLS] = join(&all);
    case.rooms[TIMETBLS] = all.len();
}

/// Any of these: sound, at the borders, overnight, at a limit, with one cause or
/// damaged.
pub fn mixed(seed: u64) -> Case {
    let mut rng = Rng::new(seed.wrapping_mul(0xD134_2543_DE82_EF95));
    match rng.below(100) {
        0..=25 => sound(seed).1,
        26..=29 => overnight(seed).1,
        30..=37 => at_borders(seed).1,
        38..=39 => limit(seed, *rng.pick(&limits())),
        40..=54 => caused(seed, &mut rng),
        _ => damaged(seed),
    }
}

fn caused(seed: u64, rng: &mut Rng) -> Case {
    let cause = rng.pick(causes());
    cause.case(seed).map_or_else(|| damaged(seed), |(case, _)| case)
}
