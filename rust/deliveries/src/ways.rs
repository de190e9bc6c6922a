//! Ways to amend a delivery, and causes in blocks as amendments: what each must
//! come to is known without amending.

use crate::amendments::{edited, is_one_block, lines_of, Amendment};
use crate::cases::{full, Case};
use crate::causes::{Cause, Place, ACCEPTED};
use crate::damage::lines_in;
use crate::place::*;
use crate::rng::Rng;
use crate::text::{join, number, split, Lines};
use crate::world::{write_block, World};

/// A way to make an amendment of a delivery as its texts stand.
pub struct Way {
    /// The refusal's number, or [`ACCEPTED`].
    pub number: u8,
    pub what: &'static str,
    make: fn(&mut Rng, &Delivery) -> Option<Amendment>,
}

impl Way {
    /// None if the delivery has no place for it.
    pub fn amendment(&self, rng: &mut Rng, world: &World, case: &Case) -> Option<Amendment> {
        (self.make)(rng, &Delivery { world, case })
    }
}

const fn way(number: u8, what: &'static str, make: fn(&mut Rng, &Delivery) -> Option<Amendment>) -> Way {
    Way { number, what, make }
}

/// The fewest lines of a block: `#`, `%`, `-`, `&`, `>` and `<`.
const FEWEST: usize = 6;

/// Every way. Faults of the block's own lines are causes.
pub const WAYS: &[Way] = &[
    way(ACCEPTED, "more lines", |rng, now| {
        let held = now.any(rng)?;
        let more = (now.spare() > 0).then(|| 1 + rng.below(now.spare()))?;
        Some(now.block(rng, held.service, held.lines() + more))
    }),
    way(ACCEPTED, "fewer lines", |rng, now| {
        let held = now.any(rng)?;
        let fewer = (held.lines() > FEWEST).then(|| 1 + rng.below(held.lines() - FEWEST))?;
        Some(now.block(rng, held.service, held.lines() - fewer))
    }),
    way(ACCEPTED, "as many lines", |rng, now| {
        let held = now.any(rng)?;
        Some(now.block(rng, held.service, held.lines()))
    }),
    way(ACCEPTED, "the very same lines", |rng, now| Some(now.any(rng)?.unchanged())),
    way(ACCEPTED, "named in CHANGES", |rng, now| {
        let named = now.named_in_changes();
        let held = (!named.is_empty()).then(|| *rng.pick(&named)).and_then(|service| now.held(service))?;
        Some(now.block(rng, held.service, held.lines()))
    }),
    way(ACCEPTED, "filling the room", |rng, now| {
        let held = now.any(rng)?;
        Some(now.block(rng, held.service, held.lines() + now.spare()))
    }),
    way(2, "one line too many", |rng, now| {
        let held = now.any(rng)?;
        Some(now.block(rng, held.service, held.lines() + now.spare() + 1))
    }),
    way(2, "lines too many", |rng, now| {
        let held = now.any(rng)?;
        let too_many = 2 + rng.below(60);
        Some(now.block(rng, held.service, held.lines() + now.spare() + too_many))
    }),
    way(2, "one line too many, and one broken", |rng, now| {
        let held = now.any(rng)?;
        Some(broken(now.block(rng, held.service, held.lines() + now.spare() + 1)))
    }),
    way(12, "not held, the number before or after", |rng, now| {
        let near = now.any(rng)?.service.checked_add_signed(*rng.pick(&[-1, 1]))?;
        Some(now.block(rng, now.unheld(near)?, FEWEST))
    }),
    way(12, "not held", |rng, now| {
        let (service, more) = (rng.below(100_000_000) as u64, rng.below(20));
        Some(now.block(rng, now.unheld(service)?, FEWEST + more))
    }),
    way(12, "not held, no room either", |rng, now| {
        let service = rng.below(100_000_000) as u64;
        Some(now.block(rng, now.unheld(service)?, now.room() + 1))
    }),
    way(12, "not held, and broken", |rng, now| {
        let service = rng.below(100_000_000) as u64;
        Some(broken(now.block(rng, now.unheld(service)?, FEWEST)))
    }),
    way(11, "empty", |rng, now| Some(Amendment { block: vec![], ..now.any(rng)?.unchanged() })),
    way(11, "without its last LF", |rng, now| now.spoiled(rng, |_, block| block.truncate(block.len() - 1))),
    way(11, "without its last CR LF", |rng, now| {
        now.spoiled(rng, |_, block| block.truncate(block.len() - 2))
    }),
    way(11, "without its last CR", |rng, now| now.spoiled(rng, |_, block| cut(block, block.len() - 2))),
    way(11, "with a remainder", |rng, now| {
        now.spoiled(rng, |rng, block| block.push(*rng.pick(b"\r\n;?<# ")))
    }),
    way(11, "CR LF alone", |rng, now| now.spoiled(rng, |_, block| block.splice(.., *b"\r\n").for_each(drop))),
    way(11, "an empty line first", |rng, now| {
        now.spoiled(rng, |_, block| block.splice(..0, *b"\r\n").for_each(drop))
    }),
    way(11, "another first byte", |rng, now| {
        now.spoiled(rng, |rng, block| block[0] = *rng.pick(b"@%-0 \x00\xff\""))
    }),
    way(11, "another digit", |rng, now| {
        now.spoiled(rng, |rng, block| {
            let place = 1 + rng.below(8);
            block[place] = b'0' + (block[place] - b'0' + 1 + rng.below(9) as u8) % 10;
        })
    }),
    way(11, "no digit", |rng, now| {
        now.spoiled(rng, |rng, block| block[1 + rng.below(8)] = *rng.pick(b"/:a -\x00\xff"))
    }),
    way(11, "a digit too many", |rng, now| {
        now.spoiled(rng, |rng, block| block.insert(*rng.pick(&[1, 9]), *rng.pick(b"01")))
    }),
    way(11, "a digit too few", |rng, now| now.spoiled(rng, |rng, block| cut(block, 1 + rng.below(8)))),
    way(11, "a blank or CR after the digits", |rng, now| {
        now.spoiled(rng, |rng, block| block.insert(9, *rng.pick(b" \r,")))
    }),
    way(11, "LF after the digits", |rng, now| now.spoiled(rng, |_, block| cut(block, 9))),
    way(11, "another line begins #", |rng, now| {
        now.spoiled(rng, |rng, block| {
            let line = if rng.percent(50) { block[..9].to_vec() } else { b"#".to_vec() };
            insert_line(rng, block, line);
        })
    }),
    way(11, "another line begins @", |rng, now| {
        let first_line = split(&now.case.files[DELIVERY]).swap_remove(0);
        let line = if rng.percent(50) { first_line } else { b"@".to_vec() };
        let mut amendment = now.any(rng)?.unchanged();
        insert_line(rng, &mut amendment.block, line);
        Some(amendment)
    }),
    way(11, "two services' blocks", |rng, now| {
        let mut amendment = now.any(rng)?.unchanged();
        amendment.block.extend(now.any(rng)?.unchanged().block);
        Some(amendment)
    }),
    way(11, "another service's block", |rng, now| {
        let (service, other) = (now.any(rng)?.service, now.any(rng)?);
        (service != other.service).then(|| Amendment { service, ..other.unchanged() })
    }),
    way(11, "no block, and not held", |rng, now| {
        let service = now.unheld(rng.below(100_000_000) as u64)?;
        Some(Amendment { service, ..now.any(rng)?.unchanged() })
    }),
    way(11, "a number above 99,999,999, the same in eight digits", |rng, now| {
        let amendment = now.any(rng)?.unchanged();
        let service = amendment.service + 100_000_000 * (1 + rng.below(1_000_000) as u64);
        Some(Amendment { service, ..amendment })
    }),
    way(11, "a number above 99,999,999, in all its digits", |rng, now| {
        let service = 100_000_000 + rng.below(900_000_000) as u64;
        let block = now.any(rng)?.unchanged().block;
        Some(Amendment { service, block: [b"#", &number(service, 9)[..], &block[9..]].concat() })
    }),
    way(11, "a number beyond 32 bits, the same within", |rng, now| {
        let amendment = now.any(rng)?.unchanged();
        let service = amendment.service + ((1 + rng.below(1 << 31) as u64) << 32);
        Some(Amendment { service, ..amendment })
    }),
    way(11, "the largest number", |rng, now| {
        Some(Amendment { service: u64::MAX, ..now.any(rng)?.unchanged() })
    }),
];

/// Takes a byte out.
fn cut(block: &mut Vec<u8>, place: usize) {
    block.remove(place);
}

/// Puts a line after the first, or at the end.
fn insert_line(rng: &mut Rng, block: &mut Vec<u8>, line: Vec<u8>) {
    let mut lines = split(block);
    let place = 1 + rng.below(lines.len());
    lines.insert(place, line);
    *block = join(&lines);
}

/// The amendment with a byte in its last line that is not allowed.
fn broken(mut amendment: Amendment) -> Amendment {
    let end = amendment.block.len();
    amendment.block[end - 3] = 0;
    amendment
}

/// A delivery as it stands, with amendments made already.
struct Delivery<'a> {
    world: &'a World,
    case: &'a Case,
}

/// A held service and its lines.
struct Held<'a> {
    service: u64,
    text: &'a [u8],
}

impl Held<'_> {
    fn lines(&self) -> usize {
        ends_in(self.text)
    }

    fn unchanged(&self) -> Amendment {
        Amendment { service: self.service, block: self.text.to_vec() }
    }
}

/// How many lines a text has that ends in CR LF.
fn ends_in(text: &[u8]) -> usize {
    text.windows(2).filter(|bytes| bytes == b"\r\n").count()
}

impl<'a> Delivery<'a> {
    fn room(&self) -> usize {
        self.case.rooms[TIMETBLS]
    }

    fn timetbls(&self) -> &'a [u8] {
        &self.case.files[TIMETBLS]
    }

    /// How many lines of room are not used.
    fn spare(&self) -> usize {
        self.room() - ends_in(self.timetbls())
    }

    fn held(&self, service: u64) -> Option<Held<'a>> {
        Some(Held { service, text: &self.timetbls()[lines_of(service, self.timetbls())?] })
    }

    fn any(&self, rng: &mut Rng) -> Option<Held<'a>> {
        let services = &self.world.services;
        (!services.is_empty()).then(|| rng.pick(services).number).and_then(|service| self.held(service))
    }

    /// The number in eight digits, unless it is held.
    fn unheld(&self, service: u64) -> Option<u64> {
        let is_held = self.world.services.iter().any(|held| held.number == service);
        (service < 100_000_000 && !is_held).then_some(service)
    }

    fn named_in_changes(&self) -> Vec<u64> {
        let rows = split(&self.case.files[CHANGES]).into_iter().filter(|line| line.starts_with(b"-"));
        let field = |line: &[u8]| String::from_utf8_lossy(line).parse().ok();
        rows.flat_map(|row| [field(&row[1..9]), field(&row[10..18])]).flatten().collect()
    }

    /// A sound block of so many lines: passed stations fill it up.
    fn block(&self, rng: &mut Rng, service: u64, lines: usize) -> Amendment {
        const TRIES: usize = 4;
        let mut blocks = (0..TRIES).map(|_| self.any_lines(rng, service));
        let fitting = blocks.find(|block| block.len() <= lines);
        let mut block = fitting.unwrap_or_else(|| self.shortest(rng, service));
        let last = block.iter().position(|line| line.starts_with(b"<")).expect("a last stop");
        while block.len() < lines {
            let station = rng.field(&self.world.stations);
            block.insert(last, [b";", station].concat());
        }
        Amendment { service, block: join(&block) }
    }

    fn any_lines(&self, rng: &mut Rng, service: u64) -> Vec<Vec<u8>> {
        let stops = 2 + rng.below(6);
        self.sound_lines(rng, service, stops)
    }

    fn sound_lines(&self, rng: &mut Rng, service: u64, count: usize) -> Vec<Vec<u8>> {
        let stops: Vec<usize> = (0..count).map(|_| rng.below(self.world.stations.len())).collect();
        let mut lines = Lines::default();
        write_block(rng, self.world, service, &stops, &mut lines);
        split(&lines.0)
    }

    /// A block of the fewest lines: those of one with two stops that it needs.
    fn shortest(&self, rng: &mut Rng, service: u64) -> Vec<Vec<u8>> {
        let mut lines = self.sound_lines(rng, service, 2);
        lines.retain(|line| !matches!(line[0], b'*' | b';' | b'?'));
        lines
    }

    /// The lines of a held service as they stand, spoiled.
    fn spoiled(&self, rng: &mut Rng, spoil: fn(&mut Rng, &mut Vec<u8>)) -> Option<Amendment> {
        let mut amendment = self.any(rng)?.unchanged();
        spoil(rng, &mut amendment.block);
        Some(amendment)
    }
}

/// A cause in a block, as an amendment of the delivery that is without it.
pub struct Caused {
    pub case: Case,
    pub amendment: Amendment,
    /// The refusal's number, or [`ACCEPTED`].
    pub number: u8,
    pub place: Place,
}

impl Caused {
    /// None for a cause that is in no block, or in its `#`, and if the seed's
    /// delivery has no place for it.
    pub fn new(cause: &Cause, seed: u64) -> Option<Caused> {
        let (caused, place) = (cause.file == TIMETBLS).then(|| cause.case(seed)).flatten()?;
        let (_, mut case) = full(seed);
        let at = (place.ordinal as usize).checked_sub(1)?;
        let (held, block) = (block_at(&case.files[TIMETBLS], at)?, block_at(&caused.files[TIMETBLS], at)?);
        let opening = &held[..b"#00000000\r\n".len()];
        block.starts_with(opening).then_some(())?;
        let service = String::from_utf8_lossy(&opening[1..9]).parse().ok()?;
        let amendment = Amendment { service, block: block.to_vec() };
        let room = &mut case.rooms[TIMETBLS];
        *room = (*room).max(lines_in(&edited(&case.files, &amendment)?[TIMETBLS]));
        // A line that begins `@`, and a remainder, are none of a block's.
        let (number, place) = match is_one_block(service, block) {
            true => (cause.number, place),
            false => (11, Place::FILE),
        };
        Some(Caused { case, amendment, number, place })
    }
}

/// The block at a place, from 0, of a TIMETBLS text.
fn block_at(text: &[u8], at: usize) -> Option<&[u8]> {
    let mut openings = (2..text.len()).filter(|&place| text[place - 2..].starts_with(b"\r\n#"));
    let from = openings.nth(at)?;
    Some(&text[from..openings.next().unwrap_or(text.len())])
}
