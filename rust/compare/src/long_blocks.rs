//! Refusal 1 of an amendment: blocks with which the edited text has the largest
//! length, a byte more, and more than that.
//!
//! Tables of a text of that length have millions of rows; a long block needs
//! small ones alone, and the rows that stay are counted with it.

use std::io;

use deliveries::amendments::lines_of;
use deliveries::{place, sound, Amendment, Case, World};
use proved::Answer;
use second::files::LONGEST_FILE;

use crate::amended::{answered, in_timetbls, Desk, Held};
use crate::bytes::begins;
use crate::comparison::shown;

const CR_LF: &[u8] = b"\r\n";
/// Lines of room beside those that the delivery has, more than any of its
/// services has; with twice as many a block has more than room.
const ROOM: usize = 1_000;
/// So many blocks make the text too long, by a byte and more.
const LONGER_BLOCKS: usize = 30;

impl Desk<'_> {
    /// Amends a service with every record before and behind it, which are counted
    /// by their rows; it has been amended before. 4 is what comes after 1 and 2; 1
    /// comes before 2, and 12 before both.
    pub fn compare_long_blocks(&mut self) -> io::Result<()> {
        let (world, mut case, at) = with_every_record_beside();
        case.rooms[place::TIMETBLS] += ROOM;
        let (first, service, ordinal) = (world.services[0].number, world.services[at].number, at as u64 + 1);
        let as_first = with_lines_of(&case, first, service);
        let held = &mut Held::by_seed(1, case);
        self.compare_one("amended-before-long", held, &as_first)?;

        let longest = long_amendment(held.timetbls(), service, LONGEST_FILE);
        self.compare_long("the largest length", held, &longest, in_timetbls(4, ordinal, 2))?;

        let mut longer = long_amendment(held.timetbls(), service, LONGEST_FILE + 1);
        let lines = CR_LF.repeat(ROOM * 2);
        let end = longer.block.len();
        longer.block[end - lines.len()..].copy_from_slice(&lines);
        for more in 0..LONGER_BLOCKS {
            // One blank more each time, before the lines at the end.
            if more > 0 {
                longer.block.insert(end - lines.len(), b' ');
            }
            self.compare_long("too long", held, &longer, in_timetbls(1, 0, 0))?;
        }

        let is_unheld = |service: &u64| lines_of(*service, held.timetbls()).is_none();
        longer.service = (0..).find(is_unheld).expect("a service that is not held");
        longer.block[1..9].copy_from_slice(format!("{:08}", longer.service).as_bytes());
        self.compare_long("too long, not held", held, &longer, Answer::refused(12, 0, 0, 0))
    }

    fn compare_long(
        &mut self,
        what: &str,
        held: &mut Held,
        amendment: &Amendment,
        expected: Answer,
    ) -> io::Result<()> {
        let name = format!("amended-long-{}-{}", amendment.service, amendment.block.len());
        let (answer, _) = self.amend(&name, held, amendment)?;
        self.long_blocks.count(format!("{what}: {}", answered(answer)));
        if answer != expected {
            self.complaints.push(format!("{name} is answered: {}.", shown(answer)));
        }
        Ok(())
    }
}

/// A service amended to another's lines.
fn with_lines_of(case: &Case, other: u64, service: u64) -> Amendment {
    let text = &case.files[place::TIMETBLS];
    let mut block = text[lines_of(other, text).expect("a held service")].to_vec();
    block[1..9].copy_from_slice(format!("{service:08}").as_bytes());
    Amendment { service, block }
}

/// An amendment with which a TIMETBLS text has so many bytes: `#` and a line of
/// blanks.
fn long_amendment(text: &[u8], service: u64, length: usize) -> Amendment {
    let held = lines_of(service, text).expect("a held service");
    let mut block = vec![b' '; length - (text.len() - held.len())];
    let opening = format!("#{service:08}\r\n");
    block[..opening.len()].copy_from_slice(opening.as_bytes());
    let end = block.len();
    block[end - CR_LF.len()..].copy_from_slice(CR_LF);
    Amendment { service, block }
}

/// A delivery, and the place of a service, from 0, that has every record before
/// and behind it.
fn with_every_record_beside() -> (World, Case, usize) {
    let is_whole = |text: &[u8]| b"#%-&*>.+;<?".iter().all(|&letter| begins(text, letter));
    let found = (0..20_000).map(sound).find_map(|(world, case)| {
        let text = &case.files[place::TIMETBLS];
        let is_meant = |service: u64| {
            let held = lines_of(service, text).expect("a held service");
            is_whole(&text[..held.start]) && is_whole(&text[held.end - CR_LF.len()..])
        };
        let at = world.services.iter().position(|service| is_meant(service.number))?;
        Some((world, case, at))
    });
    found.expect("a delivery with all records twice")
}
