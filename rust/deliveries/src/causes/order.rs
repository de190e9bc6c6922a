//! Refusal 7: a record that is not allowed where it stands, or a group that is
//! not finished.

use crate::fields::record;
use crate::place::*;
use crate::rng::Rng;
use crate::FILES;

use super::{any, places_of, Cause, Lines};

/// After which record of a block which letters may follow. `!` stands for the
/// platform record of the last stop, and ` ` for the place before all blocks.
const FOLLOWERS: [(char, &str); 13] = [
    (' ', ""),
    ('#', "%"),
    ('%', "%-"),
    ('-', "-&"),
    ('&', "&*>"),
    ('*', "*>"),
    ('>', ".+;?<"),
    ('.', ".+;?<"),
    ('+', ".+;?<"),
    (';', ".+;<"),
    ('?', ".+;<"),
    ('<', "?"),
    ('!', ""),
];

/// The letters of TIMETBLS that end no block.
const LETTERS: &str = "@%-&*>.+;<?";

pub fn causes() -> Vec<Cause> {
    let mut causes: Vec<Cause> = (0..FILES).flat_map(first_lines).collect();
    causes.push(second_line_of_delivery());
    causes.extend(FOLLOWERS.into_iter().flat_map(|(place, allowed)| stray_in_block(place, allowed)));
    let may_not_end = FOLLOWERS.into_iter().filter(|(place, _)| !" <!".contains(*place));
    causes.extend(may_not_end.flat_map(|(place, _)| unfinished_blocks(place)));
    causes.extend([TIMEZONE, FOOTNOTE, XFOOTNOTE].into_iter().flat_map(unfinished_groups));
    causes.extend([TIMEZONE, FOOTNOTE, CHANGES, XFOOTNOTE, XCHANGES].into_iter().flat_map(stray_in_groups));
    causes.extend([FOOTNOTE, XFOOTNOTE].into_iter().flat_map(stray_vectors));
    causes
}

fn first_lines(file: usize) -> [Cause; 2] {
    let other = Cause::in_lines(7, file, "first line", "does not begin @", |rng, lines| {
        lines[0][0] = *rng.pick(b"#%-&*>.+;<?019 x\x00\xff");
        Some(0)
    });
    let empty = Cause::in_lines(7, file, "first line", "empty", |_, lines| {
        lines.insert(0, vec![]);
        Some(0)
    });
    [other, empty]
}

fn second_line_of_delivery() -> Cause {
    Cause::in_lines(7, DELIVERY, "line", "a second one", |rng, lines| {
        let line = [lines[0].clone(), vec![], b"x".to_vec(), b"#00001".to_vec(), vec![0]];
        lines.push(rng.pick(&line).clone());
        Some(1)
    })
}

/// The places, from 0, after which a line would stand at this place of the
/// block order.
fn places_in_order(place: char, lines: &[Vec<u8>]) -> Vec<usize> {
    let begins = |at: usize, letter: u8| lines[at].first() == Some(&letter);
    let is_last_platform = |at: usize| begins(at, b'?') && begins(at - 1, b'<');
    let is_there = |at: usize| match place {
        '!' => is_last_platform(at),
        '?' => begins(at, b'?') && !is_last_platform(at),
        letter => begins(at, letter as u8),
    };
    match place {
        ' ' => vec![0],
        _ => (1..lines.len()).filter(|&at| is_there(at)).collect(),
    }
}

fn name_of(place: char) -> String {
    match place {
        ' ' => "before all blocks".into(),
        '!' => "after the last ?".into(),
        letter => format!("after {letter}"),
    }
}

/// Each letter that may not follow: alone, or a whole record of the kind.
fn stray_in_block(place: char, allowed: &'static str) -> impl Iterator<Item = Cause> {
    let strays = LETTERS.chars().filter(|&letter| !allowed.contains(letter));
    strays.map(move |letter| {
        let what = format!("{letter} {}", name_of(place));
        Cause::in_lines(7, TIMETBLS, "order", what, move |rng, lines| {
            let at = any(rng, places_in_order(place, lines))? + 1;
            let stray = line_beginning(rng, letter as u8, lines);
            lines.insert(at, stray);
            Some(at)
        })
    })
}

fn line_beginning(rng: &mut Rng, letter: u8, lines: &Lines) -> Vec<u8> {
    let like = (0..lines.len()).filter(|&at| lines[at].first() == Some(&letter)).collect();
    match any(rng, like) {
        Some(at) if rng.percent(80) => lines[at].clone(),
        _ => vec![letter],
    }
}

/// A block whose last line stands at this place, with another after it and at
/// the end of the file.
fn unfinished_blocks(place: char) -> [Cause; 2] {
    let cause = |end: &str, to_the_end: bool| {
        let what = format!("unfinished {}, {end}", name_of(place));
        Cause::in_lines(7, TIMETBLS, "order", what, move |rng, lines| {
            let openings = places_of(&record(TIMETBLS, Some(b'#')), lines);
            let last_opening = *openings.last()?;
            let can_be_cut = |at: &usize| to_the_end || *at < last_opening;
            let at = any(rng, places_in_order(place, lines).into_iter().filter(can_be_cut).collect())?;
            let next = openings.into_iter().find(|&opening| opening > at && !to_the_end);
            lines.drain(at + 1..next.unwrap_or(lines.len()));
            Some(at)
        })
    };
    [cause("# follows", false), cause("end of file", true)]
}

/// A group that ends with its `#`. What comes too soon is not looked at, broken
/// or not.
fn unfinished_groups(file: usize) -> [Cause; 2] {
    let opening = record(file, Some(b'#'));
    let followed = Cause::in_lines(7, file, "#", "unfinished, # follows", move |rng, lines| {
        let at = any(rng, places_of(&opening, lines))?;
        let unfinished = unheld(lines, lines[at].len() - 1)?;
        lines.insert(at, unfinished);
        if rng.percent(50) {
            lines[at + 1] = b"#".to_vec();
        }
        Some(at)
    });
    let last = Cause::in_lines(7, file, "#", "unfinished, end of file", move |rng, lines| {
        let at = any(rng, places_of(&opening, lines))?;
        lines.truncate(at + 1);
        Some(at)
    });
    [followed, last]
}

/// A `#` line with a number of so many digits that is not held.
fn unheld(lines: &Lines, digits: usize) -> Option<Vec<u8>> {
    let mut openings = (0..100).map(|key| format!("#{key:0digits$}").into_bytes());
    openings.find(|opening| !lines.contains(opening))
}

/// A record before the first `#`, and `@` anywhere after the first line.
fn stray_in_groups(file: usize) -> Vec<Cause> {
    let letters: &[u8] = match file {
        TIMEZONE => b"+-",
        FOOTNOTE | XFOOTNOTE => b"01",
        _ => b"-",
    };
    let stray = |&letter: &u8| {
        let what = format!("{} before the first #", char::from(letter));
        Cause::in_lines(7, file, "order", what, move |rng, lines| {
            let stray = line_beginning(rng, letter, lines);
            lines.insert(1, stray);
            Some(1)
        })
    };
    let mut causes: Vec<Cause> = letters.iter().map(stray).collect();
    causes.push(Cause::in_lines(7, file, "order", "@ after the first line", |rng, lines| {
        let at = 1 + rng.below(lines.len());
        let stray = if rng.percent(50) { lines[0].clone() } else { b"@".to_vec() };
        lines.insert(at, stray);
        Some(at)
    }));
    causes
}

/// A second vector after a vector.
fn stray_vectors(file: usize) -> [Cause; 2] {
    [b'0', b'1'].map(|letter| {
        let what = format!("{} after a vector", char::from(letter));
        Cause::in_lines(7, file, "order", what, move |rng, lines| {
            let vectors = (1..lines.len()).filter(|&at| matches!(lines[at][0], b'0' | b'1')).collect();
            let at = any(rng, vectors)? + 1;
            let mut second = lines[at - 1].clone();
            second[0] = letter;
            lines.insert(at, second);
            Some(at)
        })
    })
}
