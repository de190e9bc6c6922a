//! Damage to a delivery or a block, one change at a time.
#![allow(clippy::ptr_arg)] // Edits have one type, whether or not they add lines.

use crate::cases::Case;
use crate::fields::{self, get, put, Class, Field};
use crate::place::*;
use crate::rng::Rng;
use crate::text::{code, free, join, number, split};
use crate::FILES;

/// Bytes at the borders of what is allowed, and those with a meaning.
pub const TELLING_BYTES: &[u8] = b"@#%-&*>.+;<?,0129 \r\n\x00\x1f\x7e\x7f\x80\x9f\xa0\xff";

/// How often each file is damaged: by how much it can go wrong in.
pub const WEIGHTS: [usize; FILES] = [2, 2, 2, 2, 3, 3, 2, 12, 3, 2, 4];

/// Does one damage to the case.
pub fn damage(rng: &mut Rng, case: &mut Case) {
    let file = present(rng, case);
    damage_file(rng, case, file);
}

/// Does one damage to the case, to this file where that can be: it is there.
pub fn damage_file(rng: &mut Rng, case: &mut Case, file: usize) {
    match rng.below(100) {
        0..=9 => replace_byte(rng, &mut case.files[file]),
        10..=48 => edit_lines(rng, case, file, set_field),
        49..=54 => edit_lines(rng, case, file, copy_key),
        55..=74 => edit_lines(rng, case, file, damage_lines),
        75..=77 => move_between(rng, case, file),
        78..=80 => lose_cr_lf(rng, &mut case.files[file]),
        81..=82 => cut(rng, &mut case.files[file]),
        83..=84 => lose_file(rng, case),
        85..=87 => extra_line(rng, case, file),
        88..=90 => edit_lines(rng, case, file, set_first_line),
        91..=93 => set_every_first_line(rng, case),
        94..=97 => edit_lines(rng, case, file, damage_vector),
        _ => case.rooms[file] = lines_in(&case.files[file]) - 1,
    }
}

/// A file that is there. Eight are to begin with, more than are ever damaged.
fn present(rng: &mut Rng, case: &Case) -> usize {
    let there = (0..FILES).filter(|&file| !case.files[file].is_empty());
    let weighted: Vec<usize> = there.flat_map(|file| std::iter::repeat_n(file, WEIGHTS[file])).collect();
    *rng.pick(&weighted)
}

pub fn lines_in(text: &[u8]) -> usize {
    split(text).len()
}

/// A change to the lines of a file, of which there is at least one.
type Edit = fn(&mut Rng, usize, &mut Vec<Vec<u8>>);

/// Changes the lines of a file; every line then has its CR LF.
fn edit_lines(rng: &mut Rng, case: &mut Case, file: usize, edit: Edit) {
    let mut lines = split(&case.files[file]);
    edit(rng, file, &mut lines);
    case.files[file] = join(&lines);
}

/// Damages the lines of a block after its `#`, if it has any.
pub fn damage_block(rng: &mut Rng, block: &mut Vec<u8>) {
    let mut lines = split(block);
    if lines.len() < 2 {
        return;
    }
    let opening = lines.remove(0);
    match rng.below(4) {
        0 => damage_lines(rng, TIMETBLS, &mut lines),
        1 => replace_in_line(rng, &mut lines),
        _ => {
            let place = rng.below(lines.len());
            set_field_at(rng, TIMETBLS, &mut lines, place);
        }
    }
    lines.insert(0, opening);
    *block = join(&lines);
}

fn replace_byte(rng: &mut Rng, text: &mut [u8]) {
    let place = rng.below(text.len());
    text[place] = any_byte(rng);
}

fn replace_in_line(rng: &mut Rng, lines: &mut [Vec<u8>]) {
    let place = rng.below(lines.len());
    let line = &mut lines[place];
    if !line.is_empty() {
        let column = rng.below(line.len());
        line[column] = any_byte(rng);
    }
}

fn any_byte(rng: &mut Rng) -> u8 {
    if rng.percent(50) {
        return rng.word() as u8;
    }
    *rng.pick(TELLING_BYTES)
}

/// Drops, doubles, swaps, lengthens or shortens a line, or adds an empty one.
fn damage_lines(rng: &mut Rng, _file: usize, lines: &mut Vec<Vec<u8>>) {
    let place = rng.below(lines.len());
    let other = rng.below(lines.len());
    match rng.below(8) {
        0 | 1 => drop(lines.remove(place)),
        2 | 3 => lines.insert(other.max(place), lines[place].clone()),
        4 => lines.swap(place, other),
        5 if place + 1 < lines.len() => lines.swap(place, place + 1),
        6 => lines[place].push(any_byte(rng)),
        7 => drop(lines[place].pop()),
        _ => lines.insert(place, vec![]),
    }
}

/// Whether the lines of a file after the first are rows without letters.
fn is_letterless(file: usize) -> bool {
    matches!(file, COMPANY | COUNTRY | TRNSMODE | STATIONS)
}

/// Sets a field of a line after the first, if there is one. Each letter of the
/// file has the same chance, however rare its records are.
fn set_field(rng: &mut Rng, file: usize, lines: &mut Vec<Vec<u8>>) {
    let rows = 1..lines.len();
    let mut letters: Vec<u8> = rows.clone().filter_map(|place| lines[place].first().copied()).collect();
    letters.sort_unstable();
    letters.dedup();
    if letters.is_empty() {
        return set_first_line(rng, file, lines);
    }
    let letter = *rng.pick(&letters);
    let places: Vec<usize> = rows.filter(|&place| lines[place].first() == Some(&letter)).collect();
    let place = *rng.pick(&places);
    set_field_at(rng, file, lines, place);
}

fn set_field_at(rng: &mut Rng, file: usize, lines: &mut [Vec<u8>], place: usize) {
    let fields = fields::of(file, &lines[place]);
    if fields.is_empty() {
        return;
    }
    let field = *rng.pick(fields);
    let value = match rng.percent(30) {
        true => sibling(rng, file, lines, place, field),
        false => border_value(rng, field, &lines[place]),
    };
    put(&mut lines[place], field, &value);
}

fn set_first_line(rng: &mut Rng, _file: usize, lines: &mut Vec<Vec<u8>>) {
    let field = *rng.pick(fields::FIRST_LINE);
    let value = border_value(rng, field, &lines[0]);
    put(&mut lines[0], field, &value);
}

/// Gives a row or a group the key of another one, or a name if rows have one.
fn copy_key(rng: &mut Rng, file: usize, lines: &mut Vec<Vec<u8>>) {
    let is_keyed = |line: &Vec<u8>| is_letterless(file) || line.starts_with(b"#");
    let keyed = (1..lines.len()).filter(|&place| is_keyed(&lines[place]));
    let fields_at =
        |place: usize| fields::of(file, &lines[place]).iter().take(3).map(move |field| (place, *field));
    let keys: Vec<(usize, Field)> = keyed.flat_map(fields_at).collect();
    if keys.is_empty() {
        return;
    }
    let &(place, field) = rng.pick(&keys);
    let value = sibling(rng, file, lines, place, field);
    put(&mut lines[place], field, &value);
}

/// The same field of another record of the kind: a duplicate, or a reference
/// that is met but breaks the legs or the order of times.
fn sibling(rng: &mut Rng, file: usize, lines: &[Vec<u8>], place: usize, field: Field) -> Vec<u8> {
    let line = &lines[place];
    let is_like = |other: &&Vec<u8>| {
        other.len() == line.len() && (is_letterless(file) || other.first() == line.first())
    };
    let siblings: Vec<&Vec<u8>> = lines.iter().filter(is_like).collect();
    get(siblings[rng.below(siblings.len())], field)
}

const DAYS: &[&[u8]] = &[
    b"29021900",
    b"29022000",
    b"31121599",
    b"01011600",
    b"31129999",
    b"00012015",
    b"31042015",
    b"01132015",
    b"01002015",
    b"32012015",
    b"29022016",
    b"29022015",
    b" 1012015",
    b"0101201x",
];
const TIMES: &[&[u8]] =
    &[b"9999", b"9960", b"9959", b"0000", b"2400", b"2359", b"2360", b"0060", b" 000", b"12:0"];
const STOPS: &[&[u8]] = &[b"000", b"001", b"002", b"003", b"004", b"005", b"998", b"999", b"  1", b"00x"];

/// A value at the border of what the field may hold.
fn border_value(rng: &mut Rng, field: Field, line: &[u8]) -> Vec<u8> {
    let width = field.width();
    match field.class {
        Class::Day => rng.pick(DAYS).to_vec(),
        Class::Time => rng.pick(TIMES).to_vec(),
        Class::Stop => rng.pick(STOPS).to_vec(),
        Class::Text => any_text(rng, width),
        Class::Code => any_code(rng, width),
        Class::Number => any_number(rng, width, &get(line, field)),
    }
}

fn any_text(rng: &mut Rng, width: usize) -> Vec<u8> {
    let mut text = free(rng, width);
    if rng.percent(30) {
        let place = rng.below(width);
        text[place] = any_byte(rng);
    }
    text
}

fn any_code(rng: &mut Rng, width: usize) -> Vec<u8> {
    match rng.below(4) {
        0 => vec![b' '; width],
        1 => [b"*", &vec![b' '; width - 1][..]].concat(),
        2 => [b" *", &vec![b' '; width - 2][..]].concat(),
        _ => code(rng, width),
    }
}

fn any_number(rng: &mut Rng, width: usize, now: &[u8]) -> Vec<u8> {
    let mut field = now.to_vec();
    let digit = rng.below(width);
    match rng.below(7) {
        0 => vec![b'0'; width],
        1 => vec![b'9'; width],
        2 => [b"*", &vec![b' '; width - 1][..]].concat(),
        3 => number(rng.below(4) as u64, width),
        4 => {
            field[digit] = any_byte(rng);
            field
        }
        _ => {
            field[digit] = b'0' + rng.below(10) as u8;
            field
        }
    }
}

/// A vector that is too long, too short or holds a wrong character.
fn damage_vector(rng: &mut Rng, file: usize, lines: &mut Vec<Vec<u8>>) {
    let has_vectors = matches!(file, FOOTNOTE | XFOOTNOTE);
    let is_vector = |line: &Vec<u8>| has_vectors && matches!(line.first(), Some(b'0' | b'1'));
    let vectors: Vec<usize> = (1..lines.len()).filter(|&place| is_vector(&lines[place])).collect();
    if vectors.is_empty() {
        return damage_lines(rng, file, lines);
    }
    let vector = &mut lines[*rng.pick(&vectors)];
    let day = rng.below(vector.len());
    match rng.below(5) {
        0 => vector.push(b'1'),
        1 => drop(vector.pop()),
        2 => vector[0] = *rng.pick(b"2 /x@"),
        _ => vector[day] = *rng.pick(b"2 /x,"),
    }
}

fn move_between(rng: &mut Rng, case: &mut Case, from: usize) {
    let mut lines = split(&case.files[from]);
    let moved = lines.remove(rng.below(lines.len()));
    case.files[from] = join(&lines);
    let to = rng.below(FILES);
    let mut lines = split(&case.files[to]);
    lines.insert(rng.below(lines.len() + 1), moved);
    case.files[to] = join(&lines);
}

/// Takes away a CR, an LF or both, mostly at the end.
fn lose_cr_lf(rng: &mut Rng, text: &mut Vec<u8>) {
    let ends: Vec<usize> = (1..text.len()).filter(|&place| text[place - 1..=place] == *b"\r\n").collect();
    if ends.is_empty() {
        return;
    }
    let end = if rng.percent(60) { ends[ends.len() - 1] } else { *rng.pick(&ends) };
    match rng.below(3) {
        0 => drop(text.remove(end)),
        1 => drop(text.remove(end - 1)),
        _ => drop(text.drain(end - 1..=end)),
    }
}

fn cut(rng: &mut Rng, text: &mut Vec<u8>) {
    text.truncate(rng.below(text.len()));
}

const EXTRA: &[&[u8]] = &[
    b"",
    b"@",
    b"#",
    b"#00000001",
    b"#00001",
    b"#0001",
    b"%",
    b"-",
    b"&",
    b"*",
    b">",
    b".",
    b"<",
    b"+",
    b";",
    b"?",
    b"x",
    b"0",
    b"1",
];

/// Takes away a file, each with the same chance.
fn lose_file(rng: &mut Rng, case: &mut Case) {
    let there: Vec<usize> = (0..FILES).filter(|&file| !case.files[file].is_empty()).collect();
    case.files[*rng.pick(&there)].clear();
}

/// A line at the end: a copy of some line of the delivery, or a short one.
fn extra_line(rng: &mut Rng, case: &mut Case, file: usize) {
    let lines = split(&case.files[present(rng, case)]);
    let line = if rng.percent(50) { rng.pick(&lines).clone() } else { rng.pick(EXTRA).to_vec() };
    case.files[file].extend([&line[..], b"\r\n"].concat());
}

/// The same value in a field of every first line, so that they stay equal.
fn set_every_first_line(rng: &mut Rng, case: &mut Case) {
    let mut first = split(&case.files[DELIVERY]);
    if first.is_empty() {
        return;
    }
    first.truncate(1);
    set_first_line(rng, DELIVERY, &mut first);
    for file in case.files.iter_mut().filter(|file| !file.is_empty()) {
        let mut lines = split(file);
        lines[0].clone_from(&first[0]);
        *file = join(&lines);
    }
}
