//! Damage to the eleven tables of words that show a delivery, one change at a
//! time. What each word is stands in docs/TABLES.md.

use crate::calendar;
use crate::damage::WEIGHTS;
use crate::fields::{self, Class, Field};
use crate::place::*;
use crate::rng::Rng;
use crate::FILES;

pub type Tables = [Vec<u64>; FILES];

/// The words of a row in each table.
const WIDTHS: [usize; FILES] = [6, 6, 6, 6, 6, 6, 14, 7, 6, 14, 7];

/// The word of a row that holds its key, or in TIMETBLS a service.
fn key_of(file: usize, row: &[u64]) -> u64 {
    row[if file == STATIONS { 2 } else { 1 }]
}

/// The places of words that follow from the others.
const RISES: usize = 5;
const LINES: usize = 2;
const STOPS: usize = 3;
const LINE: usize = 6;

pub const GROUP: u64 = b'#' as u64;
/// Bytes on both sides of what is allowed.
const BESIDE_ALLOWED: [u8; 9] = [0x00, 0x1f, b' ', 0x7e, 0x7f, 0x80, 0x9f, 0xa0, 0xff];
/// `*` and two blanks, packed.
pub const ANY_COMPANY: u64 = 0x2a_20_20;
/// `*` and three blanks, packed.
pub const ANY_MODE: u64 = 0x2a_20_20_20;

pub fn is_stop(row: &[u64]) -> bool {
    b">.+<".iter().any(|&letter| row[0] == u64::from(letter))
}

/// The rows of a table in use: those before the first whose first word is zero.
pub fn rows(tables: &Tables, file: usize) -> Vec<Vec<u64>> {
    rows_in_use(tables, file).map(<[u64]>::to_vec).collect()
}

/// The same where they stand.
pub fn rows_in_use(tables: &Tables, file: usize) -> impl Iterator<Item = &[u64]> {
    tables[file].chunks_exact(WIDTHS[file]).take_while(|row| row[0] != 0)
}

/// Puts other rows into a table; it grows where they need more room.
fn put_rows(tables: &mut Tables, file: usize, rows: &[Vec<u64>]) {
    let length = tables[file].len().max(rows.len() * WIDTHS[file]);
    tables[file] = rows.concat();
    tables[file].resize(length, 0);
}

/// A change to the rows of a table at one of them.
#[derive(Clone, Copy, Debug, PartialEq, Eq)]
pub enum RowEdit {
    Delete,
    Double,
    /// With the next, if there is one.
    Swap,
}

impl RowEdit {
    pub const ALL: [RowEdit; 3] = [RowEdit::Delete, RowEdit::Double, RowEdit::Swap];

    pub fn put_into(self, tables: &mut Tables, file: usize, at: usize) {
        let mut rows = rows(tables, file);
        let next = (at + 1).min(rows.len() - 1);
        match self {
            RowEdit::Delete => drop(rows.remove(at)),
            RowEdit::Double => rows.insert(at, rows[at].clone()),
            RowEdit::Swap => rows.swap(at, next),
        }
        put_rows(tables, file, &rows);
    }
}

/// Does one damage to the tables; by chance they may stay sound.
pub fn damage_tables(rng: &mut Rng, tables: &mut Tables) {
    let file = present(rng, tables);
    let count = rows(tables, file).len();
    match rng.below(20) {
        0..=8 if count > 0 => change_word(rng, tables, file),
        9..=13 if count > 0 => rng.pick(&RowEdit::ALL).put_into(tables, file, rng.below(count)),
        14 if count > 0 => move_row(rng, tables, file),
        15 => move_span(rng, tables),
        16 => change_every_first_row(rng, tables),
        17 => change_code_everywhere(rng, tables),
        18 => change_length(rng, &mut tables[file]),
        _ => change_any_place(rng, &mut tables[file]),
    }
}

/// A table with words, more often one in which more can go wrong.
fn present(rng: &mut Rng, tables: &Tables) -> usize {
    let there = (0..FILES).filter(|&file| !tables[file].is_empty());
    let weighted: Vec<usize> = there.flat_map(|file| std::iter::repeat_n(file, WEIGHTS[file])).collect();
    if weighted.is_empty() {
        return rng.below(FILES);
    }
    *rng.pick(&weighted)
}

/// Changes a word of a row. Each letter of the file has the same chance, however
/// rare its rows are.
fn change_word(rng: &mut Rng, tables: &mut Tables, file: usize) {
    let mut rows = rows(tables, file);
    let mut letters: Vec<u64> = rows.iter().map(|row| row[0]).collect();
    letters.sort_unstable();
    letters.dedup();
    let letter = *rng.pick(&letters);
    let places: Vec<usize> = (0..rows.len()).filter(|&at| rows[at][0] == letter).collect();
    let (at, like) = (*rng.pick(&places), *rng.pick(&places));
    let place = rng.below(WIDTHS[file]);
    rows[at][place] = match rng.below(4) {
        0 => rows[like][place],
        1 => other_word(rng, rows[at][place]),
        _ => *rng.pick(&border_words(file, at, &rows[at], place)),
    };
    put_rows(tables, file, &rows);
}

fn other_word(rng: &mut Rng, word: u64) -> u64 {
    match rng.below(7) {
        0 => word ^ 1,
        1 => word.wrapping_add(1),
        2 => word.wrapping_sub(1),
        3 => word ^ 1 << rng.below(64),
        // What is left of it in half a word is as it was.
        4 => word.wrapping_add(1 << 32),
        5 => with_other_byte(rng, word),
        _ => rng.word() >> rng.below(64),
    }
}

/// Other values for a word of a table: its neighbours, what is the same in half
/// a word, and where it holds a field those at the field's borders.
pub fn other_words(tables: &Tables, file: usize, place: usize) -> Vec<u64> {
    let word = tables[file][place];
    let near = [word ^ 1, word.wrapping_add(1), word.wrapping_sub(1), word.wrapping_add(1 << 32)];
    let (at, place) = (place / WIDTHS[file], place % WIDTHS[file]);
    let row = rows(tables, file).into_iter().nth(at);
    let borders = row.map_or(vec![1], |row| border_words(file, at, &row, place));
    let mut others: Vec<u64> = near.into_iter().chain(borders).filter(|&other| other != word).collect();
    others.sort_unstable();
    others.dedup();
    others
}

/// Words at the borders of what a word of a row may be.
fn border_words(file: usize, at: usize, row: &[u64], place: usize) -> Vec<u64> {
    if place == 0 {
        return b"\x00\x01\x02@#%-&*>.+;<?01".iter().map(|&letter| u64::from(letter)).collect();
    }
    let Some(field) = field_of(file, at, row, place) else {
        return vec![0, 1, 2, 3, 1 << 63, u64::MAX];
    };
    match field.class {
        Class::Day => vec![
            0,
            1_011_600,
            29_021_900,
            29_022_000,
            31_121_599,
            31_129_999,
            1_132_015,
            1_002_015,
            31_042_015,
            32_012_015,
            12_015,
            100_000_000,
            row[place].wrapping_add(1_000_000),
            row[place].wrapping_sub(1_000_000),
        ],
        Class::Time => vec![0, 59, 60, 2_359, 2_360, 2_400, 9_959, 9_960, 9_999, 10_000],
        Class::Stop => (0..=7).chain([998, 999, 1_000]).collect(),
        Class::Number => {
            let most = 10u64.pow(field.width() as u32) - 1;
            vec![0, 1, 2, 3, 9, 99, 999, most, most + 1, ANY_COMPANY]
        }
        Class::Code => border_codes(row[place], field.width()),
        Class::Text => unreachable!("texts are not kept"),
    }
}

/// Blanks, a star and blanks, a byte too many, and a byte on either side of what
/// is allowed in the first and the last place.
fn border_codes(code: u64, width: usize) -> Vec<u64> {
    let (last, first) = (size_of::<u64>() - 1, size_of::<u64>() - width);
    let with = |code: u64, place: usize, byte: u8| {
        let mut bytes = code.to_be_bytes();
        bytes[place] = byte;
        u64::from_be_bytes(bytes)
    };
    let blanks = (first..=last).fold(0, |blanks, place| with(blanks, place, b' '));
    let sides =
        [first, last].into_iter().flat_map(|place| BESIDE_ALLOWED.map(|byte| with(code, place, byte)));
    sides.chain([0, blanks, with(blanks, first, b'*'), with(code, first - 1, b' ')]).collect()
}

/// The field that a word of a row holds; texts are not kept.
fn field_of(file: usize, at: usize, row: &[u64], place: usize) -> Option<Field> {
    let fields = match at {
        0 => fields::FIRST_LINE,
        _ => {
            let is_meant = |record: &&fields::Record| {
                record.file == file && record.letter.is_none_or(|letter| u64::from(letter) == row[0])
            };
            fields::RECORDS.iter().find(is_meant)?.fields
        }
    };
    fields.iter().filter(|field| field.class != Class::Text).nth(place.checked_sub(1)?).copied()
}

/// A code with a byte in it at the border of what is allowed.
fn with_other_byte(rng: &mut Rng, code: u64) -> u64 {
    let mut bytes = code.to_be_bytes();
    let first = bytes.iter().position(|&byte| byte != 0).unwrap_or(bytes.len() - 1);
    bytes[first + rng.below(bytes.len() - first)] = *rng.pick(&BESIDE_ALLOWED);
    u64::from_be_bytes(bytes)
}

/// Changes a code wherever it stands, so that it is still met where it is named.
fn change_code_everywhere(rng: &mut Rng, tables: &mut Tables) {
    let file = *rng.pick(&[COUNTRY, TRNSMODE, STATIONS]);
    let rows = rows(tables, file);
    if rows.len() < 2 {
        return;
    }
    let code = key_of(file, &rows[1 + rng.below(rows.len() - 1)]);
    let other = with_other_byte(rng, code);
    // No number of the tables is as large as a code.
    tables.iter_mut().flatten().filter(|word| **word == code).for_each(|word| *word = other);
}

fn move_row(rng: &mut Rng, tables: &mut Tables, file: usize) {
    let mut rows = rows(tables, file);
    let moved = rows.remove(rng.below(rows.len()));
    rows.insert(rng.below(rows.len() + 1), moved);
    put_rows(tables, file, &rows);
}

/// Has a record with first and last begin and end a stop earlier or later, so
/// that a leg is held twice and another by none; or gives its block a second
/// such record, which may go from a stop to itself and then holds no leg.
fn move_span(rng: &mut Rng, tables: &mut Tables) {
    let mut rows = rows(tables, TIMETBLS);
    let has_span = |row: &Vec<u64>| b"%-&*".iter().any(|&letter| row[0] == u64::from(letter));
    let spans: Vec<usize> = (0..rows.len()).filter(|&at| has_span(&rows[at])).collect();
    if spans.is_empty() {
        return;
    }
    let at = *rng.pick(&spans);
    let first = if rows[at][0] == u64::from(b'%') { 3 } else { 2 };
    let span = first..first + 2;
    match rng.below(4) {
        0 => rows[at][span].iter_mut().for_each(|stop| *stop = stop.wrapping_sub(1)),
        1 => rows[at][span].iter_mut().for_each(|stop| *stop = stop.wrapping_add(1)),
        2 => {
            rows.insert(at, rows[at].clone());
            rows[at][span].fill(1 + rng.below(4) as u64);
        }
        _ => {
            rows.insert(at, rows[at].clone());
            rows[at][span].fill_with(|| 1 + rng.below(4) as u64);
        }
    }
    put_rows(tables, TIMETBLS, &rows);
}

/// The same word in the first row of every table that has one, so that these
/// stay equal.
fn change_every_first_row(rng: &mut Rng, tables: &mut Tables) {
    let place = 1 + rng.below(4);
    let Some(&word) = tables[DELIVERY].get(place) else { return };
    let word = other_word(rng, word);
    for table in tables.iter_mut().filter(|table| table.first().is_some_and(|&letter| letter != 0)) {
        table[place] = word;
    }
}

fn change_length(rng: &mut Rng, table: &mut Vec<u64>) {
    match rng.below(4) {
        0 => table.clear(),
        1 => table.fill(0),
        2 => table.truncate(rng.below(table.len() + 1)),
        _ => table.extend((0..1 + rng.below(20)).map(|_| 0)),
    }
}

/// Changes a word anywhere, also where no row is or can be.
fn change_any_place(rng: &mut Rng, table: &mut [u64]) {
    if table.is_empty() {
        return;
    }
    let place = rng.below(table.len());
    table[place] = other_word(rng, table[place]);
}

/// Makes a table as if its file were absent, or as if it had its first line
/// alone.
pub fn cut(tables: &mut Tables, file: usize, rows_left: usize) {
    let end = (rows_left * WIDTHS[file]).min(tables[file].len());
    tables[file][end..].fill(0);
}

/// What document 01 has a limit for, in tables.
#[derive(Clone, Copy, Debug, PartialEq, Eq)]
pub enum Limited {
    Stops,
    Modes,
    Days,
}

/// Gives the tables of a delivery one more of these: sound tables stay sound,
/// unless they stand at the limit.
pub fn add_one(tables: &mut Tables, of: Limited) {
    match of {
        Limited::Stops => add_stop(tables),
        Limited::Modes => add_mode(tables),
        Limited::Days => add_day(tables),
    }
    derive(tables);
}

/// Doubles the second stop of the first service, and has what went to the last
/// stop go to the one after.
fn add_stop(tables: &mut Tables) {
    let mut rows = rows(tables, TIMETBLS);
    let end = (2..rows.len()).find(|&at| rows[at][0] == GROUP).unwrap_or(rows.len());
    let stops: Vec<usize> = (1..end).filter(|&at| is_stop(&rows[at])).collect();
    for row in &mut rows[1..end] {
        let last = match u8::try_from(row[0]) {
            Ok(b'%') => 4,
            Ok(b'-' | b'&') => 3,
            _ => continue,
        };
        row[last] += u64::from(row[last] == stops.len() as u64);
    }
    let second = rows[stops[1]].clone();
    rows.insert(stops[1], second);
    put_rows(tables, TIMETBLS, &rows);
}

fn add_mode(tables: &mut Tables) {
    let mut rows = rows(tables, TRNSMODE);
    let is_new = |code: &u64| rows[1..].iter().all(|row| key_of(TRNSMODE, row) != *code);
    let codes = (0..).map(|letter| u64::from_be_bytes([0, 0, 0, 0, b'A' + letter, b' ', b' ', b' ']));
    let code = codes.take(26).find(is_new).expect("a code that no mode has");
    rows.push(vec![1, code, 0, 0, 0, 0]);
    put_rows(tables, TRNSMODE, &rows);
}

fn add_day(tables: &mut Tables) {
    const LAST_DAY: usize = 3;
    let next = calendar::written(calendar::counted(tables[DELIVERY][LAST_DAY]) + 1);
    for table in tables.iter_mut().filter(|table| table.first().is_some_and(|&letter| letter != 0)) {
        table[LAST_DAY] = next;
    }
}

/// What `+` has where nobody alights or boards.
pub const NO_TIME: u64 = 9_999;

/// Arrival and departure of a stop as written, HHMM.
pub fn times_of(stop: &[u64]) -> [Option<u64>; 2] {
    let time = |place: usize| Some(stop[place]).filter(|&time| time != NO_TIME);
    match stop[0] as u8 {
        b'>' => [None, time(2)],
        b'+' => [time(2), time(3)],
        b'<' => [time(2), None],
        _ => [time(2), time(2)],
    }
}

/// The minutes of a time, HHMM.
pub fn minutes_of(time: u64) -> i64 {
    (time / 100 * 60 + time % 100) as i64
}

/// Has a service leave a stop so many minutes later, or earlier, with no other
/// time but an arrival that is the same; not where there is no such time.
pub fn delay(tables: &mut Tables, service: u64, stop: u64, minutes: i64) -> Option<()> {
    let mut rows = tables[TIMETBLS].chunks_exact_mut(WIDTHS[TIMETBLS]);
    rows.find(|row| row[0] == GROUP && row[1] == service)?;
    let mut stops = rows.take_while(|row| row[0] != GROUP).filter(|row| is_stop(row));
    let row = stops.nth(usize::try_from(stop.checked_sub(1)?).ok()?)?;
    let is_interval = row[0] == u64::from(b'+');
    let place = if is_interval { 3 } else { 2 };
    let later = (row[place] / 100 * 60 + row[place] % 100).checked_add_signed(minutes)?;
    let time = later / 60 * 100 + later % 60;
    let is_after = !is_interval || row[2] == NO_TIME || row[2] < time;
    (time < NO_TIME && row[place] != NO_TIME && is_after).then_some(())?;
    row[place] = time;
    Some(())
}

/// Gives every table the words that follow from its others, so that they do not
/// hide what else is wrong: whether its keys rise; in TIMETBLS the numbers of
/// lines, and the lines and stops of blocks.
pub fn derive(tables: &mut Tables) {
    for file in 0..FILES {
        let mut rows = rows(tables, file);
        if rows.is_empty() {
            continue;
        }
        rows[0][RISES] = u64::from(keys(file, &rows).is_sorted_by(|earlier, later| earlier < later));
        if file == TIMETBLS {
            number_lines(&mut rows);
        }
        put_rows_in_use(&mut tables[file], &rows);
    }
}

/// What is beyond the rows in use stays as it is.
fn put_rows_in_use(table: &mut [u64], rows: &[Vec<u64>]) {
    table.iter_mut().zip(rows.iter().flatten()).for_each(|(word, derived)| *word = *derived);
}

fn keys(file: usize, rows: &[Vec<u64>]) -> Vec<u64> {
    let has_keys = |row: &&Vec<u64>| match file {
        DELIVERY => false,
        COMPANY | COUNTRY | TRNSMODE | STATIONS => true,
        _ => row[0] == GROUP,
    };
    rows[1..].iter().filter(has_keys).map(|row| key_of(file, row)).collect()
}

fn number_lines(rows: &mut [Vec<u64>]) {
    rows[0][LINE] = 1;
    for block in rows[1..].chunk_by_mut(|_, next| next[0] != GROUP) {
        for (row, line) in block.iter_mut().zip(1..) {
            row[LINE] = line;
        }
        let (lines, stops) = (block.len(), block.iter().filter(|row| is_stop(row)).count());
        if block[0][0] == GROUP {
            (block[0][LINES], block[0][STOPS]) = (lines as u64, stops as u64);
        }
    }
}
