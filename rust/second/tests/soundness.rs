//! Soundness of the sample's tables with every word changed, and with every row
//! deleted, doubled and swapped. What stays sound is listed by hand from the
//! sample and document 01; all else is 16.

mod common;

use common::Sample;
use second::File::{self, *};
use second::{encode, open, rooms_of};

const WIDTHS: [usize; 11] = [6, 6, 6, 6, 6, 6, 14, 7, 6, 14, 7];

type Tables = [Vec<u64>; 11];

/// The sample's tables with room for a row more in each, and some words.
fn tables() -> Tables {
    const ROWS: [usize; 11] = [1, 3, 3, 3, 6, 6, 7, 29, 6, 5, 5];
    let lens: [usize; 11] = std::array::from_fn(|file| (ROWS[file] + 1) * WIDTHS[file] + 3);
    let mut sample = Sample::new();
    sample.rooms = rooms_of(&lens);
    encode(&sample.load().unwrap(), &lens)
}

/// The rows of a table, without those that are unused.
fn rows(tables: &Tables, file: File) -> Vec<Vec<u64>> {
    let rows = tables[file.index()].chunks(WIDTHS[file.index()]).take_while(|row| row[0] != 0);
    rows.map(<[u64]>::to_vec).collect()
}

fn put_rows(tables: &mut Tables, file: File, rows: &[Vec<u64>]) {
    let length = tables[file.index()].len();
    let mut words = rows.concat();
    words.resize(length, 0);
    tables[file.index()] = words;
}

/// In TIMETBLS gives every row the number of its line, and every block its
/// lines and stops: they follow from the rows, so they would hide other faults.
fn renumber(rows: &mut [Vec<u64>]) {
    let is_opening = |row: &Vec<u64>| row[0] == u64::from(b'#');
    let openings: Vec<usize> = (1..rows.len()).filter(|&at| is_opening(&rows[at])).collect();
    for at in 1..rows.len() {
        let opening = openings.iter().rev().find(|&&opening| opening <= at).copied().unwrap_or(0);
        rows[at][6] = (at - opening) as u64 + 1;
    }
    for (place, &opening) in openings.iter().enumerate() {
        let end = openings.get(place + 1).copied().unwrap_or(rows.len());
        let is_stop = |row: &&Vec<u64>| b">.+<".contains(&(row[0] as u8));
        rows[opening][3] = rows[opening..end].iter().filter(is_stop).count() as u64;
        rows[opening][2] = (end - opening) as u64;
    }
}

/// Words of a table by their rows and their places in the row.
type Words = (File, &'static [usize], &'static [usize]);

fn is_listed(list: &[Words], file: File, row: usize, word: usize) -> bool {
    list.iter().any(|(of, rows, words)| *of == file && rows.contains(&row) && words.contains(&word))
}

/// Tries one change of every word; `None` leaves the word out.
fn try_every_word(change: impl Fn(u64) -> Option<u64>, stays_sound: &[Words]) {
    let sound = tables();
    assert!(open(&sound).is_ok());
    for file in File::ALL {
        for place in 0..sound[file.index()].len() {
            let mut tables = sound.clone();
            let word = &mut tables[file.index()][place];
            let Some(changed) = change(*word) else { continue };
            *word = changed;
            let (row, word) = (place / WIDTHS[file.index()], place % WIDTHS[file.index()]);
            let expected = if is_listed(stays_sound, file, row, word) { None } else { Some(16) };
            let number = open(&tables).err().map(|refusal| refusal.number);
            assert_eq!(number, expected, "{file:?}, row {row}, word {word}: {changed}");
        }
    }
}

#[test]
fn every_word_with_its_lowest_bit_changed() {
    let stays_sound: &[Words] = &[
        (Company, &[1, 2], &[2]),           // day turn
        (Country, &[1, 2], &[2]),           // inland
        (TimeZone, &[2, 4, 5], &[1]),       // hours
        (TimeZone, &[2, 4], &[2]),          // a year earlier
        (Stations, &[1, 2, 3, 4, 5], &[1]), // flag
        (Stations, &[1, 2, 3, 4, 5], &[3]), // change time
        (Stations, &[1, 2, 3, 4, 5], &[5]), // zones 0 and 1 are both held
        (Footnote, &[2, 4, 6], &[1]),       // the first day
        (TimeTbls, &[2, 3, 17, 23], &[2]),  // train number
        (TimeTbls, &[4, 18, 24], &[1]),     // footnotes 0 and 1 are both held
        (TimeTbls, &[7], &[1, 3, 4]),       // attribute, to stop 4, footnote 0
        (TimeTbls, &[9], &[1]),             // footnote 0
        (TimeTbls, &[8, 20, 26], &[2]),     // departures
        (TimeTbls, &[12], &[2]),            // through
        (TimeTbls, &[14, 21, 28], &[2]),    // arrivals
        (TimeTbls, &[11], &[2, 3]),         // both times
        (TimeTbls, &[13], &[3]),            // 9999 is not 9998
        (TimeTbls, &[27], &[2]),
        (Changes, &[2], &[2, 3]), // to 3, not possible
        (Changes, &[3], &[1, 3]), // from 3, possible
        (XFootnote, &[3], &[1]),  // 8 is not named, so 9 will do
        (XFootnote, &[2, 4], &[1]),
        (XChanges, &[2, 3], &[5]), // time
    ];
    try_every_word(|word| Some(word ^ 1), stays_sound);
}

#[test]
fn every_word_made_zero() {
    let stays_sound: &[Words] = &[
        (Company, &[1, 2], &[2]),
        (Country, &[1], &[2]),
        (TimeZone, &[4, 5], &[1]),
        (Stations, &[1, 2, 4, 5], &[1]),
        (Stations, &[1, 2, 3, 4], &[3]),
        (Stations, &[4], &[5]),
        (Footnote, &[2, 4, 6], &[1]),
        (TimeTbls, &[2, 3, 17, 23], &[2]),
        (TimeTbls, &[18], &[1]),
        (TimeTbls, &[7], &[4]),
        (TimeTbls, &[9, 15], &[1]),
        (TimeTbls, &[8, 20, 26, 12, 14, 21, 28], &[2]),
        (TimeTbls, &[11, 27], &[2]), // arrival 0000; a departure at 0000 would be before it
        (TimeTbls, &[13], &[2, 3]),  // with the other a time or none
        (Changes, &[2, 5], &[3]),
        (XFootnote, &[2], &[1]),
        (XChanges, &[2, 3], &[5]),
    ];
    try_every_word(|word| (word != 0).then_some(0), stays_sound);
}

#[test]
fn every_word_with_its_highest_bit_set() {
    try_every_word(|word| Some(word | 1 << 63), &[]);
}

/// Edits the rows at every place of every table.
fn try_every_row(edit: impl Fn(&mut Vec<Vec<u64>>, usize) -> bool, stays_sound: &[(File, &[usize])]) {
    let sound = tables();
    for file in File::ALL {
        for place in 0..rows(&sound, file).len() {
            let mut tables = sound.clone();
            let mut rows = rows(&sound, file);
            if !edit(&mut rows, place) {
                continue;
            }
            if file == TimeTbls {
                renumber(&mut rows);
            }
            put_rows(&mut tables, file, &rows);
            let is_listed = stays_sound.iter().any(|(of, places)| *of == file && places.contains(&place));
            let expected = if is_listed { None } else { Some(16) };
            let number = open(&tables).err().map(|refusal| refusal.number);
            assert_eq!(number, expected, "{file:?}, row {place}");
        }
    }
}

#[test]
fn every_row_deleted() {
    let delete = |rows: &mut Vec<Vec<u64>>, place: usize| {
        rows.remove(place);
        true
    };
    let stays_sound: &[(File, &[usize])] = &[
        (TimeZone, &[4, 5]),         // one period is left
        (TimeTbls, &[7, 9, 10, 15]), // `*`, `?`, `;`, `?`
        (Changes, &[2, 3, 5]),       // without #ht the keys would rise
        (XChanges, &[2, 3, 4]),
    ];
    try_every_row(delete, stays_sound);
}

#[test]
fn every_row_doubled() {
    let double = |rows: &mut Vec<Vec<u64>>, place: usize| {
        rows.insert(place, rows[place].clone());
        true
    };
    try_every_row(double, &[(TimeTbls, &[7, 10])]); // `*` and `;`
}

#[test]
fn every_row_swapped_with_the_next() {
    let swap = |rows: &mut Vec<Vec<u64>>, place: usize| {
        let has_next = place + 1 < rows.len();
        if has_next {
            rows.swap(place, place + 1);
        }
        has_next
    };
    let stays_sound: &[(File, &[usize])] = &[
        (TimeZone, &[4]),
        (Stations, &[1, 2, 3, 4]), // their keys rise in none of these orders
        // `%`, `&`; `;` after `+`; two stops; two stops; `?` before `<`
        (TimeTbls, &[2, 5, 10, 11, 12, 14]),
        (Changes, &[2, 3, 4]),
        (XChanges, &[2, 3]),
    ];
    try_every_row(swap, stays_sound);
}
