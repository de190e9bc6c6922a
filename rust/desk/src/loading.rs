//! The proved load, with tables of its own.

use proved::Answer;

use crate::files::{count_lines, FILES};
use crate::tables::{Tables, WIDTHS};

/// Lines that fit into each table.
pub type Rooms = [usize; FILES];

/// How many lines a table has beyond its file's own.
#[derive(Clone, Copy, PartialEq, Debug)]
pub enum Spare {
    /// A tenth, at least 100.
    ATenth,
    Lines(usize),
}

/// Room for the files' own lines and more.
pub fn rooms_with(texts: [&[u8]; FILES], spare: Spare) -> Rooms {
    texts.map(|text| {
        let lines = count_lines(text);
        lines.saturating_add(match spare {
            Spare::ATenth => (lines / 10).max(100),
            Spare::Lines(more) => more,
        })
    })
}

/// Loads texts into new tables. Refused, they are all zero.
pub fn load_texts(texts: [&[u8]; FILES], rooms: &Rooms) -> (Answer, Tables) {
    let mut lengths = *rooms;
    lengths.iter_mut().zip(WIDTHS).for_each(|(length, width)| *length = length.saturating_mul(width));
    let mut tables = Tables::empty(&lengths);
    let answer = proved::load(texts, tables.lent_mut());
    (answer, tables)
}

/// The tables of the example's delivery, for tests.
#[cfg(test)]
pub fn example() -> Tables {
    use crate::files::Delivery;
    use crate::progress::Progress;
    let folder = std::path::Path::new(env!("CARGO_MANIFEST_DIR")).join("../../examples/delivery");
    let texts = Delivery::find(&folder).and_then(|found| found.read(&Progress::hidden()));
    let texts = texts.expect("the example's delivery");
    let (answer, tables) = load_texts(texts.slices(), &rooms_with(texts.slices(), Spare::Lines(0)));
    assert!(answer.is_accepted(), "{answer:?}");
    tables
}
