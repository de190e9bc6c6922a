//! Lines with two faults: the earlier test decides.

use crate::fields::{put, record, Class, Field, Record, RECORDS};
use crate::place::STATIONS;

use super::keys::{copy_earlier, edit_somewhere, free_key, one_byte_off, Key, NAMED, UNIQUE, ZONE_KEY};
use super::values::{spoil, spoiled};
use super::{named, Cause};

pub fn causes() -> Vec<Cause> {
    let mut causes: Vec<Cause> = RECORDS.iter().filter_map(|record| layout_before_value(*record)).collect();
    causes.extend(UNIQUE.into_iter().filter_map(|unique| value_before_duplicate(unique)));
    causes.extend(
        NAMED
            .into_iter()
            .filter_map(|(file, letter, name, key)| value_before_reference(record(file, letter), name, key)),
    );
    causes.push(duplicate_before_reference());
    causes
}

/// A field of the record, other than the one with this name, that has a value.
fn another_value(record: &Record, name: &str) -> Option<Field> {
    let is_value = |field: &&Field| field.name != name && field.class != Class::Text;
    record.fields.iter().find(is_value).copied()
}

fn layout_before_value(record: Record) -> Option<Cause> {
    let value = another_value(&record, "")?;
    let column = record.commas().next()?;
    let what = format!("no comma, {}", spoiled(value));
    Some(Cause::in_record(4, record, what, move |rng, line| {
        spoil(rng, line, value);
        line[column - 1] = b'.';
        Some(())
    }))
}

fn value_before_duplicate((file, letter, name): Key) -> Option<Cause> {
    let kind = record(file, letter);
    let value = another_value(&kind, name)?;
    let what = format!("{}, {name} twice", spoiled(value));
    Some(Cause::in_lines(5, file, named(&kind), what, move |rng, lines| {
        let at = copy_earlier(rng, lines, &kind, kind.field(name))?;
        spoil(rng, &mut lines[at], value);
        Some(at)
    }))
}

fn value_before_reference(kind: Record, name: &'static str, key: Key) -> Option<Cause> {
    let (field, value) = (kind.field(name), another_value(&kind, name)?);
    let what = format!("{}, {name} not held", spoiled(value));
    Some(Cause::new(5, kind.file, named(&kind), what, move |rng, case| {
        let unheld = free_key(rng, case, key, field, one_byte_off)?;
        edit_somewhere(rng, case, &kind, |rng, line| {
            put(line, field, &unheld);
            spoil(rng, line, value);
        })
    }))
}

/// Only STATIONS has rows with a key of their own that name others.
fn duplicate_before_reference() -> Cause {
    let kind = record(STATIONS, None);
    Cause::new(8, STATIONS, named(&kind), "short name twice, zone not held", move |rng, case| {
        let unheld = free_key(rng, case, ZONE_KEY, kind.field("zone"), one_byte_off)?;
        super::edit_lines(case, STATIONS, |lines| {
            let at = copy_earlier(rng, lines, &kind, kind.field("short name"))?;
            put(&mut lines[at], kind.field("zone"), &unheld);
            Some(at)
        })
    })
}
