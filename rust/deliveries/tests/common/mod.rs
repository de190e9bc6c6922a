//! What the tests of deliveries share.
#![allow(dead_code)] // Each test program uses a part of this.

use deliveries::Case;
use second::{load, Refusal, Store};

/// A refusal's number, file, ordinal and line.
pub type Place = (u8, u8, u64, u64);

pub fn place_of(refusal: Refusal) -> Place {
    (refusal.number, refusal.file, refusal.ordinal, refusal.line)
}

pub fn outcome(case: &Case) -> Result<Store, Place> {
    load(&case.texts(), &case.rooms).map_err(place_of)
}
