//! Amendments: a block that replaces the lines of a held service.

use crate::columns::columns;
use crate::files::{File, LONGEST_FILE};
use crate::lines::{self, Lines};
use crate::refusals::{Fault, Refusal};
use crate::store::{Answer, Store};
use crate::timetbls::{BlockReader, References};
use crate::values::number;

/// Replaces the service's lines by the block's, or refuses and leaves the
/// store as it was. A store is sound by the way it is made, so the tests begin
/// with 11.
pub fn amend(store: &mut Store, service: u64, block: &[u8]) -> Result<Answer, Refusal> {
    if !is_one_block(service, block) {
        return Err(Fault::NotOneBlock.nowhere());
    }
    let services = &store.timetable.services;
    let number = u32::try_from(service).expect("a service in eight digits");
    let place = services.find(number).ok_or(Fault::UnknownService.nowhere())?;
    let replaced = services.row(place);
    let bytes = store.timetable.bytes - replaced.bytes() + block.len();
    let lines = store.timetable.lines - replaced.lines() + lines::count(block);
    if bytes > LONGEST_FILE {
        return Err(Fault::TooLong.of(File::TimeTbls));
    }
    if lines > store.timetable.room {
        return Err(Fault::NoRoom.of(File::TimeTbls));
    }
    let mut rest = Lines::of(block);
    rest.next(); // The `#` is right, or the block would not be one.
    let ordinal = u64::from(place) + 1;
    let amended = BlockReader::new(References::of(store)).block(number, ordinal, &mut rest)?;
    *store.timetable.services.row_mut(place) = amended;
    store.timetable.bytes = bytes;
    store.timetable.lines = lines;
    Ok(store.answer())
}

/// Test 11: the block ends in CR LF, its first line opens that service and no
/// other line begins `#` or `@`.
pub(crate) fn is_one_block(service: u64, block: &[u8]) -> bool {
    let mut lines = Lines::of(block);
    block.ends_with(b"\r\n")
        && lines.next().is_some_and(|first| opens(service, first.text))
        && lines.all(|line| !matches!(line.letter(), Some(b'#' | b'@')))
}

/// Whether a line is `#` and the service's eight digits alone.
pub(crate) fn opens(service: u64, text: &[u8]) -> bool {
    text.len() == 9
        && text[0] == b'#'
        && number(columns(text, 2, 9)).is_ok_and(|held| u64::from(held) == service)
}
