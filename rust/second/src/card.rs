//! The desk's card: of two exceptions that apply, the one higher on it counts.

use crate::encode::{ANY_COMPANY, ANY_MODE};

/// The sixteen patterns that the keys of an exception can have, from all
/// wildcards to none. A pattern tells from company, from mode, to company and to
/// mode: `c` and `m` are named, `*` is the wildcard. The from side is the same
/// along a row here, and the to side down a column.
#[rustfmt::skip]
pub const CARD: [&[u8; 4]; 16] = [
    b"****", b"***m", b"**c*", b"**cm",
    b"*m**", b"*m*m", b"*mc*", b"*mcm",
    b"c***", b"c**m", b"c*c*", b"c*cm",
    b"cm**", b"cm*m", b"cmc*", b"cmcm",
];

/// The pattern of an exception, by which of its four keys are named.
pub fn pattern(named: [bool; 4]) -> [u8; 4] {
    let mut pattern = *b"cmcm";
    for (letter, named) in pattern.iter_mut().zip(named) {
        if !named {
            *letter = b'*';
        }
    }
    pattern
}

/// The place on the card, from 0, of an exception's pattern.
pub fn place(named: [bool; 4]) -> usize {
    let pattern = pattern(named);
    CARD.iter().position(|entry| **entry == pattern).expect("every pattern is on the card")
}

/// The rank of an exception by its keys as the table of XCHANGES holds them; any
/// word but the wildcard names something.
pub fn rank(from_company: u64, from_mode: u64, to_company: u64, to_mode: u64) -> u64 {
    let named =
        [from_company != ANY_COMPANY, from_mode != ANY_MODE, to_company != ANY_COMPANY, to_mode != ANY_MODE];
    place(named) as u64
}
