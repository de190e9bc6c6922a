//! A quick hasher for the short keys of a delivery.
//!
//! The keys are packed codes and small numbers from a file that is tested line
//! by line; the standard hasher's defence against chosen keys costs more than
//! the rest of a lookup here.

use std::hash::{BuildHasherDefault, Hasher};

pub type QuickHash = BuildHasherDefault<QuickHasher>;
pub type HashMap<K, V> = std::collections::HashMap<K, V, QuickHash>;
pub type HashSet<K> = std::collections::HashSet<K, QuickHash>;

#[derive(Default)]
pub struct QuickHasher(u64);

impl QuickHasher {
    /// Folds both halves of the product together: the codes differ in their
    /// high bytes (their tails are blanks), the map's buckets use the low bits.
    #[inline]
    fn mix(&mut self, word: u64) {
        let product = u128::from(self.0 ^ word ^ 0x2545_F491_4F6C_DD1D) * 0x9E37_79B9_7F4A_7C15;
        self.0 = (product >> 64) as u64 ^ product as u64;
    }
}

impl Hasher for QuickHasher {
    fn write(&mut self, bytes: &[u8]) {
        for chunk in bytes.chunks(8) {
            self.mix(chunk.iter().fold(0, |word, &byte| word << 8 | u64::from(byte)));
        }
    }

    #[inline]
    fn write_u32(&mut self, word: u32) {
        self.mix(u64::from(word));
    }

    #[inline]
    fn write_u64(&mut self, word: u64) {
        self.mix(word);
    }

    #[inline]
    fn finish(&self) -> u64 {
        self.0
    }
}
