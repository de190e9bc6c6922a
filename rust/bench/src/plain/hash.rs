//! Hash maps with a quick hasher: the standard library's own withstands keys that
//! are chosen to collide, and takes longer.

use std::collections::HashMap;
use std::hash::{BuildHasherDefault, Hasher};

pub type Map<K, V> = HashMap<K, V, BuildHasherDefault<Folding>>;

/// Multiplies, and folds the upper half of the product into the lower: packed codes
/// differ in their upper bytes, and maps look at the lower bits too.
#[derive(Default)]
pub struct Folding(u64);

impl Hasher for Folding {
    #[inline]
    fn write_u64(&mut self, word: u64) {
        let product =
            u128::from(self.0.rotate_left(29) ^ word ^ 0x2545_f491_4f6c_dd1d) * 0x9e37_79b9_7f4a_7c15;
        self.0 = (product >> 64) as u64 ^ product as u64;
    }

    /// Of keys that are no words; there are none here.
    fn write(&mut self, bytes: &[u8]) {
        bytes.iter().for_each(|&byte| self.write_u64(u64::from(byte)));
    }

    #[inline]
    fn finish(&self) -> u64 {
        self.0
    }
}
