//! How much stack some work takes: the stack is painted before, and looked at
//! after it.

use std::{ptr, thread};

/// The stack of a measuring thread, and how much of it is painted.
const STACK: usize = 16 << 20;
const PAINTED: usize = 12 << 20;
/// The painter's own frame is spared.
const SPARED: usize = 4 << 10;
const PAINT: u64 = 0x7061_696e_7465_6421;

/// How far down the work writes, in bytes, at a thread's beginning.
pub fn used(work: impl FnOnce() + Send) -> usize {
    thread::scope(|scope| {
        let thread = thread::Builder::new().stack_size(STACK);
        let painting = thread.spawn_scoped(scope, || painted(work)).expect("memory for a thread");
        painting.join().expect("the work is done")
    })
}

#[inline(never)]
fn painted(work: impl FnOnce()) -> usize {
    let here = 0_u64;
    let top = (&raw const here).expose_provenance();
    let below = (top - PAINTED..top - SPARED).step_by(size_of::<u64>());
    for place in below.clone() {
        // SAFETY: the place is aligned, and of this thread's own stack, which is larger than what is painted by
        // more than the few frames above this one. It lies below the frames of this function and of the writing:
        // nothing lives there.
        unsafe { ptr::with_exposed_provenance_mut::<u64>(place).write_volatile(PAINT) };
    }
    work();
    // SAFETY: as above; the place has been written.
    let is_painted =
        |&place: &usize| unsafe { ptr::with_exposed_provenance::<u64>(place).read_volatile() } == PAINT;
    let lowest = below.into_iter().find(|place| !is_painted(place));
    lowest.map_or(SPARED, |place| top - place)
}

#[cfg(test)]
mod tests {
    use std::hint::black_box;

    use super::*;

    #[inline(never)]
    fn write<const LENGTH: usize>() {
        black_box(&mut [1_u8; LENGTH]);
    }

    #[test]
    fn an_array_on_the_stack_is_seen() {
        let (small, large) = (used(write::<100_000>), used(write::<1_000_000>));
        assert!((100_000..120_000).contains(&small), "{small}");
        assert!((900_000..920_000).contains(&(large - small)), "{large}");
    }
}
