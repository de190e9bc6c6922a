//! Memory in large pages, and work on it in several parts at once.

use std::ffi::c_void;
use std::hint::black_box;
use std::thread::{self, Builder};

const PAGE: usize = 4096;

/// Fewer bytes than a large page has are not worth the calls.
const LARGE_PAGE: usize = 2 << 20;
const LARGE_PAGES: i32 = 14; // MADV_HUGEPAGE of Linux

extern "C" {
    fn madvise(start: *mut c_void, length: usize, advice: i32) -> i32;
}

/// So many zeros, whose memory is there. The kernel hands memory out page by page
/// when it is first touched, which in small pages and by one thread would be a
/// fifth of a check's time.
pub fn zeros<T: Clone + Default + Send>(count: usize) -> Vec<T> {
    let mut zeros = vec![T::default(); count];
    if size_of_val(&zeros[..]) >= LARGE_PAGE {
        ask_for_large_pages(&mut zeros);
        in_parts(&mut zeros, |_, part| touch(part));
    }
    zeros
}

/// A wish: where it is not granted, only time is lost.
fn ask_for_large_pages<T>(memory: &mut [T]) {
    if cfg!(target_os = "linux") {
        // Pages are told of as a whole; what else is in the first and in the
        // last of them loses nothing by it.
        let start = memory.as_mut_ptr().cast::<u8>();
        let before = start.addr() % PAGE;
        // SAFETY: the call changes no byte and nobody's right to any; it says in
        // pages of which size the kernel may hand these bytes out.
        unsafe { madvise(start.wrapping_sub(before).cast(), before + size_of_val(memory), LARGE_PAGES) };
    }
}

/// Writes a zero into every page of zeros.
fn touch<T: Default>(zeros: &mut [T]) {
    zeros.iter_mut().step_by(PAGE / size_of::<T>()).for_each(|place| *black_box(place) = T::default());
}

/// Does work on all parts of a slice at once, one for each processor where it is
/// long. The work is told where its part begins; results are in their order, an
/// error where a thread was not to be had.
pub fn in_parts<T: Send, R: Send>(
    all: &mut [T],
    work: impl Fn(usize, &mut [T]) -> R + Sync,
) -> Vec<thread::Result<R>> {
    const LONG: usize = 4 << 20;
    const MOST: usize = 4;
    let parts = match size_of_val(all) < LONG {
        true => 1,
        false => thread::available_parallelism().map_or(1, usize::from).min(MOST),
    };
    let length = all.len().div_ceil(parts).max(1);
    thread::scope(|scope| {
        let work = &work;
        let mut pieces = all.chunks_mut(length).zip((0..).step_by(length));
        let first = pieces.next();
        let begun = |(part, start)| Builder::new().spawn_scoped(scope, move || work(start, part));
        let others: Vec<_> = pieces.map(begun).collect();
        let first = first.map(|(part, start)| Ok(work(start, part)));
        let done = others
            .into_iter()
            .map(|other| other.map_or_else(|error| Err(Box::new(error) as _), |other| other.join()));
        first.into_iter().chain(done).collect()
    })
}

#[cfg(test)]
mod tests {
    use super::*;

    #[test]
    fn zeros_are_zero() {
        for count in [0, 1, LARGE_PAGE / 8 - 1, LARGE_PAGE / 8, LARGE_PAGE + 5] {
            let mut words: Vec<u64> = zeros(count);
            assert!(words.len() == count && words.iter().all(|&word| word == 0));
            words.fill(u64::MAX);
        }
    }

    #[test]
    fn parts_are_all() {
        for count in [0, 1, 1000, (1 << 20) + 7] {
            let mut words: Vec<u64> = (0..count).collect();
            let done = in_parts(&mut words, |start, part| {
                assert!(part.iter().zip(start as u64..).all(|(&word, place)| word == place));
                part.iter_mut().for_each(|word| *word += 1);
                part.len()
            });
            assert_eq!(done.into_iter().map(|part| part.unwrap() as u64).sum::<u64>(), count);
            assert!(words.into_iter().eq(1..=count));
        }
    }
}
