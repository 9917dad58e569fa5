//! Loggers' files: each is decided by its place and the seed.

use super::days::day;
use super::files::source;
use crate::day::file::BLOCKS;
use crate::random::Random;

const FILES: u64 = 32;
const MINUTES: usize = 1_440;

/// Makes a whole file of so many readings.
/// Both blocks come first.
fn whole(random: &mut Random, count: usize) -> Vec<u8> {
    day(random, count).concat()
}

/// Makes a file of a few readings and cuts it anywhere, or after so many bytes at most.
/// What is left may be whole after all.
fn cut(random: &mut Random, longest: usize) -> Vec<u8> {
    let count = random.below(40) as usize;
    let mut file = whole(random, count);
    let end = random.below(file.len().min(longest) as u64 + 1) as usize;
    file.truncate(end);
    file
}

/// Makes a logger's file.
/// Every 32 files have an empty one, one of no reading, six that are cut, one of a day and one of some thousands of readings.
pub fn file(place: u64, seed: u64) -> Vec<u8> {
    let random = &mut source(place, seed);
    match place % FILES {
        0 => Vec::new(),
        1 => whole(random, 0),
        2 | 3 => cut(random, BLOCKS + 1),
        4..=7 => cut(random, usize::MAX),
        8 => whole(random, MINUTES),
        9 => {
            let count = 2_000 + random.below(3_000) as usize;
            whole(random, count)
        }
        10 | 11 => {
            let count = random.below(4) as usize;
            whole(random, count)
        }
        _ => {
            let count = random.below(301) as usize;
            whole(random, count)
        }
    }
}
