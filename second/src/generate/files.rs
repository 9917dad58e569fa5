//! Records and texts as files, of any size: each is decided by its place and the seed.

use super::trees::{crowded, record as written, sized, tree};
use super::{records, texts};
use crate::random::Random;
use crate::visits::pack::LONGEST_TEXT;
use crate::visits::show;
use crate::visits::trees::Tree;
use crate::visits::LONGEST_RECORD;

const RECORDS: u64 = 16;
const TEXTS: u64 = 64;

/// Starts a source for one file.
/// Files beside each other have nothing in common.
pub(super) fn source(place: u64, seed: u64) -> Random {
    let start = Random::new(seed).bits();
    Random::new(start ^ Random::new(place).bits())
}

/// Makes a tree whose record has a thousand bytes or more, and may be of the longest.
/// Its depth is two to four.
fn large(random: &mut Random) -> Tree {
    let bytes = match random.percent(30) {
        true => LONGEST_RECORD,
        false => random.between(1_000, LONGEST_RECORD as i64) as usize,
    };
    sized(random, bytes)
}

/// Makes the record of a file.
/// Every sixteen files have the longest record, one byte more, the most steps, and large ones with each damage.
pub fn record(place: u64, seed: u64) -> Vec<u8> {
    let random = &mut source(place, seed);
    match place % RECORDS {
        0 => sized(random, LONGEST_RECORD).record(),
        1 => sized(random, LONGEST_RECORD + 1).record(),
        2 => {
            let tree = sized(random, LONGEST_RECORD);
            written(random, &tree, true)
        }
        3 => {
            let tree = sized(random, LONGEST_RECORD);
            records::of(random, &tree)
        }
        4 => crowded(LONGEST_RECORD - random.below(64) as usize).record(),
        5 => {
            let length = LONGEST_RECORD + random.below(3) as usize;
            random.bytes(length)
        }
        6..=8 => {
            let tree = large(random);
            records::of(random, &tree)
        }
        9 => {
            let (levels, widest) = (random.between(4, 5) as usize, 1 + random.below(5));
            tree(random, levels, widest).record()
        }
        _ => records::small(random),
    }
}

/// Lengthens a text by a comment at its end.
/// It then has exactly so many bytes.
fn padded(text: Vec<u8>, bytes: usize) -> Vec<u8> {
    let mut text = text;
    text.extend(b"\n#");
    text.resize(bytes.max(text.len()), b'x');
    text
}

/// Makes the text of a file.
/// Every 64 files have those of the longest record, of one byte more, and of the longest text and one byte more.
pub fn text(place: u64, seed: u64) -> Vec<u8> {
    let random = &mut source(place, seed);
    match place % TEXTS {
        0 => show::text(&sized(random, LONGEST_RECORD).steps()).into_bytes(),
        1 => show::text(&sized(random, LONGEST_RECORD + 1).steps()).into_bytes(),
        2 => {
            let text = texts::good(random);
            padded(text, LONGEST_TEXT)
        }
        3 => {
            let text = texts::good(random);
            padded(text, LONGEST_TEXT + 1)
        }
        4 => {
            let tree = crowded(LONGEST_RECORD - random.below(64) as usize);
            texts::spoilt(random, &show::text(&tree.steps()))
        }
        5..=20 => texts::good(random),
        _ => texts::bad(random),
    }
}
