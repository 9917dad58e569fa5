//! Visits made by a seed: slots with values on their edges, and trees of any depth.

use crate::random::Random;
use crate::visits::trees::{old_fields, Tree};
use crate::visits::writer::fields;
use crate::visits::{Channel, Slot};

const TIMES: [u32; 12] = [
    0,
    1,
    59,
    86_399,
    86_400,
    68_255_999,
    951_782_400,
    1_700_000_000,
    2_147_483_647,
    2_147_483_648,
    4_107_542_400,
    4_294_967_295,
];
const TEMPERATURES: [i32; 14] = [
    0,
    1,
    -1,
    -5,
    -99,
    -100,
    99,
    100,
    2_508,
    -23_040,
    23_040,
    8_388_608,
    i32::MAX,
    i32::MIN,
];
const PRESSURES: [u32; 14] = [
    0,
    1,
    255,
    256,
    257,
    65_535,
    65_536,
    25_767_233,
    16_777_215,
    16_777_216,
    1 << 31,
    u32::MAX - 255,
    u32::MAX - 256,
    u32::MAX,
];
const HUMIDITIES: [u32; 12] = [
    0, 1, 255, 256, 1_023, 1_024, 1_025, 37_771, 65_535, 65_536, 102_399, 102_400,
];

/// Makes one answer: missing in one of six, else from the edges, from a usual range, or any at all.
/// All are within the channel's limits.
fn channel<T: Copy>(
    random: &mut Random,
    edges: &[T],
    usual: fn(&mut Random) -> T,
    any: fn(&mut Random) -> T,
) -> Channel<T> {
    match random.below(12) {
        0 | 1 => Err(random.between(10, 14) as u32),
        2..=5 => Ok(random.pick(edges)),
        6..=9 => Ok(usual(random)),
        _ => Ok(any(random)),
    }
}

/// Makes a slot within its limits.
/// A third of the pressures are whole pascals, so that older loggers can have written them.
pub fn slot(random: &mut Random) -> Slot {
    let time = match random.below(3) {
        0 => random.pick(&TIMES),
        1 => random.between(1_600_000_000, 1_800_000_000) as u32,
        _ => random.bits() as u32,
    };
    let degrees = |random: &mut Random| random.between(-4_000, 8_500) as i32;
    let pascals = |random: &mut Random| match random.percent(50) {
        true => random.between(90_000, 110_000) as u32 * 256,
        false => random.between(22_000_000, 28_000_000) as u32,
    };
    let percent = |random: &mut Random| random.below(102_401) as u32;
    Slot {
        time,
        temperature: channel(random, &TEMPERATURES, degrees, |random| {
            random.bits() as i32
        }),
        pressure: channel(random, &PRESSURES, pascals, |random| random.bits() as u32),
        humidity: channel(random, &HUMIDITIES, percent, percent),
    }
}

/// Makes a tree of exactly so many levels, with at most so many groups in each group.
/// The branches beside the deepest may be shallower.
pub fn tree(random: &mut Random, levels: usize, widest: u64) -> Tree {
    if levels <= 1 {
        return Tree::Slot(slot(random));
    }
    let count = 1 + random.below(widest);
    let deepest = random.below(count);
    let groups = (0..count).map(|place| {
        let inner = match place == deepest {
            true => levels - 1,
            false => random.between(1, levels as i64 - 1) as usize,
        };
        tree(random, inner, widest)
    });
    Tree::Groups(groups.collect())
}

/// Gives a tree's record; where asked, half of the slots are as older loggers wrote them.
/// Only pressures of whole pascals show it.
pub fn record(random: &mut Random, tree: &Tree, old: bool) -> Vec<u8> {
    tree.bytes(&mut |slot| match old && random.percent(50) {
        true => old_fields(slot),
        false => fields(slot),
    })
}

/// Makes a tree whose record has exactly so many bytes, at least 400.
/// Groups of one slot, a little shorter or longer, take what is left at the end.
pub fn sized(random: &mut Random, bytes: usize) -> Tree {
    let mut groups = Vec::new();
    let mut left = bytes - 3;
    while left > 600 {
        let inner = tree(random, 1 + (left % 3), 3);
        left -= inner.record().len();
        groups.push(inner);
    }
    let full = Slot {
        time: 0,
        temperature: Ok(0),
        pressure: Ok(0),
        humidity: Ok(0),
    };
    if let Some((count, missing, deeper)) = combination(left) {
        for place in 0..count {
            let mut slot = full;
            if place < missing {
                slot.humidity = Err(10);
            }
            let inner = Tree::Slot(slot);
            groups.push(match place < deeper {
                true => Tree::Groups(vec![inner]),
                false => inner,
            });
        }
    }
    Tree::Groups(groups)
}

/// Makes a tree of as many steps as so many bytes can have: groups three deep, around slots with no value but the time.
/// What is left holds a shallower one, or nothing.
pub fn crowded(bytes: usize) -> Tree {
    let single = Tree::Slot(Slot {
        time: 1_700_000_000,
        temperature: Err(10),
        pressure: Err(14),
        humidity: Err(11),
    });
    let double = Tree::Groups(vec![single.clone()]);
    let triple = Tree::Groups(vec![double.clone()]);
    let (count, left) = ((bytes - 3) / 31, (bytes - 3) % 31);
    let mut groups = vec![triple; count];
    match left {
        28..=30 => groups.push(double),
        25..=27 => groups.push(single),
        _ => {}
    }
    Tree::Groups(groups)
}

/// Finds how many groups of 31 bytes fill what is left, so many of them 2 bytes shorter and so many 3 bytes longer.
/// The first way found is the one taken.
fn combination(left: usize) -> Option<(usize, usize, usize)> {
    for count in 1..=left / 29 {
        for missing in 0..=count {
            for deeper in 0..=count {
                if 31 * count + 3 * deeper == left + 2 * missing {
                    return Some((count, missing, deeper));
                }
            }
        }
    }
    None
}
