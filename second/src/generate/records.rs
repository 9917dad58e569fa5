//! Records to be read: well made, and damaged in one way each.

use super::trees::{crowded, record, slot, tree};
use crate::random::Random;
use crate::visits::cases::nested;
use crate::visits::trees::{group, old_fields, Tree};
use crate::visits::writer::fields;
use crate::visits::Slot;

const CHANNELS: [u8; 4] = [2, 3, 4, 6];

/// Lists where the fields of a well made record begin.
/// A group is gone into, every other field is passed over.
fn starts(record: &[u8]) -> Vec<usize> {
    let mut starts = Vec::new();
    let mut next = 0;
    while next < record.len() {
        starts.push(next);
        next += match record[next] {
            1 => 3,
            _ => 3 + usize::from(record[next + 2]),
        };
    }
    starts
}

/// Damages the header of one field: its tag, or its length.
/// The groups around it stay as they are.
fn damage_header(random: &mut Random, record: &mut [u8]) {
    let start = random.pick(&starts(record));
    match random.below(5) {
        0 | 1 => record[start] = random.below(9) as u8,
        2 => record[start + 1] = random.pick(&[1, 0xFF]),
        3 => record[start + 2] = random.pick(&[0, 1, 2, 3, 4, 5]),
        _ => record[start + 2] = record[start + 2].wrapping_add(random.pick(&[1, 2, 0xFE, 0xFF])),
    }
}

/// Changes one byte of a record: to any other, by one, or by one bit.
/// It may still be well made.
fn damage_byte(random: &mut Random, record: &mut [u8]) {
    let place = random.below(record.len() as u64) as usize;
    let byte = &mut record[place];
    *byte = match random.below(4) {
        0 => random.byte(),
        1 => byte.wrapping_add(1),
        2 => byte.wrapping_sub(1),
        _ => *byte ^ (1 << random.below(8)),
    };
}

/// Gives a field that may be beyond its limits, and its place in a slot: humidity, whole pascals, a missing answer.
/// The values stand close to the limits, on either side.
fn close_to_limits(random: &mut Random) -> (usize, Vec<u8>) {
    let place = random.between(1, 3) as usize;
    let channel = CHANNELS[place];
    match random.below(4) {
        0 => {
            let value = random.pick(&[102_399_u32, 102_400, 102_401, 102_656, 1 << 31]);
            (3, [&[6, 0, 4][..], &value.to_be_bytes()].concat())
        }
        1 => {
            let value = random.pick(&[16_777_214_u32, 16_777_215, 16_777_216, 1 << 31]);
            (2, [&[5, 0, 4][..], &value.to_be_bytes()].concat())
        }
        2 => (
            place,
            vec![7, 0, 2, channel, random.pick(&[0, 9, 10, 14, 15, 255])],
        ),
        _ => (place, vec![7, 0, 2, random.below(8) as u8, 10]),
    }
}

/// Gives the fields of a slot of which one is wrong: beyond its limits, out of its place, of a wrong length, lost or doubled.
/// All groups around them will have the right length.
fn wrong_fields(random: &mut Random, slot: &Slot) -> Vec<u8> {
    let bytes = match random.percent(20) {
        true => old_fields(slot),
        false => fields(slot),
    };
    let mut starts = starts(&bytes);
    starts.push(bytes.len());
    let part = |place: usize| &bytes[starts[place]..starts[place + 1]];
    if random.percent(50) {
        let (place, field) = close_to_limits(random);
        return [&bytes[..starts[place]], &field, &bytes[starts[place + 1]..]].concat();
    }
    let place = random.below(4) as usize;
    let filled = |tag: u8, body: &[u8]| [&[tag, 0, body.len() as u8][..], body].concat();
    let field = match random.below(6) {
        0 => filled(random.below(9) as u8, &part(place)[3..]),
        1 => {
            let length = random.below(6) as usize;
            filled(part(place)[0], &random.bytes(length))
        }
        2 => Vec::new(),
        3 => part(place).repeat(2),
        4 => group(part(place)),
        _ => return bytes[..starts[place]].to_vec(),
    };
    [&bytes[..starts[place]], &field, &bytes[starts[place + 1]..]].concat()
}

/// Gives the fields of a slot with something after them.
/// It stands in their group, which has the right length for it.
fn left_over(random: &mut Random, held: &Slot) -> Vec<u8> {
    let more = match random.below(4) {
        0 => vec![random.pick(&[0, 1, 2, 6, 7, 9])],
        1 => group(&fields(held)),
        2 => fields(&slot(random)),
        _ => {
            let length = 1 + random.below(5) as usize;
            random.bytes(length)
        }
    };
    [fields(held), more].concat()
}

/// Gives a tree's record with one of its slots by another call.
/// The others are as they should be.
fn spoilt(random: &mut Random, tree: &Tree, spoil: fn(&mut Random, &Slot) -> Vec<u8>) -> Vec<u8> {
    let mut slots = 0;
    tree.bytes(&mut |slot| {
        slots += 1;
        fields(slot)
    });
    let mut left = random.below(slots);
    tree.bytes(&mut |slot| {
        let this = left == 0;
        left = left.wrapping_sub(1);
        match this {
            true => spoil(random, slot),
            false => fields(slot),
        }
    })
}

/// Puts beside a tree what no group has there: an empty group, a slot, or a lone byte.
/// It stands before or after, and groups of the right length stand around both.
fn misplaced(random: &mut Random, tree: &Tree) -> Vec<u8> {
    let wrong = match random.below(4) {
        0 => group(&[]),
        1 => fields(&slot(random)),
        2 => vec![1],
        _ => group(&group(&[])),
    };
    let whole = tree.record();
    let parts = match random.percent(50) {
        true => [whole, wrong],
        false => [wrong, whole],
    };
    nested(random.between(0, 3) as usize, &parts.concat())
}

/// Makes a record of a tree, well made or damaged in one way.
/// Three in ten are well made.
pub fn of(random: &mut Random, tree: &Tree) -> Vec<u8> {
    let old = random.percent(40);
    let mut whole = record(random, tree, old);
    match random.below(20) {
        0..=5 => {}
        6 | 7 => damage_byte(random, &mut whole),
        8..=10 => damage_header(random, &mut whole),
        11 => whole.truncate(random.below(whole.len() as u64) as usize),
        12 => {
            let length = 1 + random.below(4) as usize;
            whole.extend(random.bytes(length));
        }
        13 | 14 => return spoilt(random, tree, left_over),
        15..=17 => return spoilt(random, tree, wrong_fields),
        18 => return misplaced(random, tree),
        _ => {
            let levels = 1 + random.below(4) as usize;
            return nested(levels, &whole);
        }
    }
    whole
}

/// Makes a record that fits a line, of any depth up to four, or five in a few.
/// Now and then it is junk, or nothing.
pub fn small(random: &mut Random) -> Vec<u8> {
    let (levels, widest) = match random.below(80) {
        0 | 1 => {
            let length = random.below(20) as usize;
            return random.bytes(length);
        }
        2 => return Vec::new(),
        3 => return crowded(random.between(1_000, 2_000) as usize).record(),
        4 => (2, 60),
        5..=8 => (5, 1),
        9..=12 => (4, 4),
        13..=20 => (4, 2),
        _ => (random.between(1, 4) as usize, 1 + random.below(2)),
    };
    let tree = tree(random, levels, widest);
    of(random, &tree)
}
