//! Visit records as fixed lines: each refusal at each place, and each edge.

use super::lists;
use super::trees::{group, old_fields, Tree};
use super::words::spell;
use super::writer::fields;
use super::{Slot, Step};
use crate::spelling::hex;

/// The paper's own example: humidity was skipped.
pub const SKIPPED: Slot = Slot {
    time: 7,
    temperature: Ok(-5),
    pressure: Ok(25_767_233),
    humidity: Err(10),
};
/// A slot with humidity 0 and whole pascals.
pub const DRY: Slot = Slot {
    time: 1_700_000_000,
    temperature: Ok(2_508),
    pressure: Ok(100_653 * 256),
    humidity: Ok(0),
};
/// Where the fields of DRY begin within it.
const STARTS: [usize; 4] = [0, 7, 14, 21];

/// Spells a command that reads a record into a list of so many steps.
/// Its damage, if any, is the caller's.
pub fn read(record: &[u8], length: usize) -> String {
    format!("visit read {} {length}", hex(record))
}

/// Spells a command that writes steps into a buffer of so many bytes.
/// There may be no steps.
pub fn write(length: usize, steps: &[Step]) -> String {
    let words = steps.iter().map(spell);
    words.fold(format!("visit write {length}"), |line, word| {
        line + " " + &word
    })
}

/// Puts groups around bytes, so many of them.
/// Each has the right length.
pub fn nested(levels: usize, body: &[u8]) -> Vec<u8> {
    (0..levels).fold(body.to_vec(), |body, _| group(&body))
}

/// Gives bytes with another value at one place.
/// The place must be among them.
fn with(bytes: &[u8], place: usize, value: u8) -> Vec<u8> {
    let mut bytes = bytes.to_vec();
    bytes[place] = value;
    bytes
}

/// Lists the records that the paper and the bench's page show, and records of each depth.
/// Each is read, and written where it can be.
fn examples() -> Vec<String> {
    let mut lines = vec![
        String::from("visit read 010000 9"),
        String::from("visit write 9"),
        String::from("visit read - 9"),
        read(&group(&group(&old_fields(&DRY))), 5),
    ];
    for levels in 1..=6 {
        for slot in [SKIPPED, DRY] {
            let around = |tree, _| Tree::Groups(vec![tree]);
            let tree = (1..levels).fold(Tree::Slot(slot), around);
            let (record, steps) = (tree.record(), tree.steps());
            lines.extend([0, steps.len() - 1, steps.len(), 256].map(|room| read(&record, room)));
            let lengths = [0, record.len() - 1, record.len(), record.len() + 8];
            lines.extend(lengths.map(|length| write(length, &steps)));
        }
    }
    lines
}

/// Lists a record cut at each place and with each length, and with every tag in every place.
/// The record is of two levels.
fn damaged() -> Vec<String> {
    let whole = nested(2, &fields(&DRY));
    let mut lines: Vec<String> = (0..whole.len()).map(|end| read(&whole[..end], 9)).collect();
    for start in [0, 3, 6, 13, 20, 27] {
        let tags = (0..=8).chain([0x20, 0xFF]);
        lines.extend(tags.map(|tag| read(&with(&whole, start, tag), 9)));
        let length = whole[start + 2];
        for (place, value) in [
            (start + 1, 1),
            (start + 2, 0),
            (start + 2, length - 1),
            (start + 2, length + 1),
        ] {
            lines.push(read(&with(&whole, place, value), 9));
        }
    }
    lines
}

/// Gives DRY's fields with another field in place of the one that begins there.
/// The other may be longer or shorter, or nothing.
fn instead(start: usize, field: &[u8]) -> Vec<u8> {
    let slot = fields(&DRY);
    [&slot[..start], field, &slot[start + 7..]].concat()
}

/// Lists slots with one field changed: another length, lost, doubled, the last, or of another place.
/// Where tag and length are both wrong, the order of the numbers is seen.
fn changed_fields() -> Vec<Vec<u8>> {
    let slot = fields(&DRY);
    let mut bodies = Vec::new();
    for start in STARTS {
        let (tag, field) = (slot[start], &slot[start..start + 7]);
        for length in [0, 2, 3, 5] {
            bodies.push(instead(
                start,
                &[&[tag, 0, length][..], &vec![0; usize::from(length)]].concat(),
            ));
        }
        bodies.push(instead(start, &[]));
        bodies.push(instead(start, &field.repeat(2)));
        bodies.push(slot[..start].to_vec());
        bodies.push(instead(start, &[7, 0, 4, tag, 10, 0, 0]));
        bodies.push(instead(start, &[7, 0, 1, tag]));
        bodies.push(instead(start, &[9, 0, 3, 0, 0, 0]));
    }
    bodies
}

/// Lists slots with values at each limit and beyond it, and with missing answers of each number and channel.
/// Tag 5 stands in pressure's place.
fn changed_values() -> Vec<Vec<u8>> {
    let values = [
        (7, 3, [0, 1 << 31, i32::MAX as u32, u32::MAX, 1]),
        (14, 4, [0, 1, 1 << 24, 1 << 31, u32::MAX]),
        (14, 5, [0, 1, 16_777_215, 16_777_216, u32::MAX]),
        (21, 6, [0, 102_399, 102_400, 102_401, u32::MAX]),
    ];
    let mut bodies = Vec::new();
    for (start, tag, words) in values {
        let field = |word: u32| [&[tag, 0, 4][..], &word.to_be_bytes()].concat();
        bodies.extend(words.map(|word| instead(start, &field(word))));
    }
    for (start, channel) in [(7, 3), (14, 4), (21, 6)] {
        let numbers = [0, 9, 10, 11, 12, 13, 14, 15, 255].map(|number| [channel, number]);
        let channels = (0..8).map(|other| [other, 10]);
        for [named, number] in numbers.into_iter().chain(channels) {
            bodies.push(instead(start, &[7, 0, 2, named, number]));
        }
    }
    bodies
}

/// Lists records of three groups, of which the last, or the last but one, has a fault or is too deep.
/// Where both have, the first decides.
fn later_groups() -> Vec<String> {
    let right = nested(2, &fields(&SKIPPED));
    let faults = [
        group(&instead(21, &[6, 0, 4, 0, 1, 0x90, 1])),
        group(&instead(14, &[4, 0, 3, 0, 0, 0])),
        group(&instead(7, &[6, 0, 4, 0, 0, 0, 0])),
        group(&instead(21, &[])),
        nested(4, &fields(&DRY)),
    ];
    let mut lines = Vec::new();
    for fault in &faults {
        lines.push(read(&group(&[&right[..], &right, fault].concat()), 32));
        lines.push(read(&group(&[&right[..], fault, &right].concat()), 32));
        lines.push(read(&group(&[&right[..], fault, &[0]].concat()), 32));
        lines.push(read(&[&group(fault)[..], &right].concat(), 32));
        lines.extend(
            faults
                .iter()
                .map(|other| read(&group(&[&fault[..], other].concat()), 32)),
        );
    }
    lines
}

/// Lists what may stand beside a slot, a group and the record, and groups with nothing in them.
/// Where two faults meet, the order of their numbers is seen.
fn beside() -> Vec<String> {
    let slot = fields(&SKIPPED);
    let inner = group(&slot);
    let mut lines = Vec::new();
    let extras: [&[u8]; 9] = [
        &[0],
        &[1],
        &[1, 0],
        &[1, 0, 0],
        &[1, 0xFF, 0xFF],
        &[2, 0, 4, 0, 0, 0, 0],
        &[9, 0, 0],
        &[9, 0, 1],
        &inner,
    ];
    for extra in extras {
        lines.push(read(&nested(2, &[&slot, extra].concat()), 9));
        lines.push(read(&nested(1, &[&inner, extra].concat()), 9));
        lines.push(read(&nested(3, &[&inner, extra].concat()), 9));
        lines.push(read(&[&inner, extra].concat(), 9));
        lines.push(read(&nested(1, &[extra, &slot].concat()), 9));
        lines.push(read(extra, 9));
    }
    let fifth: [&[u8]; 6] = [
        &[1, 0, 0],
        &[1, 0, 1],
        &[1, 0],
        &[3, 0, 1, 0],
        &[1, 0, 1, 9],
        &[2, 0, 3, 0, 0, 0],
    ];
    for levels in 1..=5 {
        lines.push(read(&nested(levels, &[]), 9));
        lines.extend(fifth.map(|field| read(&nested(levels, field), 9)));
    }
    lines
}

/// Lists all of these as lines, in a fixed order.
/// None of them touches the machine.
pub fn lines() -> Vec<String> {
    let changed = [changed_fields(), changed_values()].concat();
    let changed = changed.iter().map(|body| read(&group(body), 3));
    [
        examples(),
        damaged(),
        changed.collect(),
        later_groups(),
        beside(),
        lists::lines(),
    ]
    .concat()
}
