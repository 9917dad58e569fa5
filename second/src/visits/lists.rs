//! Lists of steps as fixed lines: each step at each place, each limit, and each way to spell a step.

use super::cases::{write, SKIPPED};
use super::trees::group;
use super::words::spell_all;
use super::writer::fields;
use super::Step;
use crate::spelling::hex;

const NUMBERS: [u32; 11] = [0, 9, 10, 11, 12, 13, 14, 15, 255, 266, u32::MAX];

/// Lists lists of steps with each step at each place, each step lost, and each start of a list.
/// The list has two groups beside each other.
fn steps() -> Vec<String> {
    let (open, slot, close) = (Step::Open, Step::Slot(SKIPPED), Step::Close);
    let whole = [
        open, open, slot, close, open, open, slot, close, close, close,
    ];
    let mut lines: Vec<String> = (0..=whole.len())
        .map(|end| write(99, &whole[..end]))
        .collect();
    for place in 0..=whole.len() {
        let (before, after) = whole.split_at(place);
        lines.extend([open, slot, close].map(|step| write(99, &[before, &[step], after].concat())));
        if !after.is_empty() {
            lines.push(write(99, &[before, &after[1..]].concat()));
        }
    }
    for levels in 1..=6 {
        let mut steps = vec![open; levels];
        lines.push(write(60, &steps));
        steps.push(slot);
        lines.push(write(60, &[&steps[..], &[open]].concat()));
        steps.extend(vec![close; levels]);
        lines.push(write(60, &[&steps[..], &[close]].concat()));
    }
    lines
}

/// Lists slots whose answers stand on their limits and beyond, and missing ones of every kind.
/// A slot out of place is refused for that first.
fn values() -> Vec<String> {
    let mut slots = vec![String::from("7:!9:!15:!0")];
    for number in NUMBERS {
        slots.push(format!("7:!{number}:2:3"));
        slots.push(format!("7:1:!{number}:3"));
        slots.push(format!("7:1:2:!{number}"));
    }
    for value in [0, 1, 102_399, 102_400, 102_401, 1 << 31, u32::MAX] {
        slots.push(format!("{value}:1:2:3"));
        slots.push(format!("7:{}:2:3", value as i32));
        slots.push(format!("7:1:{value}:3"));
        slots.push(format!("7:1:2:{value}"));
    }
    let alone = slots
        .iter()
        .map(|slot| format!("visit write 31 ( {slot} )"));
    let among = [
        "7:1:2:102401",
        "( 7:1:2:3 7:1:2:102401 )",
        "( 7:1:2:102401 7:1:2:3",
        "( 7:1:2:102401 (",
        "( 7:1:2:3 ) 7:1:2:102401",
        "( ( 7:1:2:3 ) ( 7:1:2:102401 ) )",
    ];
    alone
        .chain(among.map(|steps| format!("visit write 31 {steps}")))
        .collect()
}

/// Lists spellings of a line, read and not read.
/// The record is hex of either case, and a step has three colons.
fn spellings() -> Vec<String> {
    let record = hex(&group(&fields(&SKIPPED)));
    let lower = record.to_lowercase();
    let good = spell_all(&[Step::Slot(SKIPPED)]);
    let mut lines = vec![
        format!("visit read {lower} 3"),
        format!("visit read {lower} 003"),
        format!("visit read {record}0 3"),
        format!("visit read {record}0 257"),
        format!("visit read {record} 257"),
        format!("visit read {record}"),
        format!("visit read {record} 3 3"),
        format!("visit read 3 {record}"),
        format!("visit read {record}0G x"),
        format!("visit read {record} x"),
        format!("visit write 257 ( {good} )"),
        format!("visit write 257 x"),
        format!("visit write x ( {good} )"),
        format!("visit write ( {good} )"),
        format!("visit write 29  ( {good} )"),
        format!("visit write 29 ( {good} ) "),
    ];
    lines.extend(
        [
            "visit",
            "visit ",
            "visit show",
            "visits",
            "visit read",
            "visit write",
        ]
        .map(String::from),
    );
    let words = "() (( [ ] 7 7:1:2 7:1:2:3:4 ::: 7:1:2: :1:2:3 !10:1:2:3 -7:1:2:3 7:-:2:3 7:1:-2:3 7:1:2:-3 7:+1:2:3 7:!:2:3 7:!-10:2:3 \
        7:1:!x:3 7:!!10:2:3 7:1:2:!4294967296 4294967296:1:2:3 7:2147483648:2:3 7:-2147483649:2:3 7:1:4294967296:3 7:1:2:4294967296 \
        7:1:2:3.0 0x7:1:2:3 7:1:2:3\t 7:-0:2:3 007:-005:0002:000 4294967295:-2147483648:4294967295:102400 0:2147483647:0:!010 7:1:2:!4294967295";
    lines.extend(
        words
            .split(' ')
            .filter(|word| !word.is_empty())
            .map(|word| format!("visit write 31 ( {word} )")),
    );
    lines.push(format!("visit write 31 ( {good} ) x"));
    lines.push(format!("visit write 31 ) {good} 7"));
    lines
}

/// Lists all of these as lines, in a fixed order.
/// The steps come first, then their values and their spelling.
pub fn lines() -> Vec<String> {
    [steps(), values(), spellings()].concat()
}
