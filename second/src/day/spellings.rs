//! Days as fixed lines: the longest line, and each way to spell one.

use super::cases::{chip, flat, moving, rooms, spell};
use crate::calibration::blocks;
use crate::spelling::hex;
use crate::words::LONGEST_LINE;

/// The most readings that a line with right blocks can have.
const MOST: usize = 182;

/// Lists lines with as many readings as there is room for, and with one more.
/// Zeros before the length fill a line up to its last byte, and one byte beyond.
fn longest() -> Vec<String> {
    let (one, two) = blocks(&chip());
    let with = |count: usize, length| spell(&one, &two, &flat(&moving(count)), length);
    let full = with(MOST, MOST);
    let (start, length) = full.split_at(full.len() - 3);
    let filled = |bytes: usize| {
        let zeros = "0".repeat(bytes - full.len());
        format!("{start}{zeros}{length}")
    };
    let cut = flat(&moving(MOST));
    vec![
        with(MOST, MOST - 1),
        with(MOST, MOST + 1),
        with(MOST, 256),
        with(MOST, 257),
        spell(&one, &two, &cut[..cut.len() - 1], MOST),
        filled(LONGEST_LINE),
        filled(LONGEST_LINE + 1),
        with(MOST + 1, MOST + 1),
        full,
    ]
}

/// Lists spellings of a line, read and not read.
/// The words are looked at from left to right.
fn spellings() -> Vec<String> {
    let (one, two) = blocks(&chip());
    let [b1, b2, data] = [hex(&one), hex(&two), hex(&flat(&rooms()[..2]))];
    let good = format!("day {b1} {b2} {data} 2");
    let mut lines = vec![
        good.to_lowercase(),
        format!("day {} {b2} {data} 002", b1.to_lowercase()),
        String::from("day"),
        format!("{good} "),
        format!("{good} 2"),
        format!(" {good}"),
        good.replacen(' ', "  ", 1),
        good.replace("day", "Day"),
        good.replace("day", "days"),
    ];
    let words = [b1.as_str(), &b2, &data, "2"];
    for count in 0..4 {
        lines.push(["day", &words[..count].join(" ")].join(" "));
    }
    for place in 0..3 {
        for other in [&words[place][1..], "-0", "--", "", "0x", "G", "0G0"] {
            let mut changed = words;
            changed[place] = other;
            changed[3] = "257";
            lines.push(format!("day {}", changed.join(" ")));
        }
    }
    for length in [
        "",
        "x",
        "-2",
        "+2",
        "2.0",
        "0x2",
        "2\t",
        "-",
        "4294967295",
        "4294967296",
    ] {
        lines.push(format!("day {b1} {b2} {data} {length}"));
        lines.push(format!("day - - 0 {length}"));
    }
    lines
}

/// Lists all of these as lines, in a fixed order.
/// The longest come first.
pub fn lines() -> Vec<String> {
    [longest(), spellings()].concat()
}
