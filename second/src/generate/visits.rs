//! Lines that read records and write steps.

use super::{records, trees};
use crate::random::Random;
use crate::visits::cases;
use crate::visits::reader;
use crate::visits::writer;
use crate::visits::{Slot, Step};
use crate::words::LONGEST_LINE;

const LONGEST_LENT: usize = 256;
const WORDS: [&str; 20] = [
    "",
    "()",
    "x",
    "7",
    "7:1:2",
    "7:1:2:3:4",
    "7:1:2:",
    "-1:1:2:3",
    "7:-:2:3",
    "7:2147483648:2:3",
    "7:-2147483649:2:3",
    "7:1:-2:3",
    "7:1:2:-0",
    "7:1:4294967296:3",
    "7:1:2:4294967296",
    "7:1:2:!",
    "7:!-10:2:3",
    "!10:1:2:3",
    "7:1:2:!4294967296",
    "7:+1:2:3",
];

/// Picks the length of a lent list or buffer for an output of so much.
/// It is exact, one short, longer, none or the longest, and within the bench's limit.
fn length(random: &mut Random, output: usize) -> usize {
    let length = match random.below(12) {
        0..=4 => output,
        5 | 6 => output.saturating_sub(1),
        7 => random.below(output as u64 + 1) as usize,
        8 => 0,
        9 => output + 1 + random.below(8) as usize,
        _ => LONGEST_LENT,
    };
    length.min(LONGEST_LENT)
}

/// Makes a line that reads a record.
/// It is as long as a line may be at most.
fn read(random: &mut Random) -> String {
    let mut record = records::small(random);
    record.truncate(LONGEST_LINE / 2 - 10);
    let steps = reader::read(&record).map_or(9, |steps| steps.len());
    let length = length(random, steps);
    let line = cases::read(&record, length);
    match random.percent(5) {
        true => line.to_lowercase(),
        false => line,
    }
}

/// Makes a slot of which an answer is beyond its limits.
/// It is humidity, or a number that stands for none missing.
fn beyond(random: &mut Random) -> Slot {
    let mut slot = trees::slot(random);
    let number = random.pick(&[0, 1, 9, 15, 16, 255, 266, u32::MAX]);
    match random.below(4) {
        0 => slot.humidity = Ok(random.pick(&[102_401, 102_402, 131_072, 1 << 31, u32::MAX])),
        1 => slot.temperature = Err(number),
        2 => slot.pressure = Err(number),
        _ => slot.humidity = Err(number),
    }
    slot
}

/// Changes one step of a list: lost, doubled, another in its place or before it, or the list is cut there.
/// The list may be right after all.
fn damage(random: &mut Random, steps: &mut Vec<Step>) {
    let place = random.below(steps.len() as u64) as usize;
    let other = match random.below(3) {
        0 => Step::Open,
        1 => Step::Close,
        _ => Step::Slot(trees::slot(random)),
    };
    match random.below(6) {
        0 => {
            steps.remove(place);
        }
        1 => steps.insert(place, steps[place]),
        2 => steps[place] = other,
        3 => steps.insert(place, other),
        4 => steps.push(other),
        _ => steps.truncate(place),
    }
}

/// Puts a slot beyond its limits in place of one of the list's, or of the steps around it.
/// The latter is a slot out of place too.
fn spoil(random: &mut Random, steps: &mut [Step]) {
    let mut place = random.below(steps.len() as u64) as usize;
    if random.percent(80) {
        let is_slot = |step: &Step| matches!(step, Step::Slot(_));
        place = steps.iter().position(is_slot).unwrap_or(place);
    }
    steps[place] = Step::Slot(beyond(random));
}

/// Spells some of a line's decimals with zeros in front.
/// A minus stays before them.
fn with_zeros(random: &mut Random, line: &str) -> String {
    let parts: Vec<String> = line
        .split(':')
        .map(|part| match (random.percent(40), part.strip_prefix('-')) {
            (true, Some(digits)) => format!("-00{digits}"),
            (true, None) if part.starts_with(|first: char| first.is_ascii_digit()) => {
                format!("0{part}")
            }
            _ => part.to_string(),
        })
        .collect();
    parts.join(":")
}

/// Makes a list of steps: right, damaged in one place, or with values beyond their limits.
/// Some are of five levels.
fn steps(random: &mut Random) -> Vec<Step> {
    let (levels, widest) = match random.below(20) {
        0 => return Vec::new(),
        1 => (5, 1),
        2 => (6, 2),
        3 => (4, 3),
        _ => (random.between(1, 4) as usize, 1 + random.below(2)),
    };
    let mut steps = trees::tree(random, levels, widest).steps();
    match random.below(10) {
        0..=2 => damage(random, &mut steps),
        3 | 4 => spoil(random, &mut steps),
        5 => {
            damage(random, &mut steps);
            steps.push(Step::Slot(beyond(random)));
        }
        _ => {}
    }
    steps
}

/// Makes a line that writes steps.
/// In a few a word is no step, or a decimal has zeros in front.
fn write(random: &mut Random) -> String {
    let steps = steps(random);
    let bytes = writer::record(&steps).map_or(40, |record| record.len());
    let line = cases::write(length(random, bytes), &steps);
    match random.below(25) {
        0 => format!("{line} {}", random.pick(&WORDS)),
        1 => line.replacen('(', random.pick(&WORDS), 1),
        2 => with_zeros(random, &line),
        3 => line.replacen(":0", ":-0", 1),
        _ => line,
    }
}

/// Makes a line for visit records.
/// Reading and writing are as likely.
pub fn line(random: &mut Random) -> String {
    match random.percent(50) {
        true => read(random),
        false => write(random),
    }
}
