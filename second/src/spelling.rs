//! How commands are spelled, for the sheet and for generated cases.

use crate::answers::Answer;
use crate::calibration::{blocks, Words};
use crate::compensation::Input;
use crate::data;
use crate::part::Part;

/// Spells bytes as hex pairs run together, with a dash for none.
/// It is the same spelling as in answers.
pub fn hex(bytes: &[u8]) -> String {
    let mut text = Vec::new();
    Answer(&mut text).bytes(bytes);
    text.into_iter().map(char::from).collect()
}

/// Spells a command to read two calibration blocks.
/// Their lengths may be wrong.
pub fn cal(one: &[u8], two: &[u8]) -> String {
    format!("cal {} {}", hex(one), hex(two))
}

/// Makes a reading from its words, counts and codes.
/// Words and counts go into their bytes.
pub fn input(words: &Words, counts: [u64; 3], codes: [u64; 3]) -> Input {
    let (one, two) = blocks(words);
    Input {
        one,
        two,
        data: data::bytes(counts).to_vec(),
        codes,
    }
}

/// Spells a command of one reading: comp, bmp, point or cells.
/// Lengths and codes may be wrong.
pub fn asked(name: &str, input: &Input) -> String {
    let [one, two, data] = [&input.one, &input.two, &input.data].map(|bytes| hex(bytes));
    let [t, p, h] = input.codes;
    format!("{name} {one} {two} {data} {t} {p} {h}")
}

/// Spells a compensation reading from its words, counts and codes.
/// It is the most common command.
pub fn reading(words: &Words, counts: [u64; 3], codes: [u64; 3]) -> String {
    asked("comp", &input(words, counts, codes))
}

/// Spells the fresh state of a part, with or without a number of conversions begun.
/// A BME280 has no word of its own.
pub fn fresh(part: Part, begun: Option<u64>) -> String {
    let name = match part {
        Part::Bme280 => "fresh",
        Part::Bmp280 => "fresh bmp",
    };
    match begun {
        Some(begun) => format!("{name} {begun}"),
        None => String::from(name),
    }
}

/// Spells the comparison of two rooms.
/// The tolerances come last.
pub fn rooms(one: &Input, other: &Input, tolerances: [u64; 3]) -> String {
    let [t, p, h] = tolerances;
    let start = asked(&asked("rooms", one), other);
    format!("{start} {t} {p} {h}")
}
