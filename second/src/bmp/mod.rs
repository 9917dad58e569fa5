//! A BMP280's fixed cases: walks, readings, and ways to spell them.

pub mod readings;
pub mod spellings;
pub mod walks;

use crate::calibration::Words;
use crate::compensation::Input;
use crate::spelling;

/// Makes a BMP280's reading from its words, counts and codes.
/// The words and the count of humidity go nowhere, but for H1, whose byte is not used.
pub fn input(words: &Words, counts: [u64; 3], codes: [u64; 3]) -> Input {
    let mut input = spelling::input(words, counts, codes);
    input.two.clear();
    input.data.truncate(6);
    input
}

/// Lists all lines of the fixed cases, in a fixed order.
/// They start and end in a fresh state, a BMP280's and a BME280's.
pub fn lines() -> Vec<String> {
    let mut lines = walks::lines();
    lines.extend(readings::lines());
    lines.extend(spellings::lines());
    lines.push(String::from("fresh"));
    lines
}
