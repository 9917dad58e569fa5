//! How the figures of a text for people are read: decimals, values with their units, missing answers.

use super::{is_missing_number, Channel};

const MOST_DIGITS: usize = 10;
const LIMITS: &str = "this value is outside its limits";
const MISSING: &str = "a missing value has a number from 10 to 14";

/// How the values of one channel are written.
struct Form {
    /// Said of a line that is not written so.
    wrong: &'static str,
    units: &'static [&'static str],
    /// The most digits after the point; figures are counted in units of the last of them.
    places: usize,
    lowest: i128,
    highest: i128,
    /// One part of the value, in those units, and what is said where a figure is no multiple of it.
    part: i128,
    uneven: &'static str,
}

const TEMPERATURE: Form = Form {
    wrong: "a temperature is written as: temperature 25.08 °C",
    units: &["°C", "C"],
    places: 2,
    lowest: i32::MIN as i128,
    highest: i32::MAX as i128,
    part: 1,
    uneven: "",
};
const PRESSURE: Form = Form {
    wrong: "a pressure is written as: pressure 100653.25 Pa",
    units: &["Pa"],
    places: 8,
    lowest: 0,
    highest: u32::MAX as i128 * 390_625,
    part: 390_625,
    uneven: "a pressure is a multiple of 1/256 Pa",
};
const HUMIDITY: Form = Form {
    wrong: "a humidity is written as: humidity 36.5 %RH",
    units: &["%RH"],
    places: 10,
    lowest: 0,
    highest: 100 * 10_000_000_000,
    part: 9_765_625,
    uneven: "a humidity is a multiple of 1/1024 %RH",
};

/// Says whether there is at least one byte and all are digits.
/// No sign is allowed.
fn all_digits(word: &[u8]) -> bool {
    !word.is_empty() && word.iter().all(u8::is_ascii_digit)
}

/// Gives the number that digits spell.
/// There are few enough for the type.
fn number(digits: &[u8]) -> i128 {
    let digits = digits.iter().map(|digit| i128::from(digit - b'0'));
    digits.fold(0, |sum, digit| sum * 10 + digit)
}

/// Reads a decimal of at most ten digits.
/// Zeros in front are allowed.
pub fn decimal(word: &[u8]) -> Option<u64> {
    (all_digits(word) && word.len() <= MOST_DIGITS).then(|| number(word) as u64)
}

/// Reads a figure in units of its last decimal place.
/// There may be a point, with one digit after it or more, up to so many places.
fn figure(word: &[u8], places: usize) -> Option<i128> {
    let mut parts = word.splitn(2, |byte| *byte == b'.');
    let whole = parts.next().filter(|whole| whole.len() <= MOST_DIGITS)?;
    let rest = parts.next().unwrap_or(b"0");
    if !all_digits(whole) || !all_digits(rest) || rest.len() > places {
        return None;
    }
    let mut digits = [whole, rest].concat();
    digits.resize(whole.len() + places, b'0');
    Some(number(&digits))
}

/// Reads a figure that may have a minus, where the channel's values may be negative.
/// A minus before 0 is allowed there.
fn signed(word: &[u8], form: &Form) -> Option<i128> {
    match word.strip_prefix(b"-") {
        Some(size) if form.lowest < 0 => Some(-figure(size, form.places)?),
        _ => figure(word, form.places),
    }
}

/// Reads the words of one channel's line after its name.
/// How it is written comes first, then the limits, then the multiple.
fn channel(words: &[&[u8]], form: &Form) -> Result<Channel<i128>, &'static str> {
    let [first, second] = match words {
        [first, second] => [*first, *second],
        _ => return Err(form.wrong),
    };
    if first == b"missing" {
        let number = decimal(second).ok_or(form.wrong)?;
        let number = u32::try_from(number).map_err(|_| MISSING)?;
        return match is_missing_number(number) {
            true => Ok(Err(number)),
            false => Err(MISSING),
        };
    }
    if !form.units.iter().any(|unit| unit.as_bytes() == second) {
        return Err(form.wrong);
    }
    let value = signed(first, form).ok_or(form.wrong)?;
    if value < form.lowest || value > form.highest {
        return Err(LIMITS);
    }
    match value % form.part {
        0 => Ok(Ok(value / form.part)),
        _ => Err(form.uneven),
    }
}

/// Reads the words of a time's line after its name.
/// It is one decimal.
pub fn time(words: &[&[u8]]) -> Result<u32, &'static str> {
    let wrong = "a time is written as: time 1700000000";
    match words {
        [word] => u32::try_from(decimal(word).ok_or(wrong)?).map_err(|_| LIMITS),
        _ => Err(wrong),
    }
}

/// Reads the words of a temperature's line after its name.
/// The value is in hundredths.
pub fn temperature(words: &[&[u8]]) -> Result<Channel<i32>, &'static str> {
    Ok(channel(words, &TEMPERATURE)?.map(|value| value as i32))
}

/// Reads the words of a pressure's line after its name.
/// The value is in Pa times 256.
pub fn pressure(words: &[&[u8]]) -> Result<Channel<u32>, &'static str> {
    Ok(channel(words, &PRESSURE)?.map(|value| value as u32))
}

/// Reads the words of a humidity's line after its name.
/// The value is in %RH times 1024.
pub fn humidity(words: &[&[u8]]) -> Result<Channel<u32>, &'static str> {
    Ok(channel(words, &HUMIDITY)?.map(|value| value as u32))
}
