//! How a step is written as a word of a line, and read from one.

use super::{Channel, Slot, Step};
use crate::words::{decimal, Reason};

/// Spells one answer of a slot.
/// A missing one is its number after an exclamation mark.
fn spell_channel<T: ToString>(channel: Channel<T>) -> String {
    match channel {
        Ok(value) => value.to_string(),
        Err(number) => format!("!{number}"),
    }
}

/// Spells a step.
/// A slot is its time and three answers with colons between them.
pub fn spell(step: &Step) -> String {
    match step {
        Step::Open => String::from("("),
        Step::Close => String::from(")"),
        Step::Slot(slot) => [
            slot.time.to_string(),
            spell_channel(slot.temperature),
            spell_channel(slot.pressure),
            spell_channel(slot.humidity),
        ]
        .join(":"),
    }
}

/// Spells a list of steps with single spaces between them.
/// An empty list is no text.
pub fn spell_all(steps: &[Step]) -> String {
    let words: Vec<String> = steps.iter().map(spell).collect();
    words.join(" ")
}

/// Reads a number of 32 bits without a sign.
/// Zeros in front are allowed.
fn unsigned(word: &[u8]) -> Result<u32, Reason> {
    decimal(word).map(|value| value as u32)
}

/// Reads a number of 32 bits with an optional minus.
/// A minus before 0 is allowed.
fn signed(word: &[u8]) -> Result<i32, Reason> {
    let value = match word.strip_prefix(b"-") {
        Some(digits) => -(decimal(digits)? as i64),
        None => decimal(word)? as i64,
    };
    i32::try_from(value).map_err(|_| Reason::NotANumber)
}

/// Reads one answer of a slot, its value by the given call.
/// Any number may stand for a missing one here; the writer looks at it.
fn channel<T>(word: &[u8], value: fn(&[u8]) -> Result<T, Reason>) -> Result<Channel<T>, Reason> {
    match word.strip_prefix(b"!") {
        Some(number) => Ok(Err(unsigned(number)?)),
        None => Ok(Ok(value(word)?)),
    }
}

/// Reads a word as a step.
/// Whatever is none is not a number.
pub fn step(word: &[u8]) -> Result<Step, Reason> {
    match word {
        b"(" => return Ok(Step::Open),
        b")" => return Ok(Step::Close),
        _ => {}
    }
    let parts: Vec<&[u8]> = word.split(|byte| *byte == b':').collect();
    match parts[..] {
        [time, temperature, pressure, humidity] => Ok(Step::Slot(Slot {
            time: unsigned(time)?,
            temperature: channel(temperature, signed)?,
            pressure: channel(pressure, unsigned)?,
            humidity: channel(humidity, unsigned)?,
        })),
        _ => Err(Reason::NotANumber),
    }
}

/// Reads words as steps, left to right.
/// The first that is none decides.
pub fn steps<'a>(words: impl IntoIterator<Item = &'a [u8]>) -> Result<Vec<Step>, Reason> {
    words.into_iter().map(step).collect()
}
