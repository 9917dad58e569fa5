//! A record as a text for people, and a refusal in words.

use super::{reader, Channel, Refusal, Slot, Step};
use crate::numbers::Number;
use crate::values::{degrees, missing, pascals, percent};

/// The names of groups by their level, the record's own first.
pub const NAMES: [&str; 4] = ["house", "floor", "room", "reading"];

const DAY: u32 = 86_400;

/// Says whether a year has 366 days.
/// Every fourth has, but of the hundreds only every fourth.
fn is_leap(year: u32) -> bool {
    year % 4 == 0 && (year % 100 != 0 || year % 400 == 0)
}

/// Gives the year, the month and the day of the month, from the days since 1970-01-01.
/// Years and months are counted off one after the other.
fn date(days: u32) -> (u32, u32, u32) {
    let mut left = days;
    let mut year = 1970;
    while left >= 365 + u32::from(is_leap(year)) {
        left -= 365 + u32::from(is_leap(year));
        year += 1;
    }
    let february = 28 + u32::from(is_leap(year));
    let mut month = 1;
    for length in [31, february, 31, 30, 31, 30, 31, 31, 30, 31, 30] {
        if left < length {
            break;
        }
        left -= length;
        month += 1;
    }
    (year, month, left + 1)
}

/// Spells a time as its decimal, with date and time of day after it.
/// Time is in seconds since 1970-01-01 00:00:00 UTC.
fn time(seconds: u32) -> String {
    let (year, month, day) = date(seconds / DAY);
    let (hour, minute, second) = (seconds / 3600 % 24, seconds / 60 % 60, seconds % 60);
    format!("{seconds} ({year:04}-{month:02}-{day:02} {hour:02}:{minute:02}:{second:02} UTC)")
}

/// Spells one answer: its value with the unit after it, or that it is missing.
/// The reader lets no other numbers through than 10 to 14.
fn answer<T: Into<i64>>(channel: Channel<T>, figure: fn(i64) -> String, unit: &str) -> String {
    match channel {
        Ok(value) => format!("{} {unit}", figure(value.into())),
        Err(number) => missing(number),
    }
}

/// Gives the four lines of a slot, without their indentation.
/// They are in the record's order.
fn lines(slot: &Slot) -> [String; 4] {
    [
        format!("time {}", time(slot.time)),
        format!("temperature {}", answer(slot.temperature, degrees, "°C")),
        format!("pressure {}", answer(slot.pressure, pascals, "Pa")),
        format!("humidity {}", answer(slot.humidity, percent, "%RH")),
    ]
}

/// Gives the text of a record's steps.
/// Two spaces stand for each level, and groups are numbered among their brothers.
pub fn text(steps: &[Step]) -> String {
    let mut text = String::new();
    let mut places = vec![0];
    for step in steps {
        let level = places.len() - 1;
        let indentation = "  ".repeat(level);
        match step {
            Step::Open => {
                places[level] += 1;
                text += &format!("{indentation}{} {}\n", NAMES[level], places[level]);
                places.push(0);
            }
            Step::Slot(slot) => {
                for line in lines(slot) {
                    text += &format!("{indentation}{line}\n");
                }
            }
            Step::Close => {
                places.pop();
            }
        }
    }
    text
}

/// Says in words why a record is refused, and at which byte.
/// The number stands at the end.
fn refused(refusal: Refusal) -> String {
    let reason = match refusal.number {
        Number::CutShort => "the field's header or body runs past its group or the record",
        Number::TagOutOfPlace => "tag out of place",
        Number::WrongFieldLength => "wrong length",
        Number::TooDeep => "groups more than four levels deep",
        Number::OutsideLimits => "value outside its limits",
        _ => "more than 65,535 bytes",
    };
    let number = refusal.number as u8;
    match refusal.at {
        Some(offset) => format!("visit show: byte {offset}: {reason} ({number})"),
        None => format!("visit show: {reason} ({number})"),
    }
}

/// Gives a record's text, or the line that says why it has none.
/// The list of steps is as long as it needs to be, so that 9 never comes.
pub fn show(record: &[u8]) -> Result<Vec<u8>, String> {
    reader::read(record)
        .map(|steps| text(&steps).into_bytes())
        .map_err(refused)
}
