//! The writer of visit records: a list of steps into bytes, checked step by step first.

use super::{is_missing_number, Channel, Refusal, Slot, Step};
use super::{DEEPEST, HIGHEST_HUMIDITY, LONGEST_RECORD};
use crate::numbers::Number;

/// What an open group holds so far.
#[derive(Clone, Copy, PartialEq, Eq)]
enum Held {
    Nothing,
    Groups,
    Slot,
}

/// Says whether a slot's answers are within their limits.
/// Every temperature and every pressure is.
fn within_limits(slot: &Slot) -> bool {
    let missing = [
        slot.temperature.err(),
        slot.pressure.err(),
        slot.humidity.err(),
    ];
    let numbers = missing.into_iter().flatten().all(is_missing_number);
    numbers
        && slot
            .humidity
            .map_or(true, |value| value <= HIGHEST_HUMIDITY)
}

/// Takes one step onto the open groups, or gives the number that refuses it.
/// The order is 19, 21, 22; whether the record has begun is known from its place.
fn take(open: &mut Vec<Held>, place: usize, step: &Step) -> Result<(), Number> {
    let astray = Err(Number::TagOutOfPlace);
    let inner = open.last().copied();
    match (step, inner) {
        (Step::Open, None) if place > 0 => return astray,
        (Step::Open, Some(Held::Slot)) => return astray,
        (Step::Open, _) if open.len() == DEEPEST => return Err(Number::TooDeep),
        (Step::Open, _) => {
            if let Some(held) = open.last_mut() {
                *held = Held::Groups;
            }
            open.push(Held::Nothing);
        }
        (Step::Slot(slot), Some(Held::Nothing)) => {
            if !within_limits(slot) {
                return Err(Number::OutsideLimits);
            }
            open.pop();
            open.push(Held::Slot);
        }
        (Step::Close, Some(Held::Groups | Held::Slot)) => {
            open.pop();
        }
        (Step::Slot(_) | Step::Close, _) => return astray,
    }
    Ok(())
}

/// Checks a list of steps from its start.
/// A list that ends too soon gives 19 with its length.
fn check(steps: &[Step]) -> Result<(), Refusal> {
    let mut open = Vec::new();
    for (place, step) in steps.iter().enumerate() {
        take(&mut open, place, step).map_err(|number| Refusal::at(number, place))?;
    }
    match open.is_empty() && !steps.is_empty() {
        true => Ok(()),
        false => Err(Refusal::at(Number::TagOutOfPlace, steps.len())),
    }
}

/// Gives the field of one answer: tag, length, body.
/// A missing one names its channel, which is the tag of its value.
fn field(channel: u8, answer: Channel<u32>) -> Vec<u8> {
    match answer {
        Ok(value) => [&[channel, 0, 4][..], &value.to_be_bytes()].concat(),
        Err(number) => vec![7, 0, 2, channel, number as u8],
    }
}

/// Gives the four fields of a slot.
/// Pressure is never in whole pascals.
pub fn fields(slot: &Slot) -> Vec<u8> {
    [
        field(2, Ok(slot.time)),
        field(3, slot.temperature.map(|value| value as u32)),
        field(4, slot.pressure),
        field(6, slot.humidity),
    ]
    .concat()
}

/// Gives the bytes of a list that was checked.
/// It goes from the last step back, so that a group's length is known at its header.
fn bytes(steps: &[Step]) -> Result<Vec<u8>, Refusal> {
    let mut backwards = Vec::new();
    let mut ends = Vec::new();
    for step in steps.iter().rev() {
        match step {
            Step::Close => ends.push(backwards.len()),
            Step::Slot(slot) => backwards.extend(fields(slot).into_iter().rev()),
            Step::Open => {
                let length = backwards.len() - ends.pop().unwrap_or(0);
                backwards.extend([length as u8, (length >> 8) as u8, 1]);
            }
        }
    }
    if backwards.len() > LONGEST_RECORD {
        return Err(Refusal::whole(Number::WrongLength));
    }
    backwards.reverse();
    Ok(backwards)
}

/// Gives the record of a list of steps.
/// The steps are checked first, then the record's length.
pub fn record(steps: &[Step]) -> Result<Vec<u8>, Refusal> {
    check(steps)?;
    bytes(steps)
}

/// Writes the record of a list of steps into a lent buffer and gives its length.
/// A buffer too short gives 9, last of all; a refusal writes nothing.
pub fn write(steps: &[Step], buffer: &mut [u8]) -> Result<usize, Refusal> {
    let record = record(steps)?;
    let short = Refusal::whole(Number::BufferTooShort);
    buffer
        .get_mut(..record.len())
        .ok_or(short)?
        .copy_from_slice(&record);
    Ok(record.len())
}
