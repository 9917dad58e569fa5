//! Points, cells, and the comparison of two rooms.

use super::{chips, readings};
use crate::compensation::{compensate, Input};
use crate::data::{self, DATA};
use crate::maps;
use crate::numbers::Number;
use crate::part::Part;
use crate::random::Random;
use crate::rooms::{channels, difference};
use crate::spelling::{asked, input, rooms};

const HIGHEST_TOLERANCE: u64 = 4_294_967_295;
const HIGHEST_COUNTS: [u64; 3] = [0xFFFFF, 0xFFFFF, 0xFFFF];
const CODES_BEYOND: [u64; 4] = [8, 9, 255, 4_294_967_295];

/// Makes a reading: a real-looking chip with all channels, any reading, or one that lacks a channel by its making.
/// A few are of the fixed ones, which stand on edges.
fn reading(random: &mut Random) -> Input {
    match random.below(20) {
        0 | 1 => {
            let inputs = maps::inputs();
            inputs[random.below(inputs.len() as u64) as usize].clone()
        }
        2 | 3 => {
            let broken = chips::broken(random);
            let (words, counts) = random.pick(&broken);
            input(&words, counts, [1, 1, 1])
        }
        4..=11 => {
            let words = chips::real(random);
            input(&words, readings::real_counts(random), [1, 1, 1])
        }
        _ => readings::input(random),
    }
}

/// Moves each count of a reading by a little, or by more in some readings.
/// Data of a wrong length have no counts and stay.
fn nearby(random: &mut Random, of: &Input) -> Input {
    let mut near = of.clone();
    let reach = random.pick(&[1, 3, 40, 2_000]);
    if let Ok(data) = <[u8; DATA]>::try_from(&of.data[..]) {
        let mut counts = [0; 3];
        for (place, count) in data::counts(data).into_iter().enumerate() {
            let moved = count + random.between(-reach, reach);
            counts[place] = moved.clamp(0, HIGHEST_COUNTS[place] as i64) as u64;
        }
        near.data = data::bytes(counts).to_vec();
    }
    near
}

/// Makes the second of two rooms: the same reading, one close to it, or any other.
/// A close one has the same chip.
fn beside(random: &mut Random, one: &Input) -> Input {
    match random.below(20) {
        0..=3 => one.clone(),
        4..=13 => nearby(random, one),
        _ => reading(random),
    }
}

/// Takes a channel, or the whole reading, away: by code 0, by a wrong length or by a code above 7.
/// All channels may be skipped at once.
fn take_away(random: &mut Random, from: &mut Input) {
    let place = random.below(3) as usize;
    match random.below(8) {
        0..=3 => from.codes[place] = 0,
        4 => from.codes = [0; 3],
        5 => {
            let part = match place {
                0 => &mut from.one,
                1 => &mut from.two,
                _ => &mut from.data,
            };
            let length = random.pick(&[0, part.len().saturating_sub(1), part.len() + 1]);
            part.resize(length, 0x5A);
        }
        6 => from.codes[place] = random.pick(&CODES_BEYOND),
        _ => from.codes = from.codes.map(|code| random.pick(&[0, code])),
    }
}

/// Makes two rooms; something is taken away from one, from the other, or from both alike.
/// Most keep what they have.
fn pair(random: &mut Random) -> [Input; 2] {
    let mut one = reading(random);
    if random.percent(10) {
        take_away(random, &mut one);
    }
    let mut other = beside(random, &one);
    if random.percent(20) {
        take_away(random, &mut other);
    }
    match random.percent(50) {
        true => [one, other],
        false => [other, one],
    }
}

/// Picks a channel's tolerance: its true difference, one less, one more, none, the highest, any.
/// Where a value is missing the difference is taken as 0.
fn tolerance(random: &mut Random, one: Result<i64, Number>, other: Result<i64, Number>) -> u64 {
    let exact = difference(one, other).unwrap_or(0) as u64;
    let tolerance = match random.below(20) {
        0..=5 => exact,
        6..=9 => exact.saturating_sub(1),
        10..=13 => exact + 1,
        14 | 15 => 0,
        16 => HIGHEST_TOLERANCE,
        17 | 18 => random.below(2 * exact + 2),
        _ => random.below(HIGHEST_TOLERANCE + 1),
    };
    tolerance.min(HIGHEST_TOLERANCE)
}

/// Makes a line that compares two rooms.
/// The tolerances are chosen by what the rooms truly have.
fn comparison(random: &mut Random) -> String {
    let [one, other] = pair(random);
    let [first, second] = [&one, &other].map(|input| channels(compensate(Part::Bme280, input)));
    let tolerances = [0, 1, 2].map(|place: usize| tolerance(random, first[place], second[place]));
    rooms(&one, &other, tolerances)
}

/// Makes a line that asks for a point or for cells.
/// A channel or the whole reading is taken away in some.
fn single(random: &mut Random) -> String {
    let mut input = reading(random);
    if random.percent(10) {
        take_away(random, &mut input);
    }
    asked(random.pick(&["point", "cells"]), &input)
}

/// Makes a line for the map room.
/// Either case of hex is read, so that a few lines are in lower case.
pub fn line(random: &mut Random) -> String {
    let line = match random.below(5) {
        0 | 1 => single(random),
        _ => comparison(random),
    };
    match random.percent(5) {
        true => line.to_lowercase(),
        false => line,
    }
}
