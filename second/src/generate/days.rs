//! Days of readings: their chips, their air, and the lines that ask for them.

use super::{chips, readings};
use crate::calibration::{blocks, BLOCK_ONE, BLOCK_TWO};
use crate::data::{self, DATA};
use crate::day::cases::spell;
use crate::day::FLAT;
use crate::random::Random;
use crate::words::LONGEST_LINE;

const LONGEST_LENT: usize = 256;
const HIGHEST_COUNTS: [u64; 3] = [0xFFFFF, 0xFFFFF, 0xFFFF];
const CODES_BEYOND: [u8; 7] = [8, 8, 9, 16, 127, 128, 255];

/// A chip's blocks, and counts that its days begin with and come back to.
/// Where the chip lacks a channel by its making, it does so at these.
struct Chip {
    one: Vec<u8>,
    two: Vec<u8>,
    counts: [u64; 3],
}

/// Makes a chip: a real-looking one, one that lacks a channel by its making, one of large pressures, any, or junk.
/// The large pressures have as many digits as there can be.
fn chip(random: &mut Random) -> Chip {
    let (words, counts) = match random.below(20) {
        0..=9 => (chips::real(random), readings::real_counts(random)),
        10..=12 => {
            let broken = chips::broken(random);
            random.pick(&broken)
        }
        13 | 14 => {
            let mut words = chips::real(random);
            (words.p[0], words.p[8]) = (random.between(100, 4_000), 0);
            (words, readings::real_counts(random))
        }
        15 => {
            return Chip {
                one: random.bytes(BLOCK_ONE),
                two: random.bytes(BLOCK_TWO),
                counts: readings::wide_counts(random),
            }
        }
        _ => readings::chip(random),
    };
    let (one, two) = blocks(&words);
    Chip { one, two, counts }
}

/// Makes the codes of a day: mostly one setting for all its places.
/// One in five days skips a channel.
fn setting(random: &mut Random) -> [u8; 3] {
    let mut codes = [0; 3].map(|_: u8| 1 + random.below(7) as u8);
    if random.percent(20) {
        codes[random.below(3) as usize] = 0;
    }
    codes
}

/// Moves counts as the air does from one reading to the next, or jumps.
/// A jump goes to the chip's own counts, to a real room's or anywhere.
fn move_on(random: &mut Random, chip: &Chip, counts: [u64; 3]) -> [u64; 3] {
    match random.below(20) {
        0 | 1 => chip.counts,
        2 | 3 => readings::real_counts(random),
        4 => readings::wide_counts(random),
        _ => {
            let mut moved = counts;
            for (count, highest) in moved.iter_mut().zip(HIGHEST_COUNTS) {
                let step = random.between(-300, 300);
                *count = (*count as i64 + step).clamp(0, highest as i64) as u64;
            }
            moved
        }
    }
}

/// Changes the codes of one place: a channel skipped or all in any way, or a code beyond 7.
/// Most places keep the day's setting.
fn at_place(random: &mut Random, codes: [u8; 3]) -> [u8; 3] {
    let mut changed = codes;
    let channel = random.below(3) as usize;
    match random.below(20) {
        0 => changed[channel] = 0,
        1 => changed = codes.map(|code| random.pick(&[0, 1, code])),
        2 => changed[channel] = random.pick(&CODES_BEYOND),
        3 => changed[channel] = random.byte(),
        _ => {}
    }
    changed
}

/// Makes one flat reading from its counts and codes.
/// The unused nibbles may be anything.
fn flat(random: &mut Random, counts: [u64; 3], codes: [u8; 3]) -> [u8; FLAT] {
    let mut flat = [0; FLAT];
    flat[..DATA].copy_from_slice(&data::bytes(counts));
    flat[DATA..].copy_from_slice(&codes);
    if random.percent(10) {
        flat[2] |= random.byte() & 0x0F;
        flat[5] |= random.byte() & 0x0F;
    }
    flat
}

/// Makes so many flat readings of a chip.
/// Some are junk, some have their neighbour's data with other codes, or its codes with other data.
fn air(random: &mut Random, chip: &Chip, count: usize) -> Vec<u8> {
    let setting = setting(random);
    let mut counts = chip.counts;
    let mut bytes = Vec::with_capacity(FLAT * count);
    for _ in 0..count {
        if random.percent(3) {
            let mut junk = random.bytes(FLAT);
            if random.percent(80) {
                junk[DATA..].iter_mut().for_each(|code| *code %= 9);
            }
            bytes.extend(junk);
            continue;
        }
        if random.percent(90) {
            counts = move_on(random, chip, counts);
        }
        let codes = at_place(random, setting);
        bytes.extend(flat(random, counts, codes));
    }
    bytes
}

/// Makes both blocks and so many flat readings.
/// Their lengths are right.
pub fn day(random: &mut Random, count: usize) -> [Vec<u8>; 3] {
    let chip = chip(random);
    let readings = air(random, &chip, count);
    [chip.one, chip.two, readings]
}

/// Makes a block or the readings shorter or longer than they should be.
/// A few bytes are missing or too many, or all are missing.
fn damage(random: &mut Random, parts: &mut [Vec<u8>; 3]) {
    let part = &mut parts[random.pick(&[0, 1, 2, 2])];
    let length = part.len();
    let little = 1 + random.below(FLAT as u64 - 1) as usize;
    let length = random.pick(&[
        0,
        length.saturating_sub(1),
        length.saturating_sub(little),
        length + 1,
        length + little,
    ]);
    part.resize(length, 0x5A);
}

/// Picks the length of the lent list for so many readings.
/// Mostly it is right; else it is close to it, none, the longest or one more.
fn lent(random: &mut Random, count: usize) -> usize {
    match random.below(60) {
        0 | 1 => count.saturating_sub(1),
        2 | 3 => count + 1,
        4 => 0,
        5 => random.pick(&[LONGEST_LENT, LONGEST_LENT + 1]),
        6 => random.below(9) as usize,
        _ => count,
    }
}

/// Picks how many readings a line has: up to eight mostly, else as many as fit at most.
/// Some have just as many as fit.
fn places(random: &mut Random) -> usize {
    let most = (LONGEST_LINE - "day    256".len() - 2 * (BLOCK_ONE + BLOCK_TWO)) / (2 * FLAT);
    match random.below(60) {
        0 => most,
        1 => most + 1,
        2 | 3 => random.below(most as u64 + 1) as usize,
        4..=7 => 9 + random.below(24) as usize,
        _ => random.below(9) as usize,
    }
}

/// Makes a line that asks for a day.
/// Either case of hex is read, so that a few lines are in lower case.
pub fn line(random: &mut Random) -> String {
    let count = places(random);
    let mut parts = day(random, count);
    if random.percent(6) {
        damage(random, &mut parts);
    }
    let [one, two, readings] = parts;
    let line = spell(&one, &two, &readings, lent(random, count));
    match random.percent(5) {
        true => line.to_lowercase(),
        false => line,
    }
}
