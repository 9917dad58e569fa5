//! Readings to compensate, and calibration blocks to read.

use super::chips;
use crate::calibration::{blocks, Words, BLOCK_ONE, BLOCK_TWO};
use crate::compensation::Input;
use crate::data::{self, DATA};
use crate::random::Random;
use crate::sheet::zero_divisor_words;
use crate::spelling::{asked, cal};

const COUNT_EDGES: [u64; 7] = [0, 1, 0x7FFFF, 0x80000, 0x80001, 0xFFFFE, 0xFFFFF];
const HUMIDITY_EDGES: [u64; 7] = [0, 1, 0x7FFF, 0x8000, 0x8001, 0xFFFE, 0xFFFF];
const CODES_BEYOND: [u64; 6] = [8, 9, 255, 256, 65_535, 4_294_967_295];

/// Makes counts as they come from rooms and hills.
/// Temperature, pressure, humidity, as everywhere.
pub fn real_counts(random: &mut Random) -> [u64; 3] {
    [
        420_000 + random.below(180_000),
        230_000 + random.below(250_000),
        18_000 + random.below(26_000),
    ]
}

/// Makes counts over the whole of their bits, often at an edge.
/// Each channel is chosen apart.
pub fn wide_counts(random: &mut Random) -> [u64; 3] {
    let mut counts = [
        random.below(1 << 20),
        random.below(1 << 20),
        random.below(1 << 16),
    ];
    for (channel, count) in counts.iter_mut().enumerate() {
        if random.percent(35) {
            *count = match channel {
                2 => random.pick(&HUMIDITY_EDGES),
                _ => random.pick(&COUNT_EDGES),
            };
        }
    }
    counts
}

/// Makes three oversampling codes: most enable all channels.
/// Some skip a channel, and a few lie beyond 7.
pub fn codes(random: &mut Random) -> [u64; 3] {
    let mut codes = [0; 3].map(|_: u64| 1 + random.below(7));
    if random.percent(20) {
        codes[random.below(3) as usize] = 0;
    }
    if random.percent(8) {
        codes = codes.map(|code| random.pick(&[0, code]));
    }
    if random.percent(3) {
        codes[random.below(3) as usize] = random.pick(&CODES_BEYOND);
    }
    codes
}

/// Makes the words and counts of one reading.
/// Real-looking chips come most often, then one or two words at an edge.
pub fn chip(random: &mut Random) -> (Words, [u64; 3]) {
    let mut counts = wide_counts(random);
    let words = match random.below(100) {
        0..=39 => {
            counts = real_counts(random);
            chips::real(random)
        }
        40..=54 => {
            let words = chips::real(random);
            let places = random.between(1, 2);
            chips::with_edges(random, words, places)
        }
        55..=62 => chips::extreme(random),
        63..=76 => chips::hot(random, counts[0] as i64),
        77..=87 => {
            let real = real_counts(random)[0];
            counts[0] = random.pick(&[0, 7, 8, real]);
            chips::pressed(random)
        }
        88..=97 => {
            let real = real_counts(random)[0];
            counts[0] = random.pick(&[614_400, 614_400, real]);
            chips::damp(random)
        }
        98 => {
            let mut words = chips::real(random);
            words.p[0] = 0;
            words
        }
        _ => {
            counts[0] = 0;
            zero_divisor_words()
        }
    };
    (words, counts)
}

/// Makes both blocks and the eight bytes of one reading.
/// A few are junk, all zero or all FF; the unused byte and nibbles may be anything.
pub fn bytes(random: &mut Random) -> [Vec<u8>; 3] {
    let lengths = [BLOCK_ONE, BLOCK_TWO, DATA];
    match random.below(100) {
        0..=5 => lengths.map(|length| random.bytes(length)),
        6..=8 => {
            let fillings = [0; 3].map(|_| random.pick(&[0x00, 0x00, 0xFF, 0xFF, 0x7F, 0x80]));
            [0, 1, 2].map(|part: usize| vec![fillings[part]; lengths[part]])
        }
        _ => {
            let (words, counts) = chip(random);
            let (mut one, two) = blocks(&words);
            let mut data = data::bytes(counts).to_vec();
            if random.percent(25) {
                one[24] = random.byte();
                data[2] |= random.byte() & 0x0F;
                data[5] |= random.byte() & 0x0F;
            }
            [one, two, data]
        }
    }
}

/// Makes one part shorter or longer than it should be.
/// It may lose all its bytes.
pub fn damage(random: &mut Random, parts: &mut [Vec<u8>]) {
    let part = random.below(parts.len() as u64) as usize;
    let length = parts[part].len();
    let length = random.pick(&[0, 1, length.saturating_sub(1), length + 1, length + 9]);
    parts[part].resize(length, 0x5A);
}

/// Makes one reading.
/// A few have damaged lengths.
pub fn input(random: &mut Random) -> Input {
    let mut parts = bytes(random);
    if random.percent(2) {
        damage(random, &mut parts);
    }
    let codes = codes(random);
    let [one, two, data] = parts;
    Input {
        one,
        two,
        data,
        codes,
    }
}

/// Makes a line to compensate one reading.
/// Every outcome of a reading comes.
pub fn reading(random: &mut Random) -> String {
    asked("comp", &input(random))
}

/// Makes a line to read calibration blocks.
/// Some have damaged lengths.
pub fn calibration(random: &mut Random) -> String {
    let [one, two, _] = bytes(random);
    let mut parts = [one, two];
    if random.percent(20) {
        damage(random, &mut parts);
    }
    cal(&parts[0], &parts[1])
}
