//! Days as fixed lines: the paper's readings, lengths, and codes and bytes at each place.

use super::{lacking, spellings, FLAT};
use crate::calibration::{blocks, Words};
use crate::data;
use crate::sheet::{k2_words, k5_words, K2_COUNTS};
use crate::spelling::hex;

/// One place of a day: the counts of temperature, pressure and humidity, and their codes.
pub type Place = ([u64; 3], [u8; 3]);

/// Three rooms, of which each channel has another value than in the others.
pub const AIR: [[u64; 3]; 3] = [
    [519_888, 415_148, 28_160],
    [500_000, 400_000, 30_000],
    [530_000, 430_000, 26_000],
];
const ALL: [u8; 3] = [1, 1, 1];

/// Gives the words of the bench page's example: K2's, and humidity's of a real chip.
/// Every channel has a value there.
pub fn chip() -> Words {
    let h = [75, 362, 0, 335, 50, 30];
    Words { h, ..k2_words() }
}

/// Spells a day with a list of so many answers.
/// Its damage, if any, is the caller's.
pub fn spell(one: &[u8], two: &[u8], readings: &[u8], length: usize) -> String {
    format!("day {} {} {} {length}", hex(one), hex(two), hex(readings))
}

/// Gives the flat bytes of places, eleven for each.
/// The codes come after the data.
pub fn flat(places: &[Place]) -> Vec<u8> {
    let bytes = |(counts, codes): &Place| [&data::bytes(*counts)[..], codes].concat();
    places.iter().flat_map(bytes).collect()
}

/// Spells a day of a chip, with a list as long as it should be.
/// Its lengths are right.
pub fn day(words: &Words, places: &[Place]) -> String {
    let (one, two) = blocks(words);
    spell(&one, &two, &flat(places), places.len())
}

/// Gives the three rooms with every channel enabled.
/// A case changes what it is about.
pub fn rooms() -> [Place; 3] {
    AIR.map(|counts| (counts, ALL))
}

/// Lists the paper's own readings as days: K1 and K2, K14, K3, K4, K5 and K6, and K7.
/// Those of one chip also stand in one day.
fn examples() -> Vec<String> {
    let [k1, k2, k14] = [[1, 0, 0], [1, 1, 0], [0, 1, 0]].map(|codes| (K2_COUNTS, codes));
    let (words, damp) = (k2_words(), k5_words());
    let (mut no_divisor, mut dry, mut hot) = (words, damp, Words::default());
    no_divisor.p[0] = 0;
    dry.h[3] = 1;
    hot.t = [0, 1, 0];
    let k3 = [741_455, 741_456].map(|count| ([count, 0, 0], [1, 0, 0]));
    let humid = |count| ([614_400, 0, count], [1, 0, 1]);
    vec![
        day(&words, &[k1]),
        day(&words, &[k2]),
        day(&words, &[k1, k2]),
        day(&words, &[k2, k14, k1]),
        day(&hot, &k3),
        day(&no_divisor, &[k2, k1]),
        day(&damp, &[humid(8_192), humid(32_768)]),
        day(&dry, &[humid(0), humid(8_192)]),
        day(&chip(), &rooms()),
    ]
}

/// Lists days whose bytes are so many, with lists of none to four, of the longest and of one more.
/// Only a list as long as whole readings are many is filled.
fn lengths() -> Vec<String> {
    let (one, two) = blocks(&chip());
    let four = flat(&[rooms()[0], rooms()[1], rooms()[2], (AIR[0], [1, 0, 1])]);
    let counts = [0, 1, 8, 10, 11, 12, 21, 22, 23, 32, 33, 34, 44];
    let mut lines = Vec::new();
    for bytes in counts.map(|count| &four[..count]) {
        let lists = [0, 1, 2, 3, 4, 255, 256, 257];
        lines.extend(lists.map(|length| spell(&one, &two, bytes, length)));
    }
    lines
}

/// Lists days with blocks of right and of wrong lengths, of no reading, of one and of three.
/// Some have 33 bytes in all but are parted at the wrong place.
fn wrong_blocks() -> Vec<String> {
    let (one, two) = blocks(&chip());
    let readings = flat(&rooms());
    let mut lines = Vec::new();
    for first in [0, 7, 25, 26, 27] {
        for second in [0, 6, 7, 8, 26] {
            let (mut one, mut two) = (one.clone(), two.clone());
            one.resize(first, 0x5A);
            two.resize(second, 0x5A);
            let of = |count: usize| spell(&one, &two, &readings[..FLAT * count], count);
            lines.extend([0, 1, 3].map(of));
        }
    }
    lines.push(spell(&one[..25], &two, &readings, 2));
    lines.push(spell(&[], &[], &[&one[..], &two, &readings].concat(), 3));
    lines
}

/// Lists days of three with a code changed: beyond 7 at each place and channel, at several, and each code up to 16.
/// A code beyond 7 beside one of 0 is still 7.
fn codes() -> Vec<String> {
    let with = |changes: &[(usize, [u8; 3])]| {
        let mut places = rooms();
        for (place, codes) in changes {
            places[*place].1 = *codes;
        }
        day(&chip(), &places)
    };
    let mut lines = Vec::new();
    for place in 0..3 {
        for channel in 0..3 {
            for code in [8, 255] {
                let mut codes = ALL;
                codes[channel] = code;
                lines.push(with(&[(place, codes)]));
                codes[(channel + 1) % 3] = 0;
                lines.push(with(&[(place, codes), ((place + 1) % 3, [0, 0, 1])]));
            }
        }
        let (next, last) = ((place + 1) % 3, (place + 2) % 3);
        lines.push(with(&[(place, [8, 1, 1]), (next, [1, 1, 255])]));
        lines.push(with(&[(place, [255; 3]), (next, [8; 3]), (last, [0; 3])]));
    }
    let each = |code| with(&[(0, [code, 1, 1]), (1, [1, code, 1]), (2, [1, 1, code])]);
    lines.extend((0..=16).chain([127, 128, 254, 255]).map(each));
    lines
}

/// Gives the codes that enable some channels and skip the others.
/// There are eight ways.
fn enabling(way: usize) -> [u8; 3] {
    [0, 1, 2].map(|channel| (way >> channel & 1) as u8)
}

/// Lists days of three that skip channels at one place, in every way.
/// The other two places have all.
fn skipped() -> Vec<String> {
    let mut lines = Vec::new();
    for place in 0..3 {
        for way in 0..7 {
            let mut places = rooms();
            places[place].1 = enabling(way);
            lines.push(day(&chip(), &places));
        }
    }
    lines
}

/// Gives a long day: the counts move from place to place, and the codes take every turn, with 7 now and then.
/// No place answers as its neighbour does.
pub fn moving(count: usize) -> Vec<Place> {
    let place = |place: usize| {
        let step = place as u64;
        let counts = [519_888 + 64 * step, 415_148 - 32 * step, 28_160 + 16 * step];
        match place % 10 {
            9 => (counts, [8, 1, 1]),
            turn => (counts, enabling(turn % 8)),
        }
    };
    (0..count).map(place).collect()
}

/// Lists days whose places differ in their bytes alone, in one channel's bytes, in their codes alone, and in both.
/// A place that took its neighbour's bytes or codes would answer otherwise. Three alike, and bytes that are one throughout, come too.
fn places() -> Vec<String> {
    let [a, b, c] = rooms();
    let [mut t, mut p, mut h] = [a; 3];
    (t.0[0], p.0[1], h.0[2]) = (b.0[0], b.0[1], b.0[2]);
    let ways = || (0..8).map(enabling).chain([[8, 1, 1], [1, 1, 1]]);
    let coded: Vec<Place> = ways().map(|codes| (AIR[0], codes)).collect();
    let turned: Vec<Place> = coded.iter().rev().copied().collect();
    let both: Vec<Place> = ways()
        .zip(AIR.into_iter().cycle())
        .map(|(codes, counts)| (counts, codes))
        .collect();
    let mut lines: Vec<String> = [
        [a, b, c],
        [a, c, b],
        [b, a, c],
        [b, c, a],
        [c, a, b],
        [c, b, a],
        [a, t, a],
        [a, p, a],
        [a, h, a],
        [t, p, h],
        [a, a, a],
    ]
    .iter()
    .map(|places| day(&chip(), places))
    .collect();
    lines.extend([coded, turned, both, moving(20)].map(|places| day(&chip(), &places)));
    let (one, two) = blocks(&chip());
    for byte in [0x00, 0x01, 0x07, 0xFF] {
        lines.push(spell(&one, &two, &[byte; 3 * FLAT], 3));
    }
    let mut nibbles = flat(&[a, a, b]);
    (nibbles[2], nibbles[5]) = (nibbles[2] | 0x0F, nibbles[5] | 0x0F);
    lines.push(spell(&one, &two, &nibbles, 3));
    lines
}

/// Lists a burst of eight bytes with days between the bytes, its close and the ledger.
/// The burst stays whole, since no day touches the machine.
fn during_a_burst() -> Vec<String> {
    let script = "fresh;copied;write F4 27;copied;finish 519888 415148 0;open F7;\
        byte;byte;byte;DAY;byte;byte;DAY;byte;byte;byte;close 8;ledger;fresh";
    let line = day(&chip(), &rooms());
    script
        .split(';')
        .map(|word| word.replace("DAY", &line))
        .collect()
}

/// Lists all of these as lines, in a fixed order.
/// They end in the fresh state.
pub fn lines() -> Vec<String> {
    [
        examples(),
        lengths(),
        wrong_blocks(),
        codes(),
        skipped(),
        places(),
        lacking::lines(),
        spellings::lines(),
        during_a_burst(),
    ]
    .concat()
}
