//! A BMP280's readings, kept as fixed lines.

use super::input;
use crate::calibration::Words;
use crate::compensation::Input;
use crate::data;
use crate::day::lacking;
use crate::edges::{self, Edge};
use crate::maps;
use crate::sheet::{k2_words, K2_COUNTS};
use crate::spelling::{asked, cal, reading};

/// Spells a BMP280's reading from its words, counts and codes.
/// It is the command of most of these lines.
fn bmp(words: &Words, counts: [u64; 3], codes: [u64; 3]) -> String {
    asked("bmp", &input(words, counts, codes))
}

/// Lists K1 to K4 and K14 of a BMP280.
/// Humidity is 10 in each of them.
pub fn papers() -> Vec<String> {
    let k2 = k2_words();
    let k3 = Words {
        t: [0, 1, 0],
        ..Words::default()
    };
    let mut k4 = k2;
    k4.p[0] = 0;
    vec![
        bmp(&k2, K2_COUNTS, [1, 0, 0]),
        bmp(&k2, K2_COUNTS, [1, 1, 0]),
        bmp(&k3, [741_455, 0, 0], [1, 0, 0]),
        bmp(&k3, [741_456, 0, 0], [1, 0, 0]),
        bmp(&k4, K2_COUNTS, [1, 1, 0]),
        bmp(&k2, K2_COUNTS, [0, 1, 0]),
    ]
}

/// Lists K2 with the third code from 0 to 9 and far beyond, and with the other codes in every way.
/// The third is checked like the others, and changes nothing else.
pub fn codes() -> Vec<String> {
    let k2 = k2_words();
    let mut codes: Vec<[u64; 3]> = (0..=9).map(|third| [1, 1, third]).collect();
    codes.extend([255, 256, 4_294_967_295].map(|third| [1, 1, third]));
    for temperature in [0, 7, 8] {
        for pressure in [0, 7, 8] {
            codes.extend([0, 7, 8].map(|third| [temperature, pressure, third]));
        }
    }
    codes
        .into_iter()
        .map(|codes| bmp(&k2, K2_COUNTS, codes))
        .collect()
}

/// Lists the edges of temperature and pressure, and the chips that lack a channel at some counts.
/// A chip that a BME280's humidity would be refused for is among them.
pub fn edges() -> Vec<String> {
    let own: [&[Edge]; 6] = [
        &edges::pressures(),
        &edges::products(),
        &edges::rounded_temperatures(),
        &edges::divisors(),
        &maps::temperatures(),
        &maps::pressures(),
    ];
    let edges = own.concat();
    let mut lines: Vec<String> = edges
        .iter()
        .map(|edge| bmp(&edge.words, edge.counts, [1, 1, 1]))
        .collect();
    for chip in lacking::chips() {
        let [one, other] = chip.with;
        lines.extend([chip.without, one, other].map(|counts| bmp(&chip.words, counts, [1, 1, 1])));
    }
    lines
}

/// Cuts a list of bytes to a length, or fills it up to it.
/// What is added is no 0.
fn resized(bytes: &[u8], length: usize) -> Vec<u8> {
    let mut bytes = bytes.to_vec();
    bytes.resize(length, 0x5A);
    bytes
}

/// Lists K2 with each of its three parts of every length around the right one, and of a BME280's.
/// Two wrong lengths don't make a right one, and a code beyond 7 comes after them.
pub fn lengths() -> Vec<String> {
    let right = input(&k2_words(), K2_COUNTS, [1, 1, 1]);
    let with = |one: usize, two: usize, data: usize, third: u64| {
        let changed = Input {
            one: resized(&right.one, one),
            two: resized(&right.two, two),
            data: resized(&right.data, data),
            codes: [1, 1, third],
        };
        asked("bmp", &changed)
    };
    let mut lines = Vec::new();
    for one in [0, 1, 19, 24, 25, 27, 33, 52] {
        lines.push(with(one, 0, 6, 1));
    }
    for two in [1, 6, 7, 8, 26] {
        lines.push(with(26, two, 6, 1));
    }
    for data in [0, 1, 5, 7, 8, 9, 11, 12] {
        lines.push(with(26, 0, data, 1));
    }
    for (one, two, data) in [
        (26, 7, 8),
        (25, 1, 6),
        (25, 0, 7),
        (26, 1, 5),
        (0, 26, 6),
        (0, 0, 0),
    ] {
        lines.push(with(one, two, data, 1));
    }
    for (one, two, data) in [(25, 0, 6), (26, 1, 6), (26, 0, 5), (26, 0, 8), (26, 0, 6)] {
        lines.push(with(one, two, data, 8));
    }
    lines
}

/// Lists readings whose unused bits are anything: 0xA0, H1's 0xA1, and the low nibbles of the data.
/// Blocks and data of one byte throughout come after them.
pub fn unused() -> Vec<String> {
    let mut lines = Vec::new();
    for (at, filling) in [(24, 0xFF), (25, 0xFF), (25, 0x4B), (24, 0x5A)] {
        let mut changed = input(&k2_words(), K2_COUNTS, [1, 1, 1]);
        changed.one[at] = filling;
        lines.push(asked("bmp", &changed));
    }
    for (at, nibble) in [(2, 0x0F), (5, 0x0F), (2, 0x08), (5, 0x01)] {
        let mut changed = input(&k2_words(), K2_COUNTS, [1, 1, 1]);
        changed.data[at] |= nibble;
        lines.push(asked("bmp", &changed));
    }
    for one in [0x00, 0x01, 0x7F, 0x80, 0xFF] {
        for data in [0x00, 0x7F, 0x80, 0xFF] {
            let same = Input {
                one: vec![one; 26],
                two: Vec::new(),
                data: vec![data; 6],
                codes: [1, 1, 1],
            };
            lines.push(asked("bmp", &same));
        }
    }
    lines
}

/// Lists what the other commands say of a BMP280's bytes, and this one of a BME280's.
/// Each takes its own lengths alone.
pub fn strangers() -> Vec<String> {
    let sibling = input(&k2_words(), K2_COUNTS, [1, 1, 0]);
    let mut lines: Vec<String> = ["comp", "point", "cells"]
        .map(|name| asked(name, &sibling))
        .to_vec();
    lines.push(cal(&sibling.one, &sibling.two));
    lines.push(reading(&k2_words(), K2_COUNTS, [1, 1, 0]).replace("comp", "bmp"));
    lines
}

/// Lists a burst of each part with readings of both between its bytes.
/// No reading touches the machine, and the machine's kind touches no reading.
pub fn beside() -> Vec<String> {
    let data = data::bytes(K2_COUNTS);
    let [t, p, h] = data::counts(data);
    let mut lines = Vec::new();
    for (start, length) in [("fresh bmp", 6), ("fresh", 8)] {
        let beginning = [start, "copied", "write F4 25", "copied"];
        lines.extend(beginning.map(String::from));
        lines.push(format!("finish {t} {p} {h}"));
        lines.push(String::from("open F7"));
        for _ in 0..length {
            lines.push(bmp(&k2_words(), K2_COUNTS, [1, 1, 0]));
            lines.push(reading(&k2_words(), K2_COUNTS, [1, 1, 0]));
            lines.push(String::from("byte"));
        }
        lines.push(format!("close {length}"));
        lines.push(String::from("ledger"));
    }
    lines
}

/// Lists all readings, in a fixed order.
/// They end in a BME280's state.
pub fn lines() -> Vec<String> {
    let parts = [
        papers(),
        codes(),
        edges(),
        lengths(),
        unused(),
        strangers(),
        beside(),
    ];
    parts.concat()
}
