//! Lines of a BMP280: readings, spoilt lines, and its part of the tour.

use super::{chips, damaged, readings, Generator};
use crate::compensation::Input;
use crate::part::Part;
use crate::random::Random;
use crate::spelling::{asked, fresh};

const SPOILT: [&str; 32] = [
    "fresh bmp x",
    "fresh bmp ",
    "fresh bmp -1",
    "fresh bmp 4294967296",
    "fresh bmp bmp",
    "fresh bmp 1\r",
    "fresh bmp 1 2",
    "fresh bmp  1",
    "fresh bmp x y",
    "fresh  bmp",
    "fresh 1 bmp",
    "fresh bme 1",
    "fresh bmp280 1",
    "fresh BMP",
    "fresh bmp\r",
    "fresh bmp280",
    "fresh bme",
    "Fresh bmp",
    "freshbmp",
    "bmp",
    "bmp ",
    "BMP - - - 1 1 1",
    "bmp280 - - - 1 1 1",
    "bmp - - - 1 1",
    "bmp - - - 1 1 1 1",
    "bmp - - 1 1 1",
    "bmp -  - 1 1 1",
    "bmp - - - 1 1 x",
    "bmp - - - 1 1 4294967296",
    "bmp - -- - 1 1 1",
    "bmp 0 - G 1 1 1",
    "bmp - 0 - 1 1 1",
];
const LONG: [(&str, &str, &str); 4] = [
    ("fresh bmp ", "0", "7"),
    ("bmp ", "00", " - 800000800000 1 1 0"),
    ("bmp - - ", "00", " 1 1 1"),
    ("bmp - - - 1 1 ", "0", "1"),
];

/// Makes one reading of a BMP280, out of what a BME280's reading is made of.
/// A few have damaged lengths, and a few have those of a BME280.
fn input(random: &mut Random) -> Input {
    let [one, two, data] = readings::bytes(random);
    let mut parts = [one, Vec::new(), data[..6].to_vec()];
    match random.below(50) {
        0 | 1 => readings::damage(random, &mut parts),
        2 => parts[1] = two,
        3 => parts[2] = data,
        _ => {}
    }
    let codes = readings::codes(random);
    let [one, two, data] = parts;
    Input {
        one,
        two,
        data,
        codes,
    }
}

/// Makes a line to compensate one reading of a BMP280.
/// Every outcome of such a reading comes.
fn reading(random: &mut Random) -> String {
    asked("bmp", &input(random))
}

/// Makes a line to compensate one reading of either part.
/// Two in five are of a BMP280.
pub fn either_reading(random: &mut Random) -> String {
    match random.percent(40) {
        true => reading(random),
        false => readings::reading(random),
    }
}

/// Makes a line of a BMP280 alone: a reading or a fresh state.
/// It is right for the most part.
fn valid(random: &mut Random) -> String {
    match random.below(3) {
        0 => reading(random),
        1 => fresh(Part::Bmp280, None),
        _ => fresh(Part::Bmp280, Some(random.below(100))),
    }
}

/// Makes one damaged line, of any subject.
/// One in five has the words of a BMP280.
pub fn either_damaged(random: &mut Random) -> String {
    match random.below(25) {
        0 | 1 => random.pick(&SPOILT).into(),
        2 => {
            let line = valid(random);
            damaged::miscounted(random, line)
        }
        3 => {
            let line = valid(random);
            damaged::touched(random, line)
        }
        4 if random.percent(25) => {
            let (start, filling, end) = random.pick(&LONG);
            damaged::filled(random.pick(&[4_095, 4_096, 4_097]), start, filling, end)
        }
        _ => damaged::line(random),
    }
}

impl Generator {
    /// Reaches each number and each reason that a line of a BMP280 can have.
    /// It leaves a BMP280 behind.
    pub(super) fn tour_of_bmp(&mut self) {
        let broken = chips::broken(&mut self.random);
        let real = (chips::real(&mut self.random), [519_888, 415_148, 0]);
        let mut inputs: Vec<Input> = broken
            .iter()
            .chain([&real, &real, &real])
            .map(|(words, counts)| crate::bmp::input(words, *counts, [1, 1, 1]))
            .collect();
        let last = inputs.len() - 1;
        inputs[last].codes = [1, 1, 8];
        inputs[last - 1].codes = [0, 1, self.random.below(8)];
        for input in inputs {
            self.say(asked("bmp", &input));
        }
        self.script("bmp - - - 1 1 1;bmp 0 - - 1 1 1;bmp - - - 1 x 1;bmp;bmps");
        let [f2, f5] = [0; 2].map(|_: u8| self.random.byte());
        let writes = format!("write F2 {f2:02X};write F5 {f5:02X}");
        self.script("fresh bmp;open D0;byte;write F2 01;close 8;close 6;close 6");
        self.script(&writes);
        self.script("copied;copied;wake;write F4 27");
        self.script(&writes);
        self.script("finish 1 2 3;copied;finish 1 2 65536;finish 1 2 65535;open F7;byte;byte");
        self.script("wake;copied;finish 3 4 5;byte;byte;byte;byte;close 7;close 6;ledger");
        self.script("open F7;byte;byte;byte;byte;byte;close 6;write E0 B6;open FC;byte;byte;byte");
        self.script("byte;byte;close 6;power;ledger;fresh bmp 4294967295;copied;write F4 25");
        self.script("write F2 01;fresh bmp x;fresh bmp 1 2;fresh bmps;ledger");
    }
}
