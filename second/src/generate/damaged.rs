//! Lines that are none of the commands, for each reason, and lines that just still are.

use super::{buses, days, events, readings, rooms, times, visits};
use crate::random::Random;

const UNKNOWN: [&str; 20] = [
    "POWER",
    "Byte",
    "comp2",
    "Point - - - 1 1 1",
    "points - - - 1 1 1",
    "cell - - - 1 1 1",
    "rooms2",
    "visits read - 9",
    "Visit write 9",
    "Day - - - 0",
    "days - - - 0",
    "calibrate",
    "reset",
    "?",
    "-",
    "0",
    "F4",
    "i2cread",
    "\tpower",
    "wäke",
];
const UNKNOWN_SECOND: [&str; 13] = [
    "wait min 1 1 1",
    "wait  max 1 1 1",
    "wait 1 1 1",
    "i2c send 76 F427 3",
    "i2c READ 76 F7 3",
    "spi",
    "spi reed F7 1",
    "i2c ",
    "visit",
    "visit ",
    "visit write",
    "visit show 010000 9",
    "visit  read 010000 9",
];
const NO_NUMBERS: [&str; 41] = [
    "wait max -1 0 0",
    "wait typ 1 +1 1",
    "wait max 1 1 1.0",
    "wait max 0x1 1 1",
    "wait max 1 1 4294967296",
    "poll 99999999999999999999999999 00",
    "poll  00",
    "poll 1 0G",
    "poll 1 0g0",
    "poll 1 --",
    "fresh x",
    "fresh ",
    "fresh 4294967296",
    "write F 27",
    "write F4 027",
    "write G4 27",
    "open F7\r",
    "open 0xF7",
    "close eight",
    "finish 1 2 3\r",
    "i2c write 076 F427 3",
    "spi read -7 1",
    "point - - 0G 1 1 1",
    "point - - - 1 -1 1",
    "cells - - - 1 1 4294967296",
    "cells -- - - 1 1 1",
    "rooms - - - 1 1 1 - - - 1 1 1 4294967296 0 0",
    "rooms - - - 1 1 1 - - - 1 1 1 0 0 -1",
    "rooms - - - 1 1 1 - - - 1 1 1 0 0.5 0",
    "rooms - - - 1 1 x - - 0 1 1 1 0 0 0",
    "visit read 01000G 9",
    "visit read - -1",
    "visit write ( 7:1:2:3 )",
    "visit write 9 ( 7:1:2:3 ) ",
    "visit write 9 ( 7:1:2:!x )",
    "visit write 31 ( 7:1:2:4294967296 )",
    "day - - 0G 0",
    "day - -- - 0",
    "day - - - -1",
    "day - - - ",
    "day - - 0000000000000000010101 4294967296",
];
const ODD: [&str; 14] = [
    "poll 1 0",
    "poll 1 08090",
    "i2c write 76 F42 3",
    "i2c decode ECF42 2",
    "spi write F 2",
    "cal 0 -",
    "point - 0 - 1 1 1",
    "cells 123 - - 1 1 1",
    "rooms - - 0 1 1 1 - - - 1 1 1 0 0 x",
    "rooms - - - 1 1 1 - - 655 1 1 1 0 0 0",
    "visit read 01000 257",
    "day 0 - - x",
    "day - 123 - 0",
    "day - - 000000000000000001010 257",
];
const JUNK: &str = " -.,:;?!0189aFgGxX_\t\r\"'/éß−";

/// Makes a line that is valid for the most part.
/// It is of any subject.
fn valid(random: &mut Random) -> String {
    match random.below(8) {
        0 => readings::reading(random),
        1 => times::wait(random),
        2 => times::poll(random),
        3 => buses::line(random),
        4 => rooms::line(random),
        5 => visits::line(random),
        6 => days::line(random),
        _ => events::any(random),
    }
}

/// Changes one character of a line: lost, doubled, or junk in its place or before it.
/// What comes of it may be a command still.
pub fn touched(random: &mut Random, line: String) -> String {
    let characters: Vec<char> = line.chars().collect();
    let junk: Vec<char> = JUNK.chars().collect();
    let place = random.below(characters.len() as u64) as usize;
    let (before, rest) = characters.split_at(place);
    let (this, after) = rest.split_at(1);
    let other = [random.pick(&junk)];
    let parts = match random.below(4) {
        0 => [before, after, &[]],
        1 => [before, this, rest],
        2 => [before, &other, after],
        _ => [before, &other, rest],
    };
    parts.concat().into_iter().collect()
}

/// Makes a line with a word too few or too many.
/// A space too many makes an empty word.
pub fn miscounted(random: &mut Random, line: String) -> String {
    match random.below(5) {
        0 => line
            .rsplit_once(' ')
            .map_or("wait", |(most, _)| most)
            .into(),
        1 => format!("{line} 0"),
        2 => format!("{line} "),
        3 => format!(" {line}"),
        _ => line.replacen(' ', "  ", 1),
    }
}

/// Makes a line that is too long, or one byte short of it.
/// Leading zeros and many status bytes make long lines that are commands.
fn long(random: &mut Random) -> String {
    let length = random.pick(&[4_095, 4_096, 4_097, 5_000]);
    let (start, filling, end) = random.pick(&[
        ("wait max ", "0", "1 1 1"),
        ("poll 5 ", "09", ""),
        ("poll ", "0", "3 0900"),
        ("", "x", ""),
        ("", " ", ""),
        ("cal ", "00", " 00"),
        ("point - ", "00", " - 1 1 1"),
        ("cells - - - 1 1 ", "0", "1"),
        ("rooms - - - 1 1 1 - - - 1 1 1 0 0 ", "0", "4294967295"),
        ("rooms - - - 1 1 1 - - ", "00", " 1 1 1 0 0 0"),
        ("visit read 010000", "01", " 256"),
        ("visit write 256 ( 7:-", "0", "5:1:!10 )"),
        ("visit write 31", " (", ""),
        ("day - - ", "00", " 185"),
        ("day - - - ", "0", "0"),
    ]);
    filled(length, start, filling, end)
}

/// Makes a line of so many bytes, or one less, by repeating the middle.
/// The start and the end stand once.
pub fn filled(length: usize, start: &str, filling: &str, end: &str) -> String {
    let room = length - start.len() - end.len();
    let middle = filling.repeat(room / filling.len());
    format!("{start}{middle}{end}")
}

/// Makes a line whose lent buffer is too long.
/// 256 is the longest allowed.
fn long_buffer(random: &mut Random) -> String {
    let start = random.pick(&[
        "close",
        "i2c read 76 F7",
        "spi write F427",
        "spi decode -",
        "visit read 01",
        "visit write",
        "day - - -",
    ]);
    let length = random.pick(&[256_u64, 257, 1_000, 4_294_967_295]);
    format!("{start} {length}")
}

/// Makes one damaged line.
/// An empty line, which is passed over, is among them.
pub fn line(random: &mut Random) -> String {
    match random.below(100) {
        0..=9 => random.pick(&UNKNOWN).into(),
        10..=19 => random.pick(&UNKNOWN_SECOND).into(),
        20..=34 => random.pick(&NO_NUMBERS).into(),
        35..=42 => random.pick(&ODD).into(),
        43..=57 => {
            let line = valid(random);
            miscounted(random, line)
        }
        58..=89 => {
            let line = valid(random);
            touched(random, line)
        }
        90..=95 => long_buffer(random),
        96..=97 => long(random),
        _ => String::new(),
    }
}
