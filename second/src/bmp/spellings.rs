//! Lines of a BMP280 as they may be spelled, read and not read.

use super::input;
use crate::sheet::{k2_words, K2_COUNTS};
use crate::spelling::{asked, hex};
use crate::words::LONGEST_LINE;

/// Fresh states that are read, each with the chip's id and the ledger after it.
/// Zeros may stand in front of the number.
const READ: [&str; 7] = [
    "fresh bmp",
    "fresh bmp 0",
    "fresh bmp 0012",
    "fresh bmp 4294967295",
    "fresh bmp 00000000000000000000000000004294967295",
    "fresh 0012",
    "fresh",
];

/// Fresh states that are not read. The kind's word is known in lower case alone, right after the first space.
/// What stands there instead is a number that is none.
const NOT_READ: [&str; 30] = [
    "fresh bmp ",
    "fresh bmp x",
    "fresh bmp -1",
    "fresh bmp +1",
    "fresh bmp 1.0",
    "fresh bmp 0x1",
    "fresh bmp 1\r",
    "fresh bmp 4294967296",
    "fresh bmp 99999999999999999999999999",
    "fresh bmp bmp",
    "fresh bmp\r",
    "fresh bmp\t1",
    "fresh BMP",
    "fresh Bmp",
    "fresh bm",
    "fresh bmpp",
    "fresh bmp280",
    "fresh bme",
    "fresh -",
    "fresh bmp 1 2",
    "fresh bmp x y",
    "fresh bmp  1",
    "fresh bmp 1 ",
    "fresh  bmp",
    "fresh bme 1",
    "fresh BMP 1",
    "fresh 1 bmp",
    "Fresh bmp",
    "freshbmp",
    " fresh bmp",
];

/// Lists fresh states, and what is left behind by those that are not read.
/// A BMP280 stays one, and so does a BME280.
fn fresh_states() -> Vec<String> {
    let id = ["open D0", "byte", "close 6", "power", "ledger"];
    let mut lines = Vec::new();
    for line in READ {
        lines.push(line);
        lines.extend(id);
    }
    for line in ["fresh bmp 5", "fresh 6"] {
        lines.push(line);
        lines.extend(NOT_READ);
        lines.extend(id);
    }
    lines.into_iter().map(String::from).collect()
}

/// Lists spellings of a reading, read and not read.
/// The words are looked at from left to right.
fn readings() -> Vec<String> {
    let right = input(&k2_words(), K2_COUNTS, [1, 1, 1]);
    let [one, data] = [hex(&right.one), hex(&right.data)];
    let good = asked("bmp", &right);
    let mut lines = vec![
        good.to_lowercase(),
        format!("bmp {one} - {} 001 01 0000000001", data.to_lowercase()),
        format!("{good} "),
        format!("{good} 1"),
        format!("{good}\r"),
        format!(" {good}"),
        good.replacen(' ', "  ", 1),
        good.replace("bmp", "BMP"),
        good.replace("bmp", "Bmp"),
        good.replace("bmp", "bmps"),
        good.replace("bmp", "bmp280"),
        good.replace("bmp", "bme"),
        good.replace("bmp", "comp bmp"),
    ];
    let words = ["bmp", one.as_str(), "-", &data, "1", "1", "1"];
    for count in 1..7 {
        lines.push(words[..count].join(" "));
    }
    for place in 1..4 {
        for other in ["", "0", "-0", "--", "0x", "G", "0G0", "123"] {
            let mut changed = words;
            changed[place] = other;
            changed[6] = "x";
            lines.push(changed.join(" "));
        }
    }
    for place in 4..7 {
        for other in ["", "x", "-1", "+1", "1.0", "0x1", "4294967296", "-"] {
            let mut changed = words;
            changed[place] = other;
            lines.push(changed.join(" "));
        }
    }
    lines
}

/// Lists lines of 4,096 bytes and one more, filled up with zeros.
/// The shorter ones are read.
fn longest() -> Vec<String> {
    let good = asked("bmp", &input(&k2_words(), K2_COUNTS, [1, 1, 1]));
    let mut lines = Vec::new();
    for start in ["fresh bmp ", &good[..good.len() - 1]] {
        for length in [LONGEST_LINE, LONGEST_LINE + 1] {
            let zeros = "0".repeat(length - start.len() - 1);
            lines.push(format!("{start}{zeros}7"));
            lines.push(String::from("ledger"));
        }
    }
    lines
}

/// Lists bus lines and waits of a BMP280's bench.
/// They know no kind: F2 is written and read there, and humidity has its time.
fn others() -> Vec<String> {
    let lines = "fresh bmp;i2c write 76 F201 3;i2c decode EEF2FF 2;i2c read 76 F2 3;i2c read 77 FE 3;\
        spi write F207F427 4;spi decode 7201 2;spi read FD 1;wait max 1 1 1;wait typ 1 1 0;poll 3 080900;ledger";
    lines.split(';').map(String::from).collect()
}

/// Lists all of these as lines, in a fixed order.
/// They end in a BMP280's state.
pub fn lines() -> Vec<String> {
    [fresh_states(), readings(), longest(), others()].concat()
}
