//! Single events of the machine, each as a line of its own.

use crate::random::Random;

const COUNTS_BEYOND: [u64; 5] = [65_536, 1_048_576, 1_048_577, 16_777_216, 4_294_967_295];

/// Makes a value for F4, with modes 1 to 3 in most.
/// Each channel is skipped now and then.
pub fn f4_value(random: &mut Random) -> u8 {
    let mode = match random.below(10) {
        0 => 0,
        1..=3 => 1,
        4 | 5 => 2,
        _ => 3,
    };
    let codes = [0; 2].map(|_: u8| match random.percent(15) {
        true => 0,
        false => random.between(1, 7) as u8,
    });
    (codes[0] << 5) | (codes[1] << 2) | mode
}

/// Makes a line that writes F4.
/// It begins a conversion for the most part, or is held.
pub fn write_f4(random: &mut Random) -> String {
    format!("write F4 {:02X}", f4_value(random))
}

/// Makes a line that writes F2 or F5.
/// All bits may be set, those that are dropped too.
pub fn write_settings(random: &mut Random) -> String {
    let register = random.pick(&["F2", "F2", "F5"]);
    format!("write {register} {:02X}", random.byte())
}

/// Makes a line that writes the reset register.
/// The right value comes most often.
pub fn write_reset(random: &mut Random) -> String {
    match random.percent(75) {
        true => String::from("write E0 B6"),
        false => format!("write E0 {:02X}", random.byte()),
    }
}

/// Makes a line that finishes a conversion.
/// Counts lie within their bits, but for a few.
pub fn finish(random: &mut Random) -> String {
    let mut counts = [
        random.below(1 << 20),
        random.below(1 << 20),
        random.below(1 << 16),
    ];
    if random.percent(10) {
        counts = random.pick(&[
            [0, 0, 0],
            [0xFFFFF, 0xFFFFF, 0xFFFF],
            [0x80000, 0x80000, 0x8000],
        ]);
    }
    if random.percent(3) {
        let place = random.below(3) as usize;
        counts[place] = random.pick(&COUNTS_BEYOND);
    }
    let [t, p, h] = counts;
    format!("finish {t} {p} {h}")
}

/// Makes a line that finishes a BMP280's conversion.
/// The third count, which isn't used, is often at an edge of its bits or beyond them.
pub fn finish_bmp(random: &mut Random) -> String {
    let line = finish(random);
    match line.rsplit_once(' ') {
        Some((start, _)) if random.percent(12) => {
            let third = random.pick(&[0, 0x8000, 65_535, 65_536, 4_294_967_295_u64]);
            format!("{start} {third}")
        }
        _ => line,
    }
}

/// Makes a line that wakes the device.
/// There is one such line only.
pub fn wake(_: &mut Random) -> String {
    String::from("wake")
}

/// Picks an address at which to open a burst: 0xF7 for the most part.
/// Lower ones can be whole too, higher ones cannot, and those below 0x80 are refused.
pub fn open_address(random: &mut Random) -> u8 {
    match random.below(100) {
        0..=69 => 0xF7,
        70..=81 => random.between(0xF0, 0xF6) as u8,
        82..=87 => random.between(0xF8, 0xFF) as u8,
        88..=91 => 0xD0,
        92..=94 => random.pick(&[0x88, 0xE0, 0xE1, 0xCF]),
        95..=97 => random.byte() | 0x80,
        _ => random.byte() & 0x7F,
    }
}

/// Makes a line that closes a burst.
/// A few have a buffer of a wrong length.
pub fn close(random: &mut Random) -> String {
    match random.percent(94) {
        true => String::from("close 8"),
        false => format!("close {}", random.pick(&[0, 1, 7, 9, 16, 256])),
    }
}

/// Makes a line that closes a BMP280's burst.
/// A few have a buffer of a wrong length, the BME280's eight among them.
pub fn close_bmp(random: &mut Random) -> String {
    match random.percent(75) {
        true => String::from("close 6"),
        false => format!("close {}", random.pick(&[0, 5, 7, 8, 8, 256])),
    }
}

/// Makes any event at all, whether it fits the phase or not.
/// Registers that can't be written are among them.
pub fn any(random: &mut Random) -> String {
    match random.below(12) {
        0 => String::from("copied"),
        1 => wake(random),
        2 => String::from("power"),
        3 => String::from("byte"),
        4 => finish(random),
        5 => write_f4(random),
        6 => write_settings(random),
        7 => write_reset(random),
        8 => format!("open {:02X}", open_address(random)),
        9 => close(random),
        10 => format!("write {:02X} {:02X}", random.byte(), random.byte()),
        _ => String::from("ledger"),
    }
}
