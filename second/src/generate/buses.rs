//! Byte sequences on I2C and SPI, valid and damaged.

use crate::bus::WRITABLE;
use crate::random::Random;
use crate::spelling::hex;

/// Picks a device address: one of the two for the most part.
/// The others lie beside them or are their doubles.
fn device(random: &mut Random) -> u8 {
    match random.percent(90) {
        true => random.pick(&[0x76, 0x77]),
        false => random.pick(&[0x75, 0x78, 0xEC, 0xEE, 0x00, 0xFF, 0xF6]),
    }
}

/// Makes flat pairs of register and value.
/// Their number is none, sixteen or seventeen now and then, and a register may be wrong.
fn pairs(random: &mut Random) -> Vec<u8> {
    let count = match random.below(20) {
        0 => 0,
        1 => 16,
        2 => 17,
        3 => random.between(5, 40),
        _ => random.between(1, 4),
    };
    let wrong = random.percent(12);
    let mut pairs = Vec::new();
    for _ in 0..count {
        pairs.push(random.pick(&WRITABLE));
        pairs.push(random.byte());
    }
    if wrong && !pairs.is_empty() {
        let place = random.below(pairs.len() as u64 / 2) as usize * 2;
        pairs[place] = random.pick(&[0xF3, 0xF6, 0xF7, 0xD0, 0x72, 0x74, 0x00, 0xFF]);
    }
    if random.percent(6) {
        pairs.push(random.byte());
    }
    pairs
}

/// Picks the length of a lent buffer for an output of so many bytes.
/// It is exact, longer, too short, none or the longest.
fn length(random: &mut Random, output: usize) -> usize {
    match random.below(10) {
        0..=3 => output,
        4..=6 => output + random.below(6) as usize,
        7 => output.saturating_sub(1 + random.below(3) as usize),
        8 => 0,
        _ => random.pick(&[255, 256, 8, 33]),
    }
}

/// Spells bytes in hex, in lower case now and then.
/// Either case is read.
fn either_case(random: &mut Random, bytes: &[u8]) -> String {
    match random.percent(15) {
        true => hex(bytes).to_lowercase(),
        false => hex(bytes),
    }
}

/// Damages a sequence in one place, or leaves it.
/// A byte is lost, added or changed.
fn damage(random: &mut Random, bytes: &mut Vec<u8>) {
    let place = random.below(bytes.len() as u64 + 1) as usize;
    match random.below(8) {
        0 => {
            bytes.pop();
        }
        1 => bytes.push(random.byte()),
        2 if place < bytes.len() => bytes[place] ^= 0x80,
        3 if place < bytes.len() => bytes[place] = random.byte(),
        4 => bytes.truncate(place),
        _ => {}
    }
}

/// Makes a line that writes pairs on either bus.
/// SPI has no device address.
fn write(random: &mut Random) -> String {
    let pairs = pairs(random);
    let text = either_case(random, &pairs);
    if random.percent(50) {
        let length = length(random, pairs.len() + 1);
        let address = device(random);
        let address = either_case(random, &[address]);
        return format!("i2c write {address} {text} {length}");
    }
    let length = length(random, pairs.len());
    format!("spi write {text} {length}")
}

/// Makes a line that decodes what was written on either bus.
/// Half of the sequences may be damaged.
fn decode(random: &mut Random) -> String {
    let mut bytes = pairs(random);
    let i2c = random.percent(50);
    let output = bytes.len();
    if i2c {
        let first = device(random).wrapping_mul(2);
        bytes.insert(0, first);
    } else {
        for register in bytes.iter_mut().step_by(2) {
            *register &= 0x7F;
        }
    }
    damage(random, &mut bytes);
    let bus = if i2c { "i2c" } else { "spi" };
    let length = length(random, output);
    let text = either_case(random, &bytes);
    format!("{bus} decode {text} {length}")
}

/// Makes a line that reads on either bus.
/// Registers below 0x80 are among them.
fn read(random: &mut Random) -> String {
    let register = match random.below(10) {
        0 => random.pick(&[0x00, 0x7F, 0x77]),
        1 => random.pick(&[0x80, 0xFF]),
        2..=4 => random.pick(&[0xF7, 0xF3, 0xD0, 0x88, 0xE1]),
        _ => random.byte() | 0x80,
    };
    let register = either_case(random, &[register]);
    if random.percent(50) {
        let length = length(random, 3);
        let address = device(random);
        let address = either_case(random, &[address]);
        return format!("i2c read {address} {register} {length}");
    }
    let length = length(random, 1);
    format!("spi read {register} {length}")
}

/// Makes a line for a bus.
/// Writing, decoding and reading all come.
pub fn line(random: &mut Random) -> String {
    match random.below(5) {
        0 | 1 => write(random),
        2 | 3 => decode(random),
        _ => read(random),
    }
}
