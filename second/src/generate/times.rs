//! Waiting times and pollings.

use crate::random::Random;
use crate::spelling::hex;

const CODES_BEYOND: [u64; 6] = [8, 9, 15, 255, 256, 4_294_967_295];
const STATUS: [u8; 10] = [0x08, 0x09, 0x01, 0x00, 0xF6, 0xFF, 0x0C, 0x06, 0x09, 0x08];

/// Makes a line that asks for a waiting time.
/// Codes go from 0 to 7, and beyond in some lines.
pub fn wait(random: &mut Random) -> String {
    let kind = random.pick(&["max", "typ"]);
    let mut codes = [0; 3].map(|_: u64| random.below(8));
    if random.percent(12) {
        codes[random.below(3) as usize] = random.pick(&CODES_BEYOND);
    }
    let [t, p, h] = codes;
    format!("wait {kind} {t} {p} {h}")
}

/// Makes a line that polls a few status bytes.
/// The allowance lies around their number, or far beyond, or at 0.
pub fn poll(random: &mut Random) -> String {
    let length = match random.below(20) {
        0 => 0,
        1 => 200 + random.below(100),
        _ => 1 + random.below(9),
    };
    let busy = random.percent(40);
    let status: Vec<u8> = (0..length)
        .map(|_| match busy {
            true => random.byte() | random.pick(&[0x01, 0x08]),
            false => random.pick(&STATUS),
        })
        .collect();
    let allowance = match random.below(10) {
        0 => 0,
        1 => 4_294_967_295,
        _ => random.below(length + 3),
    };
    format!("poll {allowance} {}", hex(&status))
}
