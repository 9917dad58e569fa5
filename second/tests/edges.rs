//! The fixed lines that stand exactly on an edge: what each is an edge of.

mod common;

use common::check;
use second::edges::{self, Edge};
use second::spelling::reading;

/// The constants of humidity's formula: 16384, 8192, 32768 and 2097152.
/// A program that has one of them wrong is worked out beside the right one.
const CONSTANTS: [i128; 4] = [16_384, 8_192, 32_768, 2_097_152];

/// Spells the reading of an edge, every channel enabled.
/// This is how the sheet has it.
fn line(edge: &Edge) -> String {
    reading(&edge.words, edge.counts, [1, 1, 1])
}

/// Holds each edge to the answer beside it.
/// The answers were worked out apart from the second program.
fn answers(edges: &[Edge], expected: &[&str]) {
    assert_eq!(edges.len(), expected.len());
    for (edge, answer) in edges.iter().zip(expected) {
        check(&format!("{} => {answer}", line(edge)));
    }
}

/// Pressure's last line is exactly -1, 0, 4,294,967,295 and 4,294,967,296.
/// Outside of 32 bits it is refused with 14.
#[test]
fn pressures() {
    answers(
        &edges::pressures(),
        &[
            "0 t=2508 fine=128422 p!14 h=0",
            "0 t=2508 fine=128422 p=0 h=0",
            "0 t=2508 fine=128422 p=4294967295 h=0",
            "0 t=2508 fine=128422 p!14 h=0",
        ],
    );
}

/// Temperature's first product is exactly 2^31, 2^31 - 2^16 and -2^31.
/// The words are multiplied here by hand.
#[test]
fn products() {
    let edges = edges::products();
    let product = |edge: &Edge| {
        let [t1, t2, _] = edge.words.t;
        ((edge.counts[0] as i64 >> 3) - 2 * t1) * t2
    };
    let limit = 1_i64 << 31;
    let expected = [limit, limit - (1 << 16), -limit];
    assert_eq!(edges.map(|edge| product(&edge)), expected);
    answers(
        &edges,
        &[
            "0 t!12 p!11 h!11",
            "0 t=20479 fine=1048544 p!13 h=0",
            "0 t=-20480 fine=-1048576 p!13 h=0",
        ],
    );
}

/// A constant of 127 would give 2 in place of the first 3, one of 129 would give 4 in place of the second.
/// Fine temperatures of 128 and 179 stand on the two sides.
#[test]
fn rounded_temperatures() {
    answers(
        &edges::rounded_temperatures(),
        &["0 t=3 fine=128 p!13 h=0", "0 t=3 fine=179 p!13 h=0"],
    );
    assert_eq!((128 * 5 + 127) >> 8, 2);
    assert_eq!((179 * 5 + 129) >> 8, 4);
}

/// Gives the fine temperature of an edge whose T1 and T3 are 0.
/// It is temperature's first product, shifted.
fn fine(edge: &Edge) -> i128 {
    (i128::from(edge.counts[0] >> 3) * i128::from(edge.words.t[1])) >> 11
}

/// Works humidity out in 128 bits with the given constants, whatever its steps.
/// The second part is the step that adds 16384, or the one before it where that is lower.
fn plain_humidity(edge: &Edge, constants: [i128; 4]) -> (i128, i128) {
    let [h1, h2, h3, h4, h5, h6] = edge.words.h.map(i128::from);
    let [half_left, half_right, one, two] = constants;
    let v = fine(edge) - 76_800;
    let left = (i128::from(edge.counts[2]) << 14) - (h4 << 20) - h5 * v + half_left;
    let unrounded = left - half_left;
    let extreme = if left > 0 { left } else { unrounded };
    let right = ((v * h6) >> 10) * (((v * h3) >> 11) + one);
    let right = (((right >> 10) + two) * h2 + half_right) >> 14;
    let v = (left >> 15) * right;
    let v = v - (((((v >> 15) * (v >> 15)) >> 7) * h1) >> 4);
    (v.clamp(0, 419_430_400) >> 12, extreme)
}

/// A step of humidity is exactly 2^31 - 1, 2^31, -2^31 and -2^31 - 1.
/// Only those outside of 32 bits are refused.
#[test]
fn humid_steps() {
    let edges = edges::humid_steps();
    let limit = 1_i128 << 31;
    assert_eq!(
        edges.map(|edge| plain_humidity(&edge, CONSTANTS).1),
        [limit - 1, limit, -limit, -limit - 1]
    );
    answers(
        &edges,
        &[
            "0 t=1500 fine=76801 p!13 h=2047",
            "0 t=1500 fine=76801 p!13 h!12",
            "0 t=2780 fine=142336 p!13 h=0",
            "0 t=2705 fine=138481 p!13 h!12",
        ],
    );
}

/// Each of humidity's four constants has a reading that one less would change, and one that one more would.
/// With the right constants the answer is the second program's.
#[test]
fn rounded_humidities() {
    for (place, edge) in edges::rounded_humidities().iter().enumerate() {
        let right = plain_humidity(edge, CONSTANTS).0;
        let mut constants = CONSTANTS;
        constants[place / 2] += if place % 2 == 0 { -1 } else { 1 };
        assert_ne!(plain_humidity(edge, constants).0, right, "edge {place}");
        let fine = fine(edge);
        let value = (fine * 5 + 128) >> 8;
        check(&format!(
            "{} => 0 t={value} fine={fine} p!13 h={right}",
            line(edge)
        ));
    }
}

/// The product with P1 is exactly 2^63 - 1, 2^63 and 2^63 - 2^48.
/// It is worked out here in 128 bits.
#[test]
fn divisors() {
    let edges = edges::divisors();
    let product = |edge: &Edge| {
        let [t1, t2, _] = edge.words.t.map(i128::from);
        let [p1, p2, p3, ..] = edge.words.p.map(i128::from);
        let fine = ((i128::from(edge.counts[0] >> 3) - 2 * t1) * t2) >> 11;
        let v = fine - 128_000;
        ((1 << 47) + ((v * v * p3) >> 8) + ((v * p2) << 12)) * p1
    };
    let limit = 1_i128 << 63;
    let expected = [limit - 1, limit, limit - (1 << 48)];
    assert_eq!(edges.map(|edge| product(&edge)), expected);
    answers(
        &edges,
        &[
            "0 t=17109 fine=875966 p=15464550 h=0",
            "0 t=-17980 fine=-920576 p!12 h=0",
            "0 t=-17980 fine=-920576 p=15465022 h=0",
        ],
    );
}

/// The edges end in the fresh state, and one of them alone is no command: `fresh 1 2`.
/// The wake that begins the last conversion is done, the next is refused with 8.
#[test]
fn walks() {
    let lines = edges::lines();
    assert_eq!(lines.last().map(String::as_str), Some("fresh"));
    check(
        "open 80 => 0
         byte => 0 00
         close 8 => 0 partial n=0 codes=0,0,0 before=0 buf=AAAAAAAAAAAAAAAA
         open 7F => 4
         open FF => 0
         byte => 0 00
         byte => 4
         close 8 => 0 partial n=0 codes=0,0,0 before=0 buf=AAAAAAAAAAAAAAAA
         fresh 4294967293 => 0
         copied => 0
         write F4 27 => 0
         copied => 0
         finish 519888 415148 0 => 0
         wake => 0
         ledger => begun=4294967295 delivered=4294967293 overwritten=0 abandoned=0 standing=2 running=1 waiting=0 shown=1
         copied => 0
         finish 519888 415148 0 => 0
         wake => 8
         fresh 1 2 => ? wrong number of words",
    );
}
