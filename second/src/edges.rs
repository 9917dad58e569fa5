//! Readings and walks that stand exactly on an edge, found by search and kept as fixed lines.

use crate::calibration::Words;
use crate::compensation::Input;
use crate::sheet::k2_words;
use crate::spelling::{asked, input};

/// A reading that stands on an edge: its words, and the counts of temperature, pressure and humidity.
/// Every channel is enabled.
#[derive(Clone, Copy, Debug)]
pub struct Edge {
    pub words: Words,
    pub counts: [u64; 3],
}

impl Edge {
    /// Makes the reading that stands on the edge.
    /// Every channel has code 1.
    pub fn input(&self) -> Input {
        input(&self.words, self.counts, [1, 1, 1])
    }
}

/// Makes an edge of pressure out of K1's temperature and K2's words, with four words changed.
/// P1 makes the pressure large or small, P7 brings the last line to the edge.
pub fn pressed(p1: i64, p7: i64, p8: i64, p9: i64, count: u64) -> Edge {
    let mut words = k2_words();
    words.p[0] = p1;
    words.p[6] = p7;
    words.p[7] = p8;
    words.p[8] = p9;
    Edge {
        words,
        counts: [519_888, count, 0],
    }
}

/// Lists pressures whose last line is exactly -1, 0, 4,294,967,295 and 4,294,967,296.
/// The first and the last are refused with 14.
pub fn pressures() -> [Edge; 4] {
    [
        pressed(36_477, 32_761, -14_600, 6_000, 1_015_188),
        pressed(36_477, 32_580, -14_600, 6_000, 1_015_120),
        pressed(100, -13_166, 0, 0, 734_479),
        pressed(100, -29_168, 0, 0, 734_463),
    ]
}

/// Makes an edge of temperature alone.
/// Pressure's divisor is zero, and humidity is 0.
pub fn warmed(t: [i64; 3], count: u64) -> Edge {
    Edge {
        words: Words {
            t,
            ..Words::default()
        },
        counts: [count, 0, 0],
    }
}

/// Lists temperatures whose first product is exactly 2^31, 2^31 - 2^16 and -2^31.
/// Only the first leaves its type; no later step of it would.
pub fn products() -> [Edge; 3] {
    [
        warmed([32_768, -32_768, 0], 0),
        warmed([32_767, -32_768, 0], 0),
        warmed([0, -32_768, 0], 524_288),
    ]
}

/// Lists temperatures that a 128 of one less, and of one more, would change.
/// Their fine temperatures are 128 and 179.
pub fn rounded_temperatures() -> [Edge; 2] {
    [
        warmed([0, 2048, 0], 128 << 3),
        warmed([0, 2048, 0], 179 << 3),
    ]
}

/// Makes an edge of humidity at the fine temperature (eighth * t2) >> 11.
/// The eighth is that of temperature's count; T1 and T3 are 0.
pub fn damped(t2: i64, eighth: u64, h: [i64; 6], count: u64) -> Edge {
    Edge {
        words: Words {
            t: [0, t2, 0],
            h,
            ..Words::default()
        },
        counts: [eighth << 3, 0, count],
    }
}

/// Lists humidities with a step of exactly 2^31 - 1, 2^31, -2^31 and -2^31 - 1.
/// The second and the fourth leave the type by that step alone.
pub fn humid_steps() -> [Edge; 4] {
    [
        damped(2048, 76_801, [0, 1, 0, -1024, 1, 0], 65_535),
        damped(2048, 76_801, [0, 1, 0, -1024, 0, 0], 65_535),
        damped(3146, 92_659, [0, 1, 0, 2047, 16, 0], 0),
        damped(3061, 92_653, [0, 1, 0, 2047, 17, 0], 0),
    ]
}

/// Lists humidities that a constant of one less or one more would change.
/// They come as 16384, 8192, 32768 and 2097152, for each the one less first.
pub fn rounded_humidities() -> [Edge; 8] {
    [
        damped(2510, 92_677, [75, 384, 2, 256, 0, 27], 21_401),
        damped(2864, 92_670, [75, 384, 2, 266, 9, 38], 32_344),
        damped(2048, 72_715, [0, 334, 1, 320, 40, 32], 30_555),
        damped(2344, 92_644, [75, 359, 1, 337, 47, 24], 38_350),
        damped(2048, 46_787, [75, 366, 0, 363, 51, 40], 38_003),
        damped(2048, 40_040, [0, 382, 1, 353, 29, 26], 28_729),
        damped(2048, 73_090, [75, 389, 3, 368, 25, 28], 33_260),
        damped(2107, 92_652, [0, 399, 1, 262, 40, 23], 23_572),
    ]
}

/// Lists pressures whose product with P1 is exactly 2^63 - 1, 2^63 and 2^63 - 2^48.
/// Only the second leaves its type, and by that step alone.
pub fn divisors() -> [Edge; 3] {
    let cold = |p1| Edge {
        words: Words {
            t: [31_744, 29_696, 0],
            p: [p1, -32_768, 0, 0, 0, 0, 0, 0, 0],
            ..Words::default()
        },
        counts: [0, 415_148, 0],
    };
    let hot = Edge {
        words: Words {
            t: [0, 19_359, 0],
            p: [42_799, 13_430, 15_385, 0, 0, 0, 0, 0, 0],
            ..Words::default()
        },
        counts: [92_669 << 3, 415_148, 0],
    };
    [hot, cold(32_768), cold(32_767)]
}

/// Lists walks to an edge: the lowest address of a burst, and the last conversion begun by a wake.
/// After the last one no wake and no write begins another. `fresh` takes one word at most.
fn walks() -> Vec<&'static str> {
    let mut lines = vec!["fresh", "open 80", "byte", "close 8", "open 7F", "open FF"];
    lines.extend(["byte", "byte", "close 8", "fresh 4294967293", "copied"]);
    let finish = ["copied", "finish 519888 415148 0", "wake", "ledger"];
    lines.push("write F4 27");
    lines.extend(finish);
    lines.extend(finish);
    lines.push("write F4 00");
    lines.extend(["write F4 27", "write F4 25", "ledger", "fresh 1 2", "fresh"]);
    lines
}

/// Lists every reading that stands on an edge, in a fixed order.
/// The walks come after them.
pub fn readings() -> Vec<Edge> {
    pressures()
        .into_iter()
        .chain(products())
        .chain(rounded_temperatures())
        .chain(humid_steps())
        .chain(rounded_humidities())
        .chain(divisors())
        .collect()
}

/// Lists every edge as lines, in a fixed order.
/// They end in the fresh state.
pub fn lines() -> Vec<String> {
    let edges = readings();
    edges
        .iter()
        .map(|edge| asked("comp", &edge.input()))
        .chain(walks().into_iter().map(String::from))
        .collect()
}
