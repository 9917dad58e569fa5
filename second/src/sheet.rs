//! The bench sheet's exact results K1 to K14 as commands, and other figures after them.

use crate::calibration::{blocks, Words};
use crate::spelling::{cal, reading};

const K1_T: [i64; 3] = [27504, 26435, -1000];
const K2_P: [i64; 9] = [36477, -10685, 3024, 2855, 140, -7, 15500, -14600, 6000];
const K5_T: [i64; 3] = [0, 2048, 0];
const K5_H: [i64; 6] = [75, 362, 0, 0, 0, 0];
pub const K2_COUNTS: [u64; 3] = [519_888, 415_148, 0];

/// Gives the words of K1 and K2, with humidity's all 0.
/// They are the sample words of source document 003 too.
pub fn k2_words() -> Words {
    Words {
        t: K1_T,
        p: K2_P,
        h: [0; 6],
    }
}

/// Gives the words of K5, with pressure's all 0.
/// H3, H5 and H6 don't matter at its fine temperature of 76800.
pub fn k5_words() -> Words {
    Words {
        t: K5_T,
        p: [0; 9],
        h: K5_H,
    }
}

/// Gives words whose divisor is zero though P1 is not.
/// Count 0 makes the fine temperature -920576, and P3 then takes away just the 1 << 47.
pub fn zero_divisor_words() -> Words {
    Words {
        t: [31744, 29696, 0],
        p: [36477, 0, -32768, 0, 0, 0, 0, 0, 0],
        h: [0; 6],
    }
}

/// Lists K1 to K8: compensation and calibration bytes.
/// K8 is a block two with FF 1F 80 at 0xE4 to 0xE6.
fn readings() -> Vec<String> {
    let k2 = k2_words();
    let k5 = k5_words();
    let k3 = Words {
        t: [0, 1, 0],
        ..Words::default()
    };
    let mut k4 = k2;
    k4.p[0] = 0;
    let mut k7 = k5;
    k7.h[3] = 1;
    let (one, _) = blocks(&k5);
    vec![
        reading(&k2, K2_COUNTS, [1, 0, 0]),
        reading(&k2, K2_COUNTS, [1, 1, 0]),
        reading(&k3, [741_455, 0, 0], [1, 0, 0]),
        reading(&k3, [741_456, 0, 0], [1, 0, 0]),
        reading(&k4, K2_COUNTS, [1, 1, 0]),
        reading(&k5, [614_400, 0, 8192], [1, 0, 1]),
        reading(&k5, [614_400, 0, 32768], [1, 0, 1]),
        reading(&k7, [614_400, 0, 0], [1, 0, 1]),
        cal(&one, &[0x6A, 0x01, 0x00, 0xFF, 0x1F, 0x80, 0x00]),
    ]
}

/// Lists K9 to K11: waiting, the bus bytes of F4, and polling.
/// They are commands as the paper has them.
fn waits_and_buses() -> Vec<&'static str> {
    vec![
        "wait max 0 0 0",
        "wait max 1 1 1",
        "wait max 5 5 5",
        "i2c write 76 F427 3",
        "spi write F427 2",
        "poll 3 080900",
        "poll 2 080900",
    ]
}

/// Lists K12 or K13: a finish during a burst of so many bytes, its close and the ledger.
/// Eight bytes are K12, three are K13. Each beginning is followed by a copied event.
fn finish_during_burst(bytes: usize) -> Vec<&'static str> {
    let mut lines = vec![
        "fresh",
        "copied",
        "write F4 27",
        "copied",
        "finish 519888 415148 0",
        "wake",
        "copied",
        "open F7",
        "finish 519889 415149 1",
    ];
    lines.extend(vec!["byte"; bytes]);
    lines.extend(["close 8", "ledger"]);
    lines
}

/// Lists other figures of readings: the line without P7, limits of types, rounding.
/// Count 0x80000 in an enabled channel is a count like any other.
fn other_readings() -> Vec<String> {
    let k2 = k2_words();
    let k5 = k5_words();
    let mut without_p7 = k2;
    without_p7.p[6] = 0;
    let mut negative = k2;
    negative.p[6] = -32768;
    let mut above = k2;
    above.p[0] = 200;
    above.p[8] = 0;
    let mut overflowing = k2;
    overflowing.p[5] = 32767;
    let mut damp = k5;
    damp.h[1] = 1024;
    let (one, two) = blocks(&k2);
    vec![
        reading(&without_p7, K2_COUNTS, [1, 1, 0]),
        reading(&k2, [0x80000, 0x80000, 0x8000], [1, 1, 0]),
        reading(&k5, [614_400, 0, 0x8000], [1, 0, 1]),
        reading(&k2, [300_000, 415_148, 0], [1, 1, 0]),
        reading(&zero_divisor_words(), [0, 415_148, 0], [1, 1, 0]),
        reading(&negative, [519_888, 1_048_575, 0], [1, 1, 0]),
        reading(&above, K2_COUNTS, [1, 1, 0]),
        reading(&overflowing, [0, 415_148, 0], [1, 1, 0]),
        reading(&damp, [614_400, 0, 8192], [1, 0, 1]),
        reading(&k2, K2_COUNTS, [1, 8, 0]),
        cal(&one, &two),
        cal(&one[..25], &two),
    ]
}

/// Lists the makers' own figures for waiting and for the buses, and the reset values.
/// The example of 11.5 and 13.325 milliseconds is among them.
fn makers_figures() -> Vec<&'static str> {
    vec![
        "wait typ 1 3 0",
        "wait max 1 3 0",
        "wait typ 1 1 1",
        "wait typ 2 5 1",
        "i2c write 77 F201F427 5",
        "i2c read 76 F6 3",
        "i2c decode EEF427 2",
        "spi write F427F500 4",
        "spi read F7 1",
        "spi decode 7427 2",
        "fresh",
        "open D0",
        "byte",
        "close 8",
    ]
}

/// Lists the errors a bidder would fall into that take a walk to see.
/// F2 before F4 takes effect, a repeated burst, a held F4, a reset, number 8.
fn walks() -> Vec<&'static str> {
    let burst = ["open F7"]
        .into_iter()
        .chain(["byte"; 8])
        .chain(["close 8"]);
    let finish = ["copied", "finish 519888 415148 8192"];
    let mut lines = vec!["fresh", "copied", "write F4 25", "write F2 01"];
    lines.extend(finish);
    lines.extend(burst.clone());
    lines.extend(burst.clone());
    lines.extend(["ledger", "write F4 25", "write F4 49", "write F4 00"]);
    lines.extend(finish);
    lines.push("copied");
    lines.extend(burst.clone());
    lines.extend(["ledger", "write E0 B6", "ledger"]);
    lines.extend(burst);
    lines.extend(["fresh 4294967295", "copied", "write F4 25"]);
    lines.extend(["fresh 4294967294", "copied", "write F4 27"]);
    lines.extend(["copied", "finish 0 0 0", "wake", "ledger"]);
    lines.extend(["fresh 4294967294", "copied", "write F4 25"]);
    lines.extend(["write F4 25", "copied", "finish 0 0 0", "ledger", "fresh"]);
    lines
}

/// Lists all lines of the sheet, in a fixed order.
/// K1 to K14 come first, then the other figures.
pub fn lines() -> Vec<String> {
    let mut lines = readings();
    let plain = [
        waits_and_buses(),
        finish_during_burst(8),
        finish_during_burst(3),
    ];
    lines.extend(plain.concat().into_iter().map(String::from));
    lines.push(reading(&k2_words(), K2_COUNTS, [0, 1, 0]));
    lines.extend(other_readings());
    let plain = [makers_figures(), walks()];
    lines.extend(plain.concat().into_iter().map(String::from));
    lines
}
