//! Waiting, polling and compensation: limits, lengths, and chips with all words set.

mod common;

use common::check;
use second::calibration::Words;
use second::sheet::zero_divisor_words;
use second::spelling::reading;

/// Waiting: codes 0 to 4 mean 0, 1, 2, 4, 8 samples, 5 to 7 mean 16.
/// A channel without samples adds nothing.
#[test]
fn waiting() {
    check(
        "wait max 2 0 0 => 0 5850
         wait max 0 3 0 => 0 11025
         wait max 0 0 4 => 0 20225
         wait max 7 6 5 => 0 112800
         wait typ 0 0 0 => 0 1000
         wait typ 5 5 5 => 0 98000
         wait typ 0 1 0 => 0 3500
         wait typ 0 0 8 => 7",
    );
}

/// Pressure's numbers: a zero divisor with P1 not 0, negative, above 32 bits, out of 64.
/// Humidity leaves its type at an H2 of 1024 there.
#[test]
fn limits_of_compensation() {
    let k2 = Words {
        t: [27504, 26435, -1000],
        p: [36477, -10685, 3024, 2855, 140, -7, 15500, -14600, 6000],
        h: [0; 6],
    };
    let counts = [519_888, 415_148, 0];
    let with = |place: usize, word: i64| {
        let mut words = k2;
        words.p[place] = word;
        words
    };
    let mut above = with(0, 200);
    above.p[8] = 0;
    let damp = |h2: i64| Words {
        t: [0, 2048, 0],
        p: [0; 9],
        h: [75, h2, 0, 0, 0, 0],
    };
    check(&format!(
        "{} => 0 t=-17980 fine=-920576 p!13 h!10
         {} => 0 t=2508 fine=128422 p!14 h!10
         {} => 0 t=2508 fine=128422 p!14 h!10
         {} => 0 t=-14088 fine=-721301 p!12 h!10
         {} => 0 t=1500 fine=76800 p!10 h!12
         {} => 7
         {} => 7",
        reading(&zero_divisor_words(), [0, 415_148, 0], [1, 1, 0]),
        reading(&with(6, -32_768), [519_888, 1_048_575, 0], [1, 1, 0]),
        reading(&above, counts, [1, 1, 0]),
        reading(&with(5, 32_767), [0, 415_148, 0], [1, 1, 0]),
        reading(&damp(1024), [614_400, 0, 8192], [1, 0, 1]),
        reading(&k2, counts, [8, 0, 0]),
        reading(&k2, counts, [0, 0, 4_294_967_295]),
    ));
}

/// Calibration blocks of a wrong length give 2, before the codes give 7.
/// So do data of a wrong length.
#[test]
fn lengths() {
    let one = "00".repeat(26);
    let two = "00".repeat(7);
    let data = "00".repeat(8);
    check(&format!(
        "cal {one} 00 => 2
         cal 00 {two} => 2
         cal {one}00 {two} => 2
         cal - - => 2
         comp {one} {two} {data}00 9 0 0 => 2
         comp {one} {two} - 0 0 0 => 2
         comp {one} - {data} 0 0 0 => 2
         comp - {two} {data} 0 0 0 => 2
         comp {one} {two} {data} 0 0 8 => 7
         comp {one} {two} {data} 0 0 0 => 0 t!10 p!10 h!10"
    ));
}

/// Polling looks at bits 3 and 0 alone.
/// It stops at the bytes' end or at the allowance, whichever comes first.
#[test]
fn polling() {
    check(
        "poll 9 010800 => 0 place=2 polls=3
         poll 3 0901 => 17 polls=2
         poll 1 09F6 => 17 polls=1
         poll 2 09F6 => 0 place=1 polls=2
         poll 7 00 => 0 place=0 polls=1",
    );
}

/// Readings of chips with every word set, and with something at the unused 0xA0.
/// Their values come from the formulas worked out apart, over numbers without limits.
#[test]
fn whole_chips() {
    let block = "706B436718FC7D8E43D6D00B270B8C00F9FF8C3CF8C670175A";
    check(&format!(
        "comp {block}4B 6A01031326031E 655AC07EED007530 1 1 1 => 0 t=2508 fine=128422 p=25767233 h=57413
         comp {block}4B 6A01C81326031E 493E00927C007530 1 1 1 => 0 t=5011 fine=256562 p=32076971 h=60555
         comp {block}51 9DFE07ECEAFCE2 5573006DDD0055F0 1 1 1 => 0 t=313 fine=16025 p=27688513 h=0
         comp {block}4B 6A01FF7F0F807F 7A120061A800FFFF 1 1 1 => 0 t=-1264 fine=-64736 p=20787123 h!12
         comp {block}FF 8403FFFE4C0180 0000107A12009C40 1 1 1 => 0 t=1885 fine=96494 p=43901311 h!12"
    ));
}
