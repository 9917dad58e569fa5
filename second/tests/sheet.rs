//! The bench sheet's exact results, and the errors a bidder would fall into.

mod common;

use common::check;
use second::calibration::{blocks, read, Words};
use second::lines::Bench;
use second::part::Part;
use second::sheet;
use second::spelling::reading;

/// The words and counts of K2, as the paper has them.
/// Humidity is skipped there.
fn k2(codes: [u64; 3]) -> String {
    let words = Words {
        t: [27504, 26435, -1000],
        p: [36477, -10685, 3024, 2855, 140, -7, 15500, -14600, 6000],
        h: [0; 6],
    };
    reading(&words, [519_888, 415_148, 0], codes)
}

/// The words of K5 with another H4, at the count that makes the fine temperature 76800.
/// Only humidity is of interest.
fn k5(h4: i64, count: u64) -> String {
    let words = Words {
        t: [0, 2048, 0],
        p: [0; 9],
        h: [75, 362, 0, h4, 0, 0],
    };
    reading(&words, [614_400, 0, count], [1, 0, 1])
}

/// K1, K2, K4 and K14, K2's bytes also as they are spelled by hand.
/// The figure of the unbracketed line is not given.
#[test]
fn k1_k2_k4_k14() {
    let bytes = "706B436718FC7D8E43D6D00B270B8C00F9FF8C3CF8C670170000";
    let data = "655AC07EED000000";
    assert_eq!(
        k2([1, 1, 0]),
        format!("comp {bytes} 00000000000000 {data} 1 1 0")
    );
    let without_p1 = k2([1, 1, 0]).replace("7D8E43D6", "000043D6");
    check(&format!(
        "{} => 0 t=2508 fine=128422 p!10 h!10
         {} => 0 t=2508 fine=128422 p=25767233 h!10
         {without_p1} => 0 t=2508 fine=128422 p!13 h!10
         {} => 0 t!10 p!11 h!10",
        k2([1, 0, 0]),
        k2([1, 1, 0]),
        k2([0, 1, 0]),
    ));
}

/// K2's last line without its bracket would give 408555728.
/// With P7 at 0 the value before P7 is seen; the wrong line shifts P7's sum as a whole.
#[test]
fn the_unbracketed_line() {
    let without_p7 = k2([1, 1, 0]).replace("8C3CF8C6", "0000F8C6");
    check(&format!(
        "{without_p7} => 0 t=2508 fine=128422 p=25519233 h!10"
    ));
    assert_eq!(25_519_233 + (15_500 << 4), 25_767_233);
    assert_eq!((25_519_233 + 15_500) << 4, 408_555_728);
}

/// K3: the square's last fit, and the first count past it.
/// Enabled channels then have no temperature to compensate with.
#[test]
fn k3() {
    let words = Words {
        t: [0, 1, 0],
        ..Words::default()
    };
    check(&format!(
        "{} => 0 t=1 fine=45 p!10 h!10
         {} => 0 t!12 p!10 h!10
         {} => 0 t!12 p!11 h!11",
        reading(&words, [741_455, 0, 0], [1, 0, 0]),
        reading(&words, [741_456, 0, 0], [1, 0, 0]),
        reading(&words, [741_456, 0, 0], [1, 1, 1]),
    ));
}

/// K5, K6 and K7: humidity, its highest value, and a true value 0.
/// H3, H5 and H6 don't matter there.
#[test]
fn k5_k6_k7() {
    check(&format!(
        "{} => 0 t=1500 fine=76800 p!10 h=46036
         {} => 0 t=1500 fine=76800 p!10 h=102400
         {} => 0 t=1500 fine=76800 p!10 h=0",
        k5(0, 8192),
        k5(0, 32768),
        k5(1, 0),
    ));
}

/// K8: H4 takes the low nibble of 0xE5 and H5 the high one.
/// The block is spelled by hand.
#[test]
fn k8() {
    let zeros = [0; 26];
    let words = read(Part::Bme280, &zeros, &[0, 0, 0, 0xFF, 0x1F, 0x80, 0]).expect("right lengths");
    assert_eq!((words.h[3], words.h[4]), (-1, -2047));
}

/// K9, K10 and K11: waiting, the bus bytes of F4, and polling.
/// The makers' example of 11.5 and 13.325 milliseconds comes with them.
#[test]
fn k9_k10_k11() {
    check(
        "wait max 0 0 0 => 0 1250
         wait max 1 1 1 => 0 9300
         wait max 5 5 5 => 0 112800
         wait typ 1 3 0 => 0 11500
         wait max 1 3 0 => 0 13325
         i2c write 76 F427 3 => 0 n=3 buf=ECF427
         spi write F427 2 => 0 n=2 buf=7427
         poll 3 080900 => 0 place=2 polls=3
         poll 2 080900 => 17 polls=2",
    );
}

/// K12: a whole burst shows number 1 though number 2 finished under it.
/// The later bytes of the burst are number 1's.
#[test]
fn k12() {
    check(
        "copied => 0
         write F4 27 => 0
         copied => 0
         finish 519888 415148 0 => 0
         wake => 0
         copied => 0
         open F7 => 0
         finish 1 2 3 => 0
         byte => 0 65
         byte => 0 5A
         byte => 0 C0
         byte => 0 7E
         byte => 0 ED
         byte => 0 00
         byte => 0 80
         byte => 0 00
         close 8 => 0 whole n=1 codes=1,1,0 before=0 buf=655AC07EED008000
         ledger => begun=2 delivered=1 overwritten=0 abandoned=0 standing=1 running=0 waiting=0 shown=1",
    );
}

/// K13: K12 with three bytes is partial.
/// Number 1 is overwritten at the close.
#[test]
fn k13() {
    check(
        "copied => 0
         write F4 27 => 0
         copied => 0
         finish 519888 415148 0 => 0
         wake => 0
         copied => 0
         open F7 => 0
         finish 1 2 3 => 0
         byte => 0 65
         byte => 0 5A
         byte => 0 C0
         close 8 => 0 partial n=0 codes=0,0,0 before=0 buf=AAAAAAAAAAAAAAAA
         ledger => begun=2 delivered=0 overwritten=1 abandoned=0 standing=1 running=0 waiting=0 shown=1",
    );
}

/// A count of 0x80000 in an enabled channel is a count like any other.
/// So is 0x8000 for humidity.
#[test]
fn counts_like_any_other() {
    let line = k2([1, 1, 0]).replace("655AC07EED000000", "8000008000008000");
    check(&format!(
        "{line} => 0 t=2646 fine=135479 p=21003398 h!10
         {} => 0 t=1500 fine=76800 p!10 h=102400",
        k5(0, 0x8000),
    ));
}

/// Right shifts round down: truncating would give -4435 here.
/// The low nibbles of 0xF9 and 0xFC change nothing.
#[test]
fn shifts_round_down() {
    let line = k2([1, 1, 0]).replace("655AC07EED000000", "655AC0493E000000");
    let nibbles = line.replace("655AC0493E00", "655ACF493E0F");
    check(&format!(
        "{line} => 0 t=-4436 fine=-227131 p=23101007 h!10
         {nibbles} => 0 t=-4436 fine=-227131 p=23101007 h!10"
    ));
    assert_eq!((-227_131 * 5 + 128) / 256, -4435);
}

/// F2 doesn't act before F4 takes effect; a held F4 takes F2 as it is at the finish.
/// A repeated burst is no second delivery.
#[test]
fn f2_acts_with_f4_and_bursts_repeat() {
    let burst = "open F7 => 0\n".to_string();
    let bytes = |text: &str| -> String {
        let rows = text.split(' ').map(|byte| format!("byte => 0 {byte}\n"));
        rows.collect()
    };
    let first = burst.clone() + &bytes("00 00 20 00 00 10 80 00");
    let second = burst + &bytes("00 00 20 00 00 10 00 03");
    check(&format!(
        "copied => 0
         write F4 25 => 0
         write F4 49 => 0
         write F2 FD => 0
         copied => 0
         finish 1 2 3 => 0
         {first}
         close 8 => 0 whole n=1 codes=1,1,0 before=0 buf=0000200000108000
         copied => 0
         finish 1 2 3 => 0
         {second}
         close 8 => 0 whole n=2 codes=2,2,5 before=0 buf=0000200000100003
         {second}
         close 8 => 0 whole n=2 codes=2,2,5 before=1 buf=0000200000100003
         ledger => begun=2 delivered=2 overwritten=0 abandoned=0 standing=0 running=0 waiting=0 shown=0"
    ));
}

/// The sheet's lines are all commands, begin with K1, and reach every number but a few.
/// Blocks that carry words give the same words back.
#[test]
fn the_sheet_is_commands() {
    let lines = sheet::lines();
    assert_eq!(lines[0], k2([1, 0, 0]));
    assert_eq!(lines[5], k5(0, 8192));
    let mut bench = Bench::default();
    let mut out = Vec::new();
    for line in &lines {
        bench.answer(line.as_bytes(), &mut out);
    }
    let text = String::from_utf8(out).expect("answers are text");
    assert!(!text.contains('?'));
    assert_eq!(text.lines().count(), lines.len());
    for number in ["p!13", "p!14", "h!12", "t!12", "p!12"] {
        assert!(text.contains(number), "{number}");
    }
    let words = Words {
        t: [65535, -32768, 32767],
        p: [65535, -1, 1, -32768, 32767, 0, -2, 2, 256],
        h: [255, -32768, 255, -2048, 2047, -128],
    };
    let (one, two) = blocks(&words);
    assert_eq!(read(Part::Bme280, &one, &two), Ok(words));
}
