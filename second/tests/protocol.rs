//! The bench's lines: the page's own example, and how a line is read.

mod common;

use common::check;
use second::lines::Bench;

/// Answers raw bytes as one line.
/// The bench is fresh.
fn raw(line: &[u8]) -> String {
    let mut out = Vec::new();
    Bench::default().answer(line, &mut out);
    String::from_utf8(out).expect("answers are text")
}

/// The block at the end of the page as one script, with the copied event that order 4 asks for.
/// Commands and answers stand in two columns there.
#[test]
fn the_pages_example() {
    let block = "
    copied                  0
    write F4 27             0
    copied                  0
    finish 519888 415148 0  0
    open F7                 0
    close 8                 0 partial n=0 codes=0,0,0 before=0 buf=AAAAAAAAAAAAAAAA
    ledger                  begun=1 delivered=0 overwritten=0 abandoned=0 standing=1 running=0 waiting=0 shown=1
    wait max 5 5 5          0 112800
    poll 2 080900           17 polls=2
    i2c write 76 F427 3     0 n=3 buf=ECF427
";
    let rows = block.lines().map(str::trim).filter(|row| !row.is_empty());
    let script: Vec<String> = rows
        .map(|row| {
            let (command, answer) = row.split_once("  ").expect("two columns");
            format!("{command} => {}", answer.trim_start())
        })
        .collect();
    check(&script.join("\n"));
}

/// An unknown first word, or second word of wait, i2c and spi.
/// Names are known in lower case only, and come before the number of words.
#[test]
fn unknown_words() {
    let lines = [
        "nothing",
        "POWER",
        "power\r",
        "\tpower",
        " ",
        "   ",
        " power",
        "?",
        "-",
        "comps 1 2 3",
        "points - - - 1 1 1",
        "Cells - - - 1 1 1",
        "room - - - 1 1 1 - - - 1 1 1 0 0 0",
        "wait min 1 1 1",
        "wait ",
        "wait  max 1 1 1",
        "wait 5 5 5",
        "wait max1 1 1 1",
        "i2c send",
        "i2c  read 76 F7 3",
        "spi Read F7 1",
        "spi reads F7 1",
        "i2cread 76 F7 3",
    ];
    for line in lines {
        assert_eq!(raw(line.as_bytes()), "? unknown word\n", "{line}");
    }
    assert_eq!(raw(b"\xFF\x00\x80"), "? unknown word\n");
    assert_eq!(raw(b"power\0"), "? unknown word\n");
}

/// A missing second word and any other wrong number of words.
/// An empty word counts, and comes before what the words are.
#[test]
fn wrong_numbers_of_words() {
    let lines = [
        "wait",
        "i2c",
        "spi",
        "wait max",
        "wait max 1 1",
        "wait max 1 1 1 1",
        "wait typ 1 1 1 ",
        "power ",
        "power 1",
        "copied x",
        "wake wake",
        "byte 1",
        "ledger ",
        "open",
        "open F7 F8",
        "open  F7",
        "close",
        "close 8 ",
        "close x y",
        "cal",
        "cal - - -",
        "comp - - - 1 1",
        "comp - - - 1 1 1 1",
        "point",
        "point - - - 1 1",
        "point - - - 1 1 1 ",
        "cells",
        "cells - - - 1 1 1 1",
        "cells  - - - 1 1 1",
        "rooms",
        "rooms - - - 1 1 1",
        "rooms - - - 1 1 1 - - - 1 1 1 0 0",
        "rooms - - - 1 1 1 - - - 1 1 1 0 0 0 0",
        "rooms x x x x x x x x x x x x x x",
        "poll",
        "poll 1",
        "poll 1 00 00",
        "write F4",
        "write F4  27",
        "finish 1 2",
        "finish 1 2 3 4",
        "fresh 1 2",
        "fresh  1",
        "i2c write 76 F427",
        "i2c read 76 F7",
        "i2c decode EC",
        "i2c decode 76 EC 3",
        "spi write F427",
        "spi read 76 F7 3",
        "spi decode x",
    ];
    for line in lines {
        assert_eq!(raw(line.as_bytes()), "? wrong number of words\n", "{line}");
    }
}

/// Words that are no numbers: decimals, two hex digits and hex bytes.
/// They are read left to right, so that the first bad one decides.
#[test]
fn not_numbers() {
    let lines = [
        "wait max -1 0 0",
        "wait max +1 0 0",
        "wait max 1  1",
        "wait max 1 1 ",
        "wait max a 1 1",
        "wait max 1 1 1\r",
        "wait max 4294967296 1 1",
        "poll 99999999999999999999999999999999 00",
        "fresh ",
        "fresh x",
        "fresh 4294967296",
        "fresh 1\0",
        "open F",
        "open 0F7",
        "open G7",
        "open ",
        "open -",
        "write F4 2",
        "write F4 027",
        "write F 27",
        "close ",
        "close 8x",
        "finish 1 2 3.0",
        "finish 1 2 0x3",
        "poll 1 ",
        "poll 1 0G",
        "poll 1 G",
        "poll 1 --",
        "poll 1 -0",
        "poll x 0",
        "cal  -",
        "cal G 0",
        "cal 00 0\r",
        "i2c write 7 F42 3",
        "i2c write 76 F4- 3",
        "i2c read 076 F7 3",
        "i2c decode ECZ 3",
        "spi write F427 +3",
        "spi read F7 1\t",
        "comp - - - 1 1 x",
        "comp - - - 1 -1 1",
        "point - - - 1 1 x",
        "point  - - 1 1 1",
        "cells - - 0G 1 1 1",
        "cells - - - 4294967296 1 1",
        "rooms - - - 1 1 x - - 0 1 1 1 0 0 0",
        "rooms - - - 1 1 1 - G - 1 1 1 0 0 0",
        "rooms - - - 1 1 1 - - - 1 1 1 -1 0 0",
        "rooms - - - 1 1 1 - - - 1 1 1 0 1.5 0",
        "rooms - - - 1 1 1 - - - 1 1 1 0 0 4294967296",
        "rooms - - - 1 1 1 - - - 1 1 1 0 0 ",
        "close 99999999999",
    ];
    for line in lines {
        assert_eq!(raw(line.as_bytes()), "? not a number\n", "{line}");
    }
}

/// An odd number of hex digits.
/// Words after it aren't looked at.
#[test]
fn odd_hex() {
    let lines = [
        "poll 1 0",
        "cal 0 x",
        "cal - 123",
        "comp 0 - - 1 1 1",
        "point - 0 - x 1 1",
        "cells - - 655 1 1 1",
        "rooms 0 - - x 1 1 - - - 1 1 1 0 0 0",
        "rooms - - - 1 1 1 - - 0 x 1 1 0 0 x",
        "i2c write 76 F42 999",
        "i2c decode ECF 2",
        "spi write F 2",
        "spi decode 742 2",
    ];
    for line in lines {
        assert_eq!(raw(line.as_bytes()), "? odd hex\n", "{line}");
    }
}

/// A line of more than 4,096 bytes, whatever it holds, and a buffer of more than 256.
/// Lines of 4,096 bytes are read, leading zeros and all.
#[test]
fn too_long() {
    for line in [
        "close 257",
        "i2c read 76 F7 4294967295",
        "spi write - 1000",
        "spi decode - 257",
    ] {
        assert_eq!(raw(line.as_bytes()), "? too long\n", "{line}");
    }
    for byte in [b' ', b'x', 0, 0xFF] {
        assert_eq!(raw(&vec![byte; 4097]), "? too long\n");
        assert_eq!(raw(&vec![byte; 4096]), "? unknown word\n");
    }
    let zeros = "0".repeat(4096 - "wait max 1 1 ".len() - 1);
    assert_eq!(raw(format!("wait max 1 1 {zeros}1").as_bytes()), "0 9300\n");
    assert_eq!(
        raw(format!("wait max 1 1 0{zeros}1").as_bytes()),
        "? too long\n"
    );
    let status = "09".repeat(2043);
    assert_eq!(
        raw(format!("poll 5000 {status}").as_bytes()).trim(),
        "17 polls=2043"
    );
}

/// An empty line is passed over; codes far out of range are codes still.
/// Either case of hex is read; answers are upper case.
#[test]
fn other_readings_of_lines() {
    assert_eq!(raw(b""), "");
    check(
        "wait max 256 0 0 => 7
         wait typ 0 0 4294967295 => 7
         wait max 8 0 0 => 7
         comp - - - 9 9 9 => 2
         cells - - - 9 9 9 => t!2 p!2 h!2
         rooms - aa - 1 1 1 - - Aa 8 1 1 4294967295 0 0000000000000001 => t=unknown p=unknown h=unknown
         i2c write 77 f427e0b6 6 => 0 n=5 buf=EEF427E0B6AA
         i2c read 76 fe 4 => 0 n=3 buf=ECFEEDAA
         write f4 2F => 5
         copied => 0
         write f4 2f => 0
         copied => 0
         finish 0000 4294967295 0 => 7
         close 0 => 6 buf=-
         poll 4294967295 - => 17 polls=0
         poll 0 00 => 17 polls=0
         poll 1 F6 => 0 place=0 polls=1
         fresh 0012 => 0
         ledger => begun=12 delivered=12 overwritten=0 abandoned=0 standing=0 running=0 waiting=0 shown=0
         fresh => 0
         ledger => begun=0 delivered=0 overwritten=0 abandoned=0 standing=0 running=0 waiting=0 shown=0",
    );
}
