//! How a BMP280's lines are read, and which reason each spoilt one has.

mod common;

use common::{answer, check};
use second::lines::Bench;

/// Holds lines to one reason, each on a fresh bench.
/// The machine stays a BME280 with an empty ledger.
fn refused(reason: &str, lines: &[&str]) {
    for line in lines {
        let mut bench = Bench::default();
        assert_eq!(answer(&mut bench, line), format!("? {reason}"), "{line}");
        let ledger = answer(&mut bench, "ledger");
        assert!(ledger.starts_with("begun=0 delivered=0 "), "{line}");
        assert_eq!(answer(&mut bench, "open D0"), "0", "{line}");
        assert_eq!(answer(&mut bench, "byte"), "0 60", "{line}");
    }
}

/// The first word is known in lower case alone, and nothing may stand before it.
/// The word of the kind is no first word of a fresh state.
#[test]
fn unknown_words() {
    refused(
        "unknown word",
        &[
            "BMP - - - 1 1 1",
            "Bmp",
            "bmps",
            "bmp280 - - - 1 1 1",
            "bme - - - 1 1 1",
            "bmp\t- - - 1 1 1",
            " bmp - - - 1 1 1",
            "Fresh bmp",
            "freshbmp",
            "fresh\tbmp",
            " fresh bmp",
        ],
    );
}

/// A fresh state takes none or one word after its name, and a reading six.
/// The number of words comes before what they are.
#[test]
fn wrong_numbers_of_words() {
    refused(
        "wrong number of words",
        &[
            "fresh bmp 1 2",
            "fresh bmp x y",
            "fresh bmp  1",
            "fresh bmp  ",
            "fresh bmp 1 ",
            "fresh  bmp",
            "fresh 1 bmp",
            "fresh bme 1",
            "fresh BMP 1",
            "fresh bmp280 1",
            "fresh x bmp",
            "bmp",
            "bmp ",
            "bmp - - - 1 1",
            "bmp - - 1 1 1",
            "bmp - - - 1 1 1 1",
            "bmp - - - 1 1 1 ",
            "bmp  - - - 1 1 1",
            "bmp x x x x x",
        ],
    );
}

/// A word that stands in a number's place and is none; after fresh that is any word but bmp.
/// The words are read from left to right.
#[test]
fn not_numbers() {
    refused(
        "not a number",
        &[
            "fresh bmp ",
            "fresh bmp x",
            "fresh bmp -1",
            "fresh bmp +1",
            "fresh bmp 1.0",
            "fresh bmp 1\r",
            "fresh bmp 4294967296",
            "fresh bmp bmp",
            "fresh bmp\r",
            "fresh bmp\t1",
            "fresh BMP",
            "fresh Bmp",
            "fresh bm",
            "fresh bmpp",
            "fresh bmp280",
            "fresh bme",
            "fresh -",
            "bmp - - - 1 1 x",
            "bmp - - - 1 1 -1",
            "bmp - - - 1 1 4294967296",
            "bmp -  - 1 1 1",
            "bmp - G - 1 1 1",
            "bmp - - -- 1 1 1",
            "bmp G 0 - 1 1 1",
            "bmp - - - x 1 1\r",
        ],
    );
}

/// An odd number of hex digits, before any word to its right.
/// A line of more than 4,096 bytes is too long, whatever it holds.
#[test]
fn odd_hex_and_long_lines() {
    refused(
        "odd hex",
        &["bmp 0 - - 1 1 1", "bmp - 123 G x 1 1", "bmp - - 0 x 1 1"],
    );
    for (start, end) in [("fresh bmp ", "7"), ("bmp - - - 1 1 ", "1")] {
        let zeros = "0".repeat(4_097 - start.len() - end.len());
        refused("too long", &[&format!("{start}{zeros}{end}")]);
        let shorter = format!("{start}{}{end}", &zeros[1..]);
        assert!(!answer(&mut Bench::default(), &shorter).starts_with('?'));
    }
}

/// Lines that are read: numbers with zeros in front, either case of hex, codes far beyond 7.
/// Lengths come before codes.
#[test]
fn lines_read() {
    check(
        "fresh bmp 0013 => 0
         ledger => begun=13 delivered=13 overwritten=0 abandoned=0 standing=0 running=0 waiting=0 shown=0
         fresh bmp 4294967295 => 0
         ledger => begun=4294967295 delivered=4294967295 overwritten=0 abandoned=0 standing=0 running=0 waiting=0 shown=0
         fresh bmp => 0
         ledger => begun=0 delivered=0 overwritten=0 abandoned=0 standing=0 running=0 waiting=0 shown=0
         bmp - aA - 9 9 9 => 2
         bmp - - - 4294967295 0 0 => 2
         close 0 => 6 buf=-
         i2c write 76 F201 3 => 0 n=3 buf=ECF201
         spi decode 7207 2 => 0 n=2 buf=F207
         wait max 1 1 1 => 0 9300",
    );
}
