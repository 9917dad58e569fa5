//! The bench's two lines of visit records: the page's own, how they are read, and the fixed cases.

mod common;

use common::{answer, check};
use second::lines::Bench;
use second::visits::{answers, cases};
use std::collections::BTreeSet;

/// The lines at the end of the bench's page, and the same visit read again.
/// The list is exact, then one short.
#[test]
fn the_pages_lines() {
    check("
visit write 40 ( ( 7:-5:25767233:!10 ) ) => 0 n=32 buf=01001D01001A02000400000007030004FFFFFFFB04000401892D41070002060AAAAAAAAAAAAAAAAA
visit read 010000 9 => 18 at=3
visit write 9 => 19 at=0 buf=AAAAAAAAAAAAAAAAAA
visit read 01001D01001A02000400000007030004FFFFFFFB04000401892D41070002060A 5 => 0 n=5 steps=( ( 7:-5:25767233:!10 ) )
visit read 01001d01001a02000400000007030004fffffffb04000401892d41070002060a 4 => 9
visit write 31 ( ( 7:-5:25767233:!10 ) ) => 9 buf=AAAAAAAAAAAAAAAAAAAAAAAAAAAAAAAAAAAAAAAAAAAAAAAAAAAAAAAAAAAAAA
visit write 0 => 19 at=0 buf=-
visit write 0 ( ( 7:-5:25767233:!10 ) ) => 9 buf=-
visit read - 0 => 18 at=0
visit write 3 ( 7:1:2:!9 ) => 22 at=1 buf=AAAAAA
visit write 3 ( 7:1:2:!0 ) => 22 at=1 buf=AAAAAA
visit write 1 ( ( ( ( ( => 21 at=4 buf=AA
visit read 01001C020004FFFFFFFF03000480000000050004000000FF06000400019000 3 => 0 n=3 steps=( 4294967295:-2147483648:65280:102400 )
visit read 01001C020004FFFFFFFF03000480000000050004000000FF06000400019001 3 => 22 at=24
");
}

/// What the words of the two lines may be.
/// The second word comes first, then the number of words, then the words from left to right.
#[test]
fn reasons() {
    let cases = [
        ("unknown word", "visit |visit show|visit Read - 9|visits|visit  read - 9|visit write9"),
        ("wrong number of words", "visit|visit read|visit read -|visit read - 9 9|visit read - 9 |visit write"),
        (
            "not a number",
            "visit write |visit write x|visit write -1 (|visit read x 9|visit read  9|visit read - |visit read - x|\
             visit write 9 |visit write 9  (|visit write 9 ( |visit write 9 ()|visit write 9 x 7:1:2:3|\
             visit write 9 7:1:2|visit write 9 7:1:2:3:4|visit write 9 :::|visit write 9 7:1:2:3.|\
             visit write 9 !10:1:2:3|visit write 9 -7:1:2:3|visit write 9 +7:1:2:3|visit write 9 4294967296:1:2:3|\
             visit write 9 7:2147483648:2:3|visit write 9 7:-2147483649:2:3|visit write 9 7:--1:2:3|\
             visit write 9 7:-:2:3|visit write 9 7:1:-0:3|visit write 9 7:1:2:-0|visit write 9 7:1:4294967296:3|\
             visit write 9 7:1:2:4294967296|visit write 9 7:!:2:3|visit write 9 7:1:!4294967296:3|\
             visit write 9 7:1:2:!-1|visit write 9 7:1:2:10!|visit write 9 ) ) 7|visit read 0g0 300",
        ),
        ("odd hex", "visit read 0 9|visit read 010 257|visit read 010 x"),
        ("too long", "visit read - 257|visit read 0100 4294967295|visit write 257|visit write 257 x|visit write 0257 ("),
    ];
    for (reason, lines) in cases {
        for line in lines.split('|') {
            let given = answer(&mut Bench::default(), line);
            assert_eq!(given, format!("? {reason}"), "{line}");
        }
    }
    let full = format!("visit write 256{}", " (".repeat(2040));
    assert_eq!(full.len(), 4_095);
    assert!(answer(&mut Bench::default(), &full).starts_with("21 at=4 buf=AAAA"));
    let long = format!("visit write 256{}", " (".repeat(2041));
    assert_eq!(answer(&mut Bench::default(), &long), "? too long");
}

/// A line of steps may have the longest list and the longest record that fit.
/// Zeros in front, and a minus before 0, are read.
#[test]
fn spellings() {
    check("
visit write 031 ( 007:-0:0:!010 ) => 0 n=29 buf=01001A020004000000070300040000000004000400000000070002060AAAAA
visit write 31 ( 4294967295:2147483647:4294967295:0 ) => 0 n=31 buf=01001C020004FFFFFFFF0300047FFFFFFF040004FFFFFFFF06000400000000
");
    let record = cases::nested(1, &cases::nested(3, &[2, 0, 4, 0, 0, 0, 7]).repeat(120));
    let line = cases::read(&record, 256);
    assert!(line.len() <= 4_096);
    assert_eq!(answer(&mut Bench::default(), &line), "18 at=19");
}

/// The fixed cases are a few hundred, reach every number and every reason, and leave the machine alone.
/// None of them is too long.
#[test]
fn fixed_cases() {
    let lines = cases::lines();
    assert!((400..800).contains(&lines.len()), "{}", lines.len());
    let mut bench = Bench::default();
    let before = answer(&mut bench, "ledger");
    let mut starts = BTreeSet::new();
    for line in &lines {
        assert!(line.starts_with("visit") && line.len() < 300, "{line}");
        let given = answer(&mut bench, line);
        let second = line.split(' ').nth(1).unwrap_or_default().to_string();
        let first = match given.split_once(' ') {
            Some(("?", reason)) => reason.to_string(),
            _ => given.split(' ').next().unwrap_or_default().to_string(),
        };
        starts.insert((second, first));
    }
    for name in ["read", "write"] {
        let numbers = match name {
            "read" => vec!["0", "9", "18", "19", "20", "21", "22", "odd hex"],
            _ => vec!["0", "9", "19", "21", "22"],
        };
        let reasons = ["not a number", "too long", "wrong number of words"];
        for first in numbers.into_iter().chain(reasons) {
            let wanted = (name.to_string(), first.to_string());
            assert!(starts.contains(&wanted), "{wanted:?}");
        }
    }
    assert_eq!(answer(&mut bench, "ledger"), before);
}

/// What the commands for records of any length answer is what the bench answers, where it can.
/// White space of any kind parts the steps.
#[test]
fn of_any_length() {
    for line in cases::lines() {
        let given = answer(&mut Bench::default(), &line) + "\n";
        if given.starts_with('?') {
            continue;
        }
        let words: Vec<&str> = line.split(' ').collect();
        let same = match words[1] {
            "read" => {
                let record = second::words::hex_bytes(words[2].as_bytes()).expect("bytes");
                answers::read_line(&record, words[3].parse().expect("a length"))
            }
            _ => {
                let text = words[3..].join(" \n\t");
                answers::write_line(text.as_bytes(), words[2].parse().expect("a length"))
            }
        };
        assert_eq!(same, given.as_bytes(), "{line}");
    }
    assert_eq!(answers::write_line(b"( x )", 9), b"? not a number\n");
    assert_eq!(answers::read_line(&[0; 65_536], 0), b"2\n");
    let open = "( ".repeat(4);
    let slots = "( 7:1:2:3 ) ".repeat(2_115);
    let text = format!("( {slots})");
    assert!(answers::write_line(text.as_bytes(), 0).starts_with(b"2 buf=-"));
    let text = format!("{open}7:1:2:3");
    assert_eq!(answers::write_line(text.as_bytes(), 1), b"19 at=5 buf=AA\n");
}
