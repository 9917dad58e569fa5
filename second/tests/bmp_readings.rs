//! A BMP280's readings: the paper's figures, lengths and codes, and the BME280's answers beside them.

mod common;

use common::{answer, check};
use second::bmp::{readings, spellings};
use second::generate::{Generator, Kind};
use second::lines::Bench;
use std::collections::BTreeSet;

/// Block one of K1 and K2, spelled by hand.
const ONE: &str = "706B436718FC7D8E43D6D00B270B8C00F9FF8C3CF8C670170000";
/// The data bytes of K1 and K2: pressure first.
const DATA: &str = "655AC07EED00";

/// The paper's readings: K1 to K4 and K14, with an empty block two and six bytes.
/// All bytes are spelled by hand.
#[test]
fn the_papers_readings() {
    let k3 = format!("000001{}", "00".repeat(23));
    let k4 = format!("{}0000{}", &ONE[..12], &ONE[16..]);
    let script = format!(
        "bmp {ONE} - {DATA} 1 0 0 => 0 t=2508 fine=128422 p!10 h!10
         bmp {ONE} - {DATA} 1 1 0 => 0 t=2508 fine=128422 p=25767233 h!10
         bmp {k3} - 000000B504F0 1 0 0 => 0 t=1 fine=45 p!10 h!10
         bmp {k3} - 000000B50500 1 0 0 => 0 t!12 p!10 h!10
         bmp {k4} - {DATA} 1 1 0 => 0 t=2508 fine=128422 p!13 h!10
         bmp {ONE} - {DATA} 0 1 0 => 0 t!10 p!11 h!10"
    );
    check(&script);
    let rows = script
        .lines()
        .filter_map(|row| row.trim().split_once(" =>"));
    let commands: Vec<&str> = rows.map(|(command, _)| command).collect();
    assert_eq!(commands, readings::papers());
}

/// Humidity is 10 with every third code from 0 to 7, with and without a temperature.
/// A code beyond 7 gives 7 in each of the three places.
#[test]
fn codes() {
    let k3 = format!("000001{}", "00".repeat(23));
    check(&format!(
        "bmp {ONE} - {DATA} 1 1 1 => 0 t=2508 fine=128422 p=25767233 h!10
         bmp {ONE} - {DATA} 1 1 7 => 0 t=2508 fine=128422 p=25767233 h!10
         bmp {ONE} - {DATA} 1 1 8 => 7
         bmp {ONE} - {DATA} 1 8 1 => 7
         bmp {ONE} - {DATA} 8 1 1 => 7
         bmp {ONE} - {DATA} 0 0 8 => 7
         bmp {ONE} - {DATA} 0 0 4294967295 => 7
         bmp {ONE} - {DATA} 0 0 0 => 0 t!10 p!10 h!10
         bmp {ONE} - {DATA} 0 0 7 => 0 t!10 p!10 h!10
         bmp {ONE} - {DATA} 0 7 7 => 0 t!10 p!11 h!10
         bmp {ONE} - {DATA} 7 0 7 => 0 t=2508 fine=128422 p!10 h!10
         bmp {k3} - 000000B50500 1 1 1 => 0 t!12 p!11 h!10"
    ));
    let lines = readings::codes();
    let mut bench = Bench::default();
    for line in lines {
        let said = answer(&mut bench, &line);
        let codes = line.rsplit(' ').take(3).map(|code| code.parse::<u64>());
        let beyond = codes.into_iter().any(|code| code.expect("a code") > 7);
        assert_eq!(said == "7", beyond, "{line}");
        assert_eq!(said.ends_with(" h!10"), !beyond, "{line}");
    }
}

/// Lengths of 26, 0 and 6 alone are right, and come before the codes.
/// The other commands take a BME280's lengths as before.
#[test]
fn lengths() {
    check(&format!(
        "bmp {} - {DATA} 1 1 1 => 2
         bmp {ONE}00 - {DATA} 1 1 1 => 2
         bmp {ONE} 00 {DATA} 1 1 1 => 2
         bmp {ONE} 00000000000000 {DATA} 1 1 1 => 2
         bmp {ONE} - {} 1 1 1 => 2
         bmp {ONE} - {DATA}00 1 1 1 => 2
         bmp {ONE} - {DATA}0000 1 1 1 => 2
         bmp {ONE} 00000000000000 {DATA}0000 1 1 0 => 2
         bmp - - - 1 1 1 => 2
         bmp - - - 8 1 1 => 2
         bmp {ONE} - {DATA}00 1 1 8 => 2
         comp {ONE} - {DATA} 1 1 0 => 2
         comp {ONE} 00000000000000 {DATA} 1 1 0 => 2
         comp {ONE} 00000000000000 {DATA}0000 1 1 0 => 0 t=2508 fine=128422 p=25767233 h!10
         cells {ONE} - {DATA} 1 1 0 => t!2 p!2 h!2
         cal {ONE} - => 2
         day {ONE} - {DATA}0101001010 1 => 2",
        &ONE[2..],
        &DATA[2..],
    ));
    let mut bench = Bench::default();
    for line in readings::lengths() {
        let words: Vec<&str> = line.split(' ').collect();
        let lengths = [1, 2, 3].map(|place: usize| words[place].trim_matches('-').len());
        let said = answer(&mut bench, &line);
        assert_eq!(said == "2", lengths != [52, 0, 12], "{line}");
    }
}

/// The bytes at 0xA0 and 0xA1 and the low nibbles of the data change nothing.
/// Low nibbles are those of 0xF9 and 0xFC.
#[test]
fn unused_bits() {
    let mut bench = Bench::default();
    let lines = readings::unused();
    for line in &lines[..8] {
        let said = answer(&mut bench, line);
        assert_eq!(said, "0 t=2508 fine=128422 p=25767233 h!10", "{line}");
    }
    let different: BTreeSet<&String> = lines.iter().collect();
    assert_eq!(different.len(), lines.len());
}

/// Asks comp for a BMP280's reading with zeros for what it lacks, and humidity skipped.
/// What is refused for its lengths has no such reading.
fn compared(line: &str) -> Option<String> {
    let words: Vec<&str> = line.split(' ').collect();
    if words[1].len() != 52 || words[2] != "-" || words[3].len() != 12 {
        return None;
    }
    let codes = match words[6].parse::<u64>() {
        Ok(0..=7) => format!("{} {} 0", words[4], words[5]),
        _ => words[4..].join(" "),
    };
    let zeros = "00".repeat(7);
    let line = format!("comp {} {zeros} {}0000 {codes}", words[1], words[3]);
    Some(answer(&mut Bench::default(), &line))
}

/// Temperature and pressure take the same steps: a reading says what comp says of it with humidity skipped.
/// The fixed readings and generated ones are asked, and each number comes.
#[test]
fn the_same_steps() {
    let mut generator = Generator::new(Kind::Readings, 5);
    let mut lines = readings::lines();
    lines.extend((0..30_000).map(|_| generator.line()));
    let mut seen = BTreeSet::new();
    for line in lines.iter().filter(|line| line.starts_with("bmp ")) {
        let said = answer(&mut Bench::default(), line);
        let expected = compared(line).unwrap_or_else(|| String::from("2"));
        assert_eq!(said, expected, "{line}");
        let words = said.split(' ').filter(|word| !word.contains('='));
        seen.extend(words.map(String::from));
    }
    let all = [
        "0", "2", "7", "h!10", "p!10", "p!11", "p!12", "p!13", "p!14", "t!10", "t!12",
    ];
    assert_eq!(seen, all.map(String::from).into());
}

/// Readings between the bytes of a burst change nothing, and neither part's burst changes a reading.
/// The bursts stay whole.
#[test]
fn beside_the_machine() {
    let mut bench = Bench::default();
    let mut closes = Vec::new();
    for line in readings::beside() {
        let said = answer(&mut bench, &line);
        match line.split(' ').next() {
            Some("bmp" | "comp") => assert_eq!(said, "0 t=2508 fine=128422 p=25767233 h!10"),
            Some("close") => closes.push(said),
            _ => assert!(
                said.starts_with('0') || said.starts_with("begun=1 delivered=1"),
                "{said}"
            ),
        }
    }
    let six = "0 whole n=1 codes=1,1,0 before=0 buf=655AC07EED00";
    assert_eq!(closes, [String::from(six), format!("{six}8000")]);
}

/// Lines as they are spelled: those that aren't read change nothing, and each reason but one comes.
/// After spoilt lines the machine is the part that it was.
#[test]
fn spellings_are_read_or_not() {
    let mut bench = Bench::default();
    let lines = spellings::lines();
    let said: Vec<String> = lines.iter().map(|line| answer(&mut bench, line)).collect();
    let reasons: BTreeSet<&str> = said
        .iter()
        .filter_map(|said| said.strip_prefix("? "))
        .collect();
    assert_eq!(
        reasons,
        BTreeSet::from([
            "unknown word",
            "wrong number of words",
            "not a number",
            "odd hex",
            "too long"
        ])
    );
    let ids: Vec<&str> = said
        .iter()
        .filter_map(|said| said.strip_prefix("0 "))
        .filter(|rest| rest.len() == 2)
        .collect();
    assert_eq!(ids, ["58", "58", "58", "58", "58", "60", "60", "58", "60"]);
    assert_eq!(
        said.iter()
            .filter(|said| *said == "0 t=2508 fine=128422 p=25767233 h!10")
            .count(),
        3
    );
}
