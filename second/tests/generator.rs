//! The generator: the same seed gives the same lines, and every number is reached.

use second::generate::{Generator, Kind};
use second::lines::Bench;
use second::words::LONGEST_LINE;
use std::collections::BTreeSet;

const KINDS: [Kind; 8] = [
    Kind::Everything,
    Kind::BmeAlone,
    Kind::Comp,
    Kind::Readings,
    Kind::Events,
    Kind::Rooms,
    Kind::Visits,
    Kind::Days,
];

/// Generates so many lines of a kind.
/// They are numbered by nothing but the seed.
fn lines(kind: Kind, count: usize, seed: u64) -> Vec<String> {
    let mut generator = Generator::new(kind, seed);
    (0..count).map(|_| generator.line()).collect()
}

/// Answers all lines on one fresh bench.
/// Empty lines have no answer.
fn answers(lines: &[String]) -> String {
    let mut bench = Bench::default();
    let mut out = Vec::new();
    for line in lines {
        bench.answer(line.as_bytes(), &mut out);
    }
    String::from_utf8(out).expect("answers are text")
}

/// Every number from 0 to 22 and each of the five reasons comes in 20,000 lines.
/// Number 8 comes by write, by finish and by wake.
#[test]
fn every_number_is_reached() {
    for seed in [0, 1, 2, 3, 4, 1_000_003, u64::MAX] {
        let lines = lines(Kind::Everything, 20_000, seed);
        let text = answers(&lines);
        let mut numbers = BTreeSet::new();
        let mut reasons = BTreeSet::new();
        for answer in text.lines() {
            let first = answer.split(' ').next().unwrap_or_default();
            numbers.extend(first.parse::<u8>());
            let channels = answer.split(' ').filter_map(|word| word.split_once('!'));
            numbers.extend(channels.filter_map(|(_, number)| number.parse::<u8>().ok()));
            reasons.extend(answer.strip_prefix("? "));
        }
        assert_eq!(numbers, (0..=22).collect(), "seed {seed}");
        assert_eq!(reasons.len(), 5, "seed {seed}");
        let spoken = lines.iter().filter(|line| !line.is_empty());
        let refused: BTreeSet<&str> = spoken
            .zip(text.lines())
            .filter(|(_, answer)| *answer == "8")
            .filter_map(|(line, _)| line.split(' ').next())
            .collect();
        assert_eq!(
            refused,
            BTreeSet::from(["finish", "wake", "write"]),
            "seed {seed}"
        );
    }
}

/// The same seed gives the same lines; another seed gives others.
/// A shorter run is the start of a longer one.
#[test]
fn seeds_decide() {
    for kind in KINDS {
        let first = lines(kind, 5_000, 7);
        assert_eq!(first, lines(kind, 5_000, 7));
        assert_eq!(first[..1_000], lines(kind, 1_000, 7));
        assert_ne!(first, lines(kind, 5_000, 8));
    }
}

/// The lines of a seed are the same on any machine.
/// A mix of their bytes is held to a figure written down once; a changed generator changes it.
#[test]
fn machines_agree() {
    let mix = |kind| {
        let mut mix = 0xCBF2_9CE4_8422_2325_u64;
        for line in lines(kind, 20_000, 1) {
            for byte in line.bytes().chain([b'\n']) {
                mix = (mix ^ u64::from(byte)).wrapping_mul(0x0100_0000_01B3);
            }
        }
        mix
    };
    assert_eq!(mix(Kind::BmeAlone), 2_435_631_605_030_239_922);
    assert_eq!(mix(Kind::Everything), 10_666_928_564_144_114_147);
}

/// Each kind has its own commands only, and no line holds a newline.
/// Long lines are rare.
#[test]
fn kinds_have_their_commands() {
    let starts =
        |line: &String, names: &[&str]| names.contains(&line.split(' ').next().unwrap_or_default());
    let events = [
        "fresh", "power", "copied", "wake", "write", "finish", "open", "byte", "close", "ledger",
    ];
    assert!(lines(Kind::Comp, 10_000, 3)
        .iter()
        .all(|line| starts(line, &["comp"])));
    let readings = lines(Kind::Readings, 10_000, 3);
    assert!(readings.iter().all(|line| starts(line, &["comp", "bmp"])));
    let share = readings
        .iter()
        .filter(|line| starts(line, &["bmp"]))
        .count();
    assert!((3_500..4_500).contains(&share), "{share}");
    let rooms = lines(Kind::Rooms, 10_000, 3);
    assert!(rooms
        .iter()
        .all(|line| starts(line, &["point", "cells", "rooms"])));
    assert!(!answers(&rooms).contains('?'));
    let visits = lines(Kind::Visits, 10_000, 3);
    assert!(visits.iter().all(|line| starts(line, &["visit"])));
    assert!(visits.iter().all(|line| line.len() <= LONGEST_LINE));
    let days = lines(Kind::Days, 10_000, 3);
    assert!(days.iter().all(|line| starts(line, &["day"])));
    let walked = lines(Kind::Events, 20_000, 3);
    assert!(walked.iter().all(|line| starts(line, &events)));
    assert!(!answers(&walked).contains('?'));
    let all = lines(Kind::Everything, 20_000, 3);
    assert!(all.iter().all(|line| !line.contains('\n')));
    let long = all.iter().filter(|line| line.len() > LONGEST_LINE).count();
    assert!((1..200).contains(&long), "{long}");
    let others = [
        "cal", "comp", "point", "cells", "rooms", "wait", "poll", "i2c", "spi", "visit", "day",
    ];
    for name in others.iter().chain(&events).chain(&["bmp"]) {
        assert!(all.iter().any(|line| starts(line, &[name])), "{name}");
    }
    let alone = lines(Kind::BmeAlone, 60_000, 3);
    assert!(alone.iter().all(|line| !line.contains("bmp")));
}

/// Fresh states of both parts come in walks, with and without a number, and so do spoilt ones among all commands.
/// Every reason comes for a line that begins as a BMP280's does.
#[test]
fn both_parts_come() {
    let walked = lines(Kind::Events, 20_000, 11);
    let count = |wanted: &dyn Fn(&str) -> bool| walked.iter().filter(|line| wanted(line)).count();
    assert!(count(&|line| line == "fresh") > 15);
    assert!(count(&|line| line == "fresh bmp") > 15);
    assert!(count(&|line| line.starts_with("fresh bmp ")) > 10);
    assert!(count(&|line| line.starts_with("fresh ") && !line.contains("bmp")) > 10);
    assert!(count(&|line| line.starts_with("close 6")) > 300);
    let all: Vec<String> = lines(Kind::Everything, 60_000, 11);
    let spoken: Vec<String> = all.into_iter().filter(|line| !line.is_empty()).collect();
    let text = answers(&spoken);
    let said = spoken.iter().zip(text.lines());
    let own = said.filter(|(line, _)| line.starts_with("bmp") || line.starts_with("fresh bmp"));
    let reasons: BTreeSet<&str> = own
        .filter_map(|(_, said)| said.strip_prefix("? "))
        .collect();
    assert_eq!(reasons.len(), 5, "{reasons:?}");
}

/// Walks are made of real conversions: most events are done, and all closings come.
/// Repeated bursts, waiting conversions and number 8 come too.
#[test]
fn walks_are_lively() {
    let walked = lines(Kind::Events, 20_000, 11);
    let text = answers(&walked);
    let count = |part: &str| text.lines().filter(|answer| answer.contains(part)).count();
    let done = text
        .lines()
        .filter(|answer| answer.starts_with('0'))
        .count();
    assert!(done > 15_000, "{done}");
    assert!(count("partial") > 200);
    assert!(count("whole n=0 ") > 50);
    assert!(count("whole") - count("whole n=0 ") > 300);
    assert!(count("before=1") > 100);
    assert!(count("waiting=1") > 20);
    assert!(text.lines().filter(|answer| *answer == "8").count() > 50);
}

/// Copying in walks: it ends often enough for conversions to finish, and finishes come too soon as well.
/// Events of each name are counted by their answers.
#[test]
fn walks_copy() {
    let walked = lines(Kind::Events, 20_000, 11);
    let text = answers(&walked);
    let count = |event: &str, said: &str| {
        let spoken = walked.iter().zip(text.lines());
        let named = spoken.filter(|(line, _)| line.split(' ').next() == Some(event));
        named.filter(|(_, answer)| *answer == said).count()
    };
    assert!(count("finish", "0") > 1_200);
    assert!(count("finish", "6") > 60);
    assert!(count("copied", "0") > count("finish", "0"));
    assert!(count("copied", "6") > 30);
    assert!(count("write", "5") > 20);
}

/// Days of every kind: none, one and many readings, those that just fit a line, and each refusal.
/// Every number comes at a place, and among all commands about one line in thirty is a day.
#[test]
fn days_are_lively() {
    let days = lines(Kind::Days, 10_000, 11);
    let text = answers(&days);
    let count = |part: &str| text.lines().filter(|answer| answer.contains(part)).count();
    for number in [
        "t!10", "p!10", "h!10", "p!11", "h!11", "t!12", "p!12", "h!12", "p!13", "p!14", " 7",
    ] {
        assert!(count(number) > 200, "{number} {}", count(number));
    }
    let exactly = |wanted: &str| text.lines().filter(|answer| *answer == wanted).count();
    assert!(exactly("0") > 300 && exactly("2") > 500 && exactly("? too long") > 50);
    let places = |least: usize| {
        let many = text
            .lines()
            .filter(|answer| answer.matches(" ;").count() >= least);
        many.count()
    };
    assert!(places(1) > 5_000 && places(8) > 500 && places(181) > 50);
    let all = lines(Kind::Everything, 60_000, 11);
    let share = all.iter().filter(|line| line.starts_with("day ")).count();
    assert!((1_500..2_500).contains(&share), "{share}");
}
