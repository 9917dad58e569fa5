//! Fixed and generated lines of the map room, held to what comp says of the same readings.

mod common;

use common::{answer, check};
use second::compensation::Input;
use second::generate::{Generator, Kind};
use second::lines::Bench;
use second::maps;
use second::spelling::asked;

/// A channel as comp writes it: a value, or the number in its place.
type Channel = Result<i64, String>;

/// Takes one channel out of comp's answer, by its letter.
/// An answer without channels is the number for all three.
fn channel(answer: &str, letter: char) -> Channel {
    match answer.split(' ').find(|word| word.starts_with(letter)) {
        None => Err(answer.to_string()),
        Some(word) => match word[1..].strip_prefix('=') {
            Some(value) => Ok(value.parse().expect("a value is a number")),
            None => Err(word[2..].to_string()),
        },
    }
}

/// Gives the three channels of a reading, by asking comp on a fresh bench.
/// The reading is its six words.
fn channels(six: &[&str]) -> [Channel; 3] {
    let line = format!("comp {}", six.join(" "));
    let text = answer(&mut Bench::default(), &line);
    ['t', 'p', 'h'].map(|letter| channel(&text, letter))
}

/// Gives a channel's bits by the processor's own division.
/// A missing one is positive zero.
fn bits(channel: &Channel, divisor: f64) -> u64 {
    let value = channel
        .as_ref()
        .map_or(0.0, |whole| *whole as f64 / divisor);
    value.to_bits()
}

/// Works out the answer to a line of point, cells or rooms, from comp's answers.
/// The words are those after the name.
fn expected(name: &str, words: &[&str]) -> String {
    let divisors = [1.0, 256.0, 1024.0];
    let one = channels(&words[..6]);
    let parts = [0, 1, 2].map(|place: usize| {
        let bits = bits(&one[place], divisors[place]);
        match (name, &one[place]) {
            ("cells", Err(number)) => format!("!{number}"),
            ("rooms", _) => verdict(
                &one[place],
                &channels(&words[6..12])[place],
                words[12 + place],
            ),
            _ => format!("={bits:016X}"),
        }
    });
    let [t, p, h] = parts;
    let known = one.map(|channel| if channel.is_ok() { "1" } else { "0" });
    match name {
        "point" => format!("t{t} p{p} h{h} known={}", known.join(",")),
        _ => format!("t{t} p{p} h{h}"),
    }
}

/// Says whether two values agree, by plain subtraction.
/// The tolerance is a word of the line.
fn verdict(one: &Channel, other: &Channel, tolerance: &str) -> String {
    let tolerance: i64 = tolerance.parse().expect("a tolerance is a number");
    let word = match (one, other) {
        (Ok(one), Ok(other)) if one - other <= tolerance && other - one <= tolerance => "agree",
        (Ok(_), Ok(_)) => "differ",
        _ => "unknown",
    };
    format!("={word}")
}

/// Holds a line of the map room to comp; other lines are passed over.
/// The name and the words are parted by single spaces.
fn hold(line: &str) {
    let words: Vec<&str> = line.split(' ').collect();
    if ["point", "cells", "rooms"].contains(&words[0]) {
        check(&format!("{line} => {}", expected(words[0], &words[1..])));
    }
}

/// Gives one channel's values over a list of readings.
/// 0 is temperature, 1 pressure, 2 humidity.
fn values(inputs: &[Input], place: usize) -> Vec<Channel> {
    let value = |input: &Input| {
        let line = asked("comp", input);
        let words: Vec<&str> = line.split(' ').collect();
        channels(&words[1..])[place].clone()
    };
    inputs.iter().map(value).collect()
}

/// The edges stand where they should: extremes, signs, and powers of two.
/// No temperature lies beyond 23040, since no fine temperature lies beyond the limits of its two parts.
#[test]
fn edges_stand() {
    let edges = maps::edges();
    assert_eq!(
        values(&edges[..6], 0),
        [-23_040, -1, 0, 0, 1, 23_040].map(Ok)
    );
    assert_eq!(
        (-(1_i64 << 20) - (1 << 17), (1 << 20) + (1 << 17) - 2),
        (-1_179_648, 1_179_646)
    );
    assert_eq!((-1_179_648 * 5 + 128) >> 8, -23_040);
    assert_eq!((1_179_646 * 5 + 128) >> 8, 23_040);
    let pressures = [1, 255, 256, 257, (1 << 24) - 1, 1 << 24];
    assert_eq!(values(&edges[6..12], 1), pressures.map(Ok));
    let pressures = [(1 << 31) - 1, 1 << 31, (1 << 32) - 2];
    assert_eq!(values(&edges[12..15], 1), pressures.map(Ok));
    let humidities = [1, 1_023, 1_024, 1_025, 102_399, 102_400];
    assert_eq!(values(&edges[15..], 2), humidities.map(Ok));
    assert_eq!(9_309 * 11, 102_399);
}

/// Every way to lack a channel is there: 10 to 14, and 2 and 7 for the whole reading.
/// What is listed is missing by the number that it should be.
#[test]
fn missing_ones_are_missing() {
    let numbers = |inputs: &[Input], place| -> Vec<String> {
        let values = values(inputs, place).into_iter();
        values
            .map(|value| value.err().unwrap_or_default())
            .collect()
    };
    let missing = maps::missing();
    let temperatures = ["10", "10", "12", "", "", "", "", "", ""];
    assert_eq!(numbers(&missing, 0), temperatures);
    let pressures = ["10", "11", "11", "12", "13", "13", "14", "14", "10"];
    assert_eq!(numbers(&missing, 1), pressures);
    let humidities = ["10", "11", "11", "", "", "", "", "", "12"];
    assert_eq!(numbers(&missing, 2), humidities);
    for place in 0..3 {
        let refused = ["2", "2", "2", "2", "7", "7"];
        assert_eq!(numbers(&maps::refused(), place), refused);
    }
}

/// The differences beside the pairs are the true ones, and where a value is missing there is 0.
/// So the tolerances of the fixed lines stand exactly on the edge.
#[test]
fn differences_are_true() {
    for (one, other, differences) in maps::differing() {
        for (place, difference) in differences.into_iter().enumerate() {
            let pair = values(&[one.clone(), other.clone()], place);
            let true_one = match (&pair[0], &pair[1]) {
                (Ok(one), Ok(other)) => one.abs_diff(*other),
                _ => 0,
            };
            assert_eq!(difference, true_one, "{one:?} {other:?}");
        }
    }
    for (one, other, _) in maps::lacking() {
        let lacks = |place| {
            values(&[one.clone(), other.clone()], place)
                .iter()
                .any(Result::is_err)
        };
        assert!((0..3).any(lacks));
    }
}

/// Every fixed line has the answer that follows from comp's.
/// The walk at their end is whole, and leaves the fresh state.
#[test]
fn fixed_lines() {
    let lines = maps::lines();
    assert!(lines.len() > 300);
    lines.iter().for_each(|line| hold(line));
    let mut bench = Bench::default();
    let answers: Vec<String> = lines.iter().map(|line| answer(&mut bench, line)).collect();
    assert!(answers.iter().all(|answer| !answer.starts_with('?')));
    let end = &answers[answers.len() - 3..];
    let close = "0 whole n=1 codes=1,1,0 before=0 buf=655AC07EED008000";
    assert_eq!(end[0], close);
    assert!(end[1].starts_with("begun=1 delivered=1 "));
    assert_eq!(lines.last().map(String::as_str), Some("fresh"));
}

/// Every generated line has the answer that follows from comp's.
/// Among lines of every command, damaged ones are passed over.
#[test]
fn generated_lines() {
    let mut generator = Generator::new(Kind::Rooms, 5);
    for _ in 0..20_000 {
        hold(&generator.line());
    }
    let mut generator = Generator::new(Kind::Everything, 5);
    for _ in 0..20_000 {
        let line = generator.line();
        let given = answer(&mut Bench::default(), &line);
        if !given.starts_with('?') {
            hold(&line);
        }
    }
}

/// Says what a comparison stands on: each channel's tolerance less its difference.
/// Where there is no difference, it says how many rooms lack the channel.
fn stands(line: &str) -> [Result<i64, usize>; 3] {
    let words: Vec<&str> = line.split(' ').collect();
    let one = channels(&words[1..7]);
    let other = channels(&words[7..13]);
    [0, 1, 2].map(|place: usize| match (&one[place], &other[place]) {
        (Ok(one), Ok(other)) => {
            let tolerance: i64 = words[13 + place].parse().expect("a number");
            Ok(tolerance - (one - other).abs())
        }
        (one, other) => Err(usize::from(one.is_err()) + usize::from(other.is_err())),
    })
}

/// Comparisons stand on their edges: the difference itself, one less and one more, in every channel.
/// One room lacks a channel, or both do, and all three words come in every channel.
#[test]
fn generated_edges() {
    let mut generator = Generator::new(Kind::Rooms, 6);
    let lines: Vec<String> = (0..20_000).map(|_| generator.line()).collect();
    let rooms = lines.iter().filter(|line| line.starts_with("rooms "));
    let stands: Vec<_> = rooms.map(|line| stands(line)).collect();
    for place in 0..3 {
        let count = |wanted| stands.iter().filter(|stand| stand[place] == wanted).count();
        for wanted in [Ok(0), Ok(-1), Ok(1), Err(1), Err(2)] {
            assert!(count(wanted) > 200, "{place} {wanted:?} {}", count(wanted));
        }
    }
}
