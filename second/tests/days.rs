//! Days: each place answers as comp does, and what is refused whole.

mod common;

use common::{answer, check};
use second::calibration::blocks;
use second::compensation::{Reading, Temperature};
use second::day::cases::{self, flat, Place, AIR};
use second::day::{fill, lacking, Outcome, FLAT};
use second::generate::{Generator, Kind};
use second::lines::Bench;
use second::numbers::Number;
use second::words::LONGEST_LINE;

/// The example chip of the bench's page, spelled by hand.
const CHIP: &str = "706B436718FC7D8E43D6D00B270B8C00F9FF8C3CF8C67017004B 6A0100142F031E";

/// Asks comp for one flat reading, given as its 22 hex digits, on a fresh bench.
/// The 0 in front is taken off; a refusal is its number alone.
fn compared(blocks: &str, digits: &str) -> String {
    let codes = [16, 18, 20].map(|start| {
        let code = u8::from_str_radix(&digits[start..start + 2], 16);
        code.expect("two digits").to_string()
    });
    let line = format!("comp {blocks} {} {}", &digits[..16], codes.join(" "));
    let given = answer(&mut Bench::default(), &line);
    given.strip_prefix("0 ").unwrap_or(&given).to_string()
}

/// Works out the answer to a day's line: 2 by its lengths, else comp's answers in their order.
/// The line's words are right.
fn expected(line: &str) -> String {
    let words: Vec<&str> = line.split(' ').collect();
    let [one, two, readings] = [1, 2, 3].map(|place: usize| words[place].trim_matches('-'));
    let length: usize = words[4].parse().expect("a length");
    if one.len() != 52 || two.len() != 14 || readings.len() != 22 * length {
        return String::from("2");
    }
    let blocks = format!("{one} {two}");
    let places = (0..length).map(|place| compared(&blocks, &readings[22 * place..22 * place + 22]));
    let answers: Vec<String> = places.collect();
    format!("0 {}", answers.join(" ; ")).trim_end().to_string()
}

/// Holds a line to comp, if it is a day's and is read at all.
/// Gives whether it was.
fn hold(line: &str) -> bool {
    let given = answer(&mut Bench::default(), line);
    let held = line.starts_with("day ") && !given.starts_with('?');
    if held {
        assert_eq!(given, expected(line), "{line}");
    }
    held
}

/// The paper's readings as days: K1 and K2, K3, K5 and K6, K14.
/// All bytes are spelled by hand.
#[test]
fn the_papers_readings() {
    let k2 = "706B436718FC7D8E43D6D00B270B8C00F9FF8C3CF8C670170000 00000000000000";
    let k3 = format!("000001{} {}", "00".repeat(23), "00".repeat(7));
    let k5 = format!("00000008{}4B 6A010000000000", "00".repeat(21));
    let data = "655AC07EED000000";
    check(&format!(
        "day {k2} {data}010000 1 => 0 t=2508 fine=128422 p!10 h!10
         day {k2} {data}010100 1 => 0 t=2508 fine=128422 p=25767233 h!10
         day {k2} {data}010100{data}010000 2 => 0 t=2508 fine=128422 p=25767233 h!10 ; t=2508 fine=128422 p!10 h!10
         day {k2} {data}000100{data}010108 2 => 0 t!10 p!11 h!10 ; 7
         day {k3} 000000B504F00000010000000000B505000000010000 2 => 0 t=1 fine=45 p!10 h!10 ; t!12 p!10 h!10
         day {k5} 00000096000020000100010000009600008000010001 2 => 0 t=1500 fine=76800 p!10 h=46036 ; t=1500 fine=76800 p!10 h=102400
         day {CHIP} 655AC07EED006E00010101 1 => 0 t=2508 fine=128422 p=25767233 h=37771"
    ));
}

/// Two empty lists with right blocks are done.
/// Everything else that has a wrong length gives 2, whatever the codes are.
#[test]
fn lengths() {
    let [one, two] = [&CHIP[..52], &CHIP[53..]];
    let good = "655AC07EED006E00010101";
    let bad = "655AC07EED006E00FF0101";
    check(&format!(
        "day {CHIP} - 0 => 0
         day {CHIP} - 00 => 0
         day {CHIP} - 1 => 2
         day {CHIP} - 256 => 2
         day {CHIP} - 257 => ? too long
         day {one} - - 0 => 2
         day - {two} - 0 => 2
         day - - - 0 => 2
         day {two} {one} - 0 => 2
         day {one}00 {two} - 0 => 2
         day {CHIP}00 - 0 => 2
         day {one} {two}00 {good} 1 => 2
         day {CHIP} {good} 0 => 2
         day {CHIP} {good} 2 => 2
         day {CHIP} {good}65 1 => 2
         day {CHIP} {good}65 2 => 2
         day {CHIP} {good}{good} 1 => 2
         day {CHIP} {bad}{good} 3 => 2
         day {CHIP} 655AC07EED006E000101 1 => 2
         day {CHIP} 655AC07EED006E000101 0 => 2
         day {CHIP} {bad} 1 => 0 7
         day {CHIP} {bad}{bad} 2 => 0 7 ; 7"
    ));
}

/// Every fixed line and every generated one answers at each place as comp does.
/// The days of the fixed lines are most of them.
#[test]
fn places_are_comps() {
    let lines = cases::lines();
    let held = lines.iter().filter(|line| hold(line)).count();
    assert!(held > 350, "{held}");
    for (kind, seed, least) in [(Kind::Days, 5, 1_800), (Kind::Everything, 5, 20)] {
        let mut generator = Generator::new(kind, seed);
        let held = (0..2_000).filter(|_| hold(&generator.line())).count();
        assert!(held > least, "{kind:?} {held}");
    }
}

/// A day of two lists joined answers what both answer, one after the other.
/// Days of one chip are cut at each place.
#[test]
fn joined_lists() {
    let places = cases::moving(12);
    let whole = answer(&mut Bench::default(), &cases::day(&cases::chip(), &places));
    let part = |places: &[Place]| {
        let given = answer(&mut Bench::default(), &cases::day(&cases::chip(), places));
        given[1..].to_string()
    };
    for cut in 1..places.len() {
        let (one, other) = places.split_at(cut);
        assert_eq!(whole, format!("0{} ;{}", part(one), part(other)));
    }
    assert_eq!(part(&[]), "");
}

/// A refusal leaves the lent list as it was, and a day that is done fills each place of it.
/// The list is filled with a mark before.
#[test]
fn refusals_write_nothing() {
    let mark: Outcome = Err(Number::NeverReady);
    let (one, two) = blocks(&cases::chip());
    let bytes = flat(&[(AIR[0], [1, 1, 0]), (AIR[1], [1, 1, 9])]);
    let cases = [
        (&one[..25], &two[..], &bytes[..], 2),
        (&one, &two[..6], &bytes, 2),
        (&one, &two, &bytes[..21], 2),
        (&one, &two, &bytes[..21], 1),
        (&one, &two, &bytes, 1),
        (&one, &two, &bytes, 3),
        (&one, &two, &bytes[..0], 1),
    ];
    for (one, two, bytes, length) in cases {
        let mut list = vec![mark; length];
        let given = fill(one, two, bytes, &mut list);
        assert_eq!(given, Err(Number::WrongLength));
        assert_eq!(list, vec![mark; length]);
    }
    let mut list = vec![mark; 2];
    assert_eq!(fill(&one, &two, &bytes, &mut list), Ok(()));
    let first = Reading {
        temperature: Ok(Temperature {
            value: 2508,
            fine: 128_422,
        }),
        pressure: Ok(25_767_233),
        humidity: Err(Number::Skipped),
    };
    assert_eq!(list, [Ok(first), Err(Number::OutOfRange)]);
    assert_eq!(fill(&one, &two, &[], &mut []), Ok(()));
}

/// The rooms differ from each other in every channel, and the long day's neighbours in their answers.
/// So a place that takes its neighbour's bytes or codes is seen.
#[test]
fn neighbours_differ() {
    let given = |places: &[Place]| -> Vec<String> {
        let text = answer(&mut Bench::default(), &cases::day(&cases::chip(), places));
        text[2..].split(" ; ").map(String::from).collect()
    };
    let rooms = given(&cases::rooms());
    for (one, other) in [(0, 1), (1, 2), (2, 0)] {
        let pairs = rooms[one].split(' ').zip(rooms[other].split(' '));
        assert!(pairs.clone().count() == 4 && pairs.into_iter().all(|(one, other)| one != other));
    }
    let long = given(&cases::moving(182));
    assert_eq!(long.len(), 182);
    assert!(long.windows(2).all(|pair| pair[0] != pair[1]));
    let of = |codes: [u8; 3]| {
        cases::moving(182)
            .iter()
            .filter(|place| place.1 == codes)
            .count()
    };
    assert!(of([1, 1, 1]) > 15 && of([0, 0, 0]) > 15 && of([8, 1, 1]) > 15);
}

/// The chips that lack a channel do so by the number that they should, and have every channel otherwise.
/// Their other two readings differ.
#[test]
fn lacking_chips() {
    let wanted = ["t!12 p!11 h!11", "p!12", "p!13", "p!14", "p!14", "h!12"];
    for (chip, wanted) in lacking::chips().iter().zip(wanted) {
        let counts = [chip.without, chip.with[0], chip.with[1]];
        let line = cases::day(&chip.words, &counts.map(|counts| (counts, [1, 1, 1])));
        let text = answer(&mut Bench::default(), &line);
        let places: Vec<&str> = text[2..].split(" ; ").collect();
        let missing: Vec<&str> = places[0]
            .split(' ')
            .filter(|word| word.contains('!'))
            .collect();
        assert_eq!(missing.join(" "), wanted, "{text}");
        assert!(
            !places[1].contains('!') && !places[2].contains('!'),
            "{text}"
        );
        assert_ne!(places[1], places[2]);
    }
}

/// The fixed lines are a few hundred, reach every number and reason, and end in the fresh state.
/// The burst among them stays whole, and the longest lines stand on the limit.
#[test]
fn fixed_lines() {
    let lines = cases::lines();
    assert!((400..600).contains(&lines.len()), "{}", lines.len());
    let mut bench = Bench::default();
    let answers: Vec<String> = lines.iter().map(|line| answer(&mut bench, line)).collect();
    let text = answers.join("\n");
    for part in [
        "\n2\n",
        "\n0\n",
        " 7 ;",
        "t!10",
        "p!11",
        "t!12",
        "p!13",
        "p!14",
        "h!12",
        "? unknown word",
        "? wrong number of words",
        "? not a number",
        "? odd hex",
        "? too long",
    ] {
        assert!(text.contains(part), "{part}");
    }
    let end = &answers[answers.len() - 3..];
    let close = "0 whole n=1 codes=1,1,0 before=0 buf=655AC07EED008000";
    assert_eq!(end[0], close);
    assert!(end[1].starts_with("begun=1 delivered=1 "));
    assert_eq!(lines.last().map(String::as_str), Some("fresh"));
    for (bytes, most) in [(4_080, 182), (LONGEST_LINE, 182)] {
        let with = lines
            .iter()
            .zip(&answers)
            .filter(|(line, _)| line.len() == bytes);
        let full = with
            .filter(|(_, answer)| answer.matches(" ;").count() == most - 1)
            .count();
        assert_eq!(full, 1, "{bytes}");
    }
    for (line, answer) in lines.iter().zip(&answers) {
        assert!(line.len() <= LONGEST_LINE || answer == "? too long");
    }
    for bytes in [LONGEST_LINE + 1, 4_080 + 2 * FLAT] {
        assert!(lines.iter().any(|line| line.len() == bytes), "{bytes}");
    }
}

/// What the words of the line may be.
/// The number of words comes first, then the words from left to right.
#[test]
fn reasons() {
    let cases = [
        ("unknown word", "Day - - - 0|days - - - 0| day - - - 0|day\t- - - 0"),
        ("wrong number of words", "day|day |day - - -|day - - - 0 |day - - - 0 0|day  - - - 0|day x x x"),
        ("not a number", "day - - - |day  - - 0|day - - - x|day - - - -1|day - - - 4294967296|day G - 0 0|day - 0G - 0|day - - -- 0|day - - 0x 257"),
        ("odd hex", "day 0 - - x|day - 000 G 0|day - - 0 257|day - - 00000 x"),
        ("too long", "day - - - 257|day - - 00 4294967295|day 00 - - 0257"),
    ];
    for (reason, lines) in cases {
        for line in lines.split('|') {
            let given = answer(&mut Bench::default(), line);
            assert_eq!(given, format!("? {reason}"), "{line}");
        }
    }
}
