//! Loggers' files: where a cut one ends, and what generated ones hold.

use second::calibration::blocks;
use second::day::cases::{chip, flat, AIR};
use second::day::file::{File, BLOCKS};
use second::day::texts::{csv, table};
use second::day::FLAT;
use second::generate::day_files::file;
use second::lines::Bench;
use second::spelling::hex;
use std::collections::BTreeSet;

/// A file cut at every length up to 60 says so, and where.
/// It is whole at 33, 44 and 55 bytes.
#[test]
fn cut_files() {
    let (one, two) = blocks(&chip());
    let places = AIR.map(|counts| (counts, [1, 1, 1]));
    let whole = [one, two, flat(&places)].concat();
    for length in 0..=60_usize {
        let said = File::read(&whole[..length]).map(|_| ());
        let start = format!("day: the file is cut: it ends at byte {length}, ");
        let (bytes, reading) = match length {
            0..=32 => {
                assert_eq!(said, Err(start + "within the 33 calibration bytes"));
                continue;
            }
            33 | 44 | 55 => {
                assert_eq!(said, Ok(()), "{length}");
                continue;
            }
            34..=43 => (length - 33, 1),
            45..=54 => (length - 44, 2),
            _ => (length - 55, 3),
        };
        assert_eq!(
            said,
            Err(format!(
                "{start}with {bytes} of the 11 bytes of reading {reading}"
            ))
        );
    }
    let long = vec![0; 100];
    let said = "day: the file is cut: it ends at byte 100, with 1 of the 11 bytes of reading 7";
    assert_eq!(File::read(&long).err(), Some(said.to_string()));
    let said = "day: the file is cut: it ends at byte 20, within the 33 calibration bytes";
    assert_eq!(File::read(&long[..20]).err(), Some(said.to_string()));
}

/// Generated files are the same each time, and others by another seed.
/// Files beside each other have other chips.
#[test]
fn seeds_decide() {
    for place in 8..40 {
        assert_eq!(file(place, 3), file(place, 3));
    }
    assert_ne!(file(8, 3), file(8, 4));
    assert_ne!(file(12, 3)[..BLOCKS], file(13, 3)[..BLOCKS]);
}

/// Of the generated files some are empty, some have no reading, some are cut in the blocks and some later.
/// Most have up to 300 readings, and a few have thousands.
#[test]
fn kinds_of_files() {
    let (mut empty, mut bare, mut early, mut late, mut usual, mut large) = (0, 0, 0, 0, 0, 0);
    for bytes in (0..320).map(|place| file(place, 6)) {
        match (bytes.len(), File::read(&bytes)) {
            (0, _) => empty += 1,
            (BLOCKS, _) => bare += 1,
            (1..=32, Err(_)) => early += 1,
            (_, Err(_)) => late += 1,
            (length, Ok(_)) if length <= BLOCKS + 300 * FLAT => usual += 1,
            _ => large += 1,
        }
    }
    assert!(
        empty >= 10 && bare >= 10 && early >= 10,
        "{empty} {bare} {early}"
    );
    assert!(
        late >= 25 && usual >= 200 && large == 20,
        "{late} {usual} {large}"
    );
}

/// Every number comes in every channel that can have it, and every channel is there in most files.
/// Pressures come that are just as wide as their cell, and one less.
#[test]
fn numbers_and_widths() {
    let mut seen = BTreeSet::new();
    let mut widths = BTreeSet::new();
    for bytes in (0..160).map(|place| file(place, 7)) {
        let whole = match File::read(&bytes) {
            Ok(whole) => whole,
            Err(_) => continue,
        };
        let (mut rows, mut lines) = (Vec::new(), Vec::new());
        csv(&whole, &mut rows).expect("a list can be written to");
        table(&whole, &mut lines).expect("a list can be written to");
        let [rows, lines] = [rows, lines].map(|text| String::from_utf8(text).expect("a text"));
        for (row, line) in rows.lines().zip(lines.lines()).skip(1) {
            let cells: Vec<&str> = row.split(',').collect();
            seen.extend([2, 4, 6].map(|place: usize| (place, cells[place].to_string())));
            widths.insert(cells[3].len());
            assert_eq!(cells.len(), 7);
            assert!(
                line.starts_with(cells[0]) && line.ends_with(cells[5]),
                "{line}"
            );
        }
    }
    for (place, numbers) in [
        (2, "0 7 10 12"),
        (4, "0 7 10 11 12 13 14"),
        (6, "0 7 10 11 12"),
    ] {
        let found: BTreeSet<&str> = seen
            .iter()
            .filter(|(at, _)| *at == place)
            .map(|(_, number)| number.as_str())
            .collect();
        assert_eq!(found, numbers.split(' ').collect(), "{place}");
    }
    assert!(
        [15, 16, 17].iter().all(|width| widths.contains(width)),
        "{widths:?}"
    );
}

/// Spells a row's cells from comp's answer, by the processor's own division and rounding.
/// All three divisions are exact, or to two decimals.
fn cells(given: &str) -> Vec<String> {
    let channel = |(letter, divisor, places): (char, f64, usize)| {
        let word = given.split(' ').find(|word| word.starts_with(letter));
        let word = word.unwrap_or("").trim_start_matches(letter);
        match word.strip_prefix('=') {
            Some(value) => {
                let value: f64 = value.parse().expect("a value");
                let text = format!("{:.places$}", value / divisor);
                let short = text.trim_end_matches('0').trim_end_matches('.');
                let text = if letter == 't' { &text } else { short };
                format!("{text},0")
            }
            None if word.is_empty() => format!(",{given}"),
            None => format!(",{}", word.trim_start_matches('!')),
        }
    };
    let channels = [('t', 100.0, 2), ('p', 256.0, 8), ('h', 1024.0, 10)];
    channels.map(channel).to_vec()
}

/// Every row of generated files says what comp says of the same bytes.
/// The reading is asked for on the bench.
#[test]
fn rows_are_comps() {
    let mut bench = Bench::default();
    for bytes in (0..96).map(|place| file(place, 8)) {
        let mut rows = Vec::new();
        match File::read(&bytes) {
            Ok(whole) => csv(&whole, &mut rows).expect("a list can be written to"),
            Err(_) => continue,
        }
        let rows = String::from_utf8(rows).expect("a text");
        assert_eq!(rows.lines().count(), 1 + (bytes.len() - BLOCKS) / FLAT);
        let [one, two] = [&bytes[..26], &bytes[26..BLOCKS]].map(hex);
        for (place, row) in rows.lines().enumerate().skip(1) {
            let start = BLOCKS + FLAT * (place - 1);
            let (data, codes) = bytes[start..start + FLAT].split_at(8);
            let [t, p, h] = [codes[0], codes[1], codes[2]];
            let line = format!("comp {one} {two} {} {t} {p} {h}", hex(data));
            let mut given = Vec::new();
            bench.answer(line.as_bytes(), &mut given);
            let cells = cells(String::from_utf8_lossy(&given).trim_end());
            assert_eq!(row, format!("{place},{}", cells.join(",")), "{line}");
        }
    }
}
