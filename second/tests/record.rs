//! The folded record, held against the whole history that it was folded from.

use second::history::{
    running_at, shown_at, waiting_at, whole_at, Conversion, Finished, Happening,
};
use second::ledger::{deliveries, places, Ledger};
use second::part::Part;
use second::random::Random;
use second::record::Record;

/// Draws something that can happen next, by what the whole history tells.
/// Bursts give their addresses in order, from 0xF7 or a little before.
fn next(random: &mut Random, whole: &[Happening], open: bool, begun: u64) -> Option<Happening> {
    let end = whole.len();
    let running = running_at(whole, end);
    match random.below(100) {
        0 => Some(Happening::Reset),
        1..=24 => match running {
            Some(conversion) => Some(Happening::Finished(Finished {
                conversion,
                bytes: conversion.number.to_le_bytes(),
            })),
            None => Some(Happening::Begun(Conversion {
                number: begun + 1,
                codes: [random.below(8) as u8, 1, 2],
            })),
        },
        25..=84 if open => match whole.last() {
            Some(Happening::Given(0xFF)) => None,
            Some(Happening::Given(address)) => Some(Happening::Given(address + 1)),
            _ => Some(Happening::Given(
                random.pick(&[0xF7, 0xF7, 0xF7, 0xF2, 0xF8]),
            )),
        },
        85..=99 if open => Some(Happening::Closed),
        25..=60 => Some(Happening::Opened),
        _ => None,
    }
}

/// Counts the places of a whole history.
/// Every conversion has one place, and only one.
fn count(part: Part, whole: &[Happening], begun: u64) -> Ledger {
    let mut list = places(part, whole);
    list.sort_by_key(|(number, _)| *number);
    let numbers: Vec<u64> = list.iter().map(|(number, _)| *number).collect();
    assert_eq!(numbers, (1..=begun).collect::<Vec<u64>>());
    let mut ledger = Ledger::default();
    for (_, place) in list {
        ledger.count(place);
    }
    ledger
}

/// Random histories of both parts: the folded record answers as the whole history does.
/// The ledger, what runs and is shown, whole bursts and deliveries are compared.
#[test]
fn folding_changes_nothing() {
    for (seed, part) in [Part::Bme280, Part::Bmp280]
        .repeat(3)
        .into_iter()
        .enumerate()
    {
        let mut random = Random::new(seed as u64);
        let mut record = Record::fresh(part, 0);
        let mut whole: Vec<Happening> = Vec::new();
        let mut open = false;
        for round in 0..6_000 {
            let happening = match next(&mut random, &whole, open, record.begun()) {
                Some(happening) => happening,
                None => continue,
            };
            match happening {
                Happening::Begun(conversion) => record.begin(conversion.codes),
                other => record.add(other),
            }
            open = match happening {
                Happening::Opened => true,
                Happening::Closed | Happening::Reset => false,
                _ => open,
            };
            whole.push(happening);
            let end = whole.len();
            assert_eq!(record.running(), running_at(&whole, end));
            assert_eq!(record.shown(), shown_at(&whole, end));
            assert_eq!(record.whole(), whole_at(part, &whole, end));
            assert!(open || waiting_at(&whole, end).is_none());
            if round % 20 == 0 {
                assert_eq!(record.ledger(), count(part, &whole, record.begun()));
                if let Some(shown) = record.shown() {
                    let number = shown.conversion.number;
                    let found = deliveries(part, &whole)
                        .iter()
                        .any(|one| one.number == number);
                    assert_eq!(record.delivered(number), found);
                }
            }
        }
        assert!(record.begun() > 200);
    }
}
