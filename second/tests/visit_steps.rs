//! Lists of steps that are refused: each number with the step's place, and the order of the numbers.

use second::generate::trees::tree;
use second::numbers::Number::{self, *};
use second::random::Random;
use second::visits::cases::DRY;
use second::visits::words::{step, steps};
use second::visits::writer::{record, write};
use second::visits::{Refusal, Slot, Step};

/// Reads steps from a text of words.
/// It must be one.
fn list(text: &str) -> Vec<Step> {
    let words = text.split_ascii_whitespace().map(str::as_bytes);
    steps(words).expect("words of steps")
}

/// Holds a list to the number that refuses it, and its place.
/// The buffer stays as it was, however long it is.
fn refused(text: &str, number: Number, place: usize) {
    for length in [0, 31, 400] {
        let mut buffer = vec![0xAA; length];
        let refusal = Err(Refusal::at(number, place));
        assert_eq!(write(&list(text), &mut buffer), refusal, "{text}");
        assert!(buffer.iter().all(|byte| *byte == 0xAA));
    }
}

/// Steps that no record can have there: before, beside and after a slot, a group and the record.
/// An empty group can't be closed.
#[test]
fn out_of_place() {
    refused(")", TagOutOfPlace, 0);
    refused("7:1:2:3", TagOutOfPlace, 0);
    refused("( )", TagOutOfPlace, 1);
    refused("( ( ) )", TagOutOfPlace, 2);
    refused("( 7:1:2:3 7:1:2:3 )", TagOutOfPlace, 2);
    refused("( 7:1:2:3 ( 7:1:2:3 ) )", TagOutOfPlace, 2);
    refused("( ( 7:1:2:3 ) 7:1:2:3 )", TagOutOfPlace, 4);
    refused("( 7:1:2:3 ) )", TagOutOfPlace, 3);
    refused("( 7:1:2:3 ) (", TagOutOfPlace, 3);
    refused("( 7:1:2:3 ) 7:1:2:3", TagOutOfPlace, 3);
    refused("( ( 7:1:2:3 ) ( ) )", TagOutOfPlace, 5);
}

/// A list that ends too soon gives 19 with its length.
/// It comes after every step was looked at.
#[test]
fn ends_too_soon() {
    let whole = list("( ( 7:1:2:3 ) ( ( 7:1:2:3 ) ) )");
    for end in 0..whole.len() {
        assert_eq!(record(&whole[..end]), Err(Refusal::at(TagOutOfPlace, end)));
    }
    assert!(record(&whole).is_ok());
    refused("( ( ( ( (", TooDeep, 4);
    refused("( 7:1:2:102401", OutsideLimits, 1);
}

/// A fifth level, and what comes before it.
/// A group beside a slot on the fourth level is out of place first.
#[test]
fn too_deep() {
    refused("( ( ( ( ( 7:1:2:3 ) ) ) ) )", TooDeep, 4);
    refused("( ( ( ( 7:1:2:3 ) ( ( 7:1:2:3 ) ) ) ) )", TooDeep, 7);
    refused("( ( ( ( 7:1:2:3 ( ) ) ) )", TagOutOfPlace, 5);
    refused("( ( ( ( 7:1:2:3 ) ) ) ) (", TagOutOfPlace, 9);
    assert!(record(&list("( ( ( ( 7:1:2:3 ) ( 7:1:2:3 ) ) ) )")).is_ok());
}

/// Humidity at its limit and beyond, and every number a missing answer may and may not have.
/// A slot out of place is refused for that, whatever its values.
#[test]
fn limits() {
    let steps = |slot: Slot| [Step::Open, Step::Slot(slot), Step::Close];
    let beyond = Err(Refusal::at(OutsideLimits, 1));
    for number in (0..=300).chain([266, 1 << 31, u32::MAX]) {
        for slot in [
            Slot {
                temperature: Err(number),
                ..DRY
            },
            Slot {
                pressure: Err(number),
                ..DRY
            },
            Slot {
                humidity: Err(number),
                ..DRY
            },
        ] {
            match (10..=14).contains(&number) {
                true => assert_eq!(record(&steps(slot)).map(|bytes| bytes.len()), Ok(29)),
                false => assert_eq!(record(&steps(slot)), beyond),
            }
        }
    }
    for (value, taken) in [
        (0, true),
        (102_400, true),
        (102_401, false),
        (u32::MAX, false),
    ] {
        let slot = Slot {
            humidity: Ok(value),
            ..DRY
        };
        assert_eq!(record(&steps(slot)).is_ok(), taken, "{value}");
        let slot = Slot {
            pressure: Ok(value),
            time: value,
            temperature: Ok(value as i32),
            ..DRY
        };
        assert!(record(&steps(slot)).is_ok(), "{value}");
    }
    refused("7:!0:2:102401", TagOutOfPlace, 0);
    refused("( 7:1:2:3 7:!0:!9:!15 )", TagOutOfPlace, 2);
    refused("( 7:1:2:!15 7:1:2:3 )", OutsideLimits, 1);
}

/// A list is taken exactly where it is the steps of a tree of at most four levels.
/// All lists of up to ten steps are tried, with one slot for all.
#[test]
fn exactly_the_trees() {
    /// Counts the lists of so many steps that are the inside of a group with so many levels left.
    /// One slot, or one group or more.
    fn insides(length: usize, levels: usize) -> u64 {
        u64::from(length == 1) + groups(length, levels)
    }
    /// Counts the lists of so many steps that are one group or more.
    /// The first takes so many steps, the others what is left.
    fn groups(length: usize, levels: usize) -> u64 {
        if levels == 0 {
            return 0;
        }
        let first = |size: usize| insides(size - 2, levels - 1);
        let sizes = (3..length).map(|size| first(size) * groups(length - size, levels));
        sizes.sum::<u64>() + if length < 3 { 0 } else { first(length) }
    }
    let kinds = [Step::Open, Step::Slot(DRY), Step::Close];
    for length in 0..=11_usize {
        let mut taken = 0;
        for code in 0..3_usize.pow(length as u32) {
            let digit = |place: u32| kinds[code / 3_usize.pow(place) % 3];
            let steps: Vec<Step> = (0..length as u32).map(digit).collect();
            taken += u64::from(record(&steps).is_ok());
        }
        let expected = match length {
            0..=2 => 0,
            _ => insides(length - 2, 3),
        };
        assert_eq!(taken, expected, "{length}");
    }
}

/// Every step is read from the word that spells it.
/// Zeros in front and a minus before 0 make no difference.
#[test]
fn words_of_steps() {
    let mut random = Random::new(4);
    for _ in 0..2_000 {
        for read in tree(&mut random, 3, 2).steps() {
            let word = second::visits::words::spell(&read);
            assert_eq!(step(word.as_bytes()), Ok(read));
        }
    }
    assert_eq!(step(b"007:-0:00:!0010"), step(b"7:0:0:!10"));
    assert_eq!(
        step(b"0:-2147483648:4294967295:!4294967295").map(|_| ()),
        Ok(())
    );
}
