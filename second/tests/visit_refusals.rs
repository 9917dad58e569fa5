//! Records that are refused: each number at each place, and the first fault of several.

use second::numbers::Number::{self, *};
use second::visits::cases::{nested, DRY, SKIPPED};
use second::visits::reader::{fill, read};
use second::visits::trees::group;
use second::visits::writer::fields;
use second::visits::Step;

/// Gives the refusal of a record.
/// It must be refused.
fn refusal(bytes: &[u8]) -> (Number, Option<usize>) {
    let refused = read(bytes).expect_err("the record is refused");
    (refused.number, refused.at)
}

/// Holds a record to the number that refuses it, and its offset.
/// The list stays as it was.
fn refused(bytes: &[u8], number: Number, at: usize) {
    assert_eq!(refusal(bytes), (number, Some(at)), "{bytes:02X?}");
    let mut list = [Step::Slot(DRY); 4];
    assert!(fill(bytes, &mut list).is_err());
    assert_eq!(list, [Step::Slot(DRY); 4]);
}

/// Gives the field of a tag and a body.
/// The body is short.
fn field(tag: u8, body: &[u8]) -> Vec<u8> {
    [&[tag, 0, body.len() as u8][..], body].concat()
}

/// Cut short: any cut of a record, an empty record, an empty group at each level.
/// The offset is that of the field that runs past its end.
#[test]
fn cut_short() {
    let whole = nested(2, &fields(&SKIPPED));
    for end in 0..whole.len() {
        refused(&whole[..end], CutShort, 0);
    }
    for levels in 1..=4 {
        refused(&nested(levels, &[]), CutShort, 3 * levels);
        for lone in [&[9][..], &[9, 0], &[9, 0, 1], &[1, 1, 0, 1]] {
            refused(&nested(levels, lone), CutShort, 3 * levels);
        }
    }
    let slot = fields(&DRY);
    for (end, at) in [(7, 10), (14, 17), (21, 24), (27, 24), (23, 24), (10, 10)] {
        refused(&group(&slot[..end]), CutShort, at);
    }
    refused(&group(&[&group(&slot)[..], &[1]].concat()), CutShort, 34);
    refused(
        &group(&[&group(&slot)[..], &group(&[])].concat()),
        CutShort,
        37,
    );
}

/// Tags out of place, in each of a slot's places and in a group.
/// Bytes left after a slot or after the record are out of place, whatever they are.
#[test]
fn out_of_place() {
    let slot = fields(&DRY);
    let places: [(usize, &[u8]); 4] = [(0, &[2]), (7, &[3, 7]), (14, &[4, 5, 7]), (21, &[6, 7])];
    for (start, allowed) in places {
        for tag in (0..=255).filter(|tag| !allowed.contains(tag)) {
            let mut body = slot.clone();
            body[start] = tag;
            match (start, tag) {
                (0, 1) => refused(&group(&body), CutShort, 6),
                _ => refused(&group(&body), TagOutOfPlace, 3 + start),
            }
        }
    }
    let inner = group(&slot);
    for extra in [
        &[0][..],
        &[1],
        &[1, 0, 0],
        &[1, 0xFF, 0xFF],
        &[2, 0, 4],
        &inner,
    ] {
        refused(&[&inner, extra].concat(), TagOutOfPlace, inner.len());
        refused(
            &group(&[&slot, extra].concat()),
            TagOutOfPlace,
            3 + slot.len(),
        );
    }
    refused(&group(&[&inner[..], &slot].concat()), TagOutOfPlace, 34);
    refused(
        &group(&[&inner[..], &[9, 0, 0]].concat()),
        TagOutOfPlace,
        34,
    );
    refused(&slot, TagOutOfPlace, 0);
    let fault = group(&[&group(&slot[..14])[..], &[0]].concat());
    refused(&[&fault[..], &[0]].concat(), CutShort, 20);
}

/// Wrong lengths, of each field; the tag is looked at before, the value after.
/// A group may have any length.
#[test]
fn wrong_lengths() {
    let slot = fields(&DRY);
    for start in [0, 7, 14, 21] {
        for tag in [slot[start], 7] {
            for length in (0..7).filter(|length| *length != if tag == 7 { 2 } else { 4 }) {
                let wrong = field(tag, &vec![0xFF; length]);
                let body = [&slot[..start], &wrong, &slot[start + 7..]].concat();
                let number = match (start, tag) {
                    (0, 7) => TagOutOfPlace,
                    _ => WrongFieldLength,
                };
                refused(&group(&body), number, 3 + start);
            }
        }
    }
}

/// A fifth level is refused at its tag, whatever stands in it.
/// A body that runs past comes first, and so does a wrong tag.
#[test]
fn too_deep() {
    for inside in [&fields(&DRY)[..], &[], &[9], &[1, 0, 0]] {
        refused(&nested(5, inside), TooDeep, 12);
        refused(&nested(6, inside), TooDeep, 12);
    }
    refused(&nested(4, &[1, 0, 1]), CutShort, 12);
    refused(&nested(4, &[1, 0]), CutShort, 12);
    refused(&nested(4, &[9, 0, 0]), TagOutOfPlace, 12);
    assert_eq!(
        read(&nested(4, &fields(&DRY))).map(|steps| steps.len()),
        Ok(9)
    );
}

/// Limits of humidity and of whole pascals, and missing answers of each channel and number.
/// Every temperature and every pressure of four bytes is taken.
#[test]
fn limits() {
    let slot = fields(&DRY);
    let with = |start: usize, tag: u8, body: &[u8]| {
        group(&[&slot[..start], &field(tag, body), &slot[start + 7..]].concat())
    };
    let word = |tag: u8, value: u32| match tag {
        3 => with(7, tag, &value.to_be_bytes()),
        6 => with(21, tag, &value.to_be_bytes()),
        _ => with(14, tag, &value.to_be_bytes()),
    };
    for value in [102_401, 131_072, 1 << 31, u32::MAX] {
        refused(&word(6, value), OutsideLimits, 24);
    }
    for value in [16_777_216, 1 << 31, u32::MAX] {
        refused(&word(5, value), OutsideLimits, 17);
    }
    for (tag, value) in [
        (6, 102_400),
        (5, 16_777_215),
        (5, 0),
        (4, u32::MAX),
        (3, 1 << 31),
    ] {
        let steps = read(&word(tag, value)).expect("within the limits");
        match (tag, steps[1]) {
            (6, Step::Slot(slot)) => assert_eq!(slot.humidity, Ok(value)),
            (5, Step::Slot(slot)) => assert_eq!(slot.pressure, Ok(value * 256)),
            (4, Step::Slot(slot)) => assert_eq!(slot.pressure, Ok(value)),
            (_, Step::Slot(slot)) => assert_eq!(slot.temperature, Ok(i32::MIN)),
            _ => panic!("a slot"),
        }
    }
    for (start, channel) in [(7, 3), (14, 4), (21, 6)] {
        for number in 0..=255 {
            for named in 0..=8 {
                let record = with(start, 7, &[named, number]);
                match named == channel && (10..=14).contains(&number) {
                    true => assert!(read(&record).is_ok()),
                    false => refused(&record, OutsideLimits, 3 + start),
                }
            }
        }
    }
}
