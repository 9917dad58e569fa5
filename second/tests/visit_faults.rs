//! The first fault of a record, found once more by calls within calls, and held to the reader.

use second::generate::files;
use second::numbers::Number::{self, *};
use second::visits::cases::{nested, SKIPPED};
use second::visits::reader::read;
use second::visits::writer::fields;

/// A fault: its number and its offset.
type Fault = (Number, usize);

/// Checks a field's header between two offsets and gives its tag and its end: 18, 19, 20.
/// It is the paper's sentence once more, as a call that the group's reader makes.
fn header(bytes: &[u8], at: usize, end: usize, tags: &[u8]) -> Result<(u8, usize), Fault> {
    if end - at < 3 {
        return Err((CutShort, at));
    }
    let length = usize::from(bytes[at + 1]) << 8 | usize::from(bytes[at + 2]);
    let tag = bytes[at];
    let wanted = if tag == 7 { 2 } else { 4 };
    if at + 3 + length > end {
        Err((CutShort, at))
    } else if !tags.contains(&tag) {
        Err((TagOutOfPlace, at))
    } else if tag != 1 && length != wanted {
        Err((WrongFieldLength, at))
    } else {
        Ok((tag, at + 3 + length))
    }
}

/// Says whether the value of a field lies outside its limits.
/// The place is the channel's number: 3, 4 or 6.
fn outside(body: &[u8], tag: u8, place: u8) -> bool {
    let sum = |bytes: &[u8]| {
        bytes
            .iter()
            .fold(0, |sum, byte| sum * 256 + u64::from(*byte))
    };
    match tag {
        5 => sum(body) > 16_777_215,
        6 => sum(body) > 102_400,
        7 => body[0] != place || body[1] < 10 || body[1] > 14,
        _ => false,
    }
}

/// Reads a group's inside between two offsets, each group in it by the same call.
/// The levels left fall by one each time.
fn inside(bytes: &[u8], at: usize, end: usize, left: usize) -> Result<(), Fault> {
    let (tag, mut next) = header(bytes, at, end, &[1, 2])?;
    if tag == 2 {
        for (place, tags) in [(3, &[3, 7][..]), (4, &[4, 5, 7]), (6, &[6, 7])] {
            let (tag, after) = header(bytes, next, end, tags)?;
            if outside(&bytes[next + 3..after], tag, place) {
                return Err((OutsideLimits, next));
            }
            next = after;
        }
        return if next < end {
            Err((TagOutOfPlace, next))
        } else {
            Ok(())
        };
    }
    let mut start = at;
    loop {
        if left == 0 {
            return Err((TooDeep, start));
        }
        inside(bytes, start + 3, next, left - 1)?;
        if next == end {
            return Ok(());
        }
        start = next;
        next = header(bytes, start, end, &[1])?.1;
    }
}

/// Gives the first fault of a record, by calls within calls.
/// Records over the limit are not asked.
fn first_fault(bytes: &[u8]) -> Result<(), Fault> {
    let (_, end) = header(bytes, 0, bytes.len(), &[1])?;
    inside(bytes, 3, end, 3)?;
    if end < bytes.len() {
        Err((TagOutOfPlace, end))
    } else {
        Ok(())
    }
}

/// The first fault is the same, found by a list of ends or by calls within calls.
/// Damaged records of every size are held to it, and short ones of every byte.
#[test]
fn the_first_fault_decides() {
    let held = |bytes: &[u8]| {
        let given = read(bytes).map(|_| ());
        let fault = given.map_err(|refused| (refused.number, refused.at.expect("an offset")));
        assert_eq!(fault, first_fault(bytes), "{bytes:02X?}");
    };
    for place in 0..480 {
        let bytes = files::record(place, 9);
        if bytes.len() <= 65_535 {
            held(&bytes);
        }
    }
    for place in 0..40_000 {
        held(&files::record(place | 15, place));
    }
    let whole = nested(2, &fields(&SKIPPED));
    for place in 0..whole.len() {
        for byte in 0..=255 {
            let mut bytes = whole.clone();
            bytes[place] = byte;
            held(&bytes);
            bytes.insert(place, byte);
            held(&bytes);
        }
    }
}
