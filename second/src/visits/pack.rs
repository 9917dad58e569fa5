//! A text for people made into a record, or refused by the number of its first bad line.

use super::show::NAMES;
use super::{figures, writer, Slot, Step, DEEPEST};
use crate::words::split;

pub const LONGEST_TEXT: usize = 1_048_576;
const FIELDS: [&[u8]; 4] = [b"time", b"temperature", b"pressure", b"humidity"];
const INDENTATION: &str = "indentation is not 0, 2, 4, 6 or 8 spaces";
const WORD: &str =
    "this word is none of house, floor, room, reading, time, temperature, pressure, humidity";
const DEPTH: &str = "this line stands at the wrong depth";
const ORDER: &str = "time, temperature, pressure and humidity stand in this order";
const EMPTY: &str = "the group before this line is empty";
const PLACE: &str = "the number is not this group's place";

/// A text being read.
/// `places` has the number of groups opened so far at each open level, outermost first.
struct Packer {
    steps: Vec<Step>,
    places: Vec<u64>,
    slot: Slot,
    /// How many lines of its slot the innermost group has.
    fields: usize,
}

/// Takes a remark from a line's end: a space, a parenthesis and anything.
/// The indentation is gone already, so that a line never begins with the space.
fn without_remark(line: &[u8]) -> &[u8] {
    let start = line.windows(2).position(|two| two == b" (");
    &line[..start.unwrap_or(line.len())]
}

impl Packer {
    /// Starts with no house.
    /// The slot's values don't matter until its lines have come.
    fn new() -> Self {
        Packer {
            steps: Vec::new(),
            places: vec![0],
            slot: Slot {
                time: 0,
                temperature: Ok(0),
                pressure: Ok(0),
                humidity: Ok(0),
            },
            fields: 0,
        }
    }

    /// Gives the number of groups that are open.
    /// The record's own is counted.
    fn open(&self) -> usize {
        self.places.len() - 1
    }

    /// Takes a group's line, by the level of its indentation and by the level of its name, both from 0.
    /// It closes the groups of its own level and deeper.
    fn group(&mut self, level: usize, named: usize, words: &[&[u8]]) -> Result<(), &'static str> {
        let open = self.open();
        let second_house = level == 0 && self.places[0] > 0;
        let in_slot = level == open && self.fields > 0;
        if level != named || level > open || in_slot || second_house {
            return Err(DEPTH);
        }
        if level < open && (1..4).contains(&self.fields) {
            return Err(ORDER);
        }
        if level < open && self.fields == 0 {
            return Err(EMPTY);
        }
        let place = self.places[level] + 1;
        match words {
            [] => {}
            [number] if figures::decimal(number) == Some(place) => {}
            _ => return Err(PLACE),
        }
        self.steps.extend(vec![Step::Close; open - level]);
        self.steps.push(Step::Open);
        self.places.truncate(level + 1);
        self.places[level] = place;
        self.places.push(0);
        self.fields = 0;
        Ok(())
    }

    /// Takes a field's line, by the level of its indentation and its place in a slot.
    /// The slot is a step when its last line has come.
    fn field(&mut self, level: usize, field: usize, words: &[&[u8]]) -> Result<(), &'static str> {
        if self.open() == 0 || level != self.open() {
            return Err(DEPTH);
        }
        if field != self.fields {
            return Err(ORDER);
        }
        match field {
            0 => self.slot.time = figures::time(words)?,
            1 => self.slot.temperature = figures::temperature(words)?,
            2 => self.slot.pressure = figures::pressure(words)?,
            _ => {
                self.slot.humidity = figures::humidity(words)?;
                self.steps.push(Step::Slot(self.slot));
            }
        }
        self.fields += 1;
        Ok(())
    }

    /// Takes one line.
    /// Empty ones and comments are passed over, whatever their indentation.
    fn line(&mut self, line: &[u8]) -> Result<(), &'static str> {
        let spaces = line.iter().take_while(|byte| **byte == b' ').count();
        let rest = &line[spaces..];
        if rest.is_empty() || rest[0] == b'#' {
            return Ok(());
        }
        if spaces % 2 != 0 || spaces / 2 > DEEPEST {
            return Err(INDENTATION);
        }
        let words = split(without_remark(rest));
        let (name, words) = (words[0], &words[1..]);
        if let Some(named) = NAMES.iter().position(|known| known.as_bytes() == name) {
            return self.group(spaces / 2, named, words);
        }
        let field = FIELDS.iter().position(|known| *known == name);
        self.field(spaces / 2, field.ok_or(WORD)?, words)
    }

    /// Closes what is open at the end of the text.
    /// The innermost group must have its whole slot.
    fn end(&mut self) -> Result<(), &'static str> {
        if self.open() == 0 || self.fields < 4 {
            return Err("the text ends too soon");
        }
        self.steps.extend(vec![Step::Close; self.open()]);
        Ok(())
    }
}

/// Gives the steps of a text, or the line that says why it has none.
/// Lines are counted from 1; what is wrong with the end is said of the line after the last.
fn steps(text: &[u8]) -> Result<Vec<Step>, String> {
    let said = |number: usize, reason| format!("visit pack: line {number}: {reason}");
    let mut packer = Packer::new();
    let mut count = 0;
    let whole = text.strip_suffix(b"\n").unwrap_or(text);
    if !text.is_empty() {
        for line in whole.split(|byte| *byte == b'\n') {
            count += 1;
            packer.line(line).map_err(|reason| said(count, reason))?;
        }
    }
    packer.end().map_err(|reason| said(count + 1, reason))?;
    Ok(packer.steps)
}

/// Makes a record of a text, or gives the line that says why there is none.
/// The text's length comes first, then its lines, then the record's length.
pub fn pack(text: &[u8]) -> Result<Vec<u8>, String> {
    if text.len() > LONGEST_TEXT {
        return Err(String::from(
            "visit pack: the text has more than 1,048,576 bytes",
        ));
    }
    writer::record(&steps(text)?)
        .map_err(|_| String::from("visit pack: the record would have more than 65,535 bytes (2)"))
}
