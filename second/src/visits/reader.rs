//! The reader of visit records: bytes into steps, field by field, with the first fault found.
//!
//! The open groups are kept as a list of their ends; there is no call within a call.

use super::{is_missing_number, Refusal, Slot, Step};
use super::{Channel, DEEPEST, HIGHEST_HUMIDITY, HIGHEST_PASCALS, LONGEST_RECORD};
use crate::numbers::Number;

const HEADER: usize = 3;
const GROUP: u8 = 1;
const TIME: u8 = 2;
const TEMPERATURE: u8 = 3;
const PRESSURE: u8 = 4;
const PASCALS: u8 = 5;
const HUMIDITY: u8 = 6;
const MISSING: u8 = 7;

/// A field that stands within its group and in its place, with the right length.
/// Its values are not looked at yet.
struct Field<'a> {
    at: usize,
    tag: u8,
    body: &'a [u8],
}

impl Field<'_> {
    /// Gives the body's four bytes as one number, the high byte first.
    /// Only fields of four bytes are asked.
    fn word(&self) -> u32 {
        let bytes = self.body.iter();
        bytes.fold(0, |word, byte| word << 8 | u32::from(*byte))
    }

    /// Gives a refusal at this field's tag.
    /// The place is the tag's offset.
    fn refused(&self, number: Number) -> Refusal {
        Refusal::at(number, self.at)
    }
}

/// The record being read: the next byte's offset, the ends of the open groups, and the steps so far.
struct Reader<'a> {
    record: &'a [u8],
    next: usize,
    ends: Vec<usize>,
    steps: Vec<Step>,
}

/// Gives the length that a field's body must have.
/// A group may have any.
fn fixed_length(tag: u8) -> Option<usize> {
    match tag {
        GROUP => None,
        MISSING => Some(2),
        _ => Some(4),
    }
}

impl<'a> Reader<'a> {
    /// Gives the end of the innermost open group.
    /// Where none is open it is the record's.
    fn end(&self) -> usize {
        self.ends.last().copied().unwrap_or(self.record.len())
    }

    /// Reads the next field up to its body: 18, then 19, then 20.
    /// The tags are those that may stand here.
    fn field(&mut self, tags: &[u8]) -> Result<Field<'a>, Refusal> {
        let at = self.next;
        let rest = &self.record[at..self.end()];
        let cut = Refusal::at(Number::CutShort, at);
        let (tag, high, low) = match *rest {
            [tag, high, low, ..] => (tag, high, low),
            _ => return Err(cut),
        };
        let length = usize::from(high) * 256 + usize::from(low);
        let body = rest.get(HEADER..HEADER + length).ok_or(cut)?;
        if !tags.contains(&tag) {
            return Err(Refusal::at(Number::TagOutOfPlace, at));
        }
        if fixed_length(tag).map_or(false, |fixed| fixed != length) {
            return Err(Refusal::at(Number::WrongFieldLength, at));
        }
        self.next = at + HEADER + length;
        Ok(Field { at, tag, body })
    }

    /// Goes into a group whose field has just been read.
    /// The fifth level gives 21.
    fn open(&mut self, field: &Field<'a>) -> Result<(), Refusal> {
        if self.ends.len() == DEEPEST {
            return Err(field.refused(Number::TooDeep));
        }
        self.ends.push(self.next);
        self.next = field.at + HEADER;
        self.steps.push(Step::Open);
        Ok(())
    }

    /// Reads one answer of a slot, a missing one too.
    /// The channel is named by the tag of its value.
    fn channel(&mut self, channel: u8) -> Result<Channel<u32>, Refusal> {
        let field = match channel {
            PRESSURE => self.field(&[PRESSURE, PASCALS, MISSING])?,
            _ => self.field(&[channel, MISSING])?,
        };
        let outside = Err(field.refused(Number::OutsideLimits));
        match (field.tag, field.body) {
            (MISSING, body) if body[0] != channel => outside,
            (MISSING, body) if !is_missing_number(u32::from(body[1])) => outside,
            (MISSING, body) => Ok(Err(u32::from(body[1]))),
            (PASCALS, _) if field.word() > HIGHEST_PASCALS => outside,
            (PASCALS, _) => Ok(Ok(field.word() * 256)),
            (HUMIDITY, _) if field.word() > HIGHEST_HUMIDITY => outside,
            _ => Ok(Ok(field.word())),
        }
    }

    /// Reads a slot's answers after its time.
    /// Whatever is left of its group then is 19.
    fn slot(&mut self, time: u32) -> Result<(), Refusal> {
        let temperature = self.channel(TEMPERATURE)?;
        let slot = Slot {
            time,
            temperature: temperature.map(|word| word as i32),
            pressure: self.channel(PRESSURE)?,
            humidity: self.channel(HUMIDITY)?,
        };
        self.steps.push(Step::Slot(slot));
        self.nothing_left()
    }

    /// Checks that the innermost group, or the record, ends here.
    /// A byte that is left gives 19.
    fn nothing_left(&self) -> Result<(), Refusal> {
        match self.next < self.end() {
            true => Err(Refusal::at(Number::TagOutOfPlace, self.next)),
            false => Ok(()),
        }
    }

    /// Closes each group that ends here, from the innermost.
    /// A group that has just been opened is never asked.
    fn close(&mut self) {
        while self.ends.last() == Some(&self.next) {
            self.ends.pop();
            self.steps.push(Step::Close);
        }
    }

    /// Reads the record's group with all that is in it.
    /// The first field of a group may be a time; after a group only groups come.
    fn record(&mut self) -> Result<(), Refusal> {
        let field = self.field(&[GROUP])?;
        self.open(&field)?;
        let mut first = true;
        while !self.ends.is_empty() {
            let field = match first {
                true => self.field(&[GROUP, TIME])?,
                false => self.field(&[GROUP])?,
            };
            first = field.tag == GROUP;
            if first {
                self.open(&field)?;
            } else {
                self.slot(field.word())?;
                self.close();
            }
        }
        self.nothing_left()
    }
}

/// Reads a record into its steps.
/// More than 65,535 bytes give 2 before anything is read.
pub fn read(record: &[u8]) -> Result<Vec<Step>, Refusal> {
    if record.len() > LONGEST_RECORD {
        return Err(Refusal::whole(Number::WrongLength));
    }
    let mut reader = Reader {
        record,
        next: 0,
        ends: Vec::new(),
        steps: Vec::new(),
    };
    reader.record()?;
    Ok(reader.steps)
}

/// Reads a record into a lent list and gives the number of its steps.
/// A list too short gives 9, last of all; every refusal leaves the list as it was.
pub fn fill(record: &[u8], list: &mut [Step]) -> Result<usize, Refusal> {
    let steps = read(record)?;
    let short = Refusal::whole(Number::BufferTooShort);
    list.get_mut(..steps.len())
        .ok_or(short)?
        .copy_from_slice(&steps);
    Ok(steps.len())
}
