//! Visit records: what a visit is made of, and how a record or a list of steps is refused.

pub mod answers;
pub mod cases;
pub mod figures;
pub mod lists;
pub mod pack;
pub mod reader;
pub mod show;
pub mod trees;
pub mod words;
pub mod writer;

use crate::numbers::Number;

pub const LONGEST_RECORD: usize = 65_535;
pub const DEEPEST: usize = 4;
pub const HIGHEST_HUMIDITY: u32 = 102_400;
pub const HIGHEST_PASCALS: u32 = 16_777_215;

/// One of a slot's answers: its value, or the number that a missing one has.
pub type Channel<T> = Result<T, u32>;

/// What one reading of a visit says.
/// Temperature is in hundredths, pressure in Pa times 256, humidity in %RH times 1024.
#[derive(Clone, Copy, Debug, PartialEq, Eq)]
pub struct Slot {
    pub time: u32,
    pub temperature: Channel<i32>,
    pub pressure: Channel<u32>,
    pub humidity: Channel<u32>,
}

/// One step of a visit.
#[derive(Clone, Copy, Debug, PartialEq, Eq)]
pub enum Step {
    Open,
    Slot(Slot),
    Close,
}

/// The number of a refusal, and where the fault is.
/// 2 and 9 have no place.
#[derive(Clone, Copy, Debug, PartialEq, Eq)]
pub struct Refusal {
    pub number: Number,
    pub at: Option<usize>,
}

impl Refusal {
    /// Makes a refusal with an offset or a step's place.
    /// Numbers 18 to 22 have one.
    pub fn at(number: Number, at: usize) -> Self {
        Refusal {
            number,
            at: Some(at),
        }
    }

    /// Makes a refusal of the whole.
    /// It is 2 or 9.
    pub fn whole(number: Number) -> Self {
        Refusal { number, at: None }
    }
}

/// Says whether a number may stand for a missing answer.
/// The paper has 10 to 14.
pub fn is_missing_number(number: u32) -> bool {
    (10..=14).contains(&number)
}
