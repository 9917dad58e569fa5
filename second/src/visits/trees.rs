//! What a record is, apart from the reader and the writer: a tree, its bytes and its steps.

use super::writer::fields;
use super::{Slot, Step};

/// A group: it holds groups, or one slot.
#[derive(Clone, Debug, PartialEq, Eq)]
pub enum Tree {
    Groups(Vec<Tree>),
    Slot(Slot),
}

/// Gives a group's field around a body.
/// The length's high byte comes first; a body too long for it has its lower 16 bits.
pub fn group(body: &[u8]) -> Vec<u8> {
    let length = body.len();
    [&[1, (length >> 8) as u8, length as u8][..], body].concat()
}

/// Gives a slot's fields as older loggers wrote them, with whole pascals in tag 5.
/// A pressure that is missing, or is no whole number of pascals, has no such field and is as now.
pub fn old_fields(slot: &Slot) -> Vec<u8> {
    let mut bytes = fields(slot);
    let start = 7 + if slot.temperature.is_ok() { 7 } else { 5 };
    if let Ok(pressure) = slot.pressure {
        if pressure % 256 == 0 {
            bytes[start] = 5;
            bytes[start + 3..start + 7].copy_from_slice(&(pressure / 256).to_be_bytes());
        }
    }
    bytes
}

impl Tree {
    /// Gives the bytes of the group's field, its slots by the given call.
    /// What is inside comes before the length around it is known.
    pub fn bytes(&self, slot: &mut dyn FnMut(&Slot) -> Vec<u8>) -> Vec<u8> {
        match self {
            Tree::Slot(held) => group(&slot(held)),
            Tree::Groups(groups) => {
                let parts = groups.iter().map(|inner| inner.bytes(slot));
                let body: Vec<Vec<u8>> = parts.collect();
                group(&body.concat())
            }
        }
    }

    /// Gives the record as it is written now.
    /// No pressure is in whole pascals.
    pub fn record(&self) -> Vec<u8> {
        self.bytes(&mut fields)
    }

    /// Gives the steps of the group.
    /// The first is its open, the last its close.
    pub fn steps(&self) -> Vec<Step> {
        let inside = match self {
            Tree::Slot(slot) => vec![Step::Slot(*slot)],
            Tree::Groups(groups) => groups.iter().flat_map(Tree::steps).collect(),
        };
        [&[Step::Open][..], &inside, &[Step::Close]].concat()
    }

    /// Gives the number of levels, the group's own counted.
    /// A group of one slot has one.
    pub fn levels(&self) -> usize {
        match self {
            Tree::Slot(_) => 1,
            Tree::Groups(groups) => 1 + groups.iter().map(Tree::levels).max().unwrap_or(0),
        }
    }
}
