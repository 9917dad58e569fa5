//! What happened, one after another, and what looking back along it finds.
//!
//! A moment is a place in the list; looking back from it sees what stands before it.

use crate::data::DATA;
use crate::part::Part;

/// A conversion: its number, from 1 in order of beginning, and the codes it began with.
#[derive(Clone, Copy, Debug, Default, PartialEq, Eq)]
pub struct Conversion {
    pub number: u64,
    pub codes: [u8; 3],
}

/// A finished conversion with its eight bytes. A BMP280 shows the first six of them.
#[derive(Clone, Copy, Debug, PartialEq, Eq)]
pub struct Finished {
    pub conversion: Conversion,
    pub bytes: [u8; DATA],
}

/// One thing that happened. Refused and ignored events are not among them.
#[derive(Clone, Copy, Debug, PartialEq, Eq)]
pub enum Happening {
    Begun(Conversion),
    Finished(Finished),
    /// A burst was opened.
    Opened,
    /// The open burst gave the register at this address.
    Given(u8),
    /// The open burst was closed, whole or partial.
    Closed,
    /// A reset or a power event, which also ends an open burst.
    Reset,
}

/// Finds where the burst that is open at the moment was opened.
/// It is none if the latest burst has been closed, or ended by a power event.
pub fn opening_at(history: &[Happening], moment: usize) -> Option<usize> {
    for at in (0..moment).rev() {
        match history[at] {
            Happening::Opened => return Some(at),
            Happening::Closed | Happening::Reset => return None,
            _ => {}
        }
    }
    None
}

/// Finds the conversion shown in the data bytes: the latest one finished since a reset.
/// While a burst is open, only what finished before its opening is shown.
pub fn shown_at(history: &[Happening], moment: usize) -> Option<Finished> {
    let until = opening_at(history, moment).unwrap_or(moment);
    for happening in history[..until].iter().rev() {
        match happening {
            Happening::Finished(finished) => return Some(*finished),
            Happening::Reset => return None,
            _ => {}
        }
    }
    None
}

/// Finds the conversion that waits: the latest one finished since the open burst's opening.
/// Without an open burst none waits.
pub fn waiting_at(history: &[Happening], moment: usize) -> Option<Finished> {
    let opening = opening_at(history, moment)?;
    let since = history[opening..moment].iter().rev();
    since.copied().find_map(|happening| match happening {
        Happening::Finished(finished) => Some(finished),
        _ => None,
    })
}

/// Finds the conversion that is running: begun, and since then not finished and not reset.
/// One conversion at most runs at a time.
pub fn running_at(history: &[Happening], moment: usize) -> Option<Conversion> {
    for happening in history[..moment].iter().rev() {
        match happening {
            Happening::Begun(conversion) => return Some(*conversion),
            Happening::Finished(_) | Happening::Reset => return None,
            _ => {}
        }
    }
    None
}

/// Says whether the burst that is open at the moment is whole so far.
/// Whole means that all of 0xF7 to 0xFE were given, of a BMP280 0xF7 to 0xFC.
pub fn whole_at(part: Part, history: &[Happening], moment: usize) -> bool {
    let opening = match opening_at(history, moment) {
        Some(opening) => opening,
        None => return false,
    };
    let mut given = [false; DATA];
    for happening in &history[opening..moment] {
        if let Happening::Given(address @ 0xF7..=0xFE) = happening {
            given[usize::from(address - 0xF7)] = true;
        }
    }
    given[..part.data()].iter().all(|given| *given)
}
