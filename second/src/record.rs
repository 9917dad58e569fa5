//! The record kept of a machine: its history, folded where that changes nothing.

use crate::history::{
    opening_at, running_at, shown_at, waiting_at, whole_at, Conversion, Finished, Happening,
};
use crate::ledger::{deliveries, places, Ledger, Place};
use crate::part::Part;

const ROOM: usize = 48;

/// The history since the fresh state, and the ledger of the conversions folded away.
///
/// Only conversions whose place is settled for ever are folded away, and every
/// answer stays the same, for these reasons:
///
/// - A conversion that no longer runs, waits or is shown is delivered, overwritten
///   or abandoned, and nothing later can show it, replace it or find it. Its place
///   is counted once, in `settled`, and its beginning and finish are dropped.
/// - What runs, waits or is shown keeps its beginning and finish, in their order.
///   A sentence about it speaks of later finishes, bursts and resets only. A later
///   conversion that is dropped while it is still shown was waiting and replaced by
///   another waiting one, so that at the close the same finish replaces it.
/// - The open burst keeps its opening and the bytes given. Of the closed bursts only
///   the first whole one of the shown conversion is kept: it says "delivered before".
///   Any other one delivers nothing that is still running, waiting or shown.
/// - A reset leaves nothing running, waiting, shown or open, so that all that is
///   kept lies after the latest one.
#[derive(Clone, Debug)]
pub struct Record {
    part: Part,
    history: Vec<Happening>,
    fold_at: usize,
    settled: Ledger,
    begun: u64,
}

impl Record {
    /// Starts a part's record as after a number of conversions begun and all delivered.
    /// With 0 it is the record of the fresh state.
    pub fn fresh(part: Part, begun: u64) -> Self {
        Record {
            part,
            history: Vec::new(),
            fold_at: ROOM,
            settled: Ledger {
                begun,
                delivered: begun,
                ..Ledger::default()
            },
            begun,
        }
    }

    /// Adds what happened to the end of the history.
    /// A history that has outgrown its room since the last folding is folded first.
    pub fn add(&mut self, happening: Happening) {
        if self.history.len() >= self.fold_at {
            self.fold();
            self.fold_at = self.history.len() + ROOM;
        }
        self.history.push(happening);
    }

    /// Begins the next conversion, with the codes given.
    /// Its number goes on from the conversions begun before.
    pub fn begin(&mut self, codes: [u8; 3]) {
        self.begun += 1;
        self.add(Happening::Begun(Conversion {
            number: self.begun,
            codes,
        }));
    }

    /// Gives the number of conversions begun, across resets.
    /// It is the number of the latest one too.
    pub fn begun(&self) -> u64 {
        self.begun
    }

    /// Gives the conversion that is running now.
    /// It carries the codes it began with.
    pub fn running(&self) -> Option<Conversion> {
        running_at(&self.history, self.history.len())
    }

    /// Gives the conversion shown in the data bytes now.
    /// None means that the fresh bytes are there.
    pub fn shown(&self) -> Option<Finished> {
        shown_at(&self.history, self.history.len())
    }

    /// Says whether the open burst has given all of the part's data bytes.
    /// Without an open burst it hasn't.
    pub fn whole(&self) -> bool {
        whole_at(self.part, &self.history, self.history.len())
    }

    /// Says whether a conversion that is still shown was delivered before now.
    /// The history holds its first whole burst, if there was one.
    pub fn delivered(&self, number: u64) -> bool {
        let list = deliveries(self.part, &self.history);
        list.iter().any(|delivery| delivery.number == number)
    }

    /// Works out the ledger from the history.
    /// The conversions folded away are added as they were settled.
    pub fn ledger(&self) -> Ledger {
        let mut ledger = self.settled;
        for (_, place) in places(self.part, &self.history) {
            ledger.count(place);
        }
        ledger
    }

    /// Folds away what is settled for ever, as said above.
    /// The numbers kept are those of what runs, waits or is shown now.
    fn fold(&mut self) {
        let history = &self.history;
        let end = history.len();
        let shown = shown_at(history, end).map(|finished| finished.conversion.number);
        let waiting = waiting_at(history, end).map(|finished| finished.conversion.number);
        let running = running_at(history, end).map(|conversion| conversion.number);
        let kept = |number: u64| [shown, waiting, running].contains(&Some(number));
        let gone: Vec<Place> = places(self.part, history)
            .into_iter()
            .filter(|(number, _)| !kept(*number))
            .map(|(_, place)| place)
            .collect();
        let first = deliveries(self.part, history)
            .into_iter()
            .find(|delivery| Some(delivery.number) == shown)
            .and_then(|delivery| Some(opening_at(history, delivery.moment)?..=delivery.moment));
        let open = opening_at(history, end).unwrap_or(end);
        let stays = |(moment, happening): &(usize, Happening)| match happening {
            Happening::Begun(conversion) => kept(conversion.number),
            Happening::Finished(finished) => kept(finished.conversion.number),
            Happening::Opened | Happening::Given(_) | Happening::Closed => {
                *moment >= open || first.as_ref().map_or(false, |burst| burst.contains(moment))
            }
            Happening::Reset => false,
        };
        let rest = history.iter().copied().enumerate().filter(stays);
        let rest: Vec<Happening> = rest.map(|(_, happening)| happening).collect();
        self.history = rest;
        for place in gone {
            self.settled.count(place);
        }
    }
}
