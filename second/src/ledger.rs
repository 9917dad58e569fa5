//! The ledger by history: each conversion's place, worked out from the paper's sentences.

use crate::history::{
    opening_at, running_at, shown_at, waiting_at, whole_at, Conversion, Happening,
};
use crate::part::Part;

/// The place of one conversion; the last three are standing, and name as what.
#[derive(Clone, Copy, Debug, PartialEq, Eq)]
pub enum Place {
    Delivered,
    Overwritten,
    Abandoned,
    Running,
    Waiting,
    ShownUnread,
}

/// The counts of the ledger. Standing is the sum of the last three.
#[derive(Clone, Copy, Debug, Default, PartialEq, Eq)]
pub struct Ledger {
    pub begun: u64,
    pub delivered: u64,
    pub overwritten: u64,
    pub abandoned: u64,
    pub running: u64,
    pub waiting: u64,
    pub shown: u64,
}

impl Ledger {
    /// Counts one conversion at its place.
    /// Each place has its own count, and every conversion has begun.
    pub fn count(&mut self, place: Place) {
        self.begun += 1;
        let kept = match place {
            Place::Delivered => &mut self.delivered,
            Place::Overwritten => &mut self.overwritten,
            Place::Abandoned => &mut self.abandoned,
            Place::Running => &mut self.running,
            Place::Waiting => &mut self.waiting,
            Place::ShownUnread => &mut self.shown,
        };
        *kept += 1;
    }

    /// Gives the count of the standing conversions.
    /// They are named as running, waiting or shown unread.
    pub fn standing(&self) -> u64 {
        self.running + self.waiting + self.shown
    }
}

/// A first delivery: the conversion's number and the moment of the whole close.
#[derive(Clone, Copy, Debug, PartialEq, Eq)]
pub struct Delivery {
    pub number: u64,
    pub moment: usize,
}

/// Lists the deliveries: some whole closed burst showed the conversion.
/// A repeated burst of the same one is no second delivery. Numbers rise along the list.
pub fn deliveries(part: Part, history: &[Happening]) -> Vec<Delivery> {
    let mut list: Vec<Delivery> = Vec::new();
    for (moment, happening) in history.iter().enumerate() {
        if *happening != Happening::Closed || !whole_at(part, history, moment) {
            continue;
        }
        let shown = match shown_at(history, moment) {
            Some(shown) => shown,
            None => continue,
        };
        let number = shown.conversion.number;
        if list.last().map(|last| last.number) != Some(number) {
            list.push(Delivery { number, moment });
        }
    }
    list
}

/// Says whether a conversion has been delivered at a moment or before it.
/// A whole close at that very moment counts.
fn delivered_by(deliveries: &[Delivery], number: u64, moment: usize) -> bool {
    let found = deliveries.binary_search_by_key(&number, |delivery| delivery.number);
    found.map_or(false, |place| deliveries[place].moment <= moment)
}

/// Lists the conversions that a reset or power event at this moment found.
/// It finds them running, waiting or shown.
fn found_by_reset(history: &[Happening], moment: usize) -> Vec<Conversion> {
    let running = running_at(history, moment);
    let waiting = waiting_at(history, moment).map(|finished| finished.conversion);
    let shown = shown_at(history, moment).map(|finished| finished.conversion);
    [running, waiting, shown].into_iter().flatten().collect()
}

/// Finds the conversion that a later finished one replaced at this moment.
/// A finish replaces what waits, or without a burst what's shown; a close shows what waits.
fn replaced_at(history: &[Happening], moment: usize) -> Option<Conversion> {
    let burst = opening_at(history, moment).is_some();
    let replaced = match history[moment] {
        Happening::Finished(_) if burst => waiting_at(history, moment),
        Happening::Finished(_) => shown_at(history, moment),
        Happening::Closed => waiting_at(history, moment).and_then(|_| shown_at(history, moment)),
        _ => None,
    };
    replaced.map(|finished| finished.conversion)
}

/// Works out the place of every conversion of the history, in no fixed order.
/// Each sentence is read over the whole history; none is carried on from event to event.
pub fn places(part: Part, history: &[Happening]) -> Vec<(u64, Place)> {
    let deliveries = deliveries(part, history);
    let mut list: Vec<(u64, Place)> = deliveries
        .iter()
        .map(|delivery| (delivery.number, Place::Delivered))
        .collect();
    let end = history.len();
    let mut put = |conversion: Conversion, moment: usize, place: Place| {
        if !delivered_by(&deliveries, conversion.number, moment) {
            list.push((conversion.number, place));
        }
    };
    for (moment, happening) in history.iter().enumerate() {
        match happening {
            Happening::Reset => {
                for conversion in found_by_reset(history, moment) {
                    put(conversion, moment, Place::Abandoned);
                }
            }
            Happening::Finished(_) | Happening::Closed => {
                if let Some(conversion) = replaced_at(history, moment) {
                    put(conversion, moment, Place::Overwritten);
                }
            }
            _ => {}
        }
    }
    if let Some(conversion) = running_at(history, end) {
        put(conversion, end, Place::Running);
    }
    if let Some(finished) = waiting_at(history, end) {
        put(finished.conversion, end, Place::Waiting);
    }
    if let Some(finished) = shown_at(history, end) {
        put(finished.conversion, end, Place::ShownUnread);
    }
    list
}
