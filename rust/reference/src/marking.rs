//! Document 02, 'Marking a submitted clearing'.

use crate::clearing::{Outcome, clear, cut, places_held};
use crate::faults::{FullLengths, full_clearing_fault};
use crate::market::Market;

/// A clearing with a byte for each guest and station, row after row as the bids, and each station's floor.
#[derive(Clone, Debug, PartialEq, Eq)]
pub struct FullOutcome {
    pub outcome: Outcome,
    pub places: Vec<u8>,
    pub floors: Vec<u128>,
}

/// What is handed in, at the widths that it is handed in with.
#[derive(Clone, Debug, PartialEq, Eq)]
pub struct Submission {
    pub stations: Vec<u16>,
    pub charges: Vec<u32>,
    pub sold: Vec<u32>,
    pub paid: Vec<u64>,
    pub places: Vec<u8>,
    pub floors: Vec<u32>,
    pub cut: u32,
    pub margin: u64,
}

impl Submission {
    pub fn lengths(&self) -> FullLengths {
        FullLengths {
            stations: self.stations.len(),
            charges: self.charges.len(),
            sold: self.sold.len(),
            paid: self.paid.len(),
            places: self.places.len(),
            floors: self.floors.len(),
        }
    }
}

/// The truthful round of an accepted market, under rule 1 or 2, with its places and floors.
pub fn clear_fully(rule: u8, market: &Market) -> FullOutcome {
    let (held, floors) = places_held(market, cut(rule, market));
    let mut places = Vec::new();
    for guest in 1..=market.guests() {
        for station in 1..=market.stations() {
            let holds = held[guest - 1].iter().any(|place| place.station == station);
            places.push(if holds { 1 } else { 0 });
        }
    }
    FullOutcome { outcome: clear(rule, market), places, floors }
}

/// What is handed in is the given clearing, each number of it.
pub fn is_right(full: &FullOutcome, submission: &Submission) -> bool {
    let wide = |list: &[u32]| -> Vec<u128> { list.iter().map(|&number| u128::from(number)).collect() };
    let FullOutcome { outcome, places, floors } = full;
    let stations: Vec<usize> = submission.stations.iter().map(|&station| usize::from(station)).collect();
    let paid: Vec<u128> = submission.paid.iter().map(|&paid| u128::from(paid)).collect();
    stations == outcome.stations
        && wide(&submission.charges) == outcome.charges
        && wide(&submission.sold) == outcome.sold
        && paid == outcome.paid
        && submission.places == *places
        && wide(&submission.floors) == *floors
        && u128::from(submission.cut) == outcome.cut
        && u128::from(submission.margin) == outcome.margin
}

/// Yes or no to what is handed in, or the number of the first fault.
pub fn mark(rule: u8, market: &Market, submission: &Submission) -> Result<bool, u8> {
    full_clearing_fault(rule, market, submission.lengths())?;
    Ok(is_right(&clear_fully(rule, market), submission))
}
