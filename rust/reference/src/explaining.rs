//! Document 02, 'Tell guests what decided'.

use crate::clearing::{clear, cut, places_held};
use crate::market::Market;

pub const HELD: u8 = 0;
pub const NO_BID: u8 = 1;
pub const NOT_OPEN: u8 = 2;
pub const BELOW_CUT: u8 = 3;
pub const OUTBID: u8 = 4;

/// A guest's outcome.
#[derive(Clone, Copy, Debug, PartialEq, Eq)]
pub enum GuestOutcome {
    Win {
        station: usize,
        charge: u128,
    },
    /// With the highest code of the guest's row.
    Loss(u8),
}

/// A code for each guest and station, row after row as the bids, and each guest's outcome.
#[derive(Clone, Debug, PartialEq, Eq)]
pub struct Explanation {
    pub codes: Vec<u8>,
    pub outcomes: Vec<GuestOutcome>,
}

/// What decided the truthful round of an accepted market, under rule 1 or 2.
pub fn explain(rule: u8, market: &Market) -> Explanation {
    let cut = cut(rule, market);
    let (places, _) = places_held(market, cut);
    let cleared = clear(rule, market);
    let mut explanation = Explanation { codes: Vec::new(), outcomes: Vec::new() };
    for guest in 1..=market.guests() {
        let mut highest = HELD;
        for station in 1..=market.stations() {
            let bid = u128::from(market.bid(guest, station));
            let ask = u128::from(market.asks[station - 1]);
            let holds = places[guest - 1].iter().any(|place| place.station == station);
            // the first of 1 to 4 that applies
            let code = if bid == 0 {
                NO_BID
            } else if ask >= cut {
                NOT_OPEN
            } else if bid < cut {
                BELOW_CUT
            } else if !holds {
                OUTBID
            } else {
                HELD
            };
            highest = highest.max(code);
            explanation.codes.push(code);
        }
        explanation.outcomes.push(match cleared.stations[guest - 1] {
            0 => GuestOutcome::Loss(highest),
            station => GuestOutcome::Win { station, charge: cleared.charges[guest - 1] },
        });
    }
    explanation
}
