//! Document 02, 'What would another bid have done?'.

use crate::clearing::{Outcome, clear};
use crate::faults;
use crate::market::Market;

/// Another row of bids of a guest, which is named by its number, and what a kWh at each station is worth to it.
#[derive(Clone, Debug, PartialEq, Eq)]
pub struct OtherRow {
    pub guest: u32,
    pub worths: Vec<u32>,
    pub row: Vec<u32>,
}

/// Both gains, and a byte for each guest.
#[derive(Clone, Debug, PartialEq, Eq)]
pub struct Tried {
    pub first_gain: i128,
    pub second_gain: i128,
    pub changes: Vec<u8>,
}

/// The first fault of a call with a list of changes of this length, by its number.
pub fn trying_fault(rule: u8, market: &Market, other: &OtherRow, changes: usize) -> Result<(), u8> {
    if ![1, 2].contains(&rule) {
        return Err(faults::UNKNOWN_RULE);
    }
    faults::market_fault(market)?;
    if other.guest == 0 || other.guest as usize > market.guests() {
        return Err(faults::NO_SUCH_GUEST);
    }
    if other.worths.len() != market.stations() || other.row.len() != market.stations() {
        return Err(faults::LENGTHS_DIFFER);
    }
    if changes != market.guests() {
        return Err(faults::LENT_LENGTHS);
    }
    if other.worths.iter().chain(&other.row).any(|&price| price > faults::MAX_PRICE) {
        return Err(faults::BID_OUT_OF_RANGE);
    }
    Ok(())
}

/// The market with the other row.
pub fn with_row(market: &Market, other: &OtherRow) -> Market {
    let mut with = market.clone();
    for station in 1..=market.stations() {
        with.bids[(other.guest as usize - 1) * market.stations() + station - 1] = other.row[station - 1];
    }
    with
}

/// What the guest gains where its market comes to an outcome.
fn gain(market: &Market, other: &OtherRow, outcome: &Outcome) -> i128 {
    let guest = other.guest as usize;
    match outcome.stations[guest - 1] {
        0 => 0,
        station => {
            let worth = i128::from(other.worths[station - 1]) * i128::from(market.amounts[guest - 1]);
            worth - outcome.charges[guest - 1] as i128
        }
    }
}

/// What the guest gains by the other row, in an accepted market.
pub fn second_gain(rule: u8, market: &Market, other: &OtherRow) -> i128 {
    gain(market, other, &clear(rule, &with_row(market, other)))
}

/// What the other row does in truthful rounds, or the number of the first fault.
pub fn try_row(rule: u8, market: &Market, other: &OtherRow, changes: usize) -> Result<Tried, u8> {
    trying_fault(rule, market, other, changes)?;
    let (first, second) = (clear(rule, market), clear(rule, &with_row(market, other)));
    let change = |guest: usize| match (first.stations[guest - 1], second.stations[guest - 1]) {
        _ if guest == other.guest as usize => 0,
        (0, 1..) => 1,
        (1.., 0) => 2,
        _ => 0,
    };
    Ok(Tried {
        first_gain: gain(market, other, &first),
        second_gain: gain(market, other, &second),
        changes: (1..=market.guests()).map(change).collect(),
    })
}
