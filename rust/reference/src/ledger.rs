//! Document 01, 'The book': the plain book, in numbers that do not run over.

use crate::clearing::clear;
use crate::faults::{self, ListLengths, MAX_DESKS, MAX_GUESTS, MAX_STATIONS};
use crate::market::Market;

pub const MAX_ACCOUNT: u128 = 1_000_000_000_000_000;
pub const MAX_ROUND: u128 = 4_294_967_295;

#[derive(Clone, Copy, Debug, Default, PartialEq, Eq)]
pub struct StationAccount {
    pub sold: u128,
    pub paid: u128,
}

/// The plain book.
#[derive(Clone, Debug, PartialEq, Eq)]
pub struct Ledger {
    pub guests: Vec<u128>,
    pub stations: Vec<StationAccount>,
    pub house: u128,
    /// Of each desk.
    pub last: Vec<u128>,
}

impl Ledger {
    pub fn empty(guests: usize, stations: usize) -> Ledger {
        Ledger {
            guests: vec![0; guests],
            stations: vec![StationAccount::default(); stations],
            house: 0,
            last: vec![0; MAX_DESKS],
        }
    }

    /// Posts a market, cleared under the rule of a number, as a round of a desk, or answers the number of the first fault
    /// and changes nothing.
    pub fn post(&mut self, rule: u8, market: &Market, desk: u8, round: u32) -> Result<(), u8> {
        faults::clearing_fault(rule, market, ListLengths::of(market))?;
        let (guests, stations) = (self.guests.len(), self.stations.len());
        let over = guests > MAX_GUESTS || stations > MAX_STATIONS;
        let small = guests < market.guests() || stations < market.stations();
        if over || small || self.last.len() != MAX_DESKS {
            return Err(faults::BOOK_SIZE);
        }
        if usize::from(desk) >= MAX_DESKS {
            return Err(faults::DESK_OUT_OF_RANGE);
        }
        let last = self.last[usize::from(desk)];
        if last == MAX_ROUND || u128::from(round) != last + 1 {
            return Err(faults::ROUND_OUT_OF_TURN);
        }
        let after = self.with(rule, market, desk, round);
        if self.above_limit() || after.above_limit() {
            return Err(faults::ACCOUNT_OVER_LIMIT);
        }
        *self = after;
        Ok(())
    }

    /// The ledger with the market's clearing added.
    fn with(&self, rule: u8, market: &Market, desk: u8, round: u32) -> Ledger {
        let outcome = clear(rule, market);
        let mut after = self.clone();
        for guest in 0..market.guests() {
            after.guests[guest] += outcome.charges[guest];
        }
        for station in 0..market.stations() {
            after.stations[station].sold += outcome.sold[station];
            after.stations[station].paid += outcome.paid[station];
        }
        after.house += outcome.margin;
        after.last[usize::from(desk)] = u128::from(round);
        after
    }

    fn above_limit(&self) -> bool {
        self.guests.iter().any(|&account| account > MAX_ACCOUNT)
            || self.stations.iter().any(|account| account.sold > MAX_ACCOUNT || account.paid > MAX_ACCOUNT)
            || self.house > MAX_ACCOUNT
    }

    /// All guest accounts together equal the money paid of all stations together plus the house's.
    pub fn balances(&self) -> bool {
        let guests: u128 = self.guests.iter().sum();
        let paid: u128 = self.stations.iter().map(|account| account.paid).sum();
        guests == paid + self.house
    }
}
