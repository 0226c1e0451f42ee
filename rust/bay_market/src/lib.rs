//! The proved clearing engine for charging bays.
//!
//! [`Market`], [`Places`], [`Clearing`], [`Explanation`], [`Tried`], [`PriceList`], [`Submission`] and [`Ledger`] own their
//! lists; the module [`lent`] has the same over slices that the caller lends, and [`c`] the functions of the C header.
//!
//! ```
//! use bay_market::{Desk, Ledger, Market, Refusal, Rule};
//!
//! let (amounts, tickets) = (vec![3, 3], vec![1, 2]);
//! let market = Market { asks: vec![2, 6], bays: vec![1, 1], amounts, tickets, bids: vec![8, 0, 8, 0] };
//! let clearing = market.clear(Rule::Median)?;
//! assert_eq!((clearing.cut, clearing.stations, clearing.charges), (6, vec![1, 0], vec![24, 0]));
//! assert_eq!(Market::read(&market.to_sheet()?)?, market);
//!
//! let mut ledger = Ledger::new(2, 2);
//! let [north, south, ..] = Desk::ALL;
//! ledger.post(Rule::Median, &market, north, 1)?;
//! ledger.post(Rule::Median, &market, south, 1)?;
//! assert_eq!((ledger.house, ledger.last), (12, [1, 1, 0, 0, 0, 0, 0, 0]));
//! let refusal = ledger.post(Rule::Median, &market, north, 1).unwrap_err();
//! assert_eq!(refusal, Refusal::RoundOutOfTurn);
//! println!("refused {}: {refusal}", refusal.number());
//! # Ok::<(), Refusal>(())
//! ```

pub mod c;
mod decided;
pub mod lent;
mod owned;
mod refusal;
#[rustfmt::skip] // pointer and length on one line
mod slices;

pub use decided::{Change, Code, GuestOutcome, Reason};
pub use owned::{Cell, Clearing, Explanation, Ledger, Market, Places, PriceList, Submission, Tried};
pub use refusal::Refusal;

pub const MAX_GUESTS: usize = 200;
pub const MAX_STATIONS: usize = 40;
/// Desks that share a ledger.
pub const MAX_DESKS: usize = 8;
/// Guests times stations.
pub const MAX_BIDS: usize = MAX_GUESTS * MAX_STATIONS;
/// Of an ask, a bid, a worth and a price in mills per kWh, and of a fall.
pub const MAX_PRICE: u32 = 1_000_000;
/// Of a guest's amount in kWh; the least is 1.
pub const MAX_AMOUNT: u16 = 1_000;
/// Of a station; the least is 1.
pub const MAX_BAYS: u16 = 200;
/// Of a cell's coordinate; the least is 0.
pub const MAX_CELL: u16 = 31;
/// Bytes of the largest sheet.
pub const MAX_SHEET: usize = 34_444;
/// Bytes of the longest comma-separated market: every field has ten digits.
pub const MAX_TEXT: usize = 93_482;
/// Of an account in mills, and of a sum in kWh.
pub const MAX_ACCOUNT: u64 = 1_000_000_000_000_000;
pub const MAX_ROUND: u32 = u32::MAX;
/// The bar of a station that is not open ([`lent::menu`]): no total comes to it.
pub const NO_BAR: u32 = u32::MAX;

/// Bytes of stack that a call of the engine takes at most, but for those of [`lent::read_csv`] and [`lent::try_row`].
pub const MAX_STACK: usize = 16_384;
/// Bytes of stack that the engine takes at most to read a comma-separated market.
pub const MAX_STACK_READ_CSV: usize = 40_960;
/// Bytes of stack that the engine takes at most to try a row, with a copy of the bids.
pub const MAX_STACK_TRY: usize = 45_056;

/// The rule of a clearing, an explanation, a tried row, a mark or a posting: the position of the cut, from 1, among the m
/// asks in rising order.
#[derive(Clone, Copy, Debug, PartialEq, Eq, Hash)]
#[repr(u8)]
pub enum Rule {
    /// Rule 1: ceil((m + 1) / 2).
    Median = 1,
    /// Rule 2: floor(2 m / 3) + 1.
    TwoThirds = 2,
}

impl Rule {
    /// Its number in the header.
    pub const fn number(self) -> u8 {
        self as u8
    }

    /// The rule with a number of the header.
    pub const fn from_number(number: u8) -> Option<Rule> {
        match number {
            1 => Some(Rule::Median),
            2 => Some(Rule::TwoThirds),
            _ => None,
        }
    }
}

/// One of the eight desks that share a ledger; each counts its own rounds.
#[derive(Clone, Copy, Debug, PartialEq, Eq, PartialOrd, Ord, Hash)]
pub struct Desk(u8);

impl Desk {
    /// All desks, by rising number.
    pub const ALL: [Desk; MAX_DESKS] = [Desk(0), Desk(1), Desk(2), Desk(3), Desk(4), Desk(5), Desk(6), Desk(7)];

    /// Its number in the header, 0 to 7.
    pub const fn number(self) -> u8 {
        self.0
    }

    /// The desk with a number of the header.
    pub const fn from_number(number: u8) -> Option<Desk> {
        if (number as usize) < MAX_DESKS { Some(Desk(number)) } else { None }
    }
}

/// Its place in a list of last rounds.
impl From<Desk> for usize {
    fn from(desk: Desk) -> usize {
        desk.0.into()
    }
}

/// A station's account.
#[repr(C)]
#[derive(Clone, Copy, Debug, Default, PartialEq, Eq)]
pub struct StationAccount {
    /// kWh
    pub sold: u64,
    /// mills
    pub paid: u64,
}

impl Refusal {
    pub const fn number(self) -> u8 {
        self as u8
    }

    /// The refusal with a number of the header.
    pub fn from_number(number: u8) -> Option<Refusal> {
        Refusal::ALL.into_iter().find(|refusal| refusal.number() == number)
    }

    /// What a function of the header answered: 0 is no refusal.
    ///
    /// # Panics
    /// Where the number is none of the header's.
    pub fn check(answer: u8) -> Result<(), Refusal> {
        match answer {
            0 => Ok(()),
            number => Err(Refusal::from_number(number).unwrap_or_else(|| unreachable!("the engine answered {number}"))),
        }
    }
}

impl std::fmt::Display for Refusal {
    fn fmt(&self, f: &mut std::fmt::Formatter) -> std::fmt::Result {
        f.write_str(self.text())
    }
}

impl std::error::Error for Refusal {}

#[cfg(test)]
mod tests {
    use super::*;

    #[test]
    fn refusals_keep_their_numbers() {
        for refusal in Refusal::ALL {
            let number = refusal.number();
            assert_eq!(Refusal::from_number(number), Some(refusal));
            assert_eq!(Refusal::check(number), Err(refusal));
        }
        assert_eq!(Refusal::check(0), Ok(()));
        let named: Vec<Refusal> = (0..=255).filter_map(Refusal::from_number).collect();
        assert_eq!(named, Refusal::ALL);
    }

    #[test]
    fn rules_keep_their_numbers() {
        for (number, rule) in [(0, None), (1, Some(Rule::Median)), (2, Some(Rule::TwoThirds)), (3, None), (255, None)] {
            assert_eq!(Rule::from_number(number), rule);
            assert!(rule.is_none_or(|rule| rule.number() == number));
        }
    }

    #[test]
    fn desks_keep_their_numbers() {
        let named: Vec<Desk> = (0..=255).filter_map(Desk::from_number).collect();
        assert_eq!(named, Desk::ALL);
        for (number, desk) in (0..).zip(Desk::ALL) {
            assert_eq!((desk.number(), usize::from(desk)), (number, usize::from(number)));
        }
    }

    #[test]
    fn a_refusal_is_an_error_with_a_text() {
        let refusal: Box<dyn std::error::Error> = Box::new(Refusal::AskOutOfRange);
        assert_eq!(refusal.to_string(), "an ask is above 1,000,000");
    }
}
