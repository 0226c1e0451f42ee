//! The engine over memory that the caller lends: slices of any length and content, and nothing is allocated. A refused
//! call has changed none of them.
//!
//! ```
//! use bay_market::Rule;
//! use bay_market::lent::{Cleared, Market, Results, clear};
//!
//! let (amounts, tickets) = (&[3, 3], &[1, 2]);
//! let market = Market { asks: &[2, 6], bays: &[1, 1], amounts, tickets, bids: &[8, 0, 8, 0], width: 2 };
//! let (mut stations, mut charges, mut sold, mut paid) = ([0; 2], [0; 2], [0; 2], [0; 2]);
//! let mut results = Results { stations: &mut stations, charges: &mut charges, sold: &mut sold, paid: &mut paid };
//! assert_eq!(clear(Rule::Median, &market, &mut results), Ok(Cleared { cut: 6, margin: 6 }));
//! assert_eq!((stations, charges, sold, paid), ([1, 0], [24, 0], [3, 0], [18, 0]));
//! ```

mod calls;

pub use calls::{
    clear, clear_efficient, clear_marked, explain, gains, join, mark, menu, place_bids, post, read, read_csv, try_row, write,
};

use crate::{MAX_BIDS, MAX_GUESTS, MAX_STATIONS, StationAccount};

/// A market: n amounts and tickets, m asks, m bays, n rows of m bids (0: no bid); `width` is the length of a row.
#[derive(Clone, Copy, Debug)]
pub struct Market<'a> {
    pub asks: &'a [u32],
    pub bays: &'a [u16],
    pub amounts: &'a [u16],
    pub tickets: &'a [u32],
    pub bids: &'a [u32],
    pub width: usize,
}

/// What bids are placed from: each guest's price and fall, and the cells of n guests and m stations as a list of first and
/// one of second coordinates.
#[derive(Clone, Copy, Debug)]
pub struct Places<'a> {
    pub prices: &'a [u32],
    pub falls: &'a [u32],
    pub guest_first: &'a [u16],
    pub guest_second: &'a [u16],
    pub station_first: &'a [u16],
    pub station_second: &'a [u16],
}

/// What joining fills: tables as long as those of the joined market.
#[derive(Debug)]
pub struct Joined<'a> {
    pub asks: &'a mut [u32],
    pub bays: &'a mut [u16],
    pub amounts: &'a mut [u16],
    pub tickets: &'a mut [u32],
    pub bids: &'a mut [u32],
}

/// What a clearing fills: each guest's station (0: none) and charge, each station's kWh sold and payment.
#[derive(Debug)]
pub struct Results<'a> {
    pub stations: &'a mut [u16],
    pub charges: &'a mut [u32],
    pub sold: &'a mut [u32],
    pub paid: &'a mut [u64],
}

/// What a clearing answers besides its results.
#[derive(Clone, Copy, Debug, PartialEq, Eq)]
pub struct Cleared {
    pub cut: u32,
    pub margin: u64,
}

/// What an explanation fills: n rows of m codes, and each guest's outcome as its station, charge and reason. A win has
/// reason 0, a loss station 0 and charge 0. The numbers are those of [`Code`](crate::Code) and [`Reason`](crate::Reason).
#[derive(Debug)]
pub struct Explanation<'a> {
    pub codes: &'a mut [u8],
    pub stations: &'a mut [u16],
    pub charges: &'a mut [u32],
    pub reasons: &'a mut [u8],
}

/// What a clearing with its places and floors fills: the results of a clearing; a byte for each guest and station, row after
/// row as the bids, 1 where the guest holds a place there and else 0; and each station's floor, the total of the first
/// candidate without a place, 0 where there is none and at a station that is not open.
#[derive(Debug)]
pub struct FullResults<'a> {
    pub stations: &'a mut [u16],
    pub charges: &'a mut [u32],
    pub sold: &'a mut [u32],
    pub paid: &'a mut [u64],
    pub places: &'a mut [u8],
    pub floors: &'a mut [u32],
}

/// A clearing that is handed in to be marked, with its places and floors as [`FullResults`] has them.
#[derive(Clone, Copy, Debug)]
pub struct Submission<'a> {
    pub stations: &'a [u16],
    pub charges: &'a [u32],
    pub sold: &'a [u32],
    pub paid: &'a [u64],
    pub places: &'a [u8],
    pub floors: &'a [u32],
    pub cut: u32,
    pub margin: u64,
}

/// What trying a row answers besides its list of changes: the guest's gain by its bids in the market and by the other row,
/// in mills; negative where it would pay more than its station is worth to it.
#[derive(Clone, Copy, Debug, PartialEq, Eq)]
pub struct Gains {
    pub first: i64,
    pub second: i64,
}

/// What a reader fills: the first places of tables of the greatest size.
///
/// Another size is no table:
///
/// ```compile_fail,E0308
/// let (amounts, tickets) = (&mut [0; 200], &mut [0; 199]);
/// bay_market::lent::Tables { amounts, tickets, asks: &mut [0; 40], bays: &mut [0; 40], bids: &mut [0; 8000] };
/// ```
#[derive(Debug)]
pub struct Tables<'a> {
    pub amounts: &'a mut [u16; MAX_GUESTS],
    pub tickets: &'a mut [u32; MAX_GUESTS],
    pub asks: &'a mut [u32; MAX_STATIONS],
    pub bays: &'a mut [u16; MAX_STATIONS],
    pub bids: &'a mut [u32; MAX_BIDS],
}

/// What a reader answers: how much of each table it filled.
#[derive(Clone, Copy, Debug, PartialEq, Eq)]
pub struct Counts {
    pub guests: u16,
    pub stations: u16,
}

/// The ledger (document 01: the book). An empty one is all zeros.
#[derive(Debug)]
pub struct Ledger<'a> {
    pub guests: &'a mut [u64],
    pub stations: &'a mut [StationAccount],
    pub house: &'a mut u64,
    /// The last round of each desk; 8 long.
    pub last: &'a mut [u32],
}

impl<'a> Tables<'a> {
    /// The market that was read, whose values may be out of range.
    pub fn market(&self, counts: Counts) -> Market<'_> {
        let (n, m) = (usize::from(counts.guests), usize::from(counts.stations));
        Market {
            asks: &self.asks[..m],
            bays: &self.bays[..m],
            amounts: &self.amounts[..n],
            tickets: &self.tickets[..n],
            bids: &self.bids[..n * m],
            width: m,
        }
    }
}
