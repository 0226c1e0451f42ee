//! The faults of a market, in the engine's order.

use super::keys::Ranks;
use bay_market::lent::{Market, Results};
use bay_market::{MAX_AMOUNT, MAX_BAYS, MAX_GUESTS, MAX_PRICE, MAX_STATIONS};

pub fn counts_fit(n: usize, m: usize) -> bool {
    n <= MAX_GUESTS && (1..=MAX_STATIONS).contains(&m)
}

pub fn lengths_fault(market: &Market) -> Result<(), u8> {
    let (n, m) = (market.amounts.len(), market.asks.len());
    if !counts_fit(n, m) {
        return Err(2);
    }
    if market.bays.len() != m || market.tickets.len() != n || market.bids.len() != n * m || market.width != m {
        return Err(5);
    }
    Ok(())
}

/// Whether some number of a list is above a bound: a fold of tests with no way out, so that several are done at once.
pub fn some_above<T: Copy + PartialOrd>(list: &[T], bound: T) -> bool {
    list.iter().fold(false, |found, &number| found | (number > bound))
}

/// The greatest of a list, or 0.
pub fn most<T: Copy + Default + Ord>(list: &[T]) -> T {
    list.iter().fold(T::default(), |most, &number| most.max(number))
}

pub fn numbers_fault(market: &Market) -> Result<(), u8> {
    let outside = |table: &[u16], most: u16| table.iter().fold(false, |found, &x| found | (x.wrapping_sub(1) >= most));
    if some_above(market.asks, MAX_PRICE) {
        return Err(6);
    }
    if outside(market.bays, MAX_BAYS) {
        return Err(7);
    }
    if outside(market.amounts, MAX_AMOUNT) {
        return Err(8);
    }
    if some_above(market.bids, MAX_PRICE) {
        return Err(9);
    }
    Ok(())
}

/// Where there is no fault it ranks the guests.
pub fn values_fault(ranks: &mut Ranks, market: &Market) -> Result<(), u8> {
    numbers_fault(market)?;
    ranks.rank(market.tickets)
}

pub fn clearing_fault(ranks: &mut Ranks, market: &Market, results: &Results) -> Result<(), u8> {
    lengths_fault(market)?;
    let (n, m) = (market.amounts.len(), market.asks.len());
    if results.stations.len() != n || results.charges.len() != n || results.sold.len() != m || results.paid.len() != m {
        return Err(10);
    }
    values_fault(ranks, market)
}
