//! A guest's price list, and the gains of rows by clearing each.

use crate::clearing::{cut, first_out_beside};
use crate::faults;
use crate::market::Market;
use crate::other_rows::{OtherRow, second_gain};

/// The bar of a station that is not open.
pub const NO_BAR: u32 = u32::MAX;

/// For each station the least total with which the guest holds a place there, and its charge there.
#[derive(Clone, Debug, PartialEq, Eq)]
pub struct PriceList {
    pub bars: Vec<u32>,
    pub prices: Vec<u32>,
}

/// 18, the market's own, 24.
fn guest_fault(rule: u8, market: &Market, guest: u32) -> Result<(), u8> {
    if ![1, 2].contains(&rule) {
        return Err(faults::UNKNOWN_RULE);
    }
    faults::market_fault(market)?;
    if guest == 0 || guest as usize > market.guests() {
        return Err(faults::NO_SUCH_GUEST);
    }
    Ok(())
}

/// The list of a guest, by its number, in lists of these lengths, or the number of the first fault.
pub fn price_list(rule: u8, market: &Market, guest: u32, bars: usize, prices: usize) -> Result<PriceList, u8> {
    guest_fault(rule, market, guest)?;
    if bars != market.stations() || prices != market.stations() {
        return Err(faults::LENT_LENGTHS);
    }
    let cut = cut(rule, market);
    let guest = guest as usize;
    let (amount, ticket) = (u128::from(market.amounts[guest - 1]), market.tickets[guest - 1]);
    let mut list = PriceList { bars: Vec::new(), prices: Vec::new() };
    for station in 1..=market.stations() {
        if u128::from(market.asks[station - 1]) >= cut {
            list.bars.push(NO_BAR);
            list.prices.push(0);
            continue;
        }
        // a total has to reach cut times amount, and to stand before the first who is out beside the guest
        let mut bar = cut * amount;
        let mut price = cut * amount;
        if let Some((total, other)) = first_out_beside(market, cut, station, guest) {
            bar = bar.max(if ticket < other { total } else { total + 1 });
            price = price.max(total);
        }
        list.bars.push(bar as u32);
        list.prices.push(price as u32);
    }
    Ok(list)
}

/// The gain of each row of bids, one after the other, in a list of this length, or the number of the first fault.
pub fn gains(rule: u8, market: &Market, guest: u32, worths: &[u32], rows: &[u32], gains: usize) -> Result<Vec<i128>, u8> {
    guest_fault(rule, market, guest)?;
    let m = market.stations();
    if worths.len() != m || rows.len() % m != 0 {
        return Err(faults::LENGTHS_DIFFER);
    }
    if gains != rows.len() / m {
        return Err(faults::LENT_LENGTHS);
    }
    if worths.iter().chain(rows).any(|&price| price > faults::MAX_PRICE) {
        return Err(faults::BID_OUT_OF_RANGE);
    }
    let gain = |row: &[u32]| {
        let other = OtherRow { guest, worths: worths.to_vec(), row: row.to_vec() };
        second_gain(rule, market, &other)
    };
    Ok(rows.chunks(m).map(gain).collect())
}
