//! Calls for a guest's price list, and for the gains of rows.

use super::{Tables, Way, each_way, known, numbered, own, require, require_answer, signed};
use crate::lent::Lent;
use bay_market::c::{bay_market_gains, bay_market_menu};
use bay_market::{Refusal, Rule, lent};
use reference::market::Market;
use reference::menus::PriceList;
use reference::random::Random;

/// What a call for a price list is lent: the number of a rule, a market, a guest's number, and lists of these lengths.
#[derive(Clone, Copy)]
pub struct Listing<'a> {
    pub rule: u8,
    pub market: &'a Market,
    pub guest: u32,
    pub bars: usize,
    pub prices: usize,
}

/// Asks for a price list and holds answer and memory to what is expected.
pub fn menu(random: &mut Random, listing: Listing, expected: &Result<PriceList, u8>) -> Result<(), String> {
    let Listing { rule, market, guest, bars, prices } = listing;
    let m = market.stations();
    each_way(|way| match (way, Rule::from_number(rule)) {
        (Way::C, _) | (Way::Slices, Some(_)) => menu_lent(way, random, listing, expected),
        (_, None) => Ok(()), // the types do not let it happen
        (Way::Owned, _) if market.width != m || bars != m || prices != m => Ok(()),
        (Way::Owned, Some(rule)) => {
            let list = own(market).menu(rule, guest).map_err(Refusal::number);
            let list = list.map(|bay_market::PriceList { bars, prices }| PriceList { bars, prices });
            require(list == *expected, "the owned price list differs")
        }
    })
}

#[rustfmt::skip] // pointer and length on one line
fn menu_lent(way: Way, random: &mut Random, listing: Listing, expected: &Result<PriceList, u8>) -> Result<(), String> {
    let Listing { rule, market, guest, bars, prices } = listing;
    let mut tables = Tables::of(random, market);
    let mut bars: Lent<u32> = Lent::noise(random, bars);
    let mut prices: Lent<u32> = Lent::noise(random, prices);
    let answer = match way {
        // SAFETY: as in `read_lent`.
        Way::C => unsafe {
            bay_market_menu(
                rule,
                tables.asks.pointer(), tables.asks.len(),
                tables.bays.pointer(), tables.bays.len(),
                tables.amounts.pointer(), tables.amounts.len(),
                tables.tickets.pointer(), tables.tickets.len(),
                tables.bids.pointer(), tables.bids.len(),
                market.width, guest,
                bars.pointer(), bars.len(),
                prices.pointer(), prices.len(),
            )
        },
        _ => {
            let tables = tables.lend(market.width);
            numbered(lent::menu(known(rule), &tables, guest, bars.slice(), prices.slice()), |()| ())
        }
    };
    require_answer(answer, expected)?;
    require(tables.untouched(), "the market was written")?;
    let Ok(list) = expected else {
        return require(bars.untouched() && prices.untouched(), "a refused call wrote");
    };
    require(bars.holds(list.bars.iter().copied()), "bars differ")?;
    require(prices.holds(list.prices.iter().copied()), "prices differ")
}

/// The price list of a guest of an accepted market, by each way, held to something that may go on by the same way.
pub fn list(
    rule: Rule,
    market: &Market,
    guest: u32,
    mut hold: impl FnMut(Way, PriceList) -> Result<(), String>,
) -> Result<(), String> {
    each_way(|way| hold(way, list_by(way, rule, market, guest)?))
}

/// The same by one way.
#[rustfmt::skip] // pointer and length on one line
pub fn list_by(way: Way, rule: Rule, market: &Market, guest: u32) -> Result<PriceList, String> {
    let m = market.stations();
    let mut list = PriceList { bars: vec![77; m], prices: vec![77; m] };
    let answer = match way {
        // SAFETY: each pointer and length is that of a vector.
        Way::C => unsafe {
            bay_market_menu(
                rule.number(),
                market.asks.as_ptr(), market.asks.len(),
                market.bays.as_ptr(), market.bays.len(),
                market.amounts.as_ptr(), market.amounts.len(),
                market.tickets.as_ptr(), market.tickets.len(),
                market.bids.as_ptr(), market.bids.len(),
                market.width, guest,
                list.bars.as_mut_ptr(), m,
                list.prices.as_mut_ptr(), m,
            )
        },
        Way::Slices => {
            numbered(lent::menu(rule, &own(market).lend(), guest, &mut list.bars, &mut list.prices), |()| ())
        }
        Way::Owned => numbered(own(market).menu(rule, guest), |bay_market::PriceList { bars, prices }| {
            list = PriceList { bars, prices };
        }),
    };
    require_answer::<()>(answer, &Ok(()))?;
    Ok(list)
}

/// What a call for gains is lent: the number of a rule, a market, a guest's number, its worths, rows of bids one after the
/// other, and a list of gains of this length.
#[derive(Clone, Copy)]
pub struct Gaining<'a> {
    pub rule: u8,
    pub market: &'a Market,
    pub guest: u32,
    pub worths: &'a [u32],
    pub rows: &'a [u32],
    pub gains: usize,
}

/// Asks for gains and holds answer and memory to what is expected.
pub fn gains(random: &mut Random, gaining: Gaining, expected: &Result<Vec<i128>, u8>) -> Result<(), String> {
    let Gaining { rule, market, guest, worths, rows, gains } = gaining;
    let m = market.stations();
    each_way(|way| match (way, Rule::from_number(rule)) {
        (Way::C, _) | (Way::Slices, Some(_)) => gains_lent(way, random, gaining, expected),
        (_, None) => Ok(()), // the types do not let it happen
        (Way::Owned, _) if market.width != m || gains != rows.len() / m.max(1) => Ok(()),
        (Way::Owned, Some(rule)) => {
            let gains = own(market).gains(rule, guest, worths, rows).map_err(Refusal::number);
            let expected =
                expected.as_ref().map(|gains| gains.iter().map(|&gain| signed(gain)).collect()).map_err(|&number| number);
            require(gains == expected, "the owned list of gains differs")
        }
    })
}

#[rustfmt::skip] // pointer and length on one line
fn gains_lent(way: Way, random: &mut Random, gaining: Gaining, expected: &Result<Vec<i128>, u8>) -> Result<(), String> {
    let Gaining { rule, market, guest, worths, rows, gains } = gaining;
    let mut tables = Tables::of(random, market);
    let mut worths: Lent<u32> = Lent::holding(random, worths);
    let mut rows: Lent<u32> = Lent::holding(random, rows);
    let mut gains: Lent<i64> = Lent::noise(random, gains);
    let answer = match way {
        // SAFETY: as in `read_lent`.
        Way::C => unsafe {
            bay_market_gains(
                rule,
                tables.asks.pointer(), tables.asks.len(),
                tables.bays.pointer(), tables.bays.len(),
                tables.amounts.pointer(), tables.amounts.len(),
                tables.tickets.pointer(), tables.tickets.len(),
                tables.bids.pointer(), tables.bids.len(),
                market.width, guest,
                worths.pointer(), worths.len(),
                rows.pointer(), rows.len(),
                gains.pointer(), gains.len(),
            )
        },
        _ => {
            let tables = tables.lend(market.width);
            numbered(lent::gains(known(rule), &tables, guest, worths.slice(), rows.slice(), gains.slice()), |()| ())
        }
    };
    require_answer(answer, expected)?;
    require(tables.untouched() && worths.untouched() && rows.untouched(), "the market, worths or rows were written")?;
    match expected {
        Ok(right) => require(gains.holds(right.iter().map(|&gain| signed(gain))), "gains differ"),
        Err(_) => require(gains.untouched(), "a refused call wrote"),
    }
}

/// The gains of rows of a guest of an accepted market, by one way.
#[rustfmt::skip] // pointer and length on one line
pub fn gains_by(
    way: Way, rule: Rule, market: &Market, guest: u32, worths: &[u32], rows: &[u32],
) -> Result<Vec<i64>, String> {
    let mut gains = vec![77; rows.len() / market.stations()];
    let answer = match way {
        // SAFETY: each pointer and length is that of a vector or a slice.
        Way::C => unsafe {
            bay_market_gains(
                rule.number(),
                market.asks.as_ptr(), market.asks.len(),
                market.bays.as_ptr(), market.bays.len(),
                market.amounts.as_ptr(), market.amounts.len(),
                market.tickets.as_ptr(), market.tickets.len(),
                market.bids.as_ptr(), market.bids.len(),
                market.width, guest,
                worths.as_ptr(), worths.len(),
                rows.as_ptr(), rows.len(),
                gains.as_mut_ptr(), gains.len(),
            )
        },
        Way::Slices => numbered(lent::gains(rule, &own(market).lend(), guest, worths, rows, &mut gains), |()| ()),
        Way::Owned => numbered(own(market).gains(rule, guest, worths, rows), |given| gains = given),
    };
    require_answer::<()>(answer, &Ok(()))?;
    Ok(gains)
}
