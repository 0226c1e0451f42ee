//! A guest's price list, and the gains of rows.

use super::Scratch;
use super::clearing::{Opened, decide};
use super::faults::{lengths_fault, some_above, values_fault};
use super::keys::select;
use super::trying::gain;
use bay_market::lent::Market;
use bay_market::{MAX_GUESTS, MAX_PRICE, MAX_STATIONS, NO_BAR, Rule};

/// Of an open station, from 0, what it is to the guest.
#[derive(Clone, Copy, Default)]
struct Offer {
    station: usize,
    bar: u32,
    price: u32,
}

/// The guest's offers, one for each open station: the others' candidates are gathered, and the first that has no place
/// beside the guest is found with `select_nth_unstable`.
fn offers(market: &Market, opened: &Opened, guest: usize) -> [Offer; MAX_STATIONS] {
    let (m, cut) = (market.asks.len(), opened.cut);
    let least = cut * u32::from(market.amounts[guest]);
    let mut offers = [Offer::default(); MAX_STATIONS];
    // total and ticket as one number that is least
    let mut others = [0; MAX_GUESTS];
    for (offer, &station) in offers.iter_mut().zip(opened.stations()) {
        let mut count = 0;
        for (other, ((row, &amount), &ticket)) in market.bids.chunks_exact(m).zip(market.amounts).zip(market.tickets).enumerate()
        {
            others[count] = u64::from(!(row[station] * u32::from(amount))) << 32 | u64::from(ticket);
            count += usize::from((row[station] >= cut) & (other != guest));
        }
        let beside = usize::from(market.bays[station]) - 1;
        *offer = Offer { station, bar: least, price: least };
        if count > beside {
            let first_out = *others[..count].select_nth_unstable(beside).1;
            let (total, ticket) = (!((first_out >> 32) as u32), first_out as u32);
            offer.bar = least.max(total + u32::from(ticket < market.tickets[guest]));
            offer.price = least.max(total);
        }
    }
    offers
}

/// The market's faults, and the guest's place.
fn guest_of(scratch: &mut Scratch, market: &Market, guest: u32) -> Result<usize, u8> {
    lengths_fault(market)?;
    values_fault(&mut scratch.ranks, market)?;
    if guest == 0 || guest as usize > market.amounts.len() {
        return Err(24);
    }
    Ok(guest as usize - 1)
}

pub fn menu(
    scratch: &mut Scratch,
    rule: Rule,
    market: &Market,
    guest: u32,
    bars: &mut [u32],
    prices: &mut [u32],
) -> Result<(), u8> {
    let guest = guest_of(scratch, market, guest)?;
    if bars.len() != market.asks.len() || prices.len() != market.asks.len() {
        return Err(10);
    }
    let opened = Opened::of(rule, market.asks);
    bars.fill(NO_BAR);
    prices.fill(0);
    for offer in &offers(market, &opened, guest)[..opened.count] {
        (bars[offer.station], prices[offer.station]) = (offer.bar, offer.price);
    }
    Ok(())
}

/// The faults of a call for gains, and the guest's place.
fn gains_fault(
    scratch: &mut Scratch,
    market: &Market,
    guest: u32,
    worths: &[u32],
    rows: &[u32],
    gains: &[i64],
) -> Result<usize, u8> {
    let guest = guest_of(scratch, market, guest)?;
    let m = market.asks.len();
    if worths.len() != m || rows.len() % m != 0 {
        return Err(5);
    }
    if gains.len() != rows.len() / m {
        return Err(10);
    }
    if some_above(worths, MAX_PRICE) | some_above(rows, MAX_PRICE) {
        return Err(9);
    }
    Ok(guest)
}

/// The gain of each row by a plain loop over the list's open stations.
pub fn gains(
    scratch: &mut Scratch,
    rule: Rule,
    market: &Market,
    guest: u32,
    worths: &[u32],
    rows: &[u32],
    gains: &mut [i64],
) -> Result<(), u8> {
    let guest = gains_fault(scratch, market, guest, worths, rows, gains)?;
    let opened = Opened::of(rule, market.asks);
    let offers = offers(market, &opened, guest);
    let (m, amount) = (market.asks.len(), u32::from(market.amounts[guest]));
    for (row, gain) in rows.chunks_exact(m).zip(gains) {
        let mut best = None;
        for offer in &offers[..opened.count] {
            let total = row[offer.station] * amount;
            if total >= offer.bar && best.is_none_or(|(over, _)| total - offer.price > over) {
                best = Some((total - offer.price, offer));
            }
        }
        *gain = best.map_or(0, |(_, offer)| i64::from(worths[offer.station]) * i64::from(amount) - i64::from(offer.price));
    }
    Ok(())
}

/// The gain of each row by a round with `select` of the market with the row, after the checks, the ranks and the cut.
pub fn gains_by_clearing(
    scratch: &mut Scratch,
    rule: Rule,
    market: &Market,
    guest: u32,
    worths: &[u32],
    rows: &[u32],
    gains: &mut [i64],
) -> Result<(), u8> {
    let guest = gains_fault(scratch, market, guest, worths, rows, gains)?;
    let Scratch { gathered, ranks, bids, .. } = scratch;
    let opened = Opened::of(rule, market.asks);
    let m = market.asks.len();
    let bids = &mut bids[..market.bids.len()];
    bids.copy_from_slice(market.bids);
    for (row, gained) in rows.chunks_exact(m).zip(gains) {
        bids[guest * m..(guest + 1) * m].copy_from_slice(row);
        let other = Market { bids, ..*market };
        let decided = decide(gathered, &ranks.standings, &opened, &other, select, |_, _| ());
        *gained = gain(market, &opened, &decided, guest, worths);
    }
    Ok(())
}
