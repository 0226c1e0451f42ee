//! Efficient clearing.

use super::Scratch;
use super::clearing::{Opened, settle};
use super::faults::clearing_fault;
use super::keys::Key;
use bay_market::lent::{Cleared, Market, Results};
use bay_market::{MAX_GUESTS, MAX_STATIONS, Rule};

/// Clears by the efficient mechanism: all candidacies are gathered and sorted, and taken one after the other.
pub fn clear_efficient(scratch: &mut Scratch, rule: Rule, market: &Market, results: &mut Results) -> Result<Cleared, u8> {
    clearing_fault(&mut scratch.ranks, market, results)?;
    let opened = Opened::of(rule, market.asks);
    let cut = opened.cut;
    let keys = scratch.gathered.as_flattened_mut();
    let mut count = 0;
    let rows = market.bids.chunks_exact(market.width).zip(market.amounts);
    for ((row, &amount), &standing) in rows.zip(&scratch.ranks.standings) {
        for &station in opened.stations() {
            let bid = row[station];
            keys[count] = Key::new(bid * u32::from(amount), standing, station);
            count += usize::from(bid >= cut);
        }
    }
    let keys = &mut keys[..count];
    keys.sort_unstable();

    let mut seats = [None; MAX_GUESTS];
    let mut left = [0; MAX_STATIONS];
    left[..market.bays.len()].copy_from_slice(market.bays);
    let mut floors = [0; MAX_STATIONS];
    for key in keys {
        let (guest, station) = (key.guest(), key.station());
        if seats[guest].is_some() {
            continue;
        }
        if left[station] > 0 {
            left[station] -= 1;
            seats[guest] = Some(station);
        } else if floors[station] == 0 {
            floors[station] = key.total();
        }
    }
    Ok(settle(market, results, cut, &floors, |guest| seats[guest]))
}
