//! Clearing with places and floors, and marking.

use super::clearing::{Opened, decide, settle};
use super::faults::{lengths_fault, values_fault};
use super::keys::{Ranks, Standing, select};
use super::{Gathered, Scratch};
use bay_market::lent::{Cleared, FullResults, Market, Results, Submission};
use bay_market::{MAX_GUESTS, Rule};

/// The first fault of a call whose six lists have these lengths: of guests, of stations, and of places.
fn full_fault(ranks: &mut Ranks, market: &Market, guests: [usize; 2], stations: [usize; 3], places: usize) -> Result<(), u8> {
    lengths_fault(market)?;
    let (n, m) = (market.amounts.len(), market.asks.len());
    if guests != [n; 2] || stations != [m; 3] || places != n * m {
        return Err(10);
    }
    values_fault(ranks, market)
}

/// Clears an accepted market with `select` and keeps who holds a place, and the floors.
fn clear_fully(
    gathered: &mut Gathered,
    standings: &[Standing; MAX_GUESTS],
    rule: Rule,
    market: &Market,
    results: &mut FullResults,
) -> Cleared {
    let FullResults { stations, charges, sold, paid, places, floors } = results;
    let (opened, m) = (Opened::of(rule, market.asks), market.asks.len());
    places.fill(0);
    let decided = decide(gathered, standings, &opened, market, select, |guest, station| places[guest * m + station] = 1);
    floors.copy_from_slice(&decided.floors[..m]);
    let mut results = Results { stations, charges, sold, paid };
    settle(market, &mut results, opened.cut, &decided.floors, |guest| decided.seat(guest))
}

/// Clears with `select` and gives the places and floors besides.
pub fn clear_marked(scratch: &mut Scratch, rule: Rule, market: &Market, results: &mut FullResults) -> Result<Cleared, u8> {
    let guests = [results.stations.len(), results.charges.len()];
    let stations = [results.sold.len(), results.paid.len(), results.floors.len()];
    full_fault(&mut scratch.ranks, market, guests, stations, results.places.len())?;
    Ok(clear_fully(&mut scratch.gathered, &scratch.ranks.standings, rule, market, results))
}

/// Clears so into lists of its own and compares them with what is handed in.
pub fn mark(scratch: &mut Scratch, rule: Rule, market: &Market, submission: &Submission) -> Result<bool, u8> {
    let guests = [submission.stations.len(), submission.charges.len()];
    let of_stations = [submission.sold.len(), submission.paid.len(), submission.floors.len()];
    full_fault(&mut scratch.ranks, market, guests, of_stations, submission.places.len())?;
    let (n, m) = (market.amounts.len(), market.asks.len());
    let Scratch { gathered, ranks, stations, charges, sold, paid, places, floors, .. } = scratch;
    let mut results = FullResults {
        stations: &mut stations[..n],
        charges: &mut charges[..n],
        sold: &mut sold[..m],
        paid: &mut paid[..m],
        places: &mut places[..n * m],
        floors: &mut floors[..m],
    };
    let cleared = clear_fully(gathered, &ranks.standings, rule, market, &mut results);
    Ok(cleared == Cleared { cut: submission.cut, margin: submission.margin }
        && results.stations == submission.stations
        && results.charges == submission.charges
        && results.sold == submission.sold
        && results.paid == submission.paid
        && results.floors == submission.floors
        && results.places == submission.places)
}

#[cfg(test)]
mod tests {
    use super::*;
    use crate::baseline::samples::damaged;
    use crate::markets::lend;
    use crate::marking::FullLists;
    use reference::faults::{self, FullLengths};
    use reference::random::Random;
    use reference::samples;

    #[test]
    fn marking_refuses_as_the_reference() {
        let mut random = Random::new(1);
        let mut scratch = Scratch::new();
        for _ in 0..4_000 {
            let market = if random.chance(50) { samples::table_i() } else { damaged(&mut random) };
            let mut lists = FullLengths::of(&market);
            match random.below(12) {
                0 => lists.stations += 1,
                1 => lists.charges += 1,
                2 => lists.sold += 1,
                3 => lists.paid += 1,
                4 => lists.places += 1,
                5 => lists.floors += 1,
                _ => {}
            }
            let mut full = FullLists::of(lists);
            let cleared = clear_marked(&mut scratch, Rule::Median, &lend(&market), &mut full.lend());
            assert_eq!(cleared.map(|_| ()), faults::full_clearing_fault(1, &market, lists), "{market:?}");
            let (cut, margin) = cleared.map_or((0, 0), |Cleared { cut, margin }| (cut, margin));
            let marked = mark(&mut scratch, Rule::Median, &lend(&market), &full.hand_in(cut, margin));
            assert_eq!(marked, cleared.map(|_| true), "{market:?}");
        }
    }
}
