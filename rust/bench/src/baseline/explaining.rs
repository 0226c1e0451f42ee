//! Telling what decided.

use super::Scratch;
use super::clearing::{Opened, decide};
use super::faults::{lengths_fault, most, values_fault};
use super::keys::select;
use bay_market::lent::{Explanation, Market};
use bay_market::{MAX_STATIONS, Rule};

/// Clears with `select` and tells what decided: every candidate is outbid until it is found to hold a place.
pub fn explain(scratch: &mut Scratch, rule: Rule, market: &Market, explanation: &mut Explanation) -> Result<(), u8> {
    lengths_fault(market)?;
    let (n, m) = (market.amounts.len(), market.asks.len());
    let outcomes = [explanation.stations.len(), explanation.charges.len(), explanation.reasons.len()];
    if explanation.codes.len() != n * m || outcomes != [n; 3] {
        return Err(10);
    }
    values_fault(&mut scratch.ranks, market)?;
    let opened = Opened::of(rule, market.asks);
    // a bid adds 1 where the station is not open and 2 where it is, and there 1 more from the cut on
    let (mut step, mut bar) = ([1; MAX_STATIONS], [u32::MAX; MAX_STATIONS]);
    for &station in opened.stations() {
        (step[station], bar[station]) = (2, opened.cut);
    }
    for (row, bids) in explanation.codes.chunks_exact_mut(m).zip(market.bids.chunks_exact(m)) {
        for ((code, &bid), (&step, &bar)) in row.iter_mut().zip(bids).zip(step.iter().zip(&bar)) {
            *code = 1 + step * u8::from(bid != 0) + u8::from(bid >= bar);
        }
    }
    let Scratch { gathered, ranks, .. } = scratch;
    let codes = &mut *explanation.codes;
    let decided = decide(gathered, &ranks.standings, &opened, market, select, |guest, station| codes[guest * m + station] = 0);
    for (guest, &amount) in market.amounts.iter().enumerate() {
        (explanation.stations[guest], explanation.charges[guest], explanation.reasons[guest]) = match decided.seat(guest) {
            Some(station) => (station as u16 + 1, decided.floors[station].max(opened.cut * u32::from(amount)), 0),
            None => (0, 0, most(&explanation.codes[guest * m..(guest + 1) * m])),
        };
    }
    Ok(())
}

#[cfg(test)]
mod tests {
    use super::*;
    use crate::baseline::samples::damaged;
    use crate::markets::lend;
    use reference::faults::{self, ExplanationLengths};
    use reference::random::Random;
    use reference::{explaining, samples};

    #[test]
    fn explaining_refuses_as_the_reference() {
        let mut random = Random::new(1);
        let mut scratch = Scratch::new();
        for _ in 0..2_000 {
            let market = if random.chance(50) { samples::table_i() } else { damaged(&mut random) };
            let mut lists = ExplanationLengths::of(&market);
            match random.below(8) {
                0 => lists.codes += 1,
                1 => lists.stations += 1,
                2 => lists.charges += 1,
                3 => lists.reasons += 1,
                _ => {}
            }
            let (mut codes, mut reasons) = (vec![77; lists.codes], vec![77; lists.reasons]);
            let (mut stations, mut charges) = (vec![77; lists.stations], vec![77; lists.charges]);
            let mut explanation =
                Explanation { codes: &mut codes, stations: &mut stations, charges: &mut charges, reasons: &mut reasons };
            let answer = explain(&mut scratch, Rule::Median, &lend(&market), &mut explanation);
            assert_eq!(answer, faults::explaining_fault(1, &market, lists), "{market:?}");
            if answer.is_ok() {
                assert_eq!(codes, explaining::explain(1, &market).codes, "{market:?}");
            }
        }
    }
}
