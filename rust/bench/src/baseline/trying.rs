//! Trying a row.

use super::Scratch;
use super::clearing::{Decided, Opened, decide};
use super::faults::{lengths_fault, some_above, values_fault};
use super::keys::select;
use bay_market::lent::{Gains, Market};
use bay_market::{MAX_PRICE, Rule};

/// What a guest gains that is seated so, by its worths.
pub fn gain(market: &Market, opened: &Opened, decided: &Decided, guest: usize, worths: &[u32]) -> i64 {
    decided.seat(guest).map_or(0, |station| {
        let amount = market.amounts[guest];
        let charge = decided.floors[station].max(opened.cut * u32::from(amount));
        i64::from(worths[station]) * i64::from(amount) - i64::from(charge)
    })
}

/// Tries a row: the checks, the ranks and the cut once, then a round with `select` by the bids as they are and one by a copy
/// of them with the row. Nothing is settled but the guest's own charges.
pub fn try_row(
    scratch: &mut Scratch,
    rule: Rule,
    market: &Market,
    guest: u32,
    worths: &[u32],
    row: &[u32],
    changes: &mut [u8],
) -> Result<Gains, u8> {
    lengths_fault(market)?;
    values_fault(&mut scratch.ranks, market)?;
    let (n, m) = (market.amounts.len(), market.asks.len());
    let guest = guest as usize;
    if guest == 0 || guest > n {
        return Err(24);
    }
    if worths.len() != m || row.len() != m {
        return Err(5);
    }
    if changes.len() != n {
        return Err(10);
    }
    if some_above(worths, MAX_PRICE) | some_above(row, MAX_PRICE) {
        return Err(9);
    }
    let Scratch { gathered, ranks, bids, .. } = scratch;
    let opened = Opened::of(rule, market.asks);
    let first = decide(gathered, &ranks.standings, &opened, market, select, |_, _| ());
    let bids = &mut bids[..n * m];
    bids.copy_from_slice(market.bids);
    bids[(guest - 1) * m..guest * m].copy_from_slice(row);
    let other = Market { bids, ..*market };
    let second = decide(gathered, &ranks.standings, &opened, &other, select, |_, _| ());
    for (change, (before, after)) in changes.iter_mut().zip(first.best.iter().zip(&second.best)) {
        *change = u8::from(*before == 0 && *after > 0) + 2 * u8::from(*before > 0 && *after == 0);
    }
    changes[guest - 1] = 0;
    let gain = |decided| gain(market, &opened, decided, guest - 1, worths);
    Ok(Gains { first: gain(&first), second: gain(&second) })
}

#[cfg(test)]
mod tests {
    use super::*;
    use crate::baseline::samples::damaged;
    use crate::markets::lend;
    use reference::other_rows::{OtherRow, trying_fault};
    use reference::random::Random;
    use reference::samples;

    #[test]
    fn trying_refuses_as_the_reference() {
        let mut random = Random::new(1);
        let mut scratch = Scratch::new();
        for _ in 0..4_000 {
            let market = if random.chance(70) { samples::table_i() } else { damaged(&mut random) };
            let mut list = || {
                let price = *random.pick(&[1, 1, 1, 1, 1_000_000, 1_000_001]);
                vec![price; *random.pick(&[5, 5, 5, 5, 5, 4, 6])]
            };
            let (worths, row) = (list(), list());
            let other = OtherRow { guest: random.below(8) as u32, worths, row };
            let mut changes = vec![0; market.guests() + usize::from(random.chance(10))];
            let expected = trying_fault(1, &market, &other, changes.len());
            let OtherRow { guest, worths, row } = &other;
            let answer = try_row(&mut scratch, Rule::Median, &lend(&market), *guest, worths, row, &mut changes);
            assert_eq!(answer.map(|_| ()), expected, "{market:?} {other:?}");
        }
    }
}
