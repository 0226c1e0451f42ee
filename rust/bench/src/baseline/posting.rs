//! Posting.

use super::Scratch;
use super::clearing::{Opened, clear_accepted};
use super::faults::{lengths_fault, values_fault};
use super::keys::select;
use bay_market::lent::{Ledger, Market, Results};
use bay_market::{MAX_ACCOUNT, MAX_DESKS, MAX_GUESTS, MAX_STATIONS, Rule, StationAccount};

/// A number whose highest bit is set where an account would be above its limit with what is added, so that several are
/// done at once.
fn excess(account: u64, added: u64) -> u64 {
    account | MAX_ACCOUNT.wrapping_sub(account.wrapping_add(added))
}

fn any(excesses: impl Iterator<Item = u64>) -> u64 {
    excesses.fold(0, |any, excess| any | excess)
}

/// Posts with `select`. Accounts beyond the market's are looked at, and nothing is added to them.
pub fn post(scratch: &mut Scratch, rule: Rule, market: &Market, desk: u8, round: u32, ledger: &mut Ledger) -> Result<(), u8> {
    lengths_fault(market)?;
    values_fault(&mut scratch.ranks, market)?;
    let (n, m) = (market.amounts.len(), market.asks.len());
    if !(n..=MAX_GUESTS).contains(&ledger.guests.len()) || !(m..=MAX_STATIONS).contains(&ledger.stations.len()) {
        return Err(13);
    }
    let Ok(last) = <&mut [u32; MAX_DESKS]>::try_from(&mut *ledger.last) else { return Err(13) };
    let Some(last) = last.get_mut(usize::from(desk)) else { return Err(25) };
    if last.checked_add(1) != Some(round) {
        return Err(11);
    }
    let Scratch { gathered, ranks, stations, charges, sold, paid, .. } = scratch;
    let mut results =
        Results { stations: &mut stations[..n], charges: &mut charges[..n], sold: &mut sold[..m], paid: &mut paid[..m] };
    let opened = Opened::of(rule, market.asks);
    let cleared = clear_accepted(gathered, &ranks.standings, opened, market, &mut results, select);
    let (guests, other_guests) = ledger.guests.split_at_mut(n);
    let (sellers, other_sellers) = ledger.stations.split_at_mut(m);
    let charged = guests.iter().zip(&charges[..n]).map(|(&account, &charge)| excess(account, charge.into()));
    let kwh = sellers.iter().zip(&sold[..m]).map(|(account, &sold)| excess(account.sold, sold.into()));
    let mills = sellers.iter().zip(&paid[..m]).map(|(account, &paid)| excess(account.paid, paid));
    let others = other_guests.iter().map(|&account| excess(account, 0));
    let others = others.chain(other_sellers.iter().map(|account| excess(account.sold, 0) | excess(account.paid, 0)));
    let excesses = [any(charged), any(kwh), any(mills), any(others), excess(*ledger.house, cleared.margin)];
    if any(excesses.into_iter()) >> 63 != 0 {
        return Err(12);
    }
    for (account, &charge) in guests.iter_mut().zip(&charges[..n]) {
        *account += u64::from(charge);
    }
    for (account, (&sold, &paid)) in sellers.iter_mut().zip(sold.iter().zip(&paid[..m])) {
        *account = StationAccount { sold: account.sold + u64::from(sold), paid: account.paid + paid };
    }
    *ledger.house += cleared.margin;
    *last = round;
    Ok(())
}

#[cfg(test)]
mod tests {
    use super::*;
    use crate::baseline::samples::damaged;
    use crate::markets::lend;
    use reference::random::Random;
    use reference::{ledger, samples};

    #[test]
    fn posting_refuses_as_the_reference() {
        let mut random = Random::new(1);
        let mut scratch = Scratch::new();
        for _ in 0..2_000 {
            let market = if random.chance(50) { samples::table_i() } else { damaged(&mut random) };
            let mut plain = ledger::Ledger::empty(*random.pick(&[4, 5, 200, 201]), *random.pick(&[4, 5, 40, 41]));
            plain.house = *random.pick(&[0, ledger::MAX_ACCOUNT, ledger::MAX_ACCOUNT + 1]);
            plain.last = vec![*random.pick(&[0, ledger::MAX_ROUND]); *random.pick(&[7, 8, 8, 8, 9])];
            let mut guests = vec![0; plain.guests.len()];
            let mut stations = vec![StationAccount::default(); plain.stations.len()];
            let mut house = plain.house as u64;
            let mut last: Vec<u32> = plain.last.iter().map(|&last| last as u32).collect();
            let mut lent = Ledger { guests: &mut guests, stations: &mut stations, house: &mut house, last: &mut last };
            let (desk, round) = (*random.pick(&[0, 7, 8]), *random.pick(&[0, 1]));
            let answer = post(&mut scratch, Rule::Median, &lend(&market), desk, round, &mut lent);
            assert_eq!(answer, plain.post(1, &market, desk, round), "{market:?}");
        }
    }
}
