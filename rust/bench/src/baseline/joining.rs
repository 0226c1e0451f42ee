//! Joining two markets.

use super::faults::{lengths_fault, numbers_fault};
use bay_market::MAX_GUESTS;
use bay_market::lent::{Joined, Market};

/// Whether some number is twice in two lists of at most 200 together: by a sorted copy where they do not rise.
fn repeat(one: &[u32], other: &[u32]) -> bool {
    if one.iter().chain(other).is_sorted_by(|earlier, later| earlier < later) {
        return false;
    }
    let mut copy = [0; MAX_GUESTS];
    copy[..one.len()].copy_from_slice(one);
    let copy = &mut copy[..one.len() + other.len()];
    copy[one.len()..].copy_from_slice(other);
    copy.sort_unstable();
    copy.windows(2).any(|pair| pair[0] == pair[1])
}

/// Joins two markets by copies of their lists.
pub fn join(first: &Market, second: &Market, joined: &mut Joined) -> Result<(), u8> {
    for market in [first, second] {
        lengths_fault(market)?;
        numbers_fault(market)?;
        if repeat(market.tickets, &[]) {
            return Err(15);
        }
    }
    if first.asks != second.asks || first.bays != second.bays {
        return Err(20);
    }
    let (n, m) = (first.amounts.len() + second.amounts.len(), first.asks.len());
    if n > MAX_GUESTS {
        return Err(2);
    }
    if repeat(first.tickets, second.tickets) {
        return Err(21);
    }
    let guests = joined.amounts.len() == n && joined.tickets.len() == n && joined.bids.len() == n * m;
    if !guests || joined.asks.len() != m || joined.bays.len() != m {
        return Err(10);
    }
    fn put<T: Copy>(table: &mut [T], one: &[T], other: &[T]) {
        let (front, back) = table.split_at_mut(one.len());
        front.copy_from_slice(one);
        back.copy_from_slice(other);
    }
    joined.asks.copy_from_slice(first.asks);
    joined.bays.copy_from_slice(first.bays);
    put(joined.amounts, first.amounts, second.amounts);
    put(joined.tickets, first.tickets, second.tickets);
    put(joined.bids, first.bids, second.bids);
    Ok(())
}

#[cfg(test)]
mod tests {
    use super::*;
    use crate::baseline::samples::damaged;
    use crate::joining::JoinedLists;
    use crate::markets::lend;
    use reference::random::Random;
    use reference::sheet::TableLengths;
    use reference::{gates, samples};

    #[test]
    fn joining_joins_and_refuses_as_the_reference() {
        let mut random = Random::new(1);
        for _ in 0..5_000 {
            // mostly with other tickets, of which one may be in both
            let mut gate = |moved: u32| {
                let mut market = if random.chance(70) { samples::table_i() } else { damaged(&mut random) };
                for ticket in &mut market.tickets {
                    *ticket = ticket.wrapping_add(if random.chance(95) { moved } else { 0 });
                }
                market
            };
            let (first, second) = (gate(0), gate(5));
            let (n, m) = (first.guests() + second.guests() + random.below(5) / 4, first.stations());
            let mut tables = JoinedLists::new(n, m);
            let lengths = TableLengths { amounts: n, tickets: n, asks: m, bays: m, bids: n * m };
            let expected = gates::join(&first, &second, lengths);
            let answer = join(&lend(&first), &lend(&second), &mut tables.lend());
            assert_eq!(answer.map(|()| tables.market()), expected, "{first:?} {second:?}");
        }
    }
}
