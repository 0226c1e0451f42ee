//! Truthful clearing: the candidates of each open station are gathered row by row, and those with a place found.

use super::faults::clearing_fault;
use super::keys::{Key, Order, Standing};
use super::{Gathered, MAX_OPEN, Scratch};
use bay_market::lent::{Cleared, Market, Results};
use bay_market::{MAX_GUESTS, MAX_STATIONS, Rule};

pub fn clear(scratch: &mut Scratch, rule: Rule, market: &Market, results: &mut Results, order: Order) -> Result<Cleared, u8> {
    clearing_fault(&mut scratch.ranks, market, results)?;
    let opened = Opened::of(rule, market.asks);
    Ok(clear_accepted(&mut scratch.gathered, &scratch.ranks.standings, opened, market, results, order))
}

/// The cut, and the stations that are open.
pub struct Opened {
    pub cut: u32,
    stations: [usize; MAX_STATIONS],
    pub count: usize,
}

impl Opened {
    pub fn of(rule: Rule, asks: &[u32]) -> Opened {
        let below = match rule {
            Rule::Median => asks.len() / 2,
            Rule::TwoThirds => 2 * asks.len() / 3,
        };
        let mut copy = [0; MAX_STATIONS];
        copy[..asks.len()].copy_from_slice(asks);
        let cut = *copy[..asks.len()].select_nth_unstable(below).1;
        let mut opened = Opened { cut, stations: [0; MAX_STATIONS], count: 0 };
        for station in (0..asks.len()).filter(|&station| asks[station] < cut) {
            opened.stations[opened.count] = station;
            opened.count += 1;
        }
        opened
    }

    pub fn stations(&self) -> &[usize] {
        &self.stations[..self.count]
    }
}

/// Fills the results, where guests have these seats and stations these floors.
pub fn settle(
    market: &Market,
    results: &mut Results,
    cut: u32,
    floors: &[u32; MAX_STATIONS],
    seat: impl Fn(usize) -> Option<usize>,
) -> Cleared {
    results.sold.fill(0);
    let mut margin = 0;
    for (guest, &amount) in market.amounts.iter().enumerate() {
        (results.stations[guest], results.charges[guest]) = (0, 0);
        if let Some(station) = seat(guest) {
            let amount = u32::from(amount);
            let charge = floors[station].max(cut * amount);
            (results.stations[guest], results.charges[guest]) = (station as u16 + 1, charge);
            results.sold[station] += amount;
            margin += u64::from(charge - cut * amount);
        }
    }
    for (paid, &sold) in results.paid.iter_mut().zip(&*results.sold) {
        *paid = u64::from(cut) * u64::from(sold);
    }
    Cleared { cut, margin }
}

pub fn clear_accepted(
    gathered: &mut Gathered,
    standings: &[Standing; MAX_GUESTS],
    opened: Opened,
    market: &Market,
    results: &mut Results,
    order: Order,
) -> Cleared {
    let decided = decide(gathered, standings, &opened, market, order, |_, _| ());
    settle(market, results, opened.cut, &decided.floors, |guest| decided.seat(guest))
}

/// What a truthful round decides.
pub struct Decided {
    /// Each guest's best place: its gain, then the lower station, as one number that is greatest; 0 for none.
    pub best: [u64; MAX_GUESTS],
    pub floors: [u32; MAX_STATIONS],
}

impl Decided {
    pub fn seat(&self, guest: usize) -> Option<usize> {
        (self.best[guest] > 0).then(|| MAX_STATIONS - (self.best[guest] & 0xFF) as usize)
    }
}

/// Decides who holds a place where, which is told to `hold` by guest and station.
#[inline(always)]
pub fn decide(
    gathered: &mut Gathered,
    standings: &[Standing; MAX_GUESTS],
    opened: &Opened,
    market: &Market,
    order: Order,
    mut hold: impl FnMut(usize, usize),
) -> Decided {
    let cut = opened.cut;
    let mut best = [0u64; MAX_GUESTS];
    let mut floors = [0; MAX_STATIONS];
    // the candidates of each open station, gathered row by row
    let mut counts = [0; MAX_OPEN];
    for ((row, &amount), &standing) in market.bids.chunks_exact(market.width).zip(market.amounts).zip(standings) {
        for ((keys, count), &station) in gathered.iter_mut().zip(&mut counts).zip(opened.stations()) {
            let bid = row[station];
            keys[*count] = Key::new(bid * u32::from(amount), standing, station);
            *count += usize::from(bid >= cut);
        }
    }
    for ((keys, &count), &station) in gathered.iter_mut().zip(&counts).zip(opened.stations()) {
        let bays = usize::from(market.bays[station]);
        let mut floor = 0;
        if count > bays {
            order(&mut keys[..count], bays);
            floor = keys[bays].total();
        }
        floors[station] = floor;
        for key in &keys[..count.min(bays)] {
            let guest = key.guest();
            let charge = floor.max(cut * u32::from(market.amounts[guest]));
            let place = u64::from(key.total() - charge) << 8 | (MAX_STATIONS - station) as u64;
            best[guest] = best[guest].max(place);
            hold(guest, station);
        }
    }
    Decided { best, floors }
}

#[cfg(test)]
mod tests {
    use super::*;
    use crate::baseline::efficient::clear_efficient;
    use crate::baseline::keys::select;
    use crate::baseline::samples::damaged;
    use crate::markets::lend;
    use reference::faults::{self, ListLengths};
    use reference::random::Random;

    #[test]
    fn clearing_refuses_as_the_reference() {
        let mut random = Random::new(1);
        let mut scratch = Scratch::new();
        for _ in 0..2_000 {
            let market = damaged(&mut random);
            let (n, m) = (market.guests(), market.stations());
            let lists = ListLengths { paid: *random.pick(&[m, m, m, m + 1]), ..ListLengths::of(&market) };
            let (mut stations, mut charges, mut sold, mut paid) = (vec![0; n], vec![0; n], vec![0; m], vec![0; lists.paid]);
            let mut results = Results { stations: &mut stations, charges: &mut charges, sold: &mut sold, paid: &mut paid };
            let expected = faults::clearing_fault(1, &market, lists);
            let answer = clear(&mut scratch, Rule::Median, &lend(&market), &mut results, select);
            assert_eq!(answer.map(|_| ()), expected, "{market:?}");
            let answer = clear_efficient(&mut scratch, Rule::Median, &lend(&market), &mut results);
            assert_eq!(answer.map(|_| ()), expected, "{market:?}");
        }
    }
}
