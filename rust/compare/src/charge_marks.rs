//! A search for a place that is kept or lost against its charge, by the engine's own clearings with places and floors
//! alone. Of places held, wherever the guest is seated, with other bids there and all else the same: a total above the
//! charge keeps the place, one below it loses it, and one that equals it keeps it exactly where, before the change, the
//! floor is below the charge or the guest's ticket is lower than that of the first candidate without a place.

use crate::Tally;
use crate::call::{self, Way};
use crate::markets::{accepted, shapes, show, tied};
use bay_market::Rule;
use reference::faults::MAX_PRICE;
use reference::market::Market;
use reference::marking::Submission;
use reference::random::{Random, Shape};
use std::cmp::Ordering;
use std::collections::BTreeSet;

const RULES: [Rule; 2] = [Rule::Median, Rule::TwoThirds];

const HELD_ELSEWHERE: &str = "held by a guest seated elsewhere";

/// How a bid's total stands to the charge.
#[derive(Clone, Copy, Debug, PartialEq, Eq)]
enum Stands {
    Above,
    Below,
    /// It equals the charge, and the floor is lower.
    OverFloor,
    /// It equals charge and floor, and the ticket is lower than that of the first candidate without a place.
    BeforeFirstOut,
    /// It is not.
    AfterFirstOut,
}

const ALL: [Stands; 5] = [Stands::Above, Stands::Below, Stands::OverFloor, Stands::BeforeFirstOut, Stands::AfterFirstOut];

impl Stands {
    fn name(self) -> &'static str {
        match self {
            Stands::Above => "above",
            Stands::Below => "below",
            Stands::OverFloor => "equal, kept by floor",
            Stands::BeforeFirstOut => "equal, kept by ticket",
            Stands::AfterFirstOut => "equal, lost",
        }
    }

    fn keeps(self) -> bool {
        !matches!(self, Stands::Below | Stands::AfterFirstOut)
    }
}

/// A guest and a station of a market, and what was given of it.
#[derive(Clone, Copy)]
struct Place<'a> {
    market: &'a Market,
    full: &'a Submission,
    guest: usize,
    station: usize,
}

impl Place<'_> {
    fn at(&self, guest: usize) -> usize {
        (guest - 1) * self.market.stations() + self.station - 1
    }

    fn shown(&self) -> u8 {
        self.full.places[self.at(self.guest)]
    }

    fn total(&self, guest: usize, bid: u32) -> u64 {
        u64::from(bid) * u64::from(self.market.amounts[guest - 1])
    }

    fn floor(&self) -> u64 {
        self.full.floors[self.station - 1].into()
    }

    fn charge(&self) -> u64 {
        self.total(self.guest, self.full.cut).max(self.floor())
    }

    /// The ticket of the first candidate without a place at the station.
    fn first_out(&self) -> Option<u32> {
        let Place { market, full, station, .. } = *self;
        let open = market.asks[station - 1] < full.cut;
        let out = |&guest: &usize| {
            let bid = market.bid(guest, station);
            open && bid >= full.cut && full.places[self.at(guest)] == 0 && self.total(guest, bid) == self.floor()
        };
        (1..=market.guests()).filter(out).map(|guest| market.tickets[guest - 1]).min()
    }

    fn stands(&self, bid: u32) -> Stands {
        let before = |first_out| self.market.tickets[self.guest - 1] < first_out;
        match self.total(self.guest, bid).cmp(&self.charge()) {
            Ordering::Greater => Stands::Above,
            Ordering::Less => Stands::Below,
            Ordering::Equal if self.floor() < self.charge() => Stands::OverFloor,
            Ordering::Equal if self.first_out().is_some_and(before) => Stands::BeforeFirstOut,
            Ordering::Equal => Stands::AfterFirstOut,
        }
    }

    /// What is shown of the place after a change to this bid is as the charge has it.
    fn require(&self, bid: u32, after: &Place) -> Result<(), String> {
        let (stands, charge) = (self.stands(bid), self.charge());
        let says = |what: String| {
            let (guest, station) = (self.guest, self.station);
            Err(format!("with a bid of {bid} guest {guest} {what} at station {station}, where its charge is {charge}"))
        };
        if after.shown() != u8::from(stands.keeps()) {
            return says(format!("has place {} ({})", after.shown(), stands.name()));
        }
        if stands.keeps() && after.charge() != charge {
            return says(format!("has a charge of {}", after.charge()));
        }
        Ok(())
    }

    /// The bid that comes to the charge or to just below it.
    fn quotient(&self) -> u32 {
        (self.charge() / u64::from(self.market.amounts[self.guest - 1])) as u32
    }
}

/// Every bid up to one whose total is above the charge, and the next one.
fn every_bid(quotient: u32) -> BTreeSet<u32> {
    (0..=quotient.saturating_add(2).min(MAX_PRICE)).collect()
}

/// The bids about the charge, the least and the greatest.
fn some_bids(quotient: u32) -> BTreeSet<u32> {
    let about = [quotient.saturating_sub(1), quotient, quotient.saturating_add(1)];
    about.into_iter().chain([0, MAX_PRICE]).filter(|&bid| bid <= MAX_PRICE).collect()
}

/// Clears the market again with each of these bids at a place held.
fn check(tally: &mut Tally, way: Way, rule: Rule, place: &Place, bids: BTreeSet<u32>) -> Result<(), String> {
    let Place { market, full, guest, station } = *place;
    if usize::from(full.stations[guest - 1]) != station {
        tally.meet(HELD_ELSEWHERE);
    }
    let mut other = market.clone();
    for bid in bids {
        other.bids[place.at(guest)] = bid;
        tally.count::<()>(&Ok(()));
        tally.meet(place.stands(bid).name());
        let full = call::hand_in_by(way, rule, &other)?;
        place.require(bid, &Place { market: &other, full: &full, guest, station })?;
    }
    Ok(())
}

/// Clears a market, and again with other bids at its places, or at so many of them.
fn search(
    random: &mut Random,
    tally: &mut Tally,
    market: &Market,
    most: usize,
    bids: fn(u32) -> BTreeSet<u32>,
) -> Result<(), String> {
    for rule in RULES {
        let searched = call::hand_in(rule, market, |way, full| {
            let m = market.stations();
            let mut held: Vec<usize> = (0..full.places.len()).filter(|&at| full.places[at] == 1).collect();
            if held.len() > most {
                held = (0..most).map(|_| *random.pick(&held)).collect();
            }
            held.into_iter().try_for_each(|at| {
                let place = Place { market, full: &full, guest: at / m + 1, station: at % m + 1 };
                check(tally, way, rule, &place, bids(place.quotient()))
            })
        });
        searched.map_err(|what| format!("{what}\n{rule:?}\n{}", show(market)))?;
    }
    Ok(())
}

/// Every place with every bid in small markets, some places with some bids in markets of all sizes.
pub fn run(random: &mut Random, tally: &mut Tally, cases: usize) -> Result<(), String> {
    let few = Shape { guests: 1..=5, stations: 1..=4, bays: 1..=2, asks: 0..=3, bids: 0..=6, ..tied() };
    let few = [
        Shape { bids: 2..=4, asks: 0..=2, amounts: 1..=2, ..few.clone() },
        Shape { guests: 3..=5, bids: 4..=6, bays: 1..=1, ..few.clone() },
        few,
    ];
    for _ in 0..cases {
        let market = random.pick(&few).market(random);
        search(random, tally, &market, usize::MAX, every_bid)?;
    }
    let mut many = shapes();
    many.push(Shape { guests: 200..=200, stations: 40..=40, bays: 1..=20, ..tied() });
    many.push(Shape { guests: 50..=200, stations: 3..=40, bays: 1..=60, bids: 5..=6, ..tied() });
    for _ in 0..cases / 25 {
        let market = accepted(random, &many);
        search(random, tally, &market, 3, some_bids)?;
    }
    tally.require(&[0])?;
    tally.require_met(&ALL.map(Stands::name))?;
    tally.require_met(&[HELD_ELSEWHERE])
}

#[cfg(test)]
mod tests {
    use super::*;
    use crate::call::handed_in;
    use reference::marking::clear_fully;
    use reference::samples;

    /// Guest 1 bids 9 for 3 kWh at station 1, which has one bay; guest 2 bids there too. The cut is 6.
    fn contest(tickets: [u32; 2], amount: u16, bid: u32) -> Market {
        Market::new(&[2, 6], &[1, 1], &[3, amount], &tickets, &[9, 0, bid, 0])
    }

    /// The charge, and how each bid's total stands to it, held to the reference's own clearing.
    fn stands<const N: usize>(rule: u8, market: &Market, guest: usize, station: usize, bids: [u32; N]) -> (u64, [Stands; N]) {
        let full = handed_in(&clear_fully(rule, market));
        let place = Place { market, full: &full, guest, station };
        assert_eq!(place.shown(), 1);
        let stands = bids.map(|bid| {
            let mut other = market.clone();
            other.bids[place.at(guest)] = bid;
            let full = handed_in(&clear_fully(rule, &other));
            let after = Place { market: &other, full: &full, guest, station };
            assert_eq!(place.require(bid, &after), Ok(()));
            // and one that is shown otherwise is not let pass
            let mut wrong = full.clone();
            wrong.places[place.at(guest)] ^= 1;
            assert!(place.require(bid, &Place { full: &wrong, ..after }).unwrap_err().contains("has place"));
            if after.shown() == 1 {
                let mut wrong = full.clone();
                wrong.cut = 10;
                assert!(place.require(bid, &Place { full: &wrong, ..after }).unwrap_err().contains("has a charge of"));
            }
            place.stands(bid)
        });
        (place.charge(), stands)
    }

    #[test]
    fn a_bid_stands_to_the_charge() {
        use Stands::{Above, AfterFirstOut, BeforeFirstOut, Below, OverFloor};
        assert_eq!(stands(1, &contest([4, 9], 3, 8), 1, 1, [7, 8, 9, 10]), (24, [Below, BeforeFirstOut, Above, Above]));
        assert_eq!(stands(1, &contest([9, 4], 3, 8), 1, 1, [7, 8, 9, 10]), (24, [Below, AfterFirstOut, Above, Above]));
        for tickets in [[4, 9], [9, 4]] {
            assert_eq!(stands(1, &contest(tickets, 2, 7), 1, 1, [5, 6, 7]), (18, [Below, OverFloor, Above]));
        }
        // guest 3 is seated at station 2
        let table_i = samples::table_i();
        assert_eq!(stands(1, &table_i, 3, 4, [0, 2, 3, 4, 1_000_000]), (18, [Below, Below, OverFloor, Above, Above]));
        assert_eq!(stands(2, &table_i, 3, 4, [3, 4, 5]), (24, [Below, OverFloor, Above]));
    }

    #[test]
    fn bids_go_past_the_charge() {
        assert_eq!(every_bid(8), (0..=10).collect());
        assert_eq!(some_bids(8), [0, 7, 8, 9, MAX_PRICE].into());
        assert_eq!(every_bid(MAX_PRICE).last(), Some(&MAX_PRICE));
        assert_eq!(some_bids(MAX_PRICE), [0, MAX_PRICE - 1, MAX_PRICE].into());
    }
}
