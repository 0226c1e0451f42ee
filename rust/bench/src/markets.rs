//! The random markets that are timed.

use crate::timing::Bench;
use bay_market::{Rule, lent};
use reference::market::Market;
use reference::random::{self, Random, Shape};

pub fn lend(market: &Market) -> lent::Market<'_> {
    lent::Market {
        asks: &market.asks,
        bays: &market.bays,
        amounts: &market.amounts,
        tickets: &market.tickets,
        bids: &market.bids,
        width: market.width,
    }
}

/// So many guests, whose tickets rise, and stations, with bays from 1 to the most.
pub fn sized(guests: u64, stations: u64, bays: u64) -> Shape {
    let shape = Shape { tickets: random::numbered, ..Shape::full() };
    Shape { guests: guests..=guests, stations: stations..=stations, bays: 1..=bays, ..shape }
}

pub fn with_random_tickets(shape: &Shape) -> Shape {
    Shape { tickets: random::mixed, ..shape.clone() }
}

/// The sizes at which every call is timed.
pub fn sizes() -> [(&'static str, Shape); 5] {
    [
        ("200 by 40, bays 1 to 200", sized(200, 40, 200)),
        ("200 by 40, bays 1 to 10", sized(200, 40, 10)),
        ("100 by 10, bays 1 to 10", sized(100, 10, 10)),
        ("20 by 6, bays 1 to 3", sized(20, 6, 3)),
        ("5 by 5, bays 1 to 2", sized(5, 5, 2)),
    ]
}

/// The cases of the calls that clear.
pub fn cases() -> Vec<(&'static str, Rule, Shape)> {
    let full = sized(200, 40, 200);
    let few_bays = sized(200, 40, 10);
    let candidates = Shape { asks: 0..=500_000, bids: 500_000..=1_000_000, ..few_bays.clone() };
    let tied = Shape { bids: 700_000..=700_000, amounts: 50..=50, ..candidates.clone() };
    let (medium, small, least) = (sized(100, 10, 10), sized(20, 6, 3), sized(5, 5, 2));
    let median = |name, shape| (name, Rule::Median, shape);
    vec![
        median("200 by 40, bays 1 to 200", full.clone()),
        median("200 by 40, bays 1 to 10", few_bays.clone()),
        median("200 by 40, bays 1", sized(200, 40, 1)),
        median("200 by 40, bays 200", Shape { bays: 200..=200, ..full.clone() }),
        median("200 by 40, all candidates, bays 1 to 10", candidates.clone()),
        median("200 by 40, all candidates, bays 1 to 200", Shape { bays: 1..=200, ..candidates }),
        median("200 by 40, all totals tied, bays 1 to 10", tied.clone()),
        median("100 by 10, bays 1 to 10", medium.clone()),
        median("20 by 6, bays 1 to 3", small.clone()),
        median("5 by 5, bays 1 to 2", least.clone()),
        median("200 by 40, bays 1 to 200, random tickets", with_random_tickets(&full)),
        median("200 by 40, all totals tied, bays 1 to 10, random tickets", with_random_tickets(&tied)),
        median("100 by 10, bays 1 to 10, random tickets", with_random_tickets(&medium)),
        median("20 by 6, bays 1 to 3, random tickets", with_random_tickets(&small)),
        median("5 by 5, bays 1 to 2, random tickets", with_random_tickets(&least)),
        ("200 by 40, bays 1 to 10, rule 2", Rule::TwoThirds, few_bays),
    ]
}

/// The markets that are read and written, the greatest under this name.
pub fn fillings(greatest: &'static str) -> [(&'static str, Shape); 6] {
    let full = sized(200, 40, 200);
    let with_bids = |shape: Shape, empty| Shape { bids: 1..=1_000_000, empty, ..shape };
    [
        (greatest, with_bids(full.clone(), 0)),
        ("200 by 40, two bids in five", with_bids(full.clone(), 60)),
        ("200 by 40, one bid in ten", with_bids(full, 90)),
        ("100 by 10, two bids in five", with_bids(sized(100, 10, 10), 60)),
        ("20 by 6, two bids in five", with_bids(sized(20, 6, 3), 60)),
        ("5 by 5, two bids in five", with_bids(sized(5, 5, 2), 60)),
    ]
}

impl Bench {
    /// Random inputs of a row, each made from a market of that shape.
    pub fn inputs<I>(&self, random: &mut Random, shape: &Shape, input: impl Fn(&mut Random, Market) -> I) -> Vec<I> {
        let bids = shape.guests.end() * shape.stations.end();
        let mut one = || {
            let market = shape.market(random);
            input(random, market)
        };
        (0..self.count(bids)).map(|_| one()).collect()
    }
}
