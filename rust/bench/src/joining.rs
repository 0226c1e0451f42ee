//! Joining two markets.

use crate::baseline::joining::join;
use crate::loaded;
use crate::markets::{lend, sized, with_random_tickets};
use crate::timing::{Bench, Contender};
use bay_market::Refusal;
use bay_market::lent::{self, Joined};
use reference::gates;
use reference::market::Market;
use reference::random::{Random, Shape};
use std::hint::black_box;

/// Tables of a joined market.
pub struct JoinedLists {
    asks: Vec<u32>,
    bays: Vec<u16>,
    amounts: Vec<u16>,
    tickets: Vec<u32>,
    bids: Vec<u32>,
}

impl JoinedLists {
    pub fn new(guests: usize, stations: usize) -> JoinedLists {
        let bids = vec![0; guests * stations];
        JoinedLists { asks: vec![0; stations], bays: vec![0; stations], amounts: vec![0; guests], tickets: vec![0; guests], bids }
    }

    pub fn lend(&mut self) -> Joined<'_> {
        let JoinedLists { asks, bays, amounts, tickets, bids } = self;
        Joined { asks, bays, amounts, tickets, bids }
    }

    pub fn market(&self) -> Market {
        Market::new(&self.asks, &self.bays, &self.amounts, &self.tickets, &self.bids)
    }

    fn of((first, second): &Input) -> JoinedLists {
        JoinedLists::new(first.guests() + second.guests(), first.stations())
    }
}

type Input = (Market, Market);
type Join = fn(&lent::Market, &lent::Market, &mut Joined) -> Result<(), Refusal>;

fn engine(joined: &mut JoinedLists, (first, second): &Input, join: Join) {
    black_box(join(&lend(first), &lend(second), &mut joined.lend())).expect("markets that are joined");
}

/// Tickets that rise in each half of the guests, and alternate between them.
fn alternating(_random: &mut Random, guests: usize) -> Vec<u32> {
    let half = guests as u32 / 2;
    (0..guests as u32).map(|guest| if guest < half { 2 * guest } else { 2 * (guest - half) + 1 }).collect()
}

/// The first half of a market's guests, and the second.
fn halves(market: &Market) -> Input {
    let (half, m) = (market.guests() / 2, market.stations());
    let part = |from: usize, to: usize| {
        let bids = &market.bids[from * m..to * m];
        Market::new(&market.asks, &market.bays, &market.amounts[from..to], &market.tickets[from..to], bids)
    };
    (part(0, half), part(half, market.guests()))
}

pub fn joinings(bench: &Bench) {
    let copied = |joined: &mut JoinedLists, (first, second): &Input| {
        black_box(join(&lend(first), &lend(second), &mut joined.lend())).expect("markets that are joined");
    };
    let contenders = bench.contenders(
        |joined, input| engine(joined, input, lent::join),
        vec![Contender::new("copies", copied)],
        |joined, input| engine(joined, input, loaded::join),
    );
    bench.head("joining", &contenders);
    let (full, few) = (sized(200, 40, 200), sized(100, 10, 200));
    let alternate = |shape: &Shape| Shape { tickets: alternating, ..shape.clone() };
    let mut random = Random::new(12);
    for (name, shape) in [
        ("100 and 100 by 40", full.clone()),
        ("100 and 100 by 40, tickets alternate", alternate(&full)),
        ("100 and 100 by 40, random tickets", with_random_tickets(&full)),
        ("50 and 50 by 10", few.clone()),
        ("50 and 50 by 10, tickets alternate", alternate(&few)),
        ("10 and 10 by 6", sized(20, 6, 3)),
        ("2 and 3 by 5", sized(5, 5, 2)),
    ] {
        let inputs = bench.inputs(&mut random, &shape, |_, market| halves(&market));
        let expected = |(first, second): &Input| gates::join(first, second, gates::joined_lengths(first, second));
        bench.row(name, &inputs, &contenders, JoinedLists::of, expected, |joined| Ok(joined.market()));
    }
}
