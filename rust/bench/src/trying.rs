//! Trying a row.

use crate::baseline::Scratch;
use crate::baseline::keys::select;
use crate::baseline::trying::try_row;
use crate::clearing;
use crate::loaded;
use crate::markets::{lend, sizes, with_random_tickets};
use crate::timing::{Bench, Contender};
use bay_market::lent::{self, Gains};
use bay_market::{Refusal, Rule};
use reference::market::Market;
use reference::other_rows::{self, OtherRow};
use reference::random::Random;
use std::hint::black_box;

type Input = (Market, OtherRow);

struct Working {
    scratch: Box<Scratch>,
    changes: Vec<u8>,
    gains: Gains,
    alone: clearing::Working,
}

impl Working {
    fn new((market, _): &Input) -> Working {
        Working {
            scratch: Scratch::new(),
            changes: vec![77; market.guests()],
            gains: Gains { first: 77, second: 77 },
            alone: clearing::Working::new(market),
        }
    }

    fn try_row(&mut self, try_row: impl FnOnce(&mut Scratch, &mut [u8]) -> Result<Gains, u8>) {
        self.gains = black_box(try_row(&mut self.scratch, &mut self.changes)).expect("a row that is tried");
    }

    fn seen(&mut self) -> (i128, i128, Vec<u8>) {
        (self.gains.first.into(), self.gains.second.into(), self.changes.clone())
    }
}

/// What the reference tells.
fn expected((market, other): &Input) -> (i128, i128, Vec<u8>) {
    let tried = other_rows::try_row(1, market, other, market.guests()).expect("a row that is tried");
    (tried.first_gain, tried.second_gain, tried.changes)
}

/// A guest of a market, whose bids are its worths, with a row of the same range.
fn with_another_row(random: &mut Random, market: Market) -> Input {
    let (place, m) = (random.below(market.guests()), market.stations());
    let row = (0..m).map(|_| random.within(0..=1_000_000) as u32).collect();
    let other = OtherRow { guest: place as u32 + 1, worths: market.bids[place * m..(place + 1) * m].to_vec(), row };
    (market, other)
}

type TryRow = fn(Rule, &lent::Market, u32, &[u32], &[u32], &mut [u8]) -> Result<Gains, Refusal>;

fn engine(working: &mut Working, (market, OtherRow { guest, worths, row }): &Input, try_row: TryRow) {
    let run = |changes: &mut [u8]| try_row(Rule::Median, &lend(market), *guest, worths, row, changes);
    working.try_row(|_, changes| run(changes).map_err(Refusal::number));
}

/// The engine, a baseline that checks once and clears twice, and the plain clearing with `select`.
pub fn trials(bench: &Bench) {
    let twice = |working: &mut Working, (market, OtherRow { guest, worths, row }): &Input| {
        working.try_row(|scratch, changes| try_row(scratch, Rule::Median, &lend(market), *guest, worths, row, changes));
    };
    let once = |working: &mut Working, (market, _): &Input| working.alone.by(select, Rule::Median, market);
    let contenders = bench.contenders(
        |working, input| engine(working, input, lent::try_row),
        vec![Contender::new("select twice", twice), Contender::other("select, one clearing", once)],
        |working, input| engine(working, input, loaded::try_row),
    );
    bench.head("trying a row", &contenders);
    let mut random = Random::new(13);
    let full = sizes()[0].1.clone();
    let mixed = ("200 by 40, bays 1 to 200, random tickets", with_random_tickets(&full));
    for (name, shape) in sizes().into_iter().chain([mixed]) {
        let inputs = bench.inputs(&mut random, &shape, with_another_row);
        bench.row(name, &inputs, &contenders, Working::new, expected, Working::seen);
    }
}
