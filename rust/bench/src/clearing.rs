//! Clearing, truthful and efficient.

use crate::baseline::Scratch;
use crate::baseline::clearing::clear;
use crate::baseline::efficient::clear_efficient;
use crate::baseline::keys::{Order, select, sort};
use crate::loaded;
use crate::markets::{cases, lend};
use crate::timing::{Bench, Contender};
use bay_market::lent::{self, Cleared, Results};
use bay_market::{Refusal, Rule};
use reference::clearing::{self, Outcome};
use reference::market::Market;
use reference::random::Random;
use std::hint::black_box;

/// What a contender works with: scratch memory, and what it clears to.
pub struct Working {
    scratch: Box<Scratch>,
    stations: Vec<u16>,
    charges: Vec<u32>,
    sold: Vec<u32>,
    paid: Vec<u64>,
    cleared: Cleared,
}

impl Working {
    pub fn new(market: &Market) -> Working {
        let (n, m) = (market.guests(), market.stations());
        Working {
            scratch: Scratch::new(),
            stations: vec![0; n],
            charges: vec![0; n],
            sold: vec![0; m],
            paid: vec![0; m],
            cleared: Cleared { cut: 0, margin: 0 },
        }
    }

    fn clear(&mut self, clear: impl FnOnce(&mut Scratch, &mut Results) -> Result<Cleared, u8>) {
        let Working { scratch, stations, charges, sold, paid, cleared } = self;
        *cleared = black_box(clear(scratch, &mut Results { stations, charges, sold, paid })).expect("an accepted market");
    }

    /// Clears with a baseline.
    pub fn by(&mut self, order: Order, rule: Rule, market: &Market) {
        self.clear(|scratch, results| clear(scratch, rule, &lend(market), results, order));
    }

    fn outcome(&mut self) -> Outcome {
        fn wide<T: Copy + Into<u128>>(list: &[T]) -> Vec<u128> {
            list.iter().map(|&number| number.into()).collect()
        }
        Outcome {
            cut: self.cleared.cut.into(),
            stations: self.stations.iter().map(|&station| station.into()).collect(),
            charges: wide(&self.charges),
            sold: wide(&self.sold),
            paid: wide(&self.paid),
            margin: self.cleared.margin.into(),
        }
    }
}

type Input = (Rule, Market);

/// An engine's call.
type Clear = fn(Rule, &lent::Market, &mut Results) -> Result<Cleared, Refusal>;

fn engine(working: &mut Working, (rule, market): &Input, clear: Clear) {
    working.clear(|_, results| clear(*rule, &lend(market), results).map_err(Refusal::number));
}

fn rows(bench: &Bench, what: &str, contenders: &[Contender<Working, Input>], expected: fn(u8, &Market) -> Outcome) {
    bench.head(what, contenders);
    let mut random = Random::new(8);
    for (name, rule, shape) in cases() {
        let inputs = bench.inputs(&mut random, &shape, |_, market| (rule, market));
        let expected = |(rule, market): &Input| expected(rule.number(), market);
        bench.row(name, &inputs, contenders, |(_, market)| Working::new(market), expected, Working::outcome);
    }
}

pub fn truthful(bench: &Bench) {
    let baselines = vec![
        Contender::new("select", |working: &mut Working, (rule, market): &Input| working.by(select, *rule, market)),
        Contender::new("sort", |working: &mut Working, (rule, market): &Input| working.by(sort, *rule, market)),
    ];
    let contenders = bench.contenders(
        |working, input| engine(working, input, lent::clear),
        baselines,
        |working, input| engine(working, input, loaded::clear),
    );
    rows(bench, "clearing", &contenders, clearing::clear);
}

pub fn efficient(bench: &Bench) {
    let sorted = |working: &mut Working, (rule, market): &Input| {
        working.clear(|scratch, results| clear_efficient(scratch, *rule, &lend(market), results));
    };
    let contenders = bench.contenders(
        |working, input| engine(working, input, lent::clear_efficient),
        vec![Contender::new("sort", sorted)],
        |working, input| engine(working, input, loaded::clear_efficient),
    );
    rows(bench, "efficient clearing", &contenders, clearing::clear_efficient);
}
