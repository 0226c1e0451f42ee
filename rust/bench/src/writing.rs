//! Writing sheets.

use crate::baseline::Scratch;
use crate::baseline::writing::{by_bid, by_map, write};
use crate::loaded;
use crate::markets::{fillings, lend};
use crate::timing::{Bench, Contender};
use bay_market::{MAX_SHEET, Refusal, lent};
use reference::market::Market;
use reference::random::Random;
use reference::sheet;
use std::hint::black_box;

struct Working {
    scratch: Box<Scratch>,
    sheet: Vec<u8>,
    length: usize,
}

impl Working {
    fn new(_: &Market) -> Working {
        Working { scratch: Scratch::new(), sheet: vec![0; MAX_SHEET], length: 0 }
    }

    fn write(&mut self, write: impl FnOnce(&mut Scratch, &mut [u8]) -> Result<usize, u8>) {
        self.length = black_box(write(&mut self.scratch, &mut self.sheet)).expect("an accepted market");
    }
}

pub fn sheets(bench: &Bench) {
    let with_map = |working: &mut Working, market: &Market| {
        working.write(|scratch, sheet| write(scratch, &lend(market), sheet, by_map));
    };
    let with_bid = |working: &mut Working, market: &Market| {
        working.write(|scratch, sheet| write(scratch, &lend(market), sheet, by_bid));
    };
    let contenders = bench.contenders(
        |working: &mut Working, market| working.write(|_, sheet| lent::write(&lend(market), sheet).map_err(Refusal::number)),
        vec![Contender::new("by map", with_map), Contender::new("by bid", with_bid)],
        |working, market| working.write(|_, sheet| loaded::write(&lend(market), sheet).map_err(Refusal::number)),
    );
    bench.head("writing", &contenders);
    let mut random = Random::new(9);
    for (name, shape) in fillings("largest sheet, 34,444 bytes") {
        let inputs = bench.inputs(&mut random, &shape, |_, market| market);
        let seen = |working: &mut Working| working.sheet[..working.length].to_vec();
        bench.row(name, &inputs, &contenders, Working::new, sheet::shortest, seen);
    }
}
