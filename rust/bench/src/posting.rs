//! Posting to a ledger of the greatest size.

use crate::baseline::Scratch;
use crate::baseline::posting::post;
use crate::loaded;
use crate::markets::{lend, sizes};
use crate::timing::{Bench, Contender};
use bay_market::lent;
use bay_market::{Desk, Ledger, MAX_GUESTS, MAX_STATIONS, Refusal, Rule, StationAccount};
use reference::ledger;
use reference::market::Market;
use reference::random::Random;
use std::hint::black_box;

struct Working {
    scratch: Box<Scratch>,
    ledger: Ledger,
}

impl Working {
    fn new() -> Working {
        Working { scratch: Scratch::new(), ledger: Ledger::new(MAX_GUESTS, MAX_STATIONS) }
    }

    /// Posts as the next round.
    fn post(&mut self, post: impl FnOnce(&mut Scratch, u32, &mut lent::Ledger) -> Result<(), u8>) {
        let round = self.ledger.last[0] + 1;
        black_box(post(&mut self.scratch, round, &mut self.ledger.lend())).expect("an accepted posting");
    }
}

fn plain(ledger: &Ledger) -> ledger::Ledger {
    let account = |account: &StationAccount| ledger::StationAccount { sold: account.sold.into(), paid: account.paid.into() };
    ledger::Ledger {
        guests: ledger.guests.iter().map(|&account| account.into()).collect(),
        stations: ledger.stations.iter().map(account).collect(),
        house: ledger.house.into(),
        last: ledger.last.iter().map(|&last| last.into()).collect(),
    }
}

type Post = fn(Rule, &lent::Market, Desk, u32, &mut lent::Ledger) -> Result<(), Refusal>;

fn engine(working: &mut Working, market: &Market, post: Post) {
    working.post(|_, round, ledger| post(Rule::Median, &lend(market), Desk::ALL[0], round, ledger).map_err(Refusal::number));
}

/// The engine as the static library and as a shared one, which is its own where no other is loaded, and a baseline.
pub fn postings(bench: &Bench) {
    let select = |working: &mut Working, market: &Market| {
        working.post(|scratch, round, ledger| post(scratch, Rule::Median, &lend(market), 0, round, ledger));
    };
    let shared: fn(&mut Working, &Market) = |working, market| engine(working, market, loaded::post);
    let mut contenders =
        bench.contenders(|working, market| engine(working, market, lent::post), vec![Contender::new("select", select)], shared);
    if bench.against.is_none() {
        contenders.push(Contender::new("shared library", shared));
    }
    bench.head("posting", &contenders);
    let mut random = Random::new(10);
    for (name, shape) in sizes() {
        let inputs = bench.inputs(&mut random, &shape, |_, market| market);
        let mut working: Vec<Working> = contenders.iter().map(|_| Working::new()).collect();
        let mut expected = ledger::Ledger::empty(MAX_GUESTS, MAX_STATIONS);
        for (round, market) in (1..).zip(&inputs) {
            expected.post(1, market, 0, round).expect("an accepted posting");
            for (contender, working) in contenders.iter().zip(&mut working) {
                (contender.run)(working, market);
                assert!(plain(&working.ledger) == expected, "{name}: {} differs on {market:?}", contender.name);
            }
        }
        bench.time(name, &inputs, &contenders, &mut working);
    }
}
