//! Clearing with places and floors, and marking.

use crate::baseline::keys::select;
use crate::baseline::{Scratch, marking};
use crate::clearing;
use crate::loaded;
use crate::markets::{cases, lend};
use crate::timing::{Bench, Contender};
use bay_market::lent::{self, Cleared, FullResults, Submission};
use bay_market::{Refusal, Rule};
use reference::faults::FullLengths;
use reference::market::Market;
use reference::random::Random;
use std::hint::black_box;

/// Lists of a clearing with places and floors.
#[derive(Clone, Debug, PartialEq, Eq)]
pub struct FullLists {
    stations: Vec<u16>,
    charges: Vec<u32>,
    sold: Vec<u32>,
    paid: Vec<u64>,
    places: Vec<u8>,
    floors: Vec<u32>,
}

impl FullLists {
    pub fn of(lists: FullLengths) -> FullLists {
        FullLists {
            stations: vec![77; lists.stations],
            charges: vec![77; lists.charges],
            sold: vec![77; lists.sold],
            paid: vec![77; lists.paid],
            places: vec![77; lists.places],
            floors: vec![77; lists.floors],
        }
    }

    pub fn lend(&mut self) -> FullResults<'_> {
        let FullLists { stations, charges, sold, paid, places, floors } = self;
        FullResults { stations, charges, sold, paid, places, floors }
    }

    pub fn hand_in(&self, cut: u32, margin: u64) -> Submission<'_> {
        let FullLists { stations, charges, sold, paid, places, floors } = self;
        Submission { stations, charges, sold, paid, places, floors, cut, margin }
    }

    /// What the reference gives, with its cut and margin.
    fn expected(rule: Rule, market: &Market) -> (FullLists, Cleared) {
        let full = reference::marking::clear_fully(rule.number(), market);
        let narrow = |list: &[u128]| list.iter().map(|&number| number as u32).collect();
        let lists = FullLists {
            stations: full.outcome.stations.iter().map(|&station| station as u16).collect(),
            charges: narrow(&full.outcome.charges),
            sold: narrow(&full.outcome.sold),
            paid: full.outcome.paid.iter().map(|&paid| paid as u64).collect(),
            places: full.places,
            floors: narrow(&full.floors),
        };
        (lists, Cleared { cut: full.outcome.cut as u32, margin: full.outcome.margin as u64 })
    }
}

struct Working {
    scratch: Box<Scratch>,
    lists: FullLists,
    cleared: Cleared,
    correct: bool,
    alone: clearing::Working,
}

impl Working {
    fn new(market: &Market) -> Working {
        Working {
            scratch: Scratch::new(),
            lists: FullLists::of(FullLengths::of(market)),
            cleared: Cleared { cut: 77, margin: 77 },
            correct: false,
            alone: clearing::Working::new(market),
        }
    }

    fn clear(&mut self, clear: impl FnOnce(&mut Scratch, &mut FullResults) -> Result<Cleared, u8>) {
        self.cleared = black_box(clear(&mut self.scratch, &mut self.lists.lend())).expect("an accepted market");
    }

    fn mark(&mut self, mark: impl FnOnce(&mut Scratch) -> Result<bool, u8>) {
        self.correct = black_box(mark(&mut self.scratch)).expect("an accepted market");
    }
}

type Input = (Rule, Market);
type ClearMarked = fn(Rule, &lent::Market, &mut FullResults) -> Result<Cleared, Refusal>;

fn clear_by(working: &mut Working, (rule, market): &Input, clear: ClearMarked) {
    working.clear(|_, results| clear(*rule, &lend(market), results).map_err(Refusal::number));
}

/// The engine, a baseline that keeps places and floors, and the plain clearing with `select`.
pub fn full_clearings(bench: &Bench) {
    let with_both = |working: &mut Working, (rule, market): &Input| {
        working.clear(|scratch, results| marking::clear_marked(scratch, *rule, &lend(market), results));
    };
    let alone = |working: &mut Working, (rule, market): &Input| working.alone.by(select, *rule, market);
    let contenders = bench.contenders(
        |working, input| clear_by(working, input, lent::clear_marked),
        vec![Contender::new("select with both", with_both), Contender::other("select, clearing alone", alone)],
        |working, input| clear_by(working, input, loaded::clear_marked),
    );
    bench.head("clearing with places and floors", &contenders);
    let mut random = Random::new(8);
    for (name, rule, shape) in cases() {
        let inputs = bench.inputs(&mut random, &shape, |_, market| (rule, market));
        let new = |(_, market): &Input| Working::new(market);
        let expected = |(rule, market): &Input| FullLists::expected(*rule, market);
        bench.row(name, &inputs, &contenders, new, expected, |working| (working.lists.clone(), working.cleared));
    }
}

/// A market with a clearing that is handed in.
#[derive(Clone, Debug)]
struct HandedIn {
    rule: Rule,
    market: Market,
    lists: FullLists,
    cleared: Cleared,
    correct: bool,
}

impl HandedIn {
    fn right(rule: Rule, market: Market) -> HandedIn {
        let (lists, cleared) = FullLists::expected(rule, &market);
        HandedIn { rule, market, lists, cleared, correct: true }
    }

    fn wrong(mut self) -> HandedIn {
        self.lists.places[0] ^= 1;
        self.correct = false;
        self
    }

    fn submission(&self) -> Submission<'_> {
        self.lists.hand_in(self.cleared.cut, self.cleared.margin)
    }
}

type Mark = fn(Rule, &lent::Market, &Submission) -> Result<bool, Refusal>;

fn mark_by(working: &mut Working, input: &HandedIn, mark: Mark) {
    working.mark(|_| mark(input.rule, &lend(&input.market), &input.submission()).map_err(Refusal::number));
}

/// The engine on right clearings, which are compared to the end, a baseline that clears and compares, and the plain
/// clearing with `select`.
pub fn marks(bench: &Bench) {
    let compared = |working: &mut Working, input: &HandedIn| {
        working.mark(|scratch| marking::mark(scratch, input.rule, &lend(&input.market), &input.submission()));
    };
    let alone = |working: &mut Working, input: &HandedIn| working.alone.by(select, input.rule, &input.market);
    let contenders = bench.contenders(
        |working, input| mark_by(working, input, lent::mark),
        vec![Contender::new("select and compare", compared), Contender::other("select, clearing alone", alone)],
        |working, input| mark_by(working, input, loaded::mark),
    );
    bench.head("marking a right clearing", &contenders);
    let mut random = Random::new(8);
    for (name, rule, shape) in cases() {
        let inputs = bench.inputs(&mut random, &shape, |_, market| HandedIn::right(rule, market));
        let wrong = inputs[0].clone().wrong();
        for contender in contenders.iter().filter(|contender| contender.checked) {
            let mut working = Working::new(&wrong.market);
            (contender.run)(&mut working, &wrong);
            assert!(!working.correct, "{name}: {} takes a wrong clearing: {wrong:?}", contender.name);
        }
        let new = |input: &HandedIn| Working::new(&input.market);
        bench.row(name, &inputs, &contenders, new, |input| input.correct, |working| working.correct);
    }
}
