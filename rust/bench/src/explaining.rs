//! Telling what decided.

use crate::baseline::Scratch;
use crate::baseline::explaining::explain;
use crate::baseline::keys::select;
use crate::clearing;
use crate::loaded;
use crate::markets::{cases, lend};
use crate::timing::{Bench, Contender};
use bay_market::lent::{self, Explanation};
use bay_market::{Refusal, Rule};
use reference::explaining::{self, GuestOutcome};
use reference::market::Market;
use reference::random::Random;
use std::hint::black_box;

/// Lists of what guests are told.
#[derive(Clone, PartialEq, Eq)]
struct Told {
    codes: Vec<u8>,
    stations: Vec<u16>,
    charges: Vec<u32>,
    reasons: Vec<u8>,
}

impl Told {
    fn new(market: &Market) -> Told {
        let n = market.guests();
        Told { codes: vec![77; n * market.stations()], stations: vec![77; n], charges: vec![77; n], reasons: vec![77; n] }
    }

    /// What the reference tells.
    fn expected((rule, market): &Input) -> Told {
        let explanation = explaining::explain(rule.number(), market);
        let mut told = Told { codes: explanation.codes, stations: vec![], charges: vec![], reasons: vec![] };
        for outcome in explanation.outcomes {
            let (station, charge, reason) = match outcome {
                GuestOutcome::Win { station, charge } => (station as u16, charge as u32, 0),
                GuestOutcome::Loss(code) => (0, 0, code),
            };
            told.stations.push(station);
            told.charges.push(charge);
            told.reasons.push(reason);
        }
        told
    }
}

type Input = (Rule, Market);

struct Working {
    scratch: Box<Scratch>,
    told: Told,
    alone: clearing::Working,
}

impl Working {
    fn new((_, market): &Input) -> Working {
        Working { scratch: Scratch::new(), told: Told::new(market), alone: clearing::Working::new(market) }
    }

    fn explain(&mut self, explain: impl FnOnce(&mut Scratch, &mut Explanation) -> Result<(), u8>) {
        let Told { codes, stations, charges, reasons } = &mut self.told;
        let mut explanation = Explanation { codes, stations, charges, reasons };
        black_box(explain(&mut self.scratch, &mut explanation)).expect("an accepted market");
    }
}

type Explain = fn(Rule, &lent::Market, &mut Explanation) -> Result<(), Refusal>;

fn engine(working: &mut Working, (rule, market): &Input, explain: Explain) {
    working.explain(|_, explanation| explain(*rule, &lend(market), explanation).map_err(Refusal::number));
}

/// The engine, a baseline that tells what decided, and the plain clearing with `select`.
pub fn explanations(bench: &Bench) {
    let with_codes = |working: &mut Working, (rule, market): &Input| {
        working.explain(|scratch, explanation| explain(scratch, *rule, &lend(market), explanation));
    };
    let alone = |working: &mut Working, (rule, market): &Input| working.alone.by(select, *rule, market);
    let contenders = bench.contenders(
        |working, input| engine(working, input, lent::explain),
        vec![Contender::new("select with codes", with_codes), Contender::other("select, clearing alone", alone)],
        |working, input| engine(working, input, loaded::explain),
    );
    bench.head("telling what decided", &contenders);
    let mut random = Random::new(8);
    for (name, rule, shape) in cases() {
        let inputs = bench.inputs(&mut random, &shape, |_, market| (rule, market));
        bench.row(name, &inputs, &contenders, Working::new, Told::expected, |working| working.told.clone());
    }
}
