//! Clearing against the reference, by both mechanisms and rules, and by numbers of no rule.

use crate::Tally;
use crate::call::{self, Clearing, Mechanism};
use crate::markets::{RULES, accepted, any_rule, changes, middling, shapes, show, small, tied};
use reference::faults::{ListLengths, clearing_fault};
use reference::random::{Random, Shape};

fn check(random: &mut Random, tally: &mut Tally, clearing: Clearing) -> Result<(), String> {
    let Clearing { mechanism, rule, market, lists } = clearing;
    let expected = clearing_fault(rule, market, lists).map(|()| mechanism.expected(rule, market));
    tally.count(&expected);
    call::clear(random, clearing, &expected).map_err(|what| format!("{what}\nrule {rule}\n{lists:?}\n{}", show(market)))
}

pub fn run_truthful(random: &mut Random, tally: &mut Tally, cases: usize) -> Result<(), String> {
    run(random, tally, cases, Mechanism::Truthful)
}

pub fn run_efficient(random: &mut Random, tally: &mut Tally, cases: usize) -> Result<(), String> {
    run(random, tally, cases, Mechanism::Efficient)
}

fn run(random: &mut Random, tally: &mut Tally, cases: usize, mechanism: Mechanism) -> Result<(), String> {
    let shapes = shapes();
    for _ in 0..cases {
        let mut market = accepted(random, &shapes);
        let mut lists = ListLengths::of(&market);
        if random.chance(40) {
            let changes = changes(market.guests(), market.stations());
            for _ in 0..random.within(1..=4) {
                random.pick(&changes).apply(random, &mut market, &mut lists);
            }
        }
        let rule = any_rule(random);
        check(random, tally, Clearing { mechanism, rule, market: &market, lists })?;
    }
    // each change alone and each two together, in small markets; each alone in the largest
    let some = |shape: Shape| Shape { guests: 3..=6, stations: 2..=5, ..shape };
    for shape in [some(small()), some(tied()), some(middling()), Shape::full()] {
        let market = shape.market(random);
        let changes = changes(market.guests(), market.stations());
        for first in &changes {
            let mut with_one = market.clone();
            let mut lists = ListLengths::of(&market);
            first.apply(random, &mut with_one, &mut lists);
            for rule in RULES {
                check(random, tally, Clearing { mechanism, rule, market: &with_one, lists })?;
            }
            for second in changes.iter().filter(|_| market.bids.len() < 1_000) {
                let mut with_two = with_one.clone();
                let mut lists = lists;
                second.apply(random, &mut with_two, &mut lists);
                let rule = any_rule(random);
                check(random, tally, Clearing { mechanism, rule, market: &with_two, lists })?;
            }
        }
    }
    tally.require(&[0, 2, 5, 6, 7, 8, 9, 10, 15, 18])
}
