//! What decided, as guests are told it: against the reference, and against the engine's own clearing and the facts that
//! the codes state.

use crate::Tally;
use crate::call::{self, Explaining, Mechanism, Told};
use crate::markets::{
    Change, RULES, accepted, any_rule, changed, market_changes, middling, other_lengths, shapes, show, small, tied,
};
use bay_market::{Clearing, Rule};
use reference::explaining::{BELOW_CUT, Explanation, GuestOutcome, HELD, NO_BID, NOT_OPEN, OUTBID, explain};
use reference::faults::{ExplanationLengths, MAX_GUESTS, MAX_STATIONS, explaining_fault};
use reference::market::Market;
use reference::random::{Random, Shape};
use std::collections::BTreeSet;

/// One thing of a call made wrong, or moved to its limit.
#[derive(Clone, Copy)]
enum Wrong {
    Market(Change),
    /// A list gets another length.
    List(fn(&mut ExplanationLengths) -> &mut usize, usize),
}

/// Everything that is tried with a market.
fn wrongs(market: &Market) -> Vec<Wrong> {
    let right = ExplanationLengths::of(market);
    let lists: [fn(&mut ExplanationLengths) -> &mut usize; 4] =
        [|lists| &mut lists.codes, |lists| &mut lists.stations, |lists| &mut lists.charges, |lists| &mut lists.reasons];
    let mut wrongs: Vec<Wrong> = market_changes(market).into_iter().map(Wrong::Market).collect();
    for list in lists {
        wrongs.extend(other_lengths(*list(&mut right.clone())).into_iter().map(|length| Wrong::List(list, length)));
    }
    wrongs
}

impl Wrong {
    fn apply(self, random: &mut Random, market: &mut Market, lists: &mut ExplanationLengths) {
        match self {
            Wrong::Market(change) => {
                *market = changed(random, market, change);
                if matches!(change, Change::Guests(_) | Change::Stations(_)) {
                    *lists = ExplanationLengths::of(market);
                }
            }
            Wrong::List(list, length) => *list(lists) = length,
        }
    }
}

/// What the accepted calls had among them.
#[derive(Debug, PartialEq, Eq, PartialOrd, Ord)]
enum Met {
    Code(u8),
    Loss(u8),
    /// A seated guest holds another place.
    HeldTwice,
    /// A seated guest is outbid elsewhere.
    OutbidElsewhere,
}

fn meet(met: &mut BTreeSet<Met>, market: &Market, explanation: &Explanation) {
    met.extend(explanation.codes.iter().map(|&code| Met::Code(code)));
    for (row, outcome) in explanation.codes.chunks(market.stations()).zip(&explanation.outcomes) {
        let count = |code| row.iter().filter(|&&other| other == code).count();
        match outcome {
            GuestOutcome::Loss(code) => met.extend([Met::Loss(*code)]),
            GuestOutcome::Win { .. } => {
                met.extend((count(HELD) > 1).then_some(Met::HeldTwice));
                met.extend((count(OUTBID) > 0).then_some(Met::OutbidElsewhere));
            }
        }
    }
}

fn require_met(met: &BTreeSet<Met>) -> Result<(), String> {
    let codes = [HELD, NO_BID, NOT_OPEN, BELOW_CUT, OUTBID];
    let wanted = codes.map(Met::Code).into_iter().chain(codes[1..].iter().map(|&code| Met::Loss(code)));
    match wanted.chain([Met::HeldTwice, Met::OutbidElsewhere]).find(|wanted| !met.contains(wanted)) {
        Some(wanted) => Err(format!("no case has {wanted:?}")),
        None => Ok(()),
    }
}

fn check(random: &mut Random, tally: &mut Tally, met: &mut BTreeSet<Met>, explaining: Explaining) -> Result<(), String> {
    let Explaining { rule, market, lists } = explaining;
    let expected = explaining_fault(rule, market, lists).map(|()| explain(rule, market));
    tally.count(&expected);
    if let Ok(explanation) = &expected {
        meet(met, market, explanation);
    }
    call::explain(random, explaining, &expected).map_err(|what| format!("{what}\nrule {rule}\n{lists:?}\n{}", show(market)))
}

/// Markets of the least and the greatest size, with many ties and with all candidates at every open station.
fn limits() -> Vec<Shape> {
    let (guests, stations) = (MAX_GUESTS as u64, MAX_STATIONS as u64);
    let mut limits = Vec::new();
    for (guests, stations) in [(0, 1), (0, stations), (1, 1), (1, stations), (guests, 1), (guests, 2), (guests, stations)] {
        for shape in [middling(), tied(), Shape { asks: 0..=500, bids: 500..=900, bays: 1..=20, ..Shape::whole() }] {
            limits.push(Shape { guests: guests..=guests, stations: stations..=stations, ..shape });
        }
    }
    limits
}

pub fn run(random: &mut Random, tally: &mut Tally, cases: usize) -> Result<(), String> {
    let shapes = shapes();
    let met = &mut BTreeSet::new();
    for _ in 0..cases {
        let mut market = accepted(random, &shapes);
        let mut lists = ExplanationLengths::of(&market);
        if random.chance(40) {
            let wrongs = wrongs(&market);
            for _ in 0..random.within(1..=4) {
                random.pick(&wrongs).apply(random, &mut market, &mut lists);
            }
        }
        let rule = any_rule(random);
        check(random, tally, met, Explaining { rule, market: &market, lists })?;
    }
    // each thing wrong alone and each two together, in small markets; each alone in the largest
    let some = |shape: Shape| Shape { guests: 3..=6, stations: 2..=5, ..shape };
    for shape in [some(small()), some(tied()), some(middling()), Shape::full()] {
        let market = shape.market(random);
        let wrongs = wrongs(&market);
        for first in &wrongs {
            let (mut with_one, mut lists) = (market.clone(), ExplanationLengths::of(&market));
            first.apply(random, &mut with_one, &mut lists);
            for rule in RULES {
                check(random, tally, met, Explaining { rule, market: &with_one, lists })?;
            }
            for second in wrongs.iter().filter(|_| market.bids.len() < 1_000) {
                let (mut with_two, mut lists) = (with_one.clone(), lists);
                second.apply(random, &mut with_two, &mut lists);
                let rule = any_rule(random);
                check(random, tally, met, Explaining { rule, market: &with_two, lists })?;
            }
        }
    }
    for shape in limits() {
        let market = shape.market(random);
        for rule in RULES {
            check(random, tally, met, Explaining { rule, market: &market, lists: ExplanationLengths::of(&market) })?;
        }
    }
    require_met(met)?;
    tally.require(&[0, 2, 5, 6, 7, 8, 9, 10, 15, 18])
}

/// Holds what guests are told to the engine's clearing of the same market and to the facts that the codes state.
pub fn run_facts(random: &mut Random, tally: &mut Tally, cases: usize) -> Result<(), String> {
    let (shapes, limits) = (shapes(), limits());
    for case in 0..cases {
        let market = match limits.get(case) {
            Some(shape) => shape.market(random),
            None => accepted(random, &shapes),
        };
        let rule = *random.pick(&[Rule::Median, Rule::TwoThirds]);
        let cleared = Mechanism::Truthful.clear(rule, &market);
        tally.count(&cleared);
        let held = |clearing: Clearing| call::tell(rule, &market, |told| require_facts(&market, &clearing, told));
        cleared
            .map_err(|number| format!("the clearing is refused {number}"))
            .and_then(held)
            .map_err(|what| format!("{what}\n{rule:?}\n{}", show(&market)))?;
    }
    tally.require(&[0])
}

fn require_facts(market: &Market, clearing: &Clearing, told: &Told) -> Result<(), String> {
    for guest in 1..=market.guests() {
        let row = &told.codes[(guest - 1) * market.stations()..guest * market.stations()];
        require_outcome(guest, row, clearing, told)?;
        for (station, &code) in (1..).zip(row) {
            if !is_true(market, clearing.cut, guest, station, code) {
                return Err(format!("guest {guest} has code {code} at station {station}, which is not so"));
            }
        }
    }
    (1..=market.stations()).try_for_each(|station| require_places(market, station, told))
}

/// A win is the clearing's, at a place that is held; a loss has the highest code of the guest's row.
fn require_outcome(guest: usize, row: &[u8], clearing: &Clearing, told: &Told) -> Result<(), String> {
    let (seat, charged) = (clearing.stations[guest - 1], clearing.charges[guest - 1]);
    let (station, charge, reason) = (told.stations[guest - 1], told.charges[guest - 1], told.reasons[guest - 1]);
    if (station, charge) != (seat, charged) {
        return Err(format!("guest {guest} is told station {station} charge {charge}, cleared {seat} and {charged}"));
    }
    let highest = row.iter().copied().max().unwrap_or(HELD);
    if seat == 0 && !(reason == highest && (NO_BID..=OUTBID).contains(&reason)) {
        return Err(format!("guest {guest} loses by {reason}, and its highest code is {highest}"));
    }
    if seat > 0 && (reason != 0 || row[usize::from(seat) - 1] != HELD) {
        return Err(format!("guest {guest} wins at a place that is not held, or with reason {reason}"));
    }
    Ok(())
}

/// The code is the first that applies, but for a place held or not.
fn is_true(market: &Market, cut: u32, guest: usize, station: usize, code: u8) -> bool {
    let (bid, open) = (market.bid(guest, station), market.asks[station - 1] < cut);
    match code {
        NO_BID => bid == 0,
        NOT_OPEN => bid > 0 && !open,
        BELOW_CUT => bid > 0 && open && bid < cut,
        HELD | OUTBID => open && bid >= cut,
        _ => false,
    }
}

/// As many candidates hold a place as there are bays, or all, and each stands before each that is outbid.
fn require_places(market: &Market, station: usize, told: &Told) -> Result<(), String> {
    let with =
        |code: u8| (1..=market.guests()).filter(move |guest| told.codes[(guest - 1) * market.stations() + station - 1] == code);
    let bays = usize::from(market.bays[station - 1]);
    let (held, outbid) = (with(HELD).count(), with(OUTBID).count());
    if held != bays.min(held + outbid) {
        return Err(format!("{held} places are held at station {station}, and {outbid} guests are outbid"));
    }
    // in the order of candidates
    let place = |guest: usize| {
        let total = u64::from(market.bid(guest, station)) * u64::from(market.amounts[guest - 1]);
        (std::cmp::Reverse(total), market.tickets[guest - 1])
    };
    match (with(HELD).map(place).max(), with(OUTBID).map(place).min()) {
        (Some(last), Some(first)) if last > first => {
            Err(format!("a guest that stands before a holder is outbid at station {station}"))
        }
        _ => Ok(()),
    }
}

#[cfg(test)]
mod tests {
    use super::*;
    use reference::samples;

    /// Table I, where it is told so; the first words of what is wrong.
    fn says(change: impl Fn(&mut Told)) -> String {
        let market = samples::table_i();
        let (stations, charges) = (vec![4, 0, 2, 0, 0], vec![15, 0, 18, 0, 0]);
        let clearing = Clearing { cut: 3, stations, charges, sold: vec![], paid: vec![], margin: 0 };
        let codes = vec![1, 0, 1, 0, 2, 2, 1, 2, 3, 1, 2, 0, 1, 0, 1, 2, 4, 1, 4, 1, 1, 1, 2, 4, 2];
        let (stations, charges) = (clearing.stations.clone(), clearing.charges.clone());
        let mut told = Told { codes, stations, charges, reasons: vec![0, 3, 0, 4, 4] };
        change(&mut told);
        require_facts(&market, &clearing, &told).err().unwrap_or_default()
    }

    #[test]
    fn every_wrong_fact_is_seen() {
        assert_eq!(says(|_| ()), "");
        assert!(says(|told| told.stations[0] = 2).contains("is told station 2"));
        assert!(says(|told| told.charges[2] = 16).contains("charge 16"));
        assert!(says(|told| told.charges[1] = 1).contains("charge 1"));
        assert!(says(|told| told.reasons[1] = 2).contains("guest 2 loses by 2, and its highest code is 3"));
        assert!(says(|told| told.reasons[0] = 2).contains("with reason 2"));
        assert!(says(|told| told.codes[3] = 4).contains("not held"));
        for place in [0, 4, 8, 10] {
            for code in (0..=5).filter(|&code| code != [1, 0, 1, 0, 2, 2, 1, 2, 3, 1, 2][place]) {
                assert!(!says(|told| told.codes[place] = code).is_empty(), "{place} {code}");
            }
        }
        // guest 1's other place, shown as outbid; and given to guest 4
        assert!(says(|told| told.codes[1] = 4).contains("1 places are held at station 2"));
        assert!(says(|told| told.codes.swap(1, 16)).contains("before a holder"));
        assert!(says(|told| told.codes[18] = 0).contains("3 places are held at station 4"));
    }
}
