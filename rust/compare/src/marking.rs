//! Clearings with their places and floors, and marks of what is handed in: against the reference, and against the engine's
//! own clearing and codes.

use crate::Tally;
use crate::call::{self, FullClearing, Marking, Mechanism, handed_in};
use crate::markets::{
    Change, RULES, accepted, any_rule, changed, market_changes, middling, other_lengths, shapes, show, small, tied,
};
use bay_market::{Clearing, Code, Rule};
use reference::faults::{FullLengths, MAX_AMOUNT, MAX_GUESTS, MAX_PRICE, MAX_STATIONS, full_clearing_fault};
use reference::market::Market;
use reference::marking::{FullOutcome, Submission, clear_fully, is_right, mark};
use reference::random::{Random, Shape};
use std::collections::BTreeSet;

/// One of the lists that are lent or handed in.
type List = fn(&mut FullLengths) -> &mut usize;

const LISTS: [List; 6] = [
    |lists| &mut lists.stations,
    |lists| &mut lists.charges,
    |lists| &mut lists.sold,
    |lists| &mut lists.paid,
    |lists| &mut lists.places,
    |lists| &mut lists.floors,
];

/// One thing of a call made wrong, or moved to its limit.
#[derive(Clone, Copy)]
enum Wrong {
    Market(Change),
    /// A list gets another length.
    List(List, usize),
}

/// Everything that is tried with a market.
fn wrongs(market: &Market) -> Vec<Wrong> {
    let right = FullLengths::of(market);
    let mut wrongs: Vec<Wrong> = market_changes(market).into_iter().map(Wrong::Market).collect();
    for list in LISTS {
        wrongs.extend(other_lengths(*list(&mut right.clone())).into_iter().map(|length| Wrong::List(list, length)));
    }
    wrongs
}

impl Wrong {
    fn apply(self, random: &mut Random, market: &mut Market, lists: &mut FullLengths) {
        match self {
            Wrong::Market(change) => {
                *market = changed(random, market, change);
                if matches!(change, Change::Guests(_) | Change::Stations(_)) {
                    *lists = FullLengths::of(market);
                }
            }
            Wrong::List(list, length) => *list(lists) = length,
        }
    }
}

/// What the accepted calls had among them.
#[derive(Clone, Copy, Debug, PartialEq, Eq, PartialOrd, Ord)]
enum Met {
    /// A floor that is above cut times a seated guest's amount.
    FloorCharged,
    /// A floor that is not.
    FloorBelow,
    /// Every candidate of an open station has its place, and there is one.
    NoFloor,
    /// A station that is not open with more bids from the cut on than bays.
    Closed,
    /// A place that is held by a guest that is seated elsewhere.
    HeldElsewhere,
    /// An equal total at the same station as the floor has a place.
    Tied,
}

const WANTED: [Met; 6] = [Met::FloorCharged, Met::FloorBelow, Met::NoFloor, Met::Closed, Met::HeldElsewhere, Met::Tied];

fn meet(met: &mut BTreeSet<Met>, market: &Market, full: &Submission) {
    let (m, cut) = (market.stations(), full.cut);
    for station in 1..=m {
        let floor = full.floors[station - 1];
        let guests = || (1..=market.guests()).filter(|&guest| market.bid(guest, station) >= cut);
        let holders = || guests().filter(|&guest| full.places[(guest - 1) * m + station - 1] == 1);
        let seated = || holders().filter(|&guest| usize::from(full.stations[guest - 1]) == station);
        let amount = |guest: usize| u32::from(market.amounts[guest - 1]);
        let holds = [
            seated().any(|guest| floor > cut * amount(guest)),
            floor > 0 && seated().any(|guest| floor < cut * amount(guest)),
            floor == 0 && holders().next().is_some(),
            market.asks[station - 1] >= cut && guests().count() > usize::from(market.bays[station - 1]),
            seated().count() < holders().count(),
            holders().any(|guest| floor > 0 && market.bid(guest, station) * amount(guest) == floor),
        ];
        met.extend(WANTED.into_iter().zip(holds).filter(|(_, holds)| *holds).map(|(met, _)| met));
    }
}

fn require_met(met: &BTreeSet<Met>) -> Result<(), String> {
    match WANTED.iter().find(|wanted| !met.contains(wanted)) {
        Some(wanted) => Err(format!("no case has {wanted:?}")),
        None => Ok(()),
    }
}

fn check(random: &mut Random, tally: &mut Tally, met: &mut BTreeSet<Met>, clearing: FullClearing) -> Result<(), String> {
    let FullClearing { rule, market, lists } = clearing;
    let expected = full_clearing_fault(rule, market, lists).map(|()| clear_fully(rule, market));
    tally.count(&expected);
    if let Ok(full) = &expected {
        meet(met, market, &handed_in(full));
    }
    let called = call::clear_marked(random, clearing, &expected);
    called.map_err(|what| format!("{what}\nrule {rule}\n{lists:?}\n{}", show(market)))
}

/// Markets of the least and the greatest size, with many ties, with all candidates at every open station, and with totals
/// and floors at their greatest.
fn limits() -> Vec<Shape> {
    let (guests, stations) = (MAX_GUESTS as u64, MAX_STATIONS as u64);
    let (price, amount) = (u64::from(MAX_PRICE), u64::from(MAX_AMOUNT));
    let candidates = Shape { asks: 0..=500, bids: 500..=900, bays: 1..=20, ..Shape::whole() };
    let greatest = Shape { asks: price - 1..=price, bids: price..=price, amounts: amount..=amount, ..tied() };
    let mut limits = Vec::new();
    for (guests, stations) in [(0, 1), (0, stations), (1, 1), (1, stations), (guests, 1), (guests, 2), (guests, stations)] {
        for shape in [middling(), tied(), candidates.clone(), greatest.clone()] {
            limits.push(Shape { guests: guests..=guests, stations: stations..=stations, ..shape });
        }
    }
    limits
}

/// Small markets, in which every two things go wrong together, and one of the greatest size.
fn some_shapes() -> [Shape; 4] {
    let some = |shape: Shape| Shape { guests: 3..=6, stations: 2..=5, ..shape };
    [some(small()), some(tied()), some(middling()), Shape::full()]
}

pub fn run(random: &mut Random, tally: &mut Tally, cases: usize) -> Result<(), String> {
    let shapes = shapes();
    let met = &mut BTreeSet::new();
    for _ in 0..cases {
        let mut market = accepted(random, &shapes);
        let mut lists = FullLengths::of(&market);
        if random.chance(40) {
            let wrongs = wrongs(&market);
            for _ in 0..random.within(1..=4) {
                random.pick(&wrongs).apply(random, &mut market, &mut lists);
            }
        }
        let rule = any_rule(random);
        check(random, tally, met, FullClearing { rule, market: &market, lists })?;
    }
    // each thing wrong alone and each two together, in small markets; each alone in the largest
    for shape in some_shapes() {
        let market = shape.market(random);
        let wrongs = wrongs(&market);
        for first in &wrongs {
            let (mut with_one, mut lists) = (market.clone(), FullLengths::of(&market));
            first.apply(random, &mut with_one, &mut lists);
            for rule in RULES {
                check(random, tally, met, FullClearing { rule, market: &with_one, lists })?;
            }
            for second in wrongs.iter().filter(|_| market.bids.len() < 1_000) {
                let (mut with_two, mut lists) = (with_one.clone(), lists);
                second.apply(random, &mut with_two, &mut lists);
                let rule = any_rule(random);
                check(random, tally, met, FullClearing { rule, market: &with_two, lists })?;
            }
        }
    }
    for shape in limits() {
        let market = shape.market(random);
        for rule in RULES {
            check(random, tally, met, FullClearing { rule, market: &market, lists: FullLengths::of(&market) })?;
        }
    }
    require_met(met)?;
    tally.require(&[0, 2, 5, 6, 7, 8, 9, 10, 15, 18])
}

/// One of the eight things that are handed in; a number of it is taken and put at its width.
struct Thing {
    name: &'static str,
    bits: u32,
    length: fn(&Submission) -> usize,
    number: fn(&Submission, usize) -> u64,
    put: fn(&mut Submission, usize, u64),
}

const THINGS: [Thing; 8] = [
    Thing {
        name: "stations",
        bits: 16,
        length: |handed| handed.stations.len(),
        number: |handed, at| handed.stations[at].into(),
        put: |handed, at, number| handed.stations[at] = number as u16,
    },
    Thing {
        name: "charges",
        bits: 32,
        length: |handed| handed.charges.len(),
        number: |handed, at| handed.charges[at].into(),
        put: |handed, at, number| handed.charges[at] = number as u32,
    },
    Thing {
        name: "sold",
        bits: 32,
        length: |handed| handed.sold.len(),
        number: |handed, at| handed.sold[at].into(),
        put: |handed, at, number| handed.sold[at] = number as u32,
    },
    Thing {
        name: "paid",
        bits: 64,
        length: |handed| handed.paid.len(),
        number: |handed, at| handed.paid[at],
        put: |handed, at, number| handed.paid[at] = number,
    },
    Thing {
        name: "places",
        bits: 8,
        length: |handed| handed.places.len(),
        number: |handed, at| handed.places[at].into(),
        put: |handed, at, number| handed.places[at] = number as u8,
    },
    Thing {
        name: "floors",
        bits: 32,
        length: |handed| handed.floors.len(),
        number: |handed, at| handed.floors[at].into(),
        put: |handed, at, number| handed.floors[at] = number as u32,
    },
    Thing {
        name: "cut",
        bits: 32,
        length: |_| 1,
        number: |handed, _| handed.cut.into(),
        put: |handed, _, number| handed.cut = number as u32,
    },
    Thing {
        name: "margin",
        bits: 64,
        length: |_| 1,
        number: |handed, _| handed.margin,
        put: |handed, _, number| handed.margin = number,
    },
];

impl Thing {
    fn greatest(&self) -> u64 {
        u64::MAX >> (64 - self.bits)
    }

    /// Other numbers than the one at a place: one more and one less, those with a bit turned over, the least and the
    /// greatest, and 2.
    fn others(&self, handed: &Submission, at: usize) -> BTreeSet<u64> {
        let (right, greatest) = ((self.number)(handed, at), self.greatest());
        let turned = (0..self.bits).filter(|bit| self.bits <= 8 || bit % 8 == 0 || bit + 1 == self.bits);
        let turned = turned.map(|bit| right ^ 1 << bit);
        let ends = [right.wrapping_add(1) & greatest, right.wrapping_sub(1) & greatest, 0, 2, greatest];
        turned.chain(ends).filter(|&other| other != right).collect()
    }

    /// Puts other numbers at two places of a list, where it has them: the two exchanged, one more and one less, the same bit
    /// turned over. Some of these leave a sum or a parity as it was.
    fn spoil_two(&self, random: &mut Random, handed: &mut Submission) {
        let length = (self.length)(handed);
        if length < 2 {
            return;
        }
        let second = 1 + random.below(length - 1);
        let first = random.below(second);
        let (one, two, greatest) = ((self.number)(handed, first), (self.number)(handed, second), self.greatest());
        let bit = 1 << random.below(self.bits as usize);
        let (one, two) = match random.below(3) {
            0 => (two, one),
            1 => (one.wrapping_add(1) & greatest, two.wrapping_sub(1) & greatest),
            _ => (one ^ bit, two ^ bit),
        };
        (self.put)(handed, first, one);
        (self.put)(handed, second, two);
    }
}

/// Puts another number at one place of one thing.
fn spoil(random: &mut Random, handed: &mut Submission) {
    let thing = random.pick(&THINGS);
    let length = (thing.length)(handed);
    if length > 0 {
        let at = random.below(length);
        let others: Vec<u64> = thing.others(handed, at).into_iter().collect();
        (thing.put)(handed, at, *random.pick(&others));
    }
}

/// Calls with what is handed in, each thing spoilt at every place, or where there are many at some places and both ends; and
/// with two places and several things spoilt together.
fn each_spoilt(
    random: &mut Random,
    right: &Submission,
    mut call: impl FnMut(&mut Random, &Submission, &str) -> Result<(), String>,
) -> Result<(), String> {
    const MANY: usize = 100;
    let mut handed = right.clone();
    for thing in &THINGS {
        let length = (thing.length)(right);
        let few = right.places.len() <= MANY;
        let mut places: Vec<usize> = (0..length).filter(|at| few || [0, length - 1].contains(at)).collect();
        if !few && length > 2 {
            places.push(1 + random.below(length - 2));
        }
        for at in places {
            for other in thing.others(right, at) {
                (thing.put)(&mut handed, at, other);
                call(random, &handed, &format!("{} at {at} as {other}", thing.name))?;
            }
            (thing.put)(&mut handed, at, (thing.number)(right, at));
        }
        for _ in 0..3 {
            thing.spoil_two(random, &mut handed);
            call(random, &handed, &format!("{} at two places", thing.name))?;
            handed.clone_from(right);
        }
    }
    for several in 2..=4 {
        for _ in 0..several {
            spoil(random, &mut handed);
        }
        call(random, &handed, "several things")?;
        handed.clone_from(right);
    }
    Ok(())
}

/// Gives what is handed in lists of these lengths.
fn fit(handed: &mut Submission, lists: FullLengths) {
    handed.stations.resize(lists.stations, 0);
    handed.charges.resize(lists.charges, 0);
    handed.sold.resize(lists.sold, 0);
    handed.paid.resize(lists.paid, 0);
    handed.places.resize(lists.places, 0);
    handed.floors.resize(lists.floors, 0);
}

/// How often the answer was yes and no.
#[derive(Default)]
struct Marks {
    yes: usize,
    no: usize,
}

impl Marks {
    fn count(&mut self, right: bool) {
        *(if right { &mut self.yes } else { &mut self.no }) += 1;
    }

    fn require(&self) -> Result<(), String> {
        if self.yes > 0 && self.no > 0 { Ok(()) } else { Err(format!("{} cases are right, {} wrong", self.yes, self.no)) }
    }
}

fn check_mark(
    random: &mut Random,
    tally: &mut Tally,
    marks: &mut Marks,
    marking: Marking,
    expected: Result<bool, u8>,
) -> Result<(), String> {
    let Marking { rule, market, submission } = marking;
    tally.count(&expected);
    if let Ok(right) = expected {
        marks.count(right);
    }
    let called = call::mark(random, marking, &expected);
    called.map_err(|what| format!("{what}, expected {expected:?}\nrule {rule}\n{submission:?}\n{}", show(market)))
}

/// A rule of these two.
fn either(random: &mut Random) -> u8 {
    *random.pick(&RULES[..2])
}

pub fn run_marks(random: &mut Random, tally: &mut Tally, cases: usize) -> Result<(), String> {
    let shapes = shapes();
    let marks = &mut Marks::default();
    for _ in 0..cases {
        let mut market = accepted(random, &shapes);
        // mostly by the rule that the mark is by
        let rule = any_rule(random);
        let handed_by = if rule == 1 || rule == 2 { rule } else { 1 };
        let handed_by = if random.chance(90) { handed_by } else { either(random) };
        let mut submission = handed_in(&clear_fully(handed_by, &market));
        if random.chance(40) {
            let (wrongs, mut lists) = (wrongs(&market), FullLengths::of(&market));
            for _ in 0..random.within(1..=3) {
                random.pick(&wrongs).apply(random, &mut market, &mut lists);
            }
            fit(&mut submission, lists);
        }
        if random.chance(40) {
            spoil(random, &mut submission);
        }
        let expected = mark(rule, &market, &submission);
        check_mark(random, tally, marks, Marking { rule, market: &market, submission: &submission }, expected)?;
    }
    // each thing wrong alone and each two together, in small markets; each alone in the largest
    for shape in some_shapes() {
        let market = shape.market(random);
        let (wrongs, right) = (wrongs(&market), handed_in(&clear_fully(1, &market)));
        for first in &wrongs {
            let (mut with_one, mut lists) = (market.clone(), FullLengths::of(&market));
            first.apply(random, &mut with_one, &mut lists);
            for rule in RULES {
                let mut submission = right.clone();
                fit(&mut submission, lists);
                let expected = mark(rule, &with_one, &submission);
                check_mark(random, tally, marks, Marking { rule, market: &with_one, submission: &submission }, expected)?;
            }
            for second in wrongs.iter().filter(|_| market.bids.len() < 1_000) {
                let (mut with_two, mut lists, mut submission) = (with_one.clone(), lists, right.clone());
                second.apply(random, &mut with_two, &mut lists);
                fit(&mut submission, lists);
                let rule = any_rule(random);
                let expected = mark(rule, &with_two, &submission);
                check_mark(random, tally, marks, Marking { rule, market: &with_two, submission: &submission }, expected)?;
            }
        }
    }
    // each number of each thing
    let small = shapes.iter().take(3).cloned().map(|shape| Shape { guests: 0..=6, stations: 1..=6, ..shape });
    for shape in small.chain(limits()) {
        let market = shape.market(random);
        let rule = either(random);
        let full: FullOutcome = clear_fully(rule, &market);
        let right = handed_in(&full);
        check_mark(random, tally, marks, Marking { rule, market: &market, submission: &right }, Ok(true))?;
        each_spoilt(random, &right, |random, submission, _| {
            let expected = Ok(is_right(&full, submission));
            check_mark(random, tally, marks, Marking { rule, market: &market, submission }, expected)
        })?;
    }
    marks.require()?;
    tally.require(&[0, 2, 5, 6, 7, 8, 9, 10, 15, 18])
}

/// Holds what the engine gives to its own clearing and codes, and hands it in, as it is and with each thing spoilt.
pub fn run_passes(random: &mut Random, tally: &mut Tally, cases: usize) -> Result<(), String> {
    // mostly small ones, with every place spoilt
    let few: Vec<Shape> = [small(), tied(), middling()].map(|shape| Shape { guests: 0..=7, stations: 1..=6, ..shape }).into();
    let (shapes, limits) = (shapes(), limits());
    let met = &mut BTreeSet::new();
    for case in 0..cases {
        let market = match limits.get(case) {
            Some(shape) => shape.market(random),
            None if random.chance(80) => accepted(random, &few),
            None => accepted(random, &shapes),
        };
        let rules = [Rule::Median, Rule::TwoThirds];
        let (rule, other) = if random.chance(50) { (rules[0], rules[1]) } else { (rules[1], rules[0]) };
        let owned = call::own(&market);
        let told = |rule| -> Result<(Clearing, Vec<Code>), String> {
            let cleared = Mechanism::Truthful.clear(rule, &market).map_err(|number| format!("clearing is refused {number}"))?;
            let told = owned.explain(rule).map_err(|refusal| format!("telling is refused {}", refusal.number()))?;
            Ok((cleared, told.codes))
        };
        let held = told(rule).and_then(|(clearing, codes)| {
            let mut by_other = None;
            call::hand_in(other, &market, |_, full| {
                by_other = Some(full);
                Ok(())
            })?;
            call::hand_in(rule, &market, |way, full| {
                meet(met, &market, &full);
                require_facts(&market, &clearing, &codes, &full)?;
                let mut marked = |handed: &Submission, rule, expected: bool, what: &str| {
                    tally.count::<()>(&Ok(()));
                    match call::mark_by(way, rule, &owned, handed)? {
                        marked if marked == expected => Ok(()),
                        marked => Err(format!("{what} is marked {marked}\n{handed:?}")),
                    }
                };
                marked(&full, rule, true, "what the engine gives")?;
                let same = by_other.as_ref() == Some(&full);
                marked(&full, other, same, "what it gives by the other rule")?;
                each_spoilt(random, &full, |_, handed, what| marked(handed, rule, *handed == full, what))
            })
        });
        held.map_err(|what| format!("{what}\n{rule:?}\n{}", show(&market)))?;
    }
    require_met(met)?;
    tally.require(&[0])
}

/// The results are the clearing's; a place is held exactly where the code says so; the floor is the greatest total of those
/// that are outbid; a seated guest is charged the larger of cut times amount and its station's floor.
fn require_facts(market: &Market, clearing: &Clearing, codes: &[Code], full: &Submission) -> Result<(), String> {
    let Submission { stations, charges, sold, paid, places, floors, cut, margin } = full.clone();
    if (Clearing { cut, stations, charges, sold, paid, margin }) != *clearing {
        return Err("the results differ from the clearing".to_string());
    }
    let m = market.stations();
    for guest in 1..=market.guests() {
        for station in 1..=m {
            let (place, code) = (places[(guest - 1) * m + station - 1], codes[(guest - 1) * m + station - 1]);
            if place != u8::from(code == Code::Held) {
                return Err(format!("guest {guest} has place {place} and {code:?} at station {station}"));
            }
        }
    }
    let total = |guest: usize, station| u64::from(market.bid(guest, station)) * u64::from(market.amounts[guest - 1]);
    for station in 1..=m {
        let outbid = |guest: &usize| codes[(guest - 1) * m + station - 1].number() == 4;
        let next = (1..=market.guests()).filter(outbid).map(|guest| total(guest, station)).max().unwrap_or(0);
        let floor = floors[station - 1];
        if u64::from(floor) != next {
            return Err(format!("the floor of station {station} is {floor}, and the first one outbid has {next}"));
        }
    }
    for guest in 1..=market.guests() {
        let (station, charge) = (usize::from(clearing.stations[guest - 1]), clearing.charges[guest - 1]);
        let least = cut * u32::from(market.amounts[guest - 1]);
        if station > 0 && charge != least.max(floors[station - 1]) {
            return Err(format!("guest {guest} is charged {charge}, and the floor there is {}", floors[station - 1]));
        }
    }
    Ok(())
}

#[cfg(test)]
mod tests {
    use super::*;
    use reference::samples;

    /// What is wrong with Table I, given so.
    fn says(change: impl Fn(&mut Submission, &mut Clearing)) -> String {
        let market = samples::table_i();
        let mut full = handed_in(&clear_fully(1, &market));
        let Submission { stations, charges, sold, paid, cut, margin, .. } = full.clone();
        let mut clearing = Clearing { cut, stations, charges, sold, paid, margin };
        let codes = [1, 0, 1, 0, 2, 2, 1, 2, 3, 1, 2, 0, 1, 0, 1, 2, 4, 1, 4, 1, 1, 1, 2, 4, 2];
        let codes = codes.map(|number| Code::from_number(number).expect("a code"));
        change(&mut full, &mut clearing);
        require_facts(&market, &clearing, &codes, &full).err().unwrap_or_default()
    }

    #[test]
    fn every_wrong_fact_is_seen() {
        assert_eq!(says(|_, _| ()), "");
        assert!(says(|full, _| full.sold[0] = 1).contains("differ from the clearing"));
        assert!(says(|full, _| full.margin = 1).contains("differ from the clearing"));
        for place in 0..25 {
            assert!(says(|full, _| full.places[place] ^= 1).contains("has place"), "{place}");
            assert!(says(|full, _| full.places[place] = 2).contains("has place 2"), "{place}");
        }
        for station in 0..5 {
            assert!(says(|full, _| full.floors[station] += 1).contains("the floor of station"), "{station}");
        }
        let charged = says(|full, clearing| (full.charges[0], clearing.charges[0]) = (16, 16));
        assert!(charged.contains("guest 1 is charged 16"));
    }

    #[test]
    fn every_number_is_spoilt() {
        let market = samples::table_i();
        let full = clear_fully(1, &market);
        let right = handed_in(&full);
        assert!(is_right(&full, &right));
        let (mut met, mut all) = (BTreeSet::new(), 0);
        each_spoilt(&mut Random::new(1), &right, |_, handed, what| {
            assert_eq!(is_right(&full, handed), *handed == right, "{what}");
            all += usize::from(*handed != right);
            met.extend(THINGS.iter().flat_map(|thing| {
                let other = |at: &usize| (thing.number)(handed, *at) != (thing.number)(&right, *at);
                (0..(thing.length)(handed)).filter(other).map(|at| (thing.name, at)).collect::<Vec<_>>()
            }));
            Ok(())
        })
        .unwrap();
        assert_eq!(met.len(), 5 * 2 + 5 * 2 + 25 + 5 + 2);
        assert!(all > 300, "{all}");
        for (thing, greatest) in THINGS.iter().zip([u16::MAX as u64, u32::MAX as u64]) {
            let others = thing.others(&right, 1);
            assert!(others.contains(&1) && others.contains(&greatest) && others.contains(&2) && !others.contains(&0));
        }
    }
}
