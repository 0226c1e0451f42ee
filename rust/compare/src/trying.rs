//! Another row of a guest tried: against the reference, and against the engine's own clearings and codes of both markets.

use crate::Tally;
use crate::call::{self, Mechanism, RowTold, Trying};
use crate::markets::{
    Change, Place, RULES, accepted, any_rule, changed, market_changes, middling, other_lengths, set, shapes, show, small, tied,
};
use bay_market::{Clearing, Code, Rule};
use reference::faults::{MAX_AMOUNT, MAX_GUESTS, MAX_PRICE, MAX_STATIONS};
use reference::market::Market;
use reference::other_rows::{OtherRow, Tried, try_row, with_row};
use reference::random::{Random, Shape};
use std::collections::BTreeSet;

/// A call: the number of a rule, a market, the other row, and how long the list of changes is.
#[derive(Clone, Debug)]
struct Call {
    rule: u8,
    market: Market,
    other: OtherRow,
    changes: usize,
}

impl Call {
    /// With lists that fit.
    fn of(rule: u8, market: Market, other: OtherRow) -> Call {
        Call { rule, changes: market.guests(), market, other }
    }

    fn show(&self) -> String {
        let Call { rule, market, other, changes } = self;
        let OtherRow { guest, worths, row } = other;
        format!("rule {rule}\nguest {guest}\nworths {worths:?}\nrow {row:?}\nchanges {changes}\n{}", show(market))
    }
}

/// The bids of a guest.
pub fn bids(market: &Market, guest: u32) -> &[u32] {
    let m = market.stations();
    &market.bids[(guest as usize - 1) * m..guest as usize * m]
}

/// A bid that may decide: one that is in the market or next to it, one that ties, an end of the range, or any other.
pub fn bid(random: &mut Random, market: &Market, guest: u32, station: usize) -> u32 {
    let rival = 1 + random.below(market.guests());
    let total = market.bid(rival, station) * u32::from(market.amounts[rival - 1]);
    let beside = |price: u32, random: &mut Random| (price + random.below(3) as u32).saturating_sub(1).min(MAX_PRICE);
    match random.below(10) {
        0 => 0,
        1 => MAX_PRICE,
        2 => beside(market.bid(guest as usize, station), random),
        3 => beside(*random.pick(&market.asks), random),
        4 => *random.pick(&market.bids),
        5 => random.below(MAX_PRICE as usize + 1) as u32,
        _ => beside(total / u32::from(market.amounts[guest as usize - 1]), random),
    }
}

/// Another row of a guest of a market; where there is no guest, of one that is none.
fn other_row(random: &mut Random, market: &Market) -> OtherRow {
    let m = market.stations();
    if market.guests() == 0 {
        return OtherRow { guest: random.below(2) as u32, worths: vec![0; m], row: vec![0; m] };
    }
    let guest = 1 + random.below(market.guests()) as u32;
    let mut list = || (1..=m).map(|station| bid(random, market, guest, station)).collect();
    let (worths, row): (Vec<u32>, Vec<u32>) = (list(), list());
    match random.below(4) {
        0 => OtherRow { guest, worths, row },
        1 => OtherRow { guest, worths, row: vec![0; m] },
        _ => OtherRow { guest, worths: bids(market, guest).to_vec(), row },
    }
}

/// One thing of a call made wrong, or moved to its limit.
#[derive(Clone, Copy)]
enum Wrong {
    Market(Change),
    Guest(u32),
    /// The worths or the row get another length.
    Length(fn(&mut OtherRow) -> &mut Vec<u32>, usize),
    /// A worth or a bid of the row gets another value.
    Price(fn(&mut OtherRow) -> &mut Vec<u32>, Place, u32),
    /// The list of changes gets another length.
    Changes(usize),
}

/// Everything that is tried with a market.
fn wrongs(market: &Market) -> Vec<Wrong> {
    let (n, m) = (market.guests(), market.stations());
    let mut wrongs: Vec<Wrong> = market_changes(market).into_iter().map(Wrong::Market).collect();
    // among them numbers whose low bits alone name a guest
    let guests = [0, 1, n as u32, n as u32 + 1, 1 << 8 | 1, 1 << 16 | 1, 1 << 31 | 1, u32::MAX];
    wrongs.extend(guests.map(Wrong::Guest));
    let lists: [fn(&mut OtherRow) -> &mut Vec<u32>; 2] = [|other| &mut other.worths, |other| &mut other.row];
    for list in lists {
        wrongs.extend(other_lengths(m).into_iter().map(|length| Wrong::Length(list, length)));
        for place in [Place::First, Place::Last, Place::Any] {
            let prices = [0, MAX_PRICE, MAX_PRICE + 1, 1 << 24 | 1, 1 << 31 | 1, u32::MAX];
            wrongs.extend(prices.map(|price| Wrong::Price(list, place, price)));
        }
    }
    wrongs.extend(other_lengths(n).into_iter().map(Wrong::Changes));
    wrongs
}

impl Wrong {
    fn apply(self, random: &mut Random, call: &mut Call) {
        let Call { market, other, changes, .. } = call;
        match self {
            Wrong::Market(change) => {
                *market = changed(random, market, change);
                if matches!(change, Change::Guests(_) | Change::Stations(_)) {
                    *changes = market.guests();
                    other.worths.resize(market.stations(), 1);
                    other.row.resize(market.stations(), 1);
                }
            }
            Wrong::Guest(guest) => other.guest = guest,
            Wrong::Length(list, length) => list(other).resize(length, 1),
            Wrong::Price(list, place, price) => set(random, list(other), place, price),
            Wrong::Changes(length) => *changes = length,
        }
    }
}

/// The call with one thing made wrong.
fn with(random: &mut Random, call: &Call, wrong: Wrong) -> Call {
    let mut with = call.clone();
    wrong.apply(random, &mut with);
    with
}

/// What the accepted calls had among them.
#[derive(Clone, Copy, Debug, PartialEq, Eq, PartialOrd, Ord)]
enum Met {
    Loss,
    SecondLoss,
    Gain,
    SecondGain,
    Seated,
    Unseated,
    SeatedAndUnseated,
    Several,
}

const WANTED: [Met; 8] =
    [Met::Loss, Met::SecondLoss, Met::Gain, Met::SecondGain, Met::Seated, Met::Unseated, Met::SeatedAndUnseated, Met::Several];

fn meet(met: &mut BTreeSet<Met>, gains: [i128; 2], changes: &[u8]) {
    let count = |change: u8| changes.iter().filter(|&&other| other == change).count();
    let (seated, unseated) = (count(1), count(2));
    let holds = [
        gains[0] < 0,
        gains[1] < 0,
        gains[0] > 0,
        gains[1] > 0,
        seated > 0,
        unseated > 0,
        seated > 0 && unseated > 0,
        seated + unseated > 2,
    ];
    met.extend(WANTED.into_iter().zip(holds).filter(|(_, holds)| *holds).map(|(met, _)| met));
}

fn require_met(met: &BTreeSet<Met>) -> Result<(), String> {
    match WANTED.iter().find(|wanted| !met.contains(wanted)) {
        Some(wanted) => Err(format!("no case has {wanted:?}")),
        None => Ok(()),
    }
}

fn check(random: &mut Random, tally: &mut Tally, met: &mut BTreeSet<Met>, tried: &Call) -> Result<(), String> {
    let Call { rule, market, other, changes } = tried;
    let expected = try_row(*rule, market, other, *changes);
    tally.count(&expected);
    if let Ok(Tried { first_gain, second_gain, changes }) = &expected {
        meet(met, [*first_gain, *second_gain], changes);
    }
    let trying = Trying { rule: *rule, market, other, changes: *changes };
    call::try_row(random, trying, &expected).map_err(|what| format!("{what}\n{}", tried.show()))
}

/// Markets of the least and the greatest size, with many ties, with all candidates at every open station, and with totals,
/// charges and gains at their greatest.
pub fn limits() -> Vec<Shape> {
    let (guests, stations) = (MAX_GUESTS as u64, MAX_STATIONS as u64);
    let (price, amount) = (u64::from(MAX_PRICE), u64::from(MAX_AMOUNT));
    let candidates = Shape { asks: 0..=500, bids: 500..=900, bays: 1..=20, ..Shape::whole() };
    let greatest = Shape { asks: price - 1..=price, bids: price - 1..=price, amounts: amount - 1..=amount, ..tied() };
    let mut limits = Vec::new();
    for (guests, stations) in [(0, 1), (0, stations), (1, 1), (1, stations), (guests, 1), (guests, 2), (guests, stations)] {
        for shape in [middling(), tied(), candidates.clone(), greatest.clone()] {
            limits.push(Shape { guests: guests..=guests, stations: stations..=stations, ..shape });
        }
    }
    limits
}

/// Markets in which a bay is worth having.
pub fn tight() -> Vec<Shape> {
    let few = Shape { guests: 2..=20, stations: 2..=9, bays: 1..=2, empty: 20, ..small() };
    let near = Shape { bids: 480..=560, asks: 460..=520, amounts: 9..=11, ..few.clone() };
    vec![small(), tied(), middling(), few, near, Shape { guests: 10..=60, stations: 4..=20, bays: 1..=4, ..middling() }]
}

pub fn run(random: &mut Random, tally: &mut Tally, cases: usize) -> Result<(), String> {
    let shapes = [shapes(), tight()].concat();
    let met = &mut BTreeSet::new();
    for _ in 0..cases {
        let market = accepted(random, &shapes);
        let other = other_row(random, &market);
        let mut call = Call::of(any_rule(random), market, other);
        if random.chance(40) {
            let wrongs = wrongs(&call.market);
            for _ in 0..random.within(1..=4) {
                random.pick(&wrongs).apply(random, &mut call);
            }
        }
        check(random, tally, met, &call)?;
    }
    // each thing wrong alone and each two together, in every order, in small markets; each alone in the largest
    let some = |shape: Shape| Shape { guests: 3..=6, stations: 2..=5, ..shape };
    for shape in [some(small()), some(tied()), some(middling()), Shape::full()] {
        let market = shape.market(random);
        let other = other_row(random, &market);
        let call = Call::of(1, market, other);
        let wrongs = wrongs(&call.market);
        for first in &wrongs {
            let with_one = with(random, &call, *first);
            for rule in RULES {
                check(random, tally, met, &Call { rule, ..with_one.clone() })?;
            }
            for second in wrongs.iter().filter(|_| call.market.bids.len() < 1_000) {
                let with_two = with(random, &with_one, *second);
                let rule = any_rule(random);
                check(random, tally, met, &Call { rule, ..with_two })?;
            }
        }
    }
    // each guest of a market, and those next to them
    for shape in limits() {
        let market = shape.market(random);
        let other = other_row(random, &market);
        for guest in 0..=market.guests() as u32 + 1 {
            let rule = *random.pick(&RULES[..2]);
            check(random, tally, met, &Call::of(rule, market.clone(), OtherRow { guest, ..other.clone() }))?;
        }
    }
    require_met(met)?;
    tally.require(&[0, 2, 5, 6, 7, 8, 9, 10, 15, 18, 24])
}

/// Both rounds by the engine's own calls, and at how many stations the guest holds a place in one of them alone.
struct Rounds {
    clearings: [Clearing; 2],
    places_changed: usize,
}

impl Rounds {
    fn of(rule: Rule, market: &Market, other: &OtherRow) -> Result<Rounds, String> {
        let with = with_row(market, other);
        let clear = |market| Mechanism::Truthful.clear(rule, market).map_err(|number| format!("clearing is refused {number}"));
        let held = |market| -> Result<Vec<bool>, String> {
            let told = call::own(market).explain(rule).map_err(|refusal| format!("telling is refused {}", refusal.number()))?;
            let m = market.stations();
            let row = &told.codes[(other.guest as usize - 1) * m..other.guest as usize * m];
            Ok(row.iter().map(|&code| code == Code::Held).collect())
        };
        let (before, after) = (held(market)?, held(&with)?);
        let places_changed = before.iter().zip(&after).filter(|(before, after)| before != after).count();
        Ok(Rounds { clearings: [clear(market)?, clear(&with)?], places_changed })
    }

    /// The gain of the guest in one of the rounds.
    fn gain(&self, round: usize, market: &Market, other: &OtherRow) -> i64 {
        let (guest, clearing) = (other.guest as usize, &self.clearings[round]);
        match usize::from(clearing.stations[guest - 1]) {
            0 => 0,
            station => {
                let worth = i64::from(other.worths[station - 1]) * i64::from(market.amounts[guest - 1]);
                worth - i64::from(clearing.charges[guest - 1])
            }
        }
    }

    fn changes(&self, other: &OtherRow) -> Vec<u8> {
        let [first, second] = &self.clearings;
        let change = |(place, (&before, &after)): (usize, (&u16, &u16))| match (before > 0, after > 0) {
            _ if place + 1 == other.guest as usize => 0,
            (false, true) => 1,
            (true, false) => 2,
            _ => 0,
        };
        first.stations.iter().zip(&second.stations).enumerate().map(change).collect()
    }
}

fn require_facts(market: &Market, other: &OtherRow, rounds: &Rounds, told: &RowTold) -> Result<(), String> {
    if other.worths == bids(market, other.guest) && told.gains[1] > told.gains[0] {
        return Err(format!("the second gain is larger, where the worths are the first row: {:?}", told.gains));
    }
    let others = told.changes.iter().filter(|&&change| change != 0).count();
    if others > rounds.places_changed {
        return Err(format!("{others} others change, and {} places of the guest", rounds.places_changed));
    }
    let gains = [0, 1].map(|round| rounds.gain(round, market, other));
    if told.gains != gains {
        return Err(format!("the gains are told as {:?}, by the clearings they are {gains:?}", told.gains));
    }
    let changes = rounds.changes(other);
    if told.changes != changes {
        return Err(format!("the changes are told as {:?}, by the clearings they are {changes:?}", told.changes));
    }
    Ok(())
}

/// Holds what is told of another row to the engine's clearings and codes of both markets.
pub fn run_facts(random: &mut Random, tally: &mut Tally, cases: usize) -> Result<(), String> {
    let shapes = [shapes(), tight(), tight(), tight()].concat();
    let met = &mut BTreeSet::new();
    for _ in 0..cases {
        let market = accepted(random, &shapes);
        let other = other_row(random, &market);
        let rule = *random.pick(&[Rule::Median, Rule::TwoThirds]);
        if market.guests() == 0 {
            continue;
        }
        tally.count::<()>(&Ok(()));
        let rounds = Rounds::of(rule, &market, &other);
        let held = |rounds: Rounds| {
            meet(met, [0, 1].map(|round| rounds.gain(round, &market, &other).into()), &rounds.changes(&other));
            call::tell_row(rule, &market, &other, |told| require_facts(&market, &other, &rounds, told))
        };
        rounds
            .and_then(held)
            .map_err(|what| format!("{what}\n{}", Call::of(rule.number(), market.clone(), other.clone()).show()))?;
    }
    require_met(met)
}

#[cfg(test)]
mod tests {
    use super::*;

    /// Guest 2 of case G bids 14 where a kWh is worth 10 to it, where it is told so; what is wrong with it.
    fn says(worth: u32, gains: [i64; 2], changes: [u8; 2]) -> String {
        let market = Market::numbered(&[2, 6], &[1, 1], &[3, 2], &[9, 0, 10, 0]);
        let other = OtherRow { guest: 2, worths: vec![worth, 0], row: vec![14, 0] };
        let clearing = |stations: [u16; 2], charges: [u32; 2]| Clearing {
            cut: 6,
            stations: stations.to_vec(),
            charges: charges.to_vec(),
            sold: vec![],
            paid: vec![],
            margin: 0,
        };
        let clearings = [clearing([1, 0], [20, 0]), clearing([0, 1], [0, 27])];
        let told = RowTold { gains, changes: changes.to_vec() };
        require_facts(&market, &other, &Rounds { clearings, places_changed: 1 }, &told).err().unwrap_or_default()
    }

    #[test]
    fn every_wrong_fact_is_seen() {
        assert_eq!(says(10, [0, -7], [2, 0]), "");
        assert_eq!(says(20, [0, 13], [2, 0]), "");
        assert!(says(10, [-7, 0], [2, 0]).contains("the second gain is larger"));
        assert!(says(20, [13, 0], [2, 0]).contains("the gains are told as [13, 0]"));
        assert!(says(10, [0, -8], [2, 0]).contains("by the clearings they are [0, -7]"));
        assert!(says(10, [0, -7], [2, 1]).contains("2 others change, and 1 places of the guest"));
        for changes in [[1, 0], [0, 0], [0, 2], [77, 0]] {
            assert!(says(10, [0, -7], changes).contains("by the clearings they are [2, 0]"));
        }
    }
}
