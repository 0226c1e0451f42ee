//! Joining two gates' markets against the reference, and a search for a place that joining gives or a charge that it
//! lowers.

use crate::Tally;
use crate::call::{self, own};
use crate::markets::{Change, Place, accepted, changed, market_changes, middling, other_lengths, set, shapes, show, small, tied};
use bay_market::{Code, Reason, Rule};
use reference::gates::{join, joined_lengths};
use reference::market::Market;
use reference::random::{Random, Shape};
use reference::sheet::TableLengths;

/// A call: the two markets, and the lengths of the lent tables.
#[derive(Clone, Debug)]
struct Joining {
    first: Market,
    second: Market,
    tables: TableLengths,
}

impl Joining {
    fn of(first: Market, second: Market) -> Joining {
        let tables = joined_lengths(&first, &second);
        Joining { first, second, tables }
    }

    /// The first so many guests of a market, and the others.
    fn parted(market: &Market, guests: usize) -> Joining {
        let m = market.stations();
        let part = |from: usize, to: usize| Market {
            amounts: market.amounts[from..to].to_vec(),
            tickets: market.tickets[from..to].to_vec(),
            bids: market.bids[from * m..to * m].to_vec(),
            ..market.clone()
        };
        Joining::of(part(0, guests), part(guests, market.guests()))
    }
}

fn check(random: &mut Random, tally: &mut Tally, joining: &Joining) -> Result<(), String> {
    let Joining { first, second, tables } = joining;
    let expected = join(first, second, *tables);
    tally.count(&expected);
    call::join(random, first, second, *tables, &expected)
        .map_err(|what| format!("{what}\nfirst:\n{}\nsecond:\n{}\n{tables:?}", show(first), show(second)))
}

/// One thing of a call made wrong, or moved to its limit.
#[derive(Clone, Copy)]
enum Wrong {
    First(Change),
    Second(Change),
    /// A guest of the second gets the ticket of one of the first with these bits turned over.
    Ticket(Place, Place, u32),
    /// A lent table gets another length.
    Table(fn(&mut TableLengths) -> &mut usize, usize),
}

/// Everything that is tried with two markets.
fn wrongs(joining: &Joining) -> Vec<Wrong> {
    let places = [Place::First, Place::Last, Place::Any];
    let tables: [fn(&mut TableLengths) -> &mut usize; 5] =
        [|l| &mut l.amounts, |l| &mut l.tickets, |l| &mut l.asks, |l| &mut l.bays, |l| &mut l.bids];
    let mut wrongs: Vec<Wrong> = market_changes(&joining.first).into_iter().map(Wrong::First).collect();
    wrongs.extend(market_changes(&joining.second).into_iter().map(Wrong::Second));
    for first in places {
        for second in places {
            wrongs.extend([0, 1, 1 << 12, 1 << 31].map(|bits| Wrong::Ticket(first, second, bits)));
        }
    }
    for table in tables {
        let right = *table(&mut joining.tables.clone());
        wrongs.extend(other_lengths(right).into_iter().map(|length| Wrong::Table(table, length)));
    }
    wrongs
}

impl Wrong {
    fn apply(self, random: &mut Random, joining: &mut Joining) {
        let Joining { first, second, tables } = joining;
        let counts = |change| matches!(change, Change::Guests(_) | Change::Stations(_));
        match self {
            Wrong::First(change) => *first = changed(random, first, change),
            Wrong::Second(change) => *second = changed(random, second, change),
            Wrong::Ticket(from, to, bits) => {
                if let Some(&ticket) = at(random, &first.tickets, from) {
                    set(random, &mut second.tickets, to, ticket ^ bits);
                }
            }
            Wrong::Table(table, length) => *table(tables) = length,
        }
        if matches!(self, Wrong::First(change) | Wrong::Second(change) if counts(change)) {
            *tables = joined_lengths(first, second);
        }
    }
}

/// The element at a place, if there is one.
fn at<'a, T>(random: &mut Random, list: &'a [T], place: Place) -> Option<&'a T> {
    match place {
        Place::First => list.first(),
        Place::Last => list.last(),
        Place::Any => (!list.is_empty()).then(|| random.pick(list)),
    }
}

/// The call with one thing made wrong.
fn with(random: &mut Random, joining: &Joining, wrong: Wrong) -> Joining {
    let mut with = joining.clone();
    wrong.apply(random, &mut with);
    with
}

/// An accepted market in two parts, mostly with guests in both.
fn parted(random: &mut Random, shapes: &[Shape]) -> Joining {
    let market = accepted(random, shapes);
    let guests = random.below(market.guests() + 1);
    Joining::parted(&market, guests)
}

pub fn run(random: &mut Random, tally: &mut Tally, cases: usize) -> Result<(), String> {
    let shapes = shapes();
    for _ in 0..cases {
        let mut joining = parted(random, &shapes);
        if random.chance(40) {
            let wrongs = wrongs(&joining);
            for _ in 0..random.within(1..=4) {
                random.pick(&wrongs).apply(random, &mut joining);
            }
        }
        check(random, tally, &joining)?;
    }
    // gates of every size, up to the limit and past it; each ticket of the one put into the other
    let sizes = [(0, 0), (0, 1), (1, 0), (200, 0), (0, 200), (100, 100), (199, 1), (101, 100), (100, 101), (200, 1), (200, 200)];
    for (first, second) in sizes {
        for shape in [middling(), Shape { stations: 40..=40, ..Shape::whole() }] {
            let guests = first + second;
            let market = Shape { guests: guests..=guests, ..shape }.market(random);
            let joining = Joining::parted(&market, first as usize);
            check(random, tally, &joining)?;
            for &ticket in &joining.first.tickets {
                let mut met = joining.clone();
                set(random, &mut met.second.tickets, Place::Any, ticket);
                check(random, tally, &met)?;
            }
        }
    }
    // each thing wrong alone and each two together, in every order, in small markets; each alone in the largest
    let some = |shape: Shape| Shape { guests: 5..=8, stations: 2..=4, ..shape };
    for shape in [some(small()), some(middling()), Shape::full()] {
        let market = shape.market(random);
        let joining = Joining::parted(&market, 2);
        let wrongs = wrongs(&joining);
        for first in &wrongs {
            let with_one = with(random, &joining, *first);
            check(random, tally, &with_one)?;
            for second in wrongs.iter().filter(|_| market.bids.len() < 1_000) {
                let with_two = with(random, &with_one, *second);
                check(random, tally, &with_two)?;
            }
        }
    }
    // more guests than there may be, with each thing wrong besides
    let market = Shape { guests: 201..=201, stations: 2..=2, ..middling() }.market(random);
    let crowd = Joining::parted(&market, 101);
    for wrong in wrongs(&crowd) {
        let with_one = with(random, &crowd, wrong);
        check(random, tally, &with_one)?;
    }
    tally.require(&[0, 2, 5, 6, 7, 8, 9, 10, 15, 20, 21])
}

/// A truthful round, as the engine tells it: the cut, and a code for each guest and station.
struct Round {
    market: bay_market::Market,
    cut: u32,
    codes: Vec<Code>,
}

impl Round {
    fn of(rule: Rule, market: bay_market::Market) -> Result<Round, String> {
        let refused = |refusal: bay_market::Refusal| format!("refused {}", refusal.number());
        let cut = market.clear(rule).map_err(refused)?.cut;
        let codes = market.explain(rule).map_err(refused)?.codes;
        Ok(Round { market, cut, codes })
    }

    fn code(&self, guest: usize, station: usize) -> Code {
        self.codes[guest * self.market.asks.len() + station]
    }

    fn total(&self, guest: usize, station: usize) -> u64 {
        u64::from(self.market.bids[guest * self.market.asks.len() + station]) * u64::from(self.market.amounts[guest])
    }

    /// The larger of cut times amount and the greatest total that is outbid there.
    fn charge(&self, guest: usize, station: usize) -> u64 {
        let outbid = |&other: &usize| self.code(other, station) == Code::NotHeld(Reason::Outbid);
        let floor = (0..self.market.amounts.len()).filter(outbid).map(|other| self.total(other, station)).max();
        floor.unwrap_or(0).max(u64::from(self.cut) * u64::from(self.market.amounts[guest]))
    }
}

/// Whoever holds a place in the joined market held it in its own, and is charged no less there.
fn check_places(rule: Rule, joining: &Joining) -> Result<(), String> {
    let (first, second) = (own(&joining.first), own(&joining.second));
    let both = first.join(&second).map_err(|refusal| format!("joining is refused {}", refusal.number()))?;
    let guests = first.amounts.len();
    let both = Round::of(rule, both)?;
    for (gate, own, from) in [("first", Round::of(rule, first)?, 0), ("second", Round::of(rule, second)?, guests)] {
        for guest in 0..own.market.amounts.len() {
            for station in 0..own.market.asks.len() {
                if both.code(from + guest, station) != Code::Held {
                    continue;
                }
                let place = format!("guest {} of the {gate} gate at station {}", guest + 1, station + 1);
                if own.code(guest, station) != Code::Held {
                    return Err(format!("{place} holds a place that joining gave"));
                }
                if both.charge(from + guest, station) < own.charge(guest, station) {
                    return Err(format!("{place} is charged less where the gates are joined"));
                }
            }
        }
    }
    Ok(())
}

pub fn run_places(random: &mut Random, tally: &mut Tally, cases: usize) -> Result<(), String> {
    let shapes = [small(), tied(), middling(), Shape { bays: 1..=3, guests: 0..=30, ..tied() }];
    for _ in 0..cases {
        let joining = parted(random, &shapes);
        let rule = *random.pick(&[Rule::Median, Rule::TwoThirds]);
        tally.count::<()>(&Ok(()));
        check_places(rule, &joining).map_err(|what| {
            format!("{what}\nrule {}\nfirst:\n{}\nsecond:\n{}", rule.number(), show(&joining.first), show(&joining.second))
        })?;
    }
    Ok(())
}
