//! A guest's price list and the gains of rows: against the reference, and against the engine's own clearings with places and
//! floors, lists and tries, of the market and of the markets with the guest's other rows.

use crate::Tally;
use crate::call::menus::{self, Gaining, Listing};
use crate::call::{self, Way};
use crate::markets::{
    Change, Place, RULES, accepted, any_rule, changed, market_changes, middling, other_lengths, set, shapes, show, small, tied,
};
use crate::trying::{bid, bids, limits, tight};
use bay_market::Rule;
use reference::clearing::cut;
use reference::faults::MAX_PRICE;
use reference::market::Market;
use reference::marking::Submission;
use reference::menus::{NO_BAR, PriceList, gains, price_list};
use reference::other_rows::{OtherRow, with_row};
use reference::random::{Random, Shape};

/// A call for a list or for gains: the number of a rule, a market, a guest, its worths and rows of bids, and how long the
/// lent lists are.
#[derive(Clone, Debug)]
struct Call {
    rule: u8,
    market: Market,
    guest: u32,
    worths: Vec<u32>,
    rows: Vec<u32>,
    bars: usize,
    prices: usize,
    gains: usize,
}

impl Call {
    /// With lists that fit.
    fn of(rule: u8, market: Market, Rows { guest, worths, rows }: Rows) -> Call {
        let m = market.stations();
        Call { rule, market, guest, worths, bars: m, prices: m, gains: rows.len() / m, rows }
    }

    fn show(&self) -> String {
        let Call { rule, market, guest, worths, rows, bars, prices, gains } = self;
        let lists = format!("bars {bars}\nprices {prices}\ngains {gains}");
        format!("rule {rule}\nguest {guest}\nworths {worths:?}\nrows {rows:?}\n{lists}\n{}", show(market))
    }
}

/// A guest's number, its worths, and rows of bids one after the other.
#[derive(Clone)]
struct Rows {
    guest: u32,
    worths: Vec<u32>,
    rows: Vec<u32>,
}

/// A bid at a station about the price or the bar of a list, or any other that may decide.
fn row_bid(random: &mut Random, market: &Market, guest: u32, list: &PriceList, station: usize) -> u32 {
    let (bar, price) = (list.bars[station - 1], list.prices[station - 1]);
    let amount = u32::from(market.amounts[guest as usize - 1]);
    match random.below(4) {
        0 if bar < NO_BAR => bar.div_ceil(amount),
        1 if bar < NO_BAR => (price / amount + random.below(3) as u32).saturating_sub(1),
        _ => bid(random, market, guest, station),
    }
    .min(MAX_PRICE)
}

/// Worths and up to so many rows of a guest of a market; where there is no guest, of one that is none.
fn rows_of(random: &mut Random, rule: u8, market: &Market, most: usize) -> Rows {
    let m = market.stations();
    let k = random.below(most + 1);
    if market.guests() == 0 {
        return Rows { guest: random.below(2) as u32, worths: vec![0; m], rows: vec![0; k * m] };
    }
    let guest = 1 + random.below(market.guests()) as u32;
    let rule = if RULES[..2].contains(&rule) { rule } else { 1 };
    let list = price_list(rule, market, guest, m, m).expect("an accepted market");
    let mut row = |_| (1..=m).map(|station| row_bid(random, market, guest, &list, station)).collect::<Vec<u32>>();
    let (any, mut rows) = (row(0), (0..k).flat_map(&mut row).collect::<Vec<u32>>());
    let worths = if random.chance(50) { bids(market, guest).to_vec() } else { any };
    if k > 0 && random.chance(50) {
        rows[..m].copy_from_slice(&worths);
    }
    Rows { guest, worths, rows }
}

type Prices = fn(&mut Call) -> &mut Vec<u32>;

/// One thing of a call made wrong, or moved to its limit.
#[derive(Clone, Copy)]
enum Wrong {
    Market(Change),
    Guest(u32),
    /// The worths or the rows get another length.
    Length(Prices, usize),
    /// A worth or a bid of a row gets another value.
    Price(Prices, Place, u32),
    /// A lent list gets another length.
    Lent(fn(&mut Call) -> &mut usize, usize),
}

impl Wrong {
    fn apply(self, random: &mut Random, call: &mut Call) {
        match self {
            Wrong::Market(change) => {
                let k = call.rows.len() / call.market.stations().max(1);
                call.market = changed(random, &call.market, change);
                if matches!(change, Change::Stations(_)) {
                    let m = call.market.stations();
                    (call.bars, call.prices) = (m, m);
                    call.worths.resize(m, 1);
                    call.rows.resize(k * m, 1);
                }
            }
            Wrong::Guest(guest) => call.guest = guest,
            Wrong::Length(list, length) => list(call).resize(length, 1),
            Wrong::Price(list, place, price) => set(random, list(call), place, price),
            Wrong::Lent(list, length) => *list(call) = length,
        }
    }
}

/// The call with one thing made wrong.
fn with(random: &mut Random, call: &Call, wrong: Wrong) -> Call {
    let mut with = call.clone();
    wrong.apply(random, &mut with);
    with
}

/// What is tried with either call.
fn wrongs(market: &Market) -> Vec<Wrong> {
    let n = market.guests() as u32;
    let mut wrongs: Vec<Wrong> = market_changes(market).into_iter().map(Wrong::Market).collect();
    // among them numbers whose low bits alone name a guest
    let guests = [0, 1, n, n + 1, 1 << 8 | 1, 1 << 16 | 1, 1 << 31 | 1, u32::MAX];
    wrongs.extend(guests.map(Wrong::Guest));
    wrongs
}

fn list_wrongs(call: &Call) -> Vec<Wrong> {
    let mut all = wrongs(&call.market);
    let lists: [fn(&mut Call) -> &mut usize; 2] = [|call| &mut call.bars, |call| &mut call.prices];
    for list in lists {
        all.extend(other_lengths(call.market.stations()).into_iter().map(|length| Wrong::Lent(list, length)));
    }
    all
}

fn gain_wrongs(call: &Call) -> Vec<Wrong> {
    let mut all = wrongs(&call.market);
    let (worths, rows): (Prices, Prices) = (|call| &mut call.worths, |call| &mut call.rows);
    for (list, length) in [(worths, call.worths.len()), (rows, call.rows.len())] {
        all.extend(other_lengths(length).into_iter().map(|length| Wrong::Length(list, length)));
        for place in [Place::First, Place::Last, Place::Any] {
            let prices = [0, MAX_PRICE, MAX_PRICE + 1, 1 << 24 | 1, 1 << 31 | 1, u32::MAX];
            all.extend(prices.map(|price| Wrong::Price(list, place, price)));
        }
    }
    // a row more and a row less, with no gain for it
    let m = call.market.stations();
    all.extend([call.rows.len() + m, call.rows.len().saturating_sub(m)].map(|length| Wrong::Length(rows, length)));
    all.extend(other_lengths(call.gains).into_iter().map(|length| Wrong::Lent(|call| &mut call.gains, length)));
    all
}

/// One of the two calls: held to the reference, and what is made wrong with it.
#[derive(Clone, Copy)]
struct Kind {
    check: fn(&mut Random, &mut Tally, &Call) -> Result<(), String>,
    wrongs: fn(&Call) -> Vec<Wrong>,
    rows: usize,
}

const NOT_OPEN: &str = "not open";
const AT_CUT: &str = "priced by the cut";
const BY_OTHERS: &str = "priced by the others";
const TIE_LOST: &str = "a bar above its price";

fn check_list(random: &mut Random, tally: &mut Tally, call: &Call) -> Result<(), String> {
    let Call { rule, market, guest, bars, prices, .. } = call;
    let expected = price_list(*rule, market, *guest, *bars, *prices);
    tally.count(&expected);
    if let Ok(list) = &expected {
        let least = cut(*rule, market) * u128::from(market.amounts[*guest as usize - 1]);
        for (&bar, &price) in list.bars.iter().zip(&list.prices) {
            let priced = if u128::from(price) == least { AT_CUT } else { BY_OTHERS };
            tally.meet(if bar == NO_BAR { NOT_OPEN } else { priced });
            if bar == price + 1 {
                tally.meet(TIE_LOST);
            }
        }
    }
    let listing = Listing { rule: *rule, market, guest: *guest, bars: *bars, prices: *prices };
    menus::menu(random, listing, &expected)
}

const LOSS: &str = "losing";
const NO_GAIN: &str = "gaining nothing";
const GAIN: &str = "gaining";
const NO_ROW: &str = "without a row";

fn check_gains(random: &mut Random, tally: &mut Tally, call: &Call) -> Result<(), String> {
    let Call { rule, market, guest, worths, rows, gains: length, .. } = call;
    let expected = gains(*rule, market, *guest, worths, rows, *length);
    tally.count(&expected);
    if let Ok(gains) = &expected {
        if gains.is_empty() {
            tally.meet(NO_ROW);
        }
        for gain in gains {
            tally.meet(match gain.signum() {
                -1 => LOSS,
                0 => NO_GAIN,
                _ => GAIN,
            });
        }
    }
    let gaining = Gaining { rule: *rule, market, guest: *guest, worths, rows, gains: *length };
    menus::gains(random, gaining, &expected)
}

fn run_kind(random: &mut Random, tally: &mut Tally, cases: usize, kind: Kind) -> Result<(), String> {
    let shapes = [shapes(), tight()].concat();
    let mut check =
        |random: &mut Random, call: &Call| (kind.check)(random, tally, call).map_err(|what| format!("{what}\n{}", call.show()));
    for _ in 0..cases {
        let (rule, market) = (any_rule(random), accepted(random, &shapes));
        let rows = rows_of(random, rule, &market, kind.rows);
        let mut call = Call::of(rule, market, rows);
        if random.chance(40) {
            let wrongs = (kind.wrongs)(&call);
            for _ in 0..random.within(1..=4) {
                random.pick(&wrongs).apply(random, &mut call);
            }
        }
        check(random, &call)?;
    }
    // each thing wrong alone and each two together, in every order, in small markets; each alone in the largest
    let some = |shape: Shape| Shape { guests: 3..=6, stations: 2..=5, ..shape };
    for shape in [some(small()), some(tied()), some(middling()), Shape::full()] {
        let market = shape.market(random);
        let rows = rows_of(random, 1, &market, 3);
        let call = Call::of(1, market, rows);
        let wrongs = (kind.wrongs)(&call);
        for first in &wrongs {
            let with_one = with(random, &call, *first);
            for rule in RULES {
                check(random, &Call { rule, ..with_one.clone() })?;
            }
            for second in wrongs.iter().filter(|_| call.market.bids.len() < 1_000) {
                let with_two = with(random, &with_one, *second);
                let rule = any_rule(random);
                check(random, &Call { rule, ..with_two })?;
            }
        }
    }
    // each guest of a market, and those next to them
    for shape in limits() {
        let market = shape.market(random);
        let rows = rows_of(random, 1, &market, 1);
        for guest in 0..=market.guests() as u32 + 1 {
            let rule = *random.pick(&RULES[..2]);
            check(random, &Call::of(rule, market.clone(), Rows { guest, ..rows.clone() }))?;
        }
    }
    Ok(())
}

pub fn run_lists(random: &mut Random, tally: &mut Tally, cases: usize) -> Result<(), String> {
    run_kind(random, tally, cases, Kind { check: check_list, wrongs: list_wrongs, rows: 0 })?;
    tally.require_met(&[NOT_OPEN, AT_CUT, BY_OTHERS, TIE_LOST])?;
    tally.require(&[0, 2, 5, 6, 7, 8, 9, 10, 15, 18, 24])
}

pub fn run_gains(random: &mut Random, tally: &mut Tally, cases: usize) -> Result<(), String> {
    run_kind(random, tally, cases, Kind { check: check_gains, wrongs: gain_wrongs, rows: 6 })?;
    tally.require_met(&[LOSS, NO_GAIN, GAIN, NO_ROW])?;
    tally.require(&[0, 2, 5, 6, 7, 8, 9, 10, 15, 18, 24])
}

/// What was told of a guest of a market by the engine: its list, and of one of its rows the clearing with places and floors,
/// the list in that market, and the gains of the row and of trying it.
struct Told<'a> {
    market: &'a Market,
    guest: u32,
    list: &'a PriceList,
    full: &'a Submission,
    after: &'a PriceList,
    gain: i64,
    tried: i64,
    by_worths: i64,
}

const HELD: &str = "a place held";
const AT_BAR: &str = "a total at its bar";
const UNDER_BAR: &str = "a total one below its bar";

/// All of it is as the list has it; the market is the one with the row.
fn require_told(tally: &mut Tally, told: &Told) -> Result<(), String> {
    let Told { market, guest, list, full, after, gain, tried, by_worths } = *told;
    let (m, place) = (market.stations(), guest as usize - 1);
    if after != list {
        return Err(format!("the list moves with the guest's own bids: {list:?}, then {after:?}"));
    }
    let mut best = (0, 0, 0);
    for station in 1..=m {
        let (bar, price) = (u64::from(list.bars[station - 1]), u64::from(list.prices[station - 1]));
        let (bid, amount) = (market.bid(place + 1, station), u64::from(market.amounts[place]));
        let total = u64::from(bid) * amount;
        let reads = match market.asks[station - 1] < full.cut {
            true => price >= u64::from(full.cut) * amount && (price..=price + 1).contains(&bar),
            false => (bar, price) == (NO_BAR.into(), 0),
        };
        if !reads {
            return Err(format!("station {station} is listed with a bar of {bar} and a price of {price}"));
        }
        let held = full.places[place * m + station - 1];
        if held != u8::from(total >= bar) || held != u8::from(bid >= full.cut && total >= bar) {
            return Err(format!("at station {station} the guest has place {held}, a total of {total} and a bar of {bar}"));
        }
        if total + 1 == bar {
            tally.meet(UNDER_BAR);
        }
        if held == 0 {
            continue;
        }
        tally.meet(if total == bar { AT_BAR } else { HELD });
        let charge = (u64::from(full.cut) * amount).max(full.floors[station - 1].into());
        if charge != price {
            return Err(format!("at station {station} the guest's charge is {charge}, and its price {price}"));
        }
        if best.0 == 0 || total - price > best.1 {
            best = (station, total - price, price);
        }
    }
    let seat = (usize::from(full.stations[place]), u64::from(full.charges[place]));
    if seat != (best.0, best.2) {
        return Err(format!("the guest is seated at {} for {}, by its list at {} for {}", seat.0, seat.1, best.0, best.2));
    }
    if gain != tried {
        return Err(format!("the row gains {gain}, and {tried} where it is tried"));
    }
    if gain > by_worths {
        return Err(format!("a row gains {gain}, and the worths {by_worths}"));
    }
    Ok(())
}

/// Holds what is told by one way.
fn check_told(tally: &mut Tally, way: Way, rule: Rule, market: &Market, told: &Rows, list: &PriceList) -> Result<(), String> {
    let Rows { guest, worths, rows } = told;
    let (guest, m) = (*guest, market.stations());
    let rows = [&worths[..], rows].concat();
    let gains = menus::gains_by(way, rule, market, guest, worths, &rows)?;
    for (row, &gain) in rows.chunks(m).zip(&gains) {
        let other = OtherRow { guest, worths: worths.clone(), row: row.to_vec() };
        let tried = call::tell_row_by(way, rule, market, &other)?.gains[1];
        let market = &with_row(market, &other);
        let (full, after) = (&call::hand_in_by(way, rule, market)?, &menus::list_by(way, rule, market, guest)?);
        tally.count::<()>(&Ok(()));
        require_told(tally, &Told { market, guest, list, full, after, gain, tried, by_worths: gains[0] })
            .map_err(|what| format!("{what}\nrow {row:?}"))?;
    }
    Ok(())
}

/// Holds lists and gains to the engine's own clearings, lists and tries with every row.
pub fn run_told(random: &mut Random, tally: &mut Tally, cases: usize) -> Result<(), String> {
    let shapes = [shapes(), tight(), tight(), tight()].concat();
    for _ in 0..cases {
        let market = accepted(random, &shapes);
        if market.guests() == 0 {
            continue;
        }
        let rule = *random.pick(&[Rule::Median, Rule::TwoThirds]);
        let rows = rows_of(random, rule.number(), &market, 5);
        menus::list(rule, &market, rows.guest, |way, list| check_told(tally, way, rule, &market, &rows, &list))
            .map_err(|what| format!("{what}\n{}", Call::of(rule.number(), market.clone(), rows.clone()).show()))?;
    }
    tally.require_met(&[HELD, AT_BAR, UNDER_BAR])
}

#[cfg(test)]
mod tests {
    use super::*;
    use crate::call::handed_in;
    use reference::marking::clear_fully;

    /// Guest 2 of case G with a bid of 14, or the market where it bids 13; what is wrong with what is told of it.
    fn says(bid: u32, change: impl Fn(&mut PriceList, &mut Submission, &mut PriceList), gains: [i64; 3]) -> String {
        let market = Market::numbered(&[2, 6], &[1, 1], &[3, 2], &[9, 0, bid, 0]);
        let list = price_list(1, &market, 2, 2, 2).expect("an accepted market");
        let (mut list, mut after, mut full) = (list.clone(), list, handed_in(&clear_fully(1, &market)));
        change(&mut list, &mut full, &mut after);
        let [gain, tried, by_worths] = gains;
        let told = Told { market: &market, guest: 2, list: &list, full: &full, after: &after, gain, tried, by_worths };
        require_told(&mut Tally::default(), &told).err().unwrap_or_default()
    }

    #[test]
    fn every_wrong_fact_is_seen() {
        for bid in [13, 14] {
            assert_eq!(says(bid, |_, _, _| (), [-7, -7, 0]), "");
        }
        assert!(says(14, |_, _, after| after.bars[0] = 27, [-7, -7, 0]).contains("moves with the guest's own bids"));
        let both = |list: &mut PriceList, after: &mut PriceList, bar, price| {
            (list.bars[0], list.prices[0]) = (bar, price);
            *after = list.clone();
        };
        let listed = "station 1 is listed with a bar of";
        assert!(says(13, |list, _, after| both(list, after, 26, 27), [0, 0, 0]).contains(listed));
        assert!(says(13, |list, _, after| both(list, after, 29, 27), [0, 0, 0]).contains(listed));
        assert!(says(13, |list, _, after| both(list, after, 11, 11), [0, 0, 0]).contains(listed));
        let closed = |list: &mut PriceList, after: &mut PriceList, bar, price| {
            (list.bars[1], list.prices[1]) = (bar, price);
            *after = list.clone();
        };
        for (bar, price) in [(NO_BAR, 12), (0, 0)] {
            let said = says(13, |list, _, after| closed(list, after, bar, price), [0, 0, 0]);
            assert!(said.contains("station 2 is listed with a bar of"));
        }
        assert!(says(13, |list, _, after| both(list, after, 26, 26), [0, 0, 0]).contains("has place 0, a total of 26"));
        assert!(says(14, |list, _, after| both(list, after, 29, 28), [0, 0, 0]).contains("has place 1, a total of 28"));
        assert!(says(14, |list, _, after| both(list, after, 28, 28), [0, 0, 0]).contains("charge is 27, and its price 28"));
        assert!(says(14, |_, full, _| full.stations[1] = 0, [0, 0, 0]).contains("seated at 0 for 27, by its list at 1 for 27"));
        assert!(says(14, |_, full, _| full.charges[1] = 28, [0, 0, 0]).contains("seated at 1 for 28"));
        assert!(says(14, |_, _, _| (), [-7, -6, 0]).contains("gains -7, and -6 where it is tried"));
        assert!(says(14, |_, _, _| (), [1, 1, 0]).contains("a row gains 1, and the worths 0"));
    }

    #[test]
    fn rows_are_about_the_list() {
        let market = reference::samples::table_i();
        let list = price_list(1, &market, 1, 5, 5).expect("an accepted market");
        assert_eq!((list.bars[1], list.prices[3]), (16, 15));
        let random = &mut Random::new(3);
        let met: std::collections::BTreeSet<u32> = (0..400).map(|_| row_bid(random, &market, 1, &list, 2)).collect();
        assert!([2, 3, 4].iter().all(|bid| met.contains(bid)));
    }
}
