//! A search for a false report that pays, on small markets, both under one rule, and the limits of every outcome met on
//! the way. In efficient rounds no station's report pays, but some guest's does; and whoever is seated in the truthful
//! round is seated.

use crate::Tally;
use crate::call::Mechanism;
use crate::markets::{accepted, shapes, show, small};
use bay_market::{Clearing, Rule};
use reference::market::Market;
use reference::random::{Random, Shape};

const RULES: [Rule; 2] = [Rule::Median, Rule::TwoThirds];

fn clear(tally: &mut Tally, mechanism: Mechanism, rule: Rule, market: &Market) -> Result<Clearing, String> {
    let answer = mechanism.clear(rule, market);
    tally.count(&answer);
    let clearing = answer.map_err(|number| format!("refused {number}\n{}", show(market)))?;
    within_limits(market, &clearing).map_err(|what| format!("{what}\n{}", show(market)))?;
    Ok(clearing)
}

/// Demand 3's second sentence.
fn within_limits(market: &Market, outcome: &Clearing) -> Result<(), String> {
    let mut seated = vec![0; market.stations()];
    let mut kwh = vec![0; market.stations()];
    for guest in 1..=market.guests() {
        let (station, charge) = (usize::from(outcome.stations[guest - 1]), u64::from(outcome.charges[guest - 1]));
        let amount = u64::from(market.amounts[guest - 1]);
        let bid = if station == 0 { 0 } else { market.bid(guest, station) };
        if charge > u64::from(bid) * amount {
            return Err(format!("guest {guest} is charged above its bid"));
        }
        if station > 0 {
            seated[station - 1] += 1;
            kwh[station - 1] += amount;
        }
    }
    for station in 1..=market.stations() {
        let sold = u64::from(outcome.sold[station - 1]);
        if sold != kwh[station - 1] || seated[station - 1] > market.bays[station - 1] {
            return Err(format!("station {station} is beyond its bays, or sold other kWh than it seats"));
        }
        if outcome.paid[station - 1] < u64::from(market.asks[station - 1]) * sold {
            return Err(format!("station {station} is paid below its ask"));
        }
    }
    let charges: u64 = outcome.charges.iter().map(|&charge| u64::from(charge)).sum();
    if charges != outcome.paid.iter().sum::<u64>() + outcome.margin {
        return Err("charges are not payments and margin".to_string());
    }
    Ok(())
}

fn guest_gain(market: &Market, outcome: &Clearing, guest: usize, worths: &[u32]) -> i128 {
    match usize::from(outcome.stations[guest - 1]) {
        0 => 0,
        station => {
            i128::from(worths[station - 1]) * i128::from(market.amounts[guest - 1]) - i128::from(outcome.charges[guest - 1])
        }
    }
}

fn station_gain(outcome: &Clearing, station: usize, cost: u32) -> i128 {
    i128::from(outcome.paid[station - 1]) - i128::from(cost) * i128::from(outcome.sold[station - 1])
}

/// The next row of bids with values from `values`, counting up; false after the last.
fn next_row(digits: &mut [usize], values: usize) -> bool {
    for digit in digits {
        *digit += 1;
        if *digit < values {
            return true;
        }
        *digit = 0;
    }
    false
}

/// Sets the market against each one with another row, all else the same, tickets too.
fn search_guests(tally: &mut Tally, rule: Rule, market: &Market, values: &[u32]) -> Result<(), String> {
    let m = market.stations();
    let honest = clear(tally, Mechanism::Truthful, rule, market)?;
    let mut other = market.clone();
    for guest in 1..=market.guests() {
        let row = (guest - 1) * m..guest * m;
        let worths = &market.bids[row.clone()];
        let gain = guest_gain(market, &honest, guest, worths);
        let mut digits = vec![0; m];
        loop {
            for (place, &digit) in row.clone().zip(&digits) {
                other.bids[place] = values[digit];
            }
            let outcome = clear(tally, Mechanism::Truthful, rule, &other)?;
            if guest_gain(market, &outcome, guest, worths) > gain {
                return Err(format!("guest {guest} gains by {:?}\n{}", &other.bids[row], show(market)));
            }
            if !next_row(&mut digits, values.len()) {
                break;
            }
        }
        other.bids[row].copy_from_slice(worths);
    }
    Ok(())
}

/// Sets the market against each one with another ask, all else the same.
fn search_stations(tally: &mut Tally, mechanism: Mechanism, rule: Rule, market: &Market, values: &[u32]) -> Result<(), String> {
    let honest = clear(tally, mechanism, rule, market)?;
    let mut other = market.clone();
    for station in 1..=market.stations() {
        let cost = market.asks[station - 1];
        let gain = station_gain(&honest, station, cost);
        for &ask in values {
            other.asks[station - 1] = ask;
            let outcome = clear(tally, mechanism, rule, &other)?;
            if station_gain(&outcome, station, cost) > gain {
                return Err(format!("station {station} gains by {ask}\n{}", show(market)));
            }
        }
        other.asks[station - 1] = cost;
    }
    Ok(())
}

/// A small market, and the six values that its prices have, close together or far apart.
fn priced(random: &mut Random) -> (Market, [u32; 6]) {
    let sizes = Shape { guests: 1..=4, stations: 2..=4, bays: 1..=2, amounts: 1..=3, ..small() };
    let mut market = Shape { asks: 0..=5, bids: 0..=5, empty: 0, ..sizes }.market(random);
    let values = if random.chance(70) { [0, 1, 2, 3, 4, 5] } else { [0, 1, 100, 101, 999_999, 1_000_000] };
    for price in market.asks.iter_mut().chain(&mut market.bids) {
        *price = values[*price as usize];
    }
    (market, values)
}

/// What guest 1 gains, to which stations 1 and 2 are worth 2 each, by a row of bids there, where guest 2 bids 2 at
/// station 1.
fn gain_by(tally: &mut Tally, mechanism: Mechanism, row: [u32; 2]) -> Result<i128, String> {
    let bids = [row[0], row[1], 0, 0, 2, 0, 0, 0];
    let market = Market::numbered(&[0, 0, 1, 1], &[1; 4], &[1, 1], &bids);
    Ok(guest_gain(&market, &clear(tally, mechanism, Rule::Median, &market)?, 1, &[2, 2, 0, 0]))
}

/// By the true row it gains 1 in the truthful round and nothing in the efficient one, where a false row gains 1.
fn a_false_row_pays(tally: &mut Tally) -> Result<(), String> {
    for (mechanism, expected) in [(Mechanism::Truthful, [1, 1]), (Mechanism::Efficient, [0, 1])] {
        let gains = [gain_by(tally, mechanism, [2, 2])?, gain_by(tally, mechanism, [0, 2])?];
        if gains != expected {
            return Err(format!("{mechanism:?}: the true and the false row gain {gains:?}, expected {expected:?}"));
        }
    }
    Ok(())
}

/// Whoever is seated in the truthful round is seated in the efficient one; how many more are.
fn more_seated(tally: &mut Tally, rule: Rule, market: &Market) -> Result<usize, String> {
    let truthful = clear(tally, Mechanism::Truthful, rule, market)?.stations;
    let efficient = clear(tally, Mechanism::Efficient, rule, market)?.stations;
    if let Some(guest) = truthful.iter().zip(&efficient).position(|(&seat, &other)| seat > 0 && other == 0) {
        return Err(format!("guest {} loses its seat in the efficient round\n{}", guest + 1, show(market)));
    }
    let seated = |seats: &[u16]| seats.iter().filter(|&&seat| seat > 0).count();
    Ok(seated(&efficient) - seated(&truthful))
}

pub fn run_truthful(random: &mut Random, tally: &mut Tally, cases: usize) -> Result<(), String> {
    for _ in 0..cases {
        let (market, values) = priced(random);
        let rule = *random.pick(&RULES);
        search_guests(tally, rule, &market, &values)?;
        search_stations(tally, Mechanism::Truthful, rule, &market, &values)?;
    }
    tally.require(&[0])
}

pub fn run_efficient(random: &mut Random, tally: &mut Tally, cases: usize) -> Result<(), String> {
    a_false_row_pays(tally)?;
    let shapes = shapes();
    let mut more = 0;
    for _ in 0..cases {
        let (market, values) = priced(random);
        let rule = *random.pick(&RULES);
        search_stations(tally, Mechanism::Efficient, rule, &market, &values)?;
        more += more_seated(tally, rule, &accepted(random, &shapes))?;
    }
    if more == 0 {
        return Err("the efficient round never seats more".to_string());
    }
    tally.require(&[0])
}
