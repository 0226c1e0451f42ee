//! A guest's price list, and the gains of rows in million rows a second.

use crate::baseline::keys::select;
use crate::baseline::{Scratch, menus};
use crate::clearing;
use crate::loaded;
use crate::markets::{lend, sizes};
use crate::timing::{Bench, Contender, median};
use bay_market::lent;
use bay_market::{Refusal, Rule};
use reference::market::Market;
use reference::menus::{gains, price_list};
use reference::random::Random;
use std::hint::black_box;
use std::time::Instant;

/// A market and a guest of it.
type Input = (Market, u32);

struct Working {
    scratch: Box<Scratch>,
    bars: Vec<u32>,
    prices: Vec<u32>,
    alone: clearing::Working,
}

impl Working {
    fn new((market, _): &Input) -> Working {
        let m = market.stations();
        Working { scratch: Scratch::new(), bars: vec![77; m], prices: vec![77; m], alone: clearing::Working::new(market) }
    }

    fn list(&mut self, list: impl FnOnce(&mut Scratch, &mut [u32], &mut [u32]) -> Result<(), u8>) {
        black_box(list(&mut self.scratch, &mut self.bars, &mut self.prices)).expect("an accepted market");
    }
}

type Menu = fn(Rule, &lent::Market, u32, &mut [u32], &mut [u32]) -> Result<(), Refusal>;

fn engine(working: &mut Working, (market, guest): &Input, menu: Menu) {
    working.list(|_, bars, prices| menu(Rule::Median, &lend(market), *guest, bars, prices).map_err(Refusal::number));
}

/// The engine, a baseline, and the plain clearing with `select`.
pub fn lists(bench: &Bench) {
    let plain = |working: &mut Working, (market, guest): &Input| {
        working.list(|scratch, bars, prices| menus::menu(scratch, Rule::Median, &lend(market), *guest, bars, prices));
    };
    let once = |working: &mut Working, (market, _): &Input| working.alone.by(select, Rule::Median, market);
    let contenders = bench.contenders(
        |working, input| engine(working, input, lent::menu),
        vec![Contender::new("select", plain), Contender::other("select, one clearing", once)],
        |working, input| engine(working, input, loaded::menu),
    );
    bench.head("a price list", &contenders);
    let mut random = Random::new(14);
    for (name, shape) in sizes() {
        let inputs = bench.inputs(&mut random, &shape, |random, market| {
            let guest = 1 + random.below(market.guests()) as u32;
            (market, guest)
        });
        let expected = |(market, guest): &Input| {
            let list = price_list(1, market, *guest, market.stations(), market.stations()).expect("an accepted market");
            (list.bars, list.prices)
        };
        let seen = |working: &mut Working| (working.bars.clone(), working.prices.clone());
        bench.row(name, &inputs, &contenders, Working::new, expected, seen);
    }
}

/// The rows of one market, whose first guest they are tried for.
struct Rows {
    market: Market,
    rows: Vec<u32>,
}

impl Rows {
    fn worths(&self) -> &[u32] {
        self.rows_of(&self.market.bids, 1)
    }

    fn rows_of<'a>(&self, table: &'a [u32], count: usize) -> &'a [u32] {
        &table[..count * self.market.stations()]
    }
}

type Gains = fn(&mut Scratch, &Rows, usize, &mut [i64]) -> Result<(), u8>;

const ENGINE: Gains = |_, rows, count, gains| {
    lent::gains(Rule::Median, &lend(&rows.market), 1, rows.worths(), rows.rows_of(&rows.rows, count), gains)
        .map_err(Refusal::number)
};

const LOADED: Gains = |_, rows, count, gains| {
    loaded::gains(Rule::Median, &lend(&rows.market), 1, rows.worths(), rows.rows_of(&rows.rows, count), gains)
        .map_err(Refusal::number)
};

const PLAIN: Gains = |scratch, rows, count, gains| {
    menus::gains(scratch, Rule::Median, &lend(&rows.market), 1, rows.worths(), rows.rows_of(&rows.rows, count), gains)
};

const CLEARED: Gains = |scratch, rows, count, gains| {
    let given = rows.rows_of(&rows.rows, count);
    menus::gains_by_clearing(scratch, Rule::Median, &lend(&rows.market), 1, rows.worths(), given, gains)
};

/// Reads every bid, and leaves a number for each row.
const READ: Gains = |_, rows, count, gains| {
    let given = black_box(rows.rows_of(&rows.rows, count));
    for (row, gain) in given.chunks_exact(rows.market.stations()).zip(gains) {
        *gain = i64::from(row.iter().fold(0, |all, &bid| all | bid));
    }
    Ok(())
};

/// So many rows are cleared, one after the other, where that is timed, and so many are compared with the reference.
const FEW: usize = 1_000;
const COMPARED: usize = 50;

/// The median rate of each contender, in turns, in million rows a second: a call takes some milliseconds, so half of the
/// rounds are enough.
fn rates(bench: &Bench, rows: &Rows, contenders: &[(Gains, usize)], lists: &mut [Vec<i64>]) -> Vec<f64> {
    let mut scratch = Scratch::new();
    let mut times = vec![Vec::new(); contenders.len()];
    for round in 0..bench.rounds.div_ceil(2) {
        for turn in 0..contenders.len() {
            let which = (round + turn) % contenders.len();
            let (gains, count) = contenders[which];
            let start = Instant::now();
            black_box(gains(&mut scratch, rows, count, &mut lists[which][..count])).expect("rows that fit");
            times[which].push(start.elapsed().as_secs_f64() * 1e6);
        }
    }
    times.into_iter().zip(contenders).map(|(times, &(_, count))| count as f64 / median(times)).collect()
}

/// The gains of rows by the engine, by a plain loop over the list, by reading the rows at all, and by clearing each.
pub fn gain_rates(bench: &Bench) {
    let [_, full, _, small, least] = sizes();
    let medium = sizes()[2].clone();
    print!("\n| gains of rows, million a second | engine | plain loop | engine / plain | reading | engine / reading |");
    print!(" clearing each |");
    if let Some(name) = &bench.against {
        print!(" {name} | engine / {name} |");
    }
    println!("\n|{}", "---|".repeat(if bench.against.is_some() { 9 } else { 7 }));
    let mut random = Random::new(15);
    let share = if bench.rounds < 31 { 10 } else { 1 };
    for ((_, shape), count) in
        [(&full, 400_000), (&full, 16_384), (&medium, 1_000_000), (&small, 2_000_000), (&small, 16_384), (&least, 16_384)]
    {
        let count = if count > 16_384 { count / share } else { count };
        let market = shape.market(&mut random);
        let m = market.stations();
        let rows = Rows { rows: (0..count * m).map(|_| random.within(0..=1_000_000) as u32).collect(), market };
        let mut contenders = vec![(ENGINE, count), (PLAIN, count), (READ, count), (CLEARED, FEW)];
        contenders.extend(bench.against.iter().map(|_| (LOADED, count)));
        let mut lists: Vec<Vec<i64>> = contenders.iter().map(|_| vec![77; count]).collect();
        let rates = rates(bench, &rows, &contenders, &mut lists);
        let expected = gains(1, &rows.market, 1, rows.worths(), rows.rows_of(&rows.rows, COMPARED), COMPARED);
        let expected = expected.expect("an accepted market");
        for which in (0..lists.len()).filter(|&which| which != 2) {
            let compared = lists[which][..COMPARED].iter().map(|&gain| i128::from(gain));
            assert!(compared.eq(expected.iter().copied()), "contender {which} differs on {:?}", rows.market);
            let same = contenders[which].1;
            assert!(lists[which][..same] == lists[0][..same], "contender {which} differs on {:?}", rows.market);
        }
        let (engine, plain, read, cleared) = (rates[0], rates[1], rates[2], rates[3]);
        print!("| {m} stations, {count} rows in a call | {engine:.1} | {plain:.1} | {:.2} |", engine / plain);
        print!(" {read:.1} | {:.2} | {cleared:.2} |", engine / read);
        if let Some(other) = rates.get(4) {
            print!(" {other:.1} | {:.2} |", engine / other);
        }
        println!();
    }
}
