//! Writing against the reference: markets as they should be and changed ones, into outputs of many lengths.

use crate::Tally;
use crate::call;
use crate::markets::{accepted, changed, market_changes, middling, shapes, sheet, show, small, tied};
use bay_market::MAX_SHEET;
use reference::market::Market;
use reference::random::{Random, Shape};
use reference::sheet::{shortest, write};

fn check(random: &mut Random, tally: &mut Tally, market: &Market, output: usize) -> Result<(), String> {
    let expected = write(market, output);
    tally.count(&expected);
    call::write(random, market, output, &expected).map_err(|what| format!("{what}\noutput of {output} bytes\n{}", show(market)))
}

/// Lengths of an output, for a sheet of the given length.
fn outputs(length: usize) -> [usize; 8] {
    [0, 4, length / 2, length - 1, length, length + 1, length + 1_000, MAX_SHEET]
}

/// The length of the market's sheet, or of the one that the market before a change had.
fn length(market: &Market, before: usize) -> usize {
    sheet(market).map_or(before, |sheet| sheet.len())
}

/// Leaves, clears or fills each row, some bids with bytes of 0 in them.
fn mixed_rows(random: &mut Random, market: &mut Market) {
    for row in market.bids.chunks_mut(market.width) {
        match random.below(4) {
            0 => row.fill(0),
            1 => row.fill_with(|| *random.pick(&[1, 255, 256, 65_535, 65_536, 0xF_0000, 1_000_000])),
            2 => row.fill_with(|| *random.pick(&[0, 1, 256, 65_536])),
            _ => {}
        }
    }
}

pub fn run(random: &mut Random, tally: &mut Tally, cases: usize) -> Result<(), String> {
    let shapes = shapes();
    for _ in 0..cases {
        let mut market = accepted(random, &shapes);
        if random.chance(50) {
            mixed_rows(random, &mut market);
        }
        let mut sheet = shortest(&market).len();
        if random.chance(40) {
            let changes = market_changes(&market);
            for _ in 0..random.within(1..=4) {
                let change = *random.pick(&changes);
                market = changed(random, &market, change);
                sheet = length(&market, sheet);
            }
        }
        let output = *random.pick(&outputs(sheet));
        check(random, tally, &market, output)?;
    }
    // each change alone and each two together, in small markets; each alone in the largest
    let some = |shape: Shape| Shape { guests: 3..=6, stations: 2..=5, ..shape };
    for shape in [some(small()), some(tied()), some(middling()), Shape::full()] {
        let market = shape.market(random);
        let sheet = shortest(&market).len();
        let changes = market_changes(&market);
        for first in &changes {
            let with_one = changed(random, &market, *first);
            let sheet = length(&with_one, sheet);
            for output in outputs(sheet) {
                check(random, tally, &with_one, output)?;
            }
            for second in changes.iter().filter(|_| market.bids.len() < 1_000) {
                let with_two = changed(random, &with_one, *second);
                let output = *random.pick(&outputs(length(&with_two, sheet)));
                check(random, tally, &with_two, output)?;
            }
        }
    }
    for stations in [1, 2, 7, 8, 9, 16, 17, 39, 40] {
        for guests in 0..=2 {
            let shape = Shape { guests: guests..=guests, stations: stations..=stations, empty: 60, ..middling() };
            let mut market = shape.market(random);
            // every length of the output
            for output in 0..=shortest(&market).len() + 9 {
                check(random, tally, &market, output)?;
            }
            // one bid alone, at each place
            for place in 0..market.bids.len() {
                market.bids.fill(0);
                market.bids[place] = *random.pick(&[1, 256, 65_536, 1_000_000]);
                check(random, tally, &market, shortest(&market).len())?;
            }
        }
    }
    // the largest sheet
    let largest = Shape { bids: 1..=1_000_000, ..Shape::full() }.market(random);
    for output in outputs(MAX_SHEET) {
        check(random, tally, &largest, output)?;
    }
    tally.require(&[0, 2, 5, 6, 7, 8, 9, 14, 15])
}
