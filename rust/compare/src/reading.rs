//! Reading against the reference: sheets as they should be, damaged ones and such with bids of 0; and the round trip of
//! each: what is written is the sheet that was read.

use crate::Tally;
use crate::call::{self, Form};
use crate::markets::{hex, middling, shapes};
use reference::faults::market_fault;
use reference::market::Market;
use reference::random::{Random, Shape};
use reference::sheet::{GREATEST, TableLengths, read, shortest, stating};

fn check(random: &mut Random, tally: &mut Tally, sheet: &[u8], lengths: TableLengths) -> Result<(), String> {
    let expected = read(sheet, lengths);
    tally.count(&expected);
    call::read(Form::Sheet, random, sheet, lengths, &expected).map_err(|what| {
        let stated = expected.map_or_else(|number| format!("refused {number}"), |market| format!("{market:?}"));
        format!("{what}\n{lengths:?}\nexpected {stated}\nsheet {}", hex(sheet))
    })
}

/// Reads the sheet, writes what was read, and both again, where the sheet states an accepted market.
fn check_trip(tally: &mut Tally, sheet: &[u8]) -> Result<(), String> {
    if read(sheet, GREATEST).and_then(|market| market_fault(&market)).is_err() {
        return Ok(());
    }
    let writings = 2;
    (0..writings).for_each(|_| tally.count::<()>(&Ok(())));
    call::round_trip(sheet).map_err(|what| format!("{what}\nsheet {}", hex(sheet)))
}

/// A sheet of random values, in range or not, with some set bits for bids of 0.
pub fn any_sheet(random: &mut Random, shape: &Shape) -> Vec<u8> {
    let mut market = shape.market(random);
    if random.chance(50) {
        market.asks.fill_with(|| random.bits() as u32);
        market.bays.fill_with(|| random.bits() as u16);
        market.amounts.fill_with(|| random.bits() as u16);
        market.tickets.fill_with(|| *random.pick(&[0, 1, 0x0102_0304, u32::MAX - 1, u32::MAX]));
        for bid in market.bids.iter_mut().filter(|bid| **bid != 0) {
            *bid = random.bits() as u32;
        }
    }
    let percent = *random.pick(&[0, 0, 0, 1, 100]);
    stating(&market, |_, _| random.chance(percent))
}

/// What is done with a sheet and the lengths of the tables that it is to be read into.
type Visit<'a> = dyn FnMut(&mut Random, &[u8], TableLengths) -> Result<(), String> + 'a;

/// Every truncation, every flipped bit and some trailing bytes.
fn every_damage(random: &mut Random, visit: &mut Visit, sheet: &[u8]) -> Result<(), String> {
    for length in 0..sheet.len() {
        visit(random, &sheet[..length], GREATEST)?;
    }
    for place in 0..8 * sheet.len() {
        let mut flipped = sheet.to_vec();
        flipped[place / 8] ^= 1 << (place % 8);
        visit(random, &flipped, GREATEST)?;
    }
    for _ in 0..4 {
        let mut longer = sheet.to_vec();
        longer.extend((0..random.within(1..=40)).map(|_| random.bits() as u8));
        visit(random, &longer, GREATEST)?;
    }
    Ok(())
}

/// Two guests with so many bids each, at random stations of 39 or 40.
fn with_bids(random: &mut Random, bids: usize) -> Market {
    let stations = if bids == 40 { 40 } else { random.within(39..=40) };
    let shape = Shape { guests: 2..=2, stations: stations..=stations, bids: 1..=1_000_000, ..Shape::full() };
    let mut market = shape.market(random);
    for row in market.bids.chunks_mut(stations as usize) {
        let mut places: Vec<usize> = (0..row.len()).collect();
        for _ in bids..row.len() {
            row[places.swap_remove(random.below(places.len()))] = 0;
        }
    }
    market
}

/// A bid of 0 in place of each bid of rows with every number of bids: alone, with one bit of it set, with a second one, and
/// beside the other faults that come before and after it.
fn every_empty_bid(random: &mut Random, visit: &mut Visit) -> Result<(), String> {
    for bids in 1..=40 {
        let market = with_bids(random, bids);
        let (sheet, stations) = (shortest(&market), market.stations());
        let (rows, head) = (4 + 6 * stations, 6 + stations.div_ceil(8));
        let row = head + 4 * bids;
        for field in 0..2 * bids {
            let at = rows + (field / bids + 1) * head + 4 * field;
            let mut empty = sheet.clone();
            empty[at..at + 4].fill(0);
            visit(random, &empty, GREATEST)?;
            for byte in at..at + 4 {
                let mut other = empty.clone();
                other[byte] = 1 << random.below(8);
                visit(random, &other, GREATEST)?;
            }
            // the sheet ends before it, inside it, after it and inside what follows
            for length in (at..at + 6).chain([at + 9, at + 13]).filter(|&length| length < empty.len()) {
                visit(random, &empty[..length], GREATEST)?;
            }
            visit(random, &[&empty[..], &[0]].concat(), GREATEST)?;
            let mut second = empty.clone();
            let other = rows + random.below(2) * row + head + 4 * random.below(bids);
            second[other..other + 4].fill(0);
            visit(random, &second, GREATEST)?;
            // a stray bit in its own row, and in the other
            for map in [0, row].into_iter().filter(|_| stations < 40) {
                let mut stray = empty.clone();
                stray[rows + map + head - 1] |= 1 << 7;
                visit(random, &stray, GREATEST)?;
            }
        }
    }
    Ok(())
}

/// One to three damages at random places.
pub fn damaged(random: &mut Random, sheet: &[u8]) -> Vec<u8> {
    let mut sheet = sheet.to_vec();
    for _ in 0..random.within(1..=3) {
        let at = random.below(sheet.len() + 1);
        match random.below(5) {
            0 => sheet.truncate(at),
            1 => sheet.insert(at, random.bits() as u8),
            2 => sheet.extend((0..random.within(1..=9)).map(|_| random.bits() as u8)),
            _ if at < sheet.len() => sheet[at] ^= 1 << random.below(8),
            _ => sheet.push(0),
        }
    }
    sheet
}

/// Lent tables of other lengths: one table or several.
pub fn other_lengths(random: &mut Random) -> TableLengths {
    let mut lengths = GREATEST;
    for _ in 0..random.within(1..=2) {
        let length = match random.below(5) {
            0 => &mut lengths.amounts,
            1 => &mut lengths.tickets,
            2 => &mut lengths.asks,
            3 => &mut lengths.bays,
            _ => &mut lengths.bids,
        };
        *length = *random.pick(&[0, 1, length.saturating_sub(1), *length + 1, 2 * *length]);
    }
    lengths
}

/// Sheets of all kinds.
fn sheets(random: &mut Random, cases: usize, visit: &mut Visit) -> Result<(), String> {
    let shapes = shapes();
    for _ in 0..cases {
        let shape = random.pick(&shapes);
        let mut sheet = any_sheet(random, shape);
        if random.chance(40) {
            sheet = damaged(random, &sheet);
        }
        let lengths = if random.chance(10) { other_lengths(random) } else { GREATEST };
        visit(random, &sheet, lengths)?;
    }
    // all damage to small sheets, with maps of 1, 2 and 5 bytes, full and not
    for stations in [1, 2, 7, 8, 9, 16, 17, 39, 40] {
        for guests in 0..=2 {
            let shape = Shape { guests: guests..=guests, stations: stations..=stations, empty: 60, ..middling() };
            let sheet = any_sheet(random, &shape);
            every_damage(random, visit, &sheet)?;
        }
    }
    // every map of 40 stations with no bit, with one, with two neighbours and with all but one
    let has_bid = |guest: usize, station: usize| match guest {
        0..40 => station == guest,
        40..80 => station == guest - 40 || station == guest - 39,
        80..120 => station != guest - 80,
        _ => false,
    };
    let shape = Shape { guests: 121..=121, stations: 40..=40, bids: 1..=1_000_000, empty: 0, ..Shape::full() };
    let mut market = shape.market(random);
    for (_, bid) in market.bids.iter_mut().enumerate().filter(|(place, _)| !has_bid(place / 40, place % 40)) {
        *bid = 0;
    }
    visit(random, &shortest(&market), GREATEST)?;
    every_empty_bid(random, visit)?;
    // every header up to a little past the limits, alone and with zeros for what follows
    for n in (0..=3).chain(198..=203).chain([255, 256, 257, 65_535]) {
        for m in (0..=42).chain([255, 256, 257, 296, 65_535]) {
            let header = [u16::to_le_bytes(n), u16::to_le_bytes(m)].concat();
            visit(random, &header, GREATEST)?;
            let length = 6 * usize::from(m) + usize::from(n) * (2 + 4 + usize::from(m).div_ceil(8));
            if length <= 40_000 {
                visit(random, &[header, vec![0; length]].concat(), GREATEST)?;
            }
        }
    }
    // the largest sheet, cut at random places
    let largest = shortest(&Shape { bids: 1..=9, empty: 0, ..Shape::full() }.market(random));
    for _ in 0..300 {
        let length = random.below(largest.len() + 1);
        visit(random, &largest[..length], GREATEST)?;
    }
    visit(random, &largest, GREATEST)?;
    // bytes of no meaning
    for _ in 0..2_000 {
        let noise: Vec<u8> = (0..random.within(0..=60)).map(|_| random.bits() as u8 & 0x13).collect();
        visit(random, &noise, GREATEST)?;
    }
    Ok(())
}

pub fn run(random: &mut Random, tally: &mut Tally, cases: usize) -> Result<(), String> {
    sheets(random, cases, &mut |random, sheet, lengths| check(random, tally, sheet, lengths))?;
    tally.require(&[0, 1, 2, 3, 4, 10, 19])
}

/// The round trip of each sheet.
pub fn run_trips(random: &mut Random, tally: &mut Tally, cases: usize) -> Result<(), String> {
    sheets(random, cases, &mut |_, sheet, _| check_trip(tally, sheet))?;
    tally.require(&[0])
}
