//! Comma-separated markets against the reference: texts as they should be, damaged ones, every truncation of small ones,
//! each fault at the first and the last place that it can have; and what is read of a text, cleared as the market's tables
//! are.

use crate::Tally;
use crate::call::{self, Form};
use crate::markets::{accepted, middling, shapes, small};
use crate::reading::other_lengths;
use bay_market::Rule;
use reference::csv::{Table, lines, read, shortest};
use reference::market::Market;
use reference::random::{Random, Shape};
use reference::sheet::{GREATEST, TableLengths};

fn check(random: &mut Random, tally: &mut Tally, text: &[u8], lengths: TableLengths) -> Result<(), String> {
    let expected = read(text, lengths);
    tally.count(&expected);
    call::read(Form::Csv, random, text, lengths, &expected).map_err(|what| {
        let stated = expected.map_or_else(|number| format!("refused {number}"), |market| format!("{market:?}"));
        format!("{what}\n{lengths:?}\nexpected {stated}\ntext \"{}\"", text.escape_ascii())
    })
}

/// What is done with a text and the lengths of the tables that it is to be read into.
type Visit<'a> = dyn FnMut(&mut Random, &[u8], TableLengths) -> Result<(), String> + 'a;

/// A field, and what ends it.
struct Piece {
    table: Table,
    field: Vec<u8>,
    end: Vec<u8>,
}

/// A market's text in pieces, its fields written by `written`.
fn pieces(market: &Market, mut written: impl FnMut(Table, u32) -> String) -> Vec<Piece> {
    let mut pieces: Vec<Piece> = Vec::new();
    for (line, values) in lines(market).into_iter().enumerate() {
        for (field, &value) in values.iter().enumerate() {
            let table = Table::of(line, field);
            let end = if field + 1 == values.len() { &b"\r\n"[..] } else { b"," };
            pieces.push(Piece { table, field: written(table, value).into_bytes(), end: end.to_vec() });
        }
    }
    pieces
}

fn text_of(pieces: &[Piece]) -> Vec<u8> {
    pieces.iter().flat_map(|piece| [&piece.field[..], &piece.end[..]].concat()).collect()
}

/// A number as a desk might write it: as it is, with zeros in front, a bid of 0 as nothing.
fn any_field(random: &mut Random, table: Table, value: u32) -> String {
    match random.below(8) {
        0 => format!("{value:0width$}", width = random.within(1..=10) as usize),
        1 => format!("{value:010}"),
        _ if table == Table::Bids && value == 0 && random.chance(80) => String::new(),
        _ => value.to_string(),
    }
}

/// A market of any values that the tables hold.
pub fn any_market(random: &mut Random, shape: &Shape) -> Market {
    let mut market = shape.market(random);
    if random.chance(70) {
        return market;
    }
    let mut wide = |greatest: u32| match random.below(4) {
        0 => 0,
        1 => greatest,
        2 => greatest - 1,
        _ => random.bits() as u32 & greatest >> random.below(16),
    };
    market.asks.fill_with(|| wide(u32::MAX));
    market.bays.fill_with(|| wide(u16::MAX.into()) as u16);
    market.amounts.fill_with(|| wide(u16::MAX.into()) as u16);
    market.tickets.fill_with(|| wide(u32::MAX));
    market.bids.iter_mut().filter(|bid| **bid != 0).for_each(|bid| *bid = wide(u32::MAX));
    market
}

pub fn any_text(random: &mut Random, market: &Market) -> Vec<u8> {
    if random.chance(30) {
        return shortest(market);
    }
    text_of(&pieces(market, |table, value| any_field(random, table, value)))
}

/// The market's text whose fields all have ten digits.
pub fn longest_text(market: &Market) -> Vec<u8> {
    text_of(&pieces(market, |_, value| format!("{value:010}")))
}

/// Bytes that a text has, the neighbours of those, and others.
const BYTES: [u8; 20] = *b"0159,\r\n\0 x-+.;/:\"\x0b\xb1\xff";

/// One to three damages at random places.
pub fn damaged(random: &mut Random, text: &[u8]) -> Vec<u8> {
    let mut text = text.to_vec();
    for _ in 0..random.within(1..=3) {
        let at = random.below(text.len() + 1);
        let byte = if random.chance(80) { *random.pick(&BYTES) } else { random.bits() as u8 };
        match random.below(6) {
            0 => text.truncate(at),
            1 => text.insert(at, byte),
            2 => text.extend((0..random.within(1..=9)).map(|_| *random.pick(&BYTES))),
            3 if at < text.len() => drop(text.remove(at)),
            4 if at + 1 < text.len() => text.swap(at, at + 1),
            _ if at < text.len() => text[at] = byte,
            _ => text.push(byte),
        }
    }
    text
}

/// Every truncation; at every place a byte less, a byte more, and another byte, of these.
fn every_damage(random: &mut Random, visit: &mut Visit, text: &[u8], bytes: &[u8]) -> Result<(), String> {
    for at in 0..=text.len() {
        visit(random, &text[..at], GREATEST)?;
        for byte in bytes {
            visit(random, &[&text[..at], &[*byte], &text[at..]].concat(), GREATEST)?;
            if at < text.len() {
                visit(random, &[&text[..at], &[*byte], &text[at + 1..]].concat(), GREATEST)?;
            }
        }
        if at < text.len() {
            visit(random, &[&text[..at], &text[at + 1..]].concat(), GREATEST)?;
        }
    }
    Ok(())
}

/// Fields at the limits of both widths and of ten digits, and next to them; some that are small again modulo 2^16, 2^32, 2^64.
const FIELDS: [&[u8]; 19] = [
    b"",
    b"0",
    b"7",
    b"0000000000",
    b"0000000009",
    b"00000000000",
    b"65535",
    b"65536",
    b"65537",
    b"0000065535",
    b"00000065535",
    b"4294967295",
    b"4294967296",
    b"4294967297",
    b"04294967295",
    b"9999999999",
    b"10000000000",
    b"18446744073709551617",
    b"00000000000000000000000000000000000000000000000001",
];

/// What may end a field, and what may not.
const ENDS: [&[u8]; 23] = [
    b"",
    b",",
    b",,",
    b"\r\n",
    b"\r\n\r\n",
    b"\r\n,",
    b"\r",
    b"\n",
    b"\n\r",
    b"\r\r\n",
    b"\r,",
    b"\rx",
    b"\r1",
    b",\r\n",
    b",x",
    b"x",
    b"x,",
    b"x\r\n",
    b"\0",
    b" ",
    b";",
    b"\"",
    b"\x8a",
];

/// The first and the last field of each table.
fn ends_of_tables(pieces: &[Piece]) -> Vec<usize> {
    let tables = [Table::Asks, Table::Bays, Table::Tickets, Table::Amounts, Table::Bids];
    let of = |table: Table| move |piece: &Piece| piece.table == table;
    let first = tables.iter().filter_map(|&table| pieces.iter().position(of(table)));
    let last = tables.iter().filter_map(|&table| pieces.iter().rposition(of(table)));
    let mut places: Vec<usize> = first.chain(last).collect();
    places.sort();
    places.dedup();
    places
}

/// At each of these fields: another field, another end, or the text's end after it, alone and together.
fn every_fault(random: &mut Random, visit: &mut Visit, pieces: &[Piece], places: &[usize], pairs: bool) -> Result<(), String> {
    for &place in places {
        let (front, rest) = (text_of(&pieces[..place]), text_of(&pieces[place + 1..]));
        let Piece { field: own_field, end: own_end, .. } = &pieces[place];
        let mut try_with = |field: &[u8], end: &[u8], rest: &[u8]| visit(random, &[&front, field, end, rest].concat(), GREATEST);
        for field in FIELDS {
            try_with(field, own_end, &rest)?;
            try_with(field, b"", b"")?;
            for end in ENDS.iter().filter(|_| pairs) {
                try_with(field, end, &rest)?;
            }
        }
        for end in ENDS {
            try_with(own_field, end, &rest)?;
            try_with(own_field, end, b"")?;
        }
    }
    Ok(())
}

/// Line 201 of the guests, which may begin with any byte, and the line before it with each fault at its end.
fn every_crowd(random: &mut Random, visit: &mut Visit, stations: u64) -> Result<(), String> {
    let shape = Shape { guests: 200..=200, stations: stations..=stations, empty: 90, ..Shape::whole() };
    let market = shape.market(random);
    let text = shortest(&market);
    for byte in 0..=255 {
        visit(random, &[&text[..], &[byte]].concat(), GREATEST)?;
        visit(random, &[&text[..text.len() - 1], &[byte]].concat(), GREATEST)?;
        visit(random, &[&text[..text.len() - 2], &[byte]].concat(), GREATEST)?;
    }
    let line = text[..text.len() - 2].rsplit(|&byte| byte == b'\n').next().unwrap_or_default().to_vec();
    for tail in [&b"\r\n"[..], b"1,1,1\r\n", b"x\r\n", b"00000000000,", b"1", b"\r", &line, &[&line[..], b"\r\n"].concat()] {
        visit(random, &[&text, tail].concat(), GREATEST)?;
        for end in ENDS {
            visit(random, &[&text[..text.len() - 2], end, tail].concat(), GREATEST)?;
        }
    }
    Ok(())
}

/// Asks up to past the limit, with as many bays, fewer and more.
fn every_count(random: &mut Random, visit: &mut Visit) -> Result<(), String> {
    let numbers = |count: usize, last: &str| [vec!["1"; count - 1], vec![last]].concat().join(",");
    for asks in (1..=3).chain(38..=43) {
        for last in ["1", "", "x", "4294967295", "4294967296", "00000000000"] {
            for end in ["", ",", "\r,"] {
                visit(random, (numbers(asks, last) + end).as_bytes(), GREATEST)?;
            }
            for bays in [asks - 1, asks, asks + 1, 41].into_iter().filter(|&bays| bays > 0) {
                let text = format!("{}\r\n{}\r\n", numbers(asks, last), numbers(bays, "1"));
                visit(random, text.as_bytes(), GREATEST)?;
            }
        }
    }
    Ok(())
}

/// A table of another length, each in turn, with a text that is read and with each fault of one.
fn every_length(random: &mut Random, visit: &mut Visit) -> Result<(), String> {
    let tables: [fn(&mut TableLengths) -> &mut usize; 5] =
        [|l| &mut l.amounts, |l| &mut l.tickets, |l| &mut l.asks, |l| &mut l.bays, |l| &mut l.bids];
    let many = shortest(&Shape { guests: 201..=201, stations: 1..=1, ..Shape::whole() }.market(random));
    let texts = [&b"1\r\n1\r\n1,1,1\r\n"[..], b"1\r\n1\r\n", b"", b"x", b"4294967296", b"00000000000,", &b"1,".repeat(40), &many];
    for table in tables {
        let right = *table(&mut GREATEST.clone());
        for length in [0, 1, right - 1, right + 1, 2 * right] {
            let mut lengths = GREATEST;
            *table(&mut lengths) = length;
            for text in texts {
                visit(random, text, lengths)?;
            }
        }
    }
    Ok(())
}

/// Texts of all kinds.
fn texts(random: &mut Random, cases: usize, visit: &mut Visit) -> Result<(), String> {
    every_length(random, visit)?;
    every_count(random, visit)?;
    every_crowd(random, visit, 1)?;
    every_crowd(random, visit, 3)?;
    // every fault at every field of small texts, and at the ends of each table of larger ones
    let sized = |guests: u64, stations: u64| Shape { guests: guests..=guests, stations: stations..=stations, ..middling() };
    for (guests, stations) in [(0, 1), (1, 1), (2, 1), (2, 2), (1, 3), (0, 40), (1, 39), (2, 40), (199, 1), (200, 1), (200, 40)] {
        let market = any_market(random, &sized(guests, stations));
        let pieces = pieces(&market, |table, value| any_field(random, table, value));
        let places = if pieces.len() < 20 { (0..pieces.len()).collect() } else { ends_of_tables(&pieces) };
        every_fault(random, visit, &pieces, &places, pieces.len() < 1_000)?;
    }
    let shapes = shapes();
    for _ in 0..cases {
        let shape = random.pick(&shapes);
        let market = any_market(random, shape);
        let mut text = any_text(random, &market);
        if random.chance(40) {
            text = damaged(random, &text);
        }
        let lengths = if random.chance(10) { other_lengths(random) } else { GREATEST };
        visit(random, &text, lengths)?;
    }
    // all damage to small texts, and every byte at every place of a tiny one
    for stations in 1..=3 {
        for guests in 0..=2 {
            let market = any_market(random, &sized(guests, stations));
            let text = any_text(random, &market);
            every_damage(random, visit, &text, &BYTES)?;
        }
    }
    let all: Vec<u8> = (0..=255).collect();
    every_damage(random, visit, b"2,6\r\n1,1\r\n1,3,8,\r\n", &all)?;
    // the largest text, cut at random places
    let largest = longest_text(&Shape::full().market(random));
    for _ in 0..300 {
        let length = random.below(largest.len() + 1);
        visit(random, &largest[..length], GREATEST)?;
    }
    visit(random, &largest, GREATEST)?;
    // bytes of little meaning
    for _ in 0..4_000 {
        let count = random.within(0..=40);
        let noise: Vec<&[u8]> =
            (0..count).map(|_| *random.pick(&[&b"1"[..], b"0", b"9", b",", b",", b"\r\n", b"\r\n"])).collect();
        visit(random, &noise.concat(), GREATEST)?;
    }
    Ok(())
}

pub fn run(random: &mut Random, tally: &mut Tally, cases: usize) -> Result<(), String> {
    texts(random, cases, &mut |random, text, lengths| check(random, tally, text, lengths))?;
    tally.require(&[0, 2, 10, 22, 23])
}

/// The text of each market is read as that market, and cleared as its tables are.
pub fn run_trips(random: &mut Random, tally: &mut Tally, cases: usize) -> Result<(), String> {
    let shapes = [shapes(), vec![small()]].concat();
    for case in 0..cases {
        let market = match case % 3 {
            0 => any_market(random, &shapes[case / 3 % shapes.len()]),
            _ => accepted(random, &shapes),
        };
        let text = any_text(random, &market);
        let rule = *random.pick(&[Rule::Median, Rule::TwoThirds]);
        tally.count::<()>(&Ok(()));
        call::csv_trip(rule, &market, &text)
            .map_err(|what| format!("{what}\nrule {}\n{market:?}\ntext \"{}\"", rule.number(), text.escape_ascii()))?;
    }
    Ok(())
}
