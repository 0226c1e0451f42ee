//! Reading sheets and comma-separated markets.

use crate::baseline;
use crate::loaded;
use crate::markets::fillings;
use crate::timing::{Bench, Contender};
use bay_market::lent::{self, Counts, Tables};
use bay_market::{MAX_BIDS, MAX_GUESTS, MAX_STATIONS, Refusal};
use reference::market::Market;
use reference::random::Random;
use reference::{csv, sheet};
use std::hint::black_box;

/// Tables of the reader, and how much of each was read.
pub struct Read {
    amounts: [u16; MAX_GUESTS],
    tickets: [u32; MAX_GUESTS],
    asks: [u32; MAX_STATIONS],
    bays: [u16; MAX_STATIONS],
    bids: [u32; MAX_BIDS],
    counts: Counts,
}

impl Read {
    pub fn new() -> Read {
        Read {
            amounts: [0; MAX_GUESTS],
            tickets: [0; MAX_GUESTS],
            asks: [0; MAX_STATIONS],
            bays: [0; MAX_STATIONS],
            bids: [0; MAX_BIDS],
            counts: Counts { guests: 0, stations: 0 },
        }
    }

    pub fn lend(&mut self) -> Tables<'_> {
        let Read { amounts, tickets, asks, bays, bids, .. } = self;
        Tables { amounts, tickets, asks, bays, bids }
    }

    pub fn market(&mut self, counts: Counts) -> Market {
        let tables = self.lend();
        let read = tables.market(counts);
        Market::new(read.asks, read.bays, read.amounts, read.tickets, read.bids)
    }

    fn read(&mut self, read: impl FnOnce(&mut Tables) -> Result<Counts, u8>) {
        self.counts = black_box(read(&mut self.lend())).expect("a sheet or a text");
    }
}

/// A market, and its sheet or text.
type Input = (Market, Vec<u8>);

fn rows(
    bench: &Bench,
    what: &str,
    greatest: &'static str,
    contenders: &[Contender<Read, Input>],
    written: fn(&Market) -> Vec<u8>,
) {
    bench.head(what, contenders);
    let mut random = Random::new(9);
    for (name, shape) in fillings(greatest) {
        let inputs = bench.inputs(&mut random, &shape, |_, market| {
            let bytes = written(&market);
            (market, bytes)
        });
        let seen = |read: &mut Read| read.market(read.counts);
        bench.row(name, &inputs, contenders, |_| Read::new(), |(market, _)| market.clone(), seen);
    }
}

pub fn sheets(bench: &Bench) {
    let two_walks = |working: &mut Read, (_, sheet): &Input| working.read(|tables| baseline::reading::read(sheet, tables));
    let contenders = bench.contenders(
        |working, (_, sheet)| working.read(|tables| lent::read(sheet, tables).map_err(Refusal::number)),
        vec![Contender::new("two walks", two_walks)],
        |working, (_, sheet)| working.read(|tables| loaded::read(sheet, tables).map_err(Refusal::number)),
    );
    rows(bench, "reading", "largest sheet, 34,444 bytes", &contenders, sheet::shortest);
}

pub fn texts(bench: &Bench) {
    let one_pass = |working: &mut Read, (_, text): &Input| working.read(|tables| baseline::csv::read_csv(text, tables));
    let contenders = bench.contenders(
        |working, (_, text)| working.read(|tables| lent::read_csv(text, tables).map_err(Refusal::number)),
        vec![Contender::new("one pass", one_pass)],
        |working, (_, text)| working.read(|tables| loaded::read_csv(text, tables).map_err(Refusal::number)),
    );
    rows(bench, "reading comma-separated markets", "200 by 40, all bids", &contenders, csv::shortest);
}
