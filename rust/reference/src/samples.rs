//! The sheets of examples/, and the text of examples/fleet.csv.

use crate::market::Market;
use crate::random::{self, Random, Shape};
use crate::sheet::shortest;

/// Table I of document 000.
pub fn table_i() -> Market {
    Market::numbered(
        &[4, 1, 3, 2, 5],
        &[1, 2, 4, 2, 3],
        &[5, 2, 6, 4, 3],
        &[
            0, 4, 0, 5, 2, //
            2, 0, 5, 1, 0, //
            7, 5, 0, 4, 0, //
            6, 4, 0, 3, 0, //
            0, 0, 2, 3, 5,
        ],
    )
}

/// Case E of document 01.
pub fn case_e() -> Market {
    Market::numbered(&[2, 6], &[1, 1], &[3, 3], &[8, 0, 8, 0])
}

/// 200 guests and 40 stations, in mills as a city might have them.
pub fn full() -> Market {
    let shape = Shape {
        guests: 200..=200,
        stations: 40..=40,
        asks: 90..=450,
        bays: 1..=12,
        amounts: 5..=80,
        tickets: random::numbered,
        bids: 100..=900,
        empty: 60,
    };
    shape.market(&mut Random::new(8))
}

/// Case E with an ask one above the limit.
pub fn refused() -> Market {
    let mut market = case_e();
    market.asks[1] = 1_000_001;
    market
}

/// Two gates of Table I: guests 1 to 3, and 4 and 5.
pub fn gates() -> [Market; 2] {
    let whole = table_i();
    let gate = |from: usize, to: usize| Market {
        amounts: whole.amounts[from..to].to_vec(),
        tickets: whole.tickets[from..to].to_vec(),
        bids: whole.bids[5 * from..5 * to].to_vec(),
        ..whole.clone()
    };
    [gate(0, 3), gate(3, 5)]
}

/// The fleet of examples/fleet.fods: two coaches and three vans; nobody bids at the last station.
pub fn fleet() -> Market {
    Market::new(
        &[320, 280, 300, 350],
        &[2, 1, 3, 2],
        &[80, 65, 30, 30, 28],
        &[101, 102, 117, 118, 125],
        &[
            350, 0, 410, 0, //
            0, 300, 310, 0, //
            390, 390, 0, 0, //
            0, 360, 305, 0, //
            340, 310, 320, 0,
        ],
    )
}

/// Each sample's name and sheet.
pub fn sheets() -> Vec<(&'static str, Vec<u8>)> {
    let [north, south] = gates();
    [
        ("table_i", table_i()),
        ("gate_north", north),
        ("gate_south", south),
        ("case_e", case_e()),
        ("full", full()),
        ("fleet", fleet()),
        ("refused", refused()),
    ]
    .into_iter()
    .map(|(name, market)| (name, shortest(&market)))
    .collect()
}
