//! Markets with faults, for the tests.

use reference::market::Market;
use reference::random::{self, Random};
use reference::samples;

/// Table I with other tickets and one to three numbers or lengths changed.
pub fn damaged(random: &mut Random) -> Market {
    let mut market = Market { tickets: random::any(random, 5), ..samples::table_i() };
    for _ in 0..random.within(1..=3) {
        match random.below(11) {
            0 => market.asks[random.below(5)] = *random.pick(&[1_000_000, 1_000_001]),
            1 => market.bays[random.below(4)] = *random.pick(&[0, 200, 201]),
            2 => market.amounts[random.below(4)] = *random.pick(&[0, 1_000, 1_001]),
            3 => market.bids[random.below(24)] = *random.pick(&[1_000_000, 1_000_001]),
            4 => market.bays.resize(*random.pick(&[4, 5, 6]), 1),
            5 => market.bids.resize(*random.pick(&[24, 25, 26]), 1),
            6 => market.amounts.resize(*random.pick(&[4, 5, 201]), 1),
            7 => market.asks.resize(*random.pick(&[5, 41]), 1),
            8 => market.tickets.resize(*random.pick(&[4, 5, 6]), 1),
            9 => market.tickets[random.below(4)] = *random.pick(&market.tickets),
            _ => market.width = *random.pick(&[4, 5]),
        }
    }
    market
}
