//! Two desks, one ledger: posts case E of document 01 as round 1 of desk 0, as the same once more, which is refused, and as
//! round 1 of desk 1. Prints each answer, and the ledger.
//!
//!     cargo run --offline --manifest-path rust/Cargo.toml --example two_desks

use bay_market::{Desk, Ledger, Market, Rule, StationAccount};

fn main() {
    let case_e = Market {
        asks: vec![2, 6],
        bays: vec![1, 1],
        amounts: vec![3, 3],
        tickets: vec![1, 2],
        bids: vec![8, 0, 8, 0],
    };
    let mut ledger = Ledger::new(2, 2);
    let [north, south, ..] = Desk::ALL;
    for (desk, round) in [(north, 1), (north, 1), (south, 1)] {
        print!("desk {} round {round}: ", desk.number());
        match ledger.post(Rule::Median, &case_e, desk, round) {
            Ok(()) => println!("posted"),
            Err(refusal) => println!("refused {}: {refusal}", refusal.number()),
        }
    }
    for (guest, account) in ledger.guests.iter().enumerate() {
        println!("guest {} owes {account}", guest + 1);
    }
    for (station, account) in ledger.stations.iter().enumerate() {
        let StationAccount { sold, paid } = account;
        println!("station {} sold {sold} paid {paid}", station + 1);
    }
    println!("house {}", ledger.house);
    for desk in [north, south] {
        let last = ledger.last[usize::from(desk)];
        println!("desk {} last round {last}", desk.number());
    }
}
