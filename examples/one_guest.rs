//! Clears a market, tells one guest why it wins or loses, and posts the round to a book.
//!
//!     cargo run --offline --manifest-path rust/Cargo.toml --example one_guest examples/evening.sheet 24

use bay_market::{Code, Desk, GuestOutcome, Ledger, Market, Rule};
use std::error::Error;

fn main() -> Result<(), Box<dyn Error>> {
    let words: Vec<String> = std::env::args().skip(1).collect();
    let [path, guest] = &words[..] else {
        return Err("usage: one_guest FILE GUEST".into());
    };
    let market = Market::read(&std::fs::read(path)?)?;
    let guest: usize = guest.parse()?;
    if guest == 0 || guest > market.amounts.len() {
        return Err(format!("no guest {guest}: there are {}", market.amounts.len()).into());
    }
    let cleared = market.clear(Rule::Median)?;
    let told = market.explain(Rule::Median)?;
    println!("cut {} margin {}", cleared.cut, cleared.margin);
    match told.outcomes[guest - 1] {
        GuestOutcome::Win { station, charge } => {
            println!("guest {guest} wins station {station} charge {charge}");
        }
        GuestOutcome::Loss(reason) => println!("guest {guest} loses: {reason}"),
    }
    let stations = market.asks.len();
    for (station, code) in (1..).zip(&told.codes[(guest - 1) * stations..guest * stations]) {
        match code {
            Code::Held => println!("at station {station}: place held"),
            Code::NotHeld(reason) => println!("at station {station}: {reason}"),
        }
    }
    let mut book = Ledger::new(200, 40);
    let [desk, ..] = Desk::ALL;
    book.post(Rule::Median, &market, desk, 1)?;
    let (owes, house) = (book.guests[guest - 1], book.house);
    println!("posted: guest {guest} owes {owes}, the house has {house}");
    Ok(())
}
