//! Marking a submitted clearing: clears case G of document 01 by rule 1 with its places and floors, prints these, and marks
//! what three firms hand in: the same clearing, one that charges the winner its own bid, and one with a list too short.
//!
//!     cargo run --offline --manifest-path rust/Cargo.toml --example marking

use bay_market::{Market, Refusal, Rule};

fn main() -> Result<(), Refusal> {
    let case_g = Market {
        asks: vec![2, 6],
        bays: vec![1, 1],
        amounts: vec![3, 2],
        tickets: vec![1, 2],
        bids: vec![9, 0, 10, 0],
    };
    let full = case_g.clear_marked(Rule::Median)?;
    for (at, place) in full.places.iter().enumerate() {
        let (guest, station) = (at / 2 + 1, at % 2 + 1);
        if *place == 1 {
            println!("guest {guest} holds a place at station {station}");
        }
    }
    for (station, floor) in full.floors.iter().enumerate() {
        println!("station {} floor {floor}", station + 1);
    }
    let mut own_bid = full.clone();
    own_bid.clearing.charges[0] = 9 * 3;
    own_bid.clearing.margin = 9 * 3 - 6 * 3;
    let mut short = full.clone();
    short.floors.pop();
    for (firm, handed) in [(1, full), (2, own_bid), (3, short)] {
        print!("firm {firm}: ");
        match case_g.mark(Rule::Median, &handed) {
            Ok(true) => println!("right"),
            Ok(false) => println!("wrong"),
            Err(refusal) => println!("refused {}: {refusal}", refusal.number()),
        }
    }
    Ok(())
}
