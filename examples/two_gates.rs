//! Two gates, one market: reads the sheets of two gates, joins them, the first one's guests in front, and clears by rule 1.
//! Prints what ./clear prints, or the refusal.
//!
//!     cargo run --offline --manifest-path rust/Cargo.toml --example two_gates examples/gate_north.sheet examples/gate_south.sheet

use bay_market::{Market, Rule};
use std::error::Error;

fn main() -> Result<(), Box<dyn Error>> {
    let mut words = std::env::args().skip(1);
    let mut gate = || -> Result<Market, Box<dyn Error>> {
        let path = words
            .next()
            .ok_or("usage: two_gates NORTH.sheet SOUTH.sheet")?;
        Ok(Market::read(&std::fs::read(path)?)?)
    };
    let (north, south) = (gate()?, gate()?);
    let cleared = north.join(&south)?.clear(Rule::Median)?;
    println!("cut {}", cleared.cut);
    for (guest, (station, charge)) in cleared.stations.iter().zip(&cleared.charges).enumerate() {
        println!("guest {} station {station} charge {charge}", guest + 1);
    }
    for (station, (sold, paid)) in cleared.sold.iter().zip(&cleared.paid).enumerate() {
        println!("station {} sold {sold} paid {paid}", station + 1);
    }
    println!("margin {}", cleared.margin);
    Ok(())
}
