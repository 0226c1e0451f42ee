//! A comma-separated market, as a spreadsheet has it: reads its text and writes its sheet to standard output, or tells the
//! refusal. ./clear clears the sheet, and another desk reads it.
//!
//!     cargo run --offline --manifest-path rust/Cargo.toml --example csv_to_sheet examples/fleet.csv >fleet.sheet

use bay_market::Market;
use std::error::Error;
use std::io::Write;

fn main() -> Result<(), Box<dyn Error>> {
    let path = std::env::args()
        .nth(1)
        .ok_or("usage: csv_to_sheet FILE.csv")?;
    let market = Market::from_csv(&std::fs::read(path)?)?;
    Ok(std::io::stdout().write_all(&market.to_sheet()?)?)
}
