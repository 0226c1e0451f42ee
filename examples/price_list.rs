//! A guest's price list: prints the list of Table I's guest 1, and what its worths and three other rows of bids gain.
//!
//!     cargo run --offline --manifest-path rust/Cargo.toml --example price_list

use bay_market::{Market, NO_BAR, Refusal, Rule};

fn main() -> Result<(), Refusal> {
    let table_i = Market {
        asks: vec![4, 1, 3, 2, 5],
        bays: vec![1, 2, 4, 2, 3],
        amounts: vec![5, 2, 6, 4, 3],
        tickets: vec![1, 2, 3, 4, 5],
        bids: [
            [0, 4, 0, 5, 2],
            [2, 0, 5, 1, 0],
            [7, 5, 0, 4, 0],
            [6, 4, 0, 3, 0],
            [0, 0, 2, 3, 5],
        ]
        .concat(),
    };
    let list = table_i.menu(Rule::Median, 1)?;
    for (place, (&bar, price)) in list.bars.iter().zip(&list.prices).enumerate() {
        if bar != NO_BAR {
            println!("station {} from a total of {bar} for {price}", place + 1);
        }
    }
    let rows = [
        [0, 4, 0, 5, 2],
        [0, 4, 0, 0, 2],
        [0, 9, 0, 5, 2],
        [0, 0, 0, 0, 0],
    ]
    .concat();
    for (place, gain) in table_i
        .gains(Rule::Median, 1, &rows[..5], &rows)?
        .iter()
        .enumerate()
    {
        println!("row {} gains {gain}", place + 1);
    }
    Ok(())
}
