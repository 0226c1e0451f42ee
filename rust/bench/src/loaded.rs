//! The calls of the engine that is loaded: those of `bay_market::lent`, over this crate's `c`.

#[path = "../../bay_market/src/lent/calls.rs"]
mod calls;

pub use calls::{
    clear, clear_efficient, clear_marked, explain, gains, join, mark, menu, place_bids, post, read, read_csv, try_row, write,
};

use bay_market::lent::{
    Cleared, Counts, Explanation, FullResults, Gains, Joined, Ledger, Market, Places, Results, Submission, Tables,
};
