//! What a Rust programmer would write for speed, with the engine's checks and results: the baselines. Their working
//! memory is kept from call to call.
//!
//! Their tests see that each refuses as the reference does. That the results are the reference's is checked before any is
//! timed.

pub mod clearing;
pub mod csv;
pub mod efficient;
pub mod explaining;
mod faults;
pub mod joining;
pub mod keys;
pub mod marking;
pub mod menus;
pub mod placing;
pub mod posting;
pub mod reading;
#[cfg(test)]
mod samples;
pub mod trying;
pub mod writing;

use bay_market::{MAX_BIDS, MAX_GUESTS, MAX_STATIONS};
use keys::{Key, Ranks};

/// So many asks lie below the cut at most: by rule 2, two thirds.
const MAX_OPEN: usize = 2 * MAX_STATIONS / 3;

/// The candidates of each open station, or of all in one row.
type Gathered = [[Key; MAX_GUESTS]; MAX_OPEN];

/// Working memory. No call counts on what it holds.
pub struct Scratch {
    gathered: Gathered,
    ranks: Ranks,
    /// The results of a posting or a mark.
    stations: [u16; MAX_GUESTS],
    charges: [u32; MAX_GUESTS],
    sold: [u32; MAX_STATIONS],
    paid: [u64; MAX_STATIONS],
    places: [u8; MAX_BIDS],
    floors: [u32; MAX_STATIONS],
    /// The rows' maps of a sheet.
    maps: [u64; MAX_GUESTS],
    /// The bids with another row.
    bids: [u32; MAX_BIDS],
}

impl Scratch {
    pub fn new() -> Box<Scratch> {
        Box::new(Scratch {
            gathered: [[Key::NONE; MAX_GUESTS]; MAX_OPEN],
            ranks: Ranks::new(),
            stations: [0; MAX_GUESTS],
            charges: [0; MAX_GUESTS],
            sold: [0; MAX_STATIONS],
            paid: [0; MAX_STATIONS],
            places: [0; MAX_BIDS],
            floors: [0; MAX_STATIONS],
            maps: [0; MAX_GUESTS],
            bids: [0; MAX_BIDS],
        })
    }
}
