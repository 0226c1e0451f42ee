//! Document 02, 'Bids from parking places'.

use crate::faults::{self, MAX_CELL, MAX_PRICE};

/// What bids are placed from, as it is lent: lists of any lengths and values.
#[derive(Clone, Debug, PartialEq, Eq)]
pub struct Places {
    pub prices: Vec<u32>,
    pub falls: Vec<u32>,
    pub guest_first: Vec<u16>,
    pub guest_second: Vec<u16>,
    pub station_first: Vec<u16>,
    pub station_second: Vec<u16>,
}

/// A cell by its first and second coordinate.
pub type Cell = (u16, u16);

impl Places {
    /// n
    pub fn guests(&self) -> usize {
        self.guest_first.len()
    }

    /// m
    pub fn stations(&self) -> usize {
        self.station_first.len()
    }

    /// The cell of a guest, numbered from 1.
    pub fn guest(&self, guest: usize) -> Cell {
        (self.guest_first[guest - 1], self.guest_second[guest - 1])
    }

    /// The cell of a station, numbered from 1.
    pub fn station(&self, station: usize) -> Cell {
        (self.station_first[station - 1], self.station_second[station - 1])
    }
}

/// q
pub fn squared_distance(one: Cell, other: Cell) -> u128 {
    let square = |x: u16, y: u16| u128::from(x.abs_diff(y)).pow(2);
    square(one.0, other.0) + square(one.1, other.1)
}

/// The greatest whole d with d times d at most 100 times q, in tenths of a cell.
pub fn walk(q: u128) -> u128 {
    (100 * q).isqrt()
}

/// The bid of a guest at a station, both numbered from 1: price less fall times walk, or 0 where that is negative.
fn bid(places: &Places, guest: usize, station: usize) -> u128 {
    let price = u128::from(places.prices[guest - 1]);
    let fall = u128::from(places.falls[guest - 1]);
    let lost = fall * walk(squared_distance(places.guest(guest), places.station(station)));
    price.saturating_sub(lost)
}

/// The first fault of a call with a bid table of so many places, by its number.
pub fn placing_fault(places: &Places, table: usize) -> Result<(), u8> {
    let (n, m) = (places.guests(), places.stations());
    if !faults::counts_in_range(n, m) {
        return Err(faults::COUNTS_OUT_OF_RANGE);
    }
    let guests = [places.prices.len(), places.falls.len(), places.guest_second.len()];
    if guests != [n; 3] || places.station_second.len() != m || table != n * m {
        return Err(faults::LENGTHS_DIFFER);
    }
    let coordinates = [&places.guest_first, &places.guest_second, &places.station_first, &places.station_second];
    if coordinates.into_iter().flatten().any(|&coordinate| coordinate > MAX_CELL) {
        return Err(faults::CELL_OFF_GRID);
    }
    if places.prices.iter().chain(&places.falls).any(|&number| number > MAX_PRICE) {
        return Err(faults::PRICE_OR_FALL_OUT_OF_RANGE);
    }
    Ok(())
}

/// The bids that are placed in a table of so many places, row after row, or the number of the first fault.
pub fn place_bids(places: &Places, table: usize) -> Result<Vec<u32>, u8> {
    placing_fault(places, table)?;
    let mut bids = Vec::new();
    for guest in 1..=places.guests() {
        for station in 1..=places.stations() {
            bids.push(bid(places, guest, station) as u32); // at most the price
        }
    }
    Ok(bids)
}
