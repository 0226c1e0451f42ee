//! Placing bids.

use super::faults::{counts_fit, some_above};
use bay_market::lent::Places;
use bay_market::{MAX_CELL, MAX_PRICE, MAX_STATIONS};

/// A power of 2 above the squared distance of two corners of the grid, so that an index is masked and not tested.
const DISTANCES: usize = (2 * (MAX_CELL as usize).pow(2)).next_power_of_two();

/// The walk for each squared distance, in tenths of a cell.
static WALKS: [u16; DISTANCES] = {
    let mut walks = [0; DISTANCES];
    let mut q = 0;
    while q < walks.len() {
        walks[q] = (100 * q).isqrt() as u16;
        q += 1;
    }
    walks
};

fn places_fault(places: &Places, table: usize) -> Result<(), u8> {
    let (n, m) = (places.guest_first.len(), places.station_first.len());
    if !counts_fit(n, m) {
        return Err(2);
    }
    let guests = places.prices.len() == n && places.falls.len() == n && places.guest_second.len() == n;
    if !guests || places.station_second.len() != m || table != n * m {
        return Err(5);
    }
    let coordinates = [places.guest_first, places.guest_second, places.station_first, places.station_second];
    if coordinates.into_iter().any(|list| some_above(list, MAX_CELL)) {
        return Err(16);
    }
    if some_above(places.prices, MAX_PRICE) | some_above(places.falls, MAX_PRICE) {
        return Err(17);
    }
    Ok(())
}

/// Places the bids row by row: the squared distances of a row first, several at once, then a walk for each.
pub fn place_bids(places: &Places, bids: &mut [u32]) -> Result<(), u8> {
    places_fault(places, bids.len())?;
    let m = places.station_first.len();
    let cells = places.guest_first.iter().zip(places.guest_second);
    let guests = places.prices.iter().zip(places.falls).zip(cells);
    let mut distances = [0u16; MAX_STATIONS];
    let distances = &mut distances[..m];
    for (row, ((&price, &fall), (&guest_first, &guest_second))) in bids.chunks_exact_mut(m).zip(guests) {
        for (distance, (&first, &second)) in distances.iter_mut().zip(places.station_first.iter().zip(places.station_second)) {
            let (across, along) = (guest_first.wrapping_sub(first), guest_second.wrapping_sub(second));
            *distance = across.wrapping_mul(across).wrapping_add(along.wrapping_mul(along));
        }
        for (bid, &distance) in row.iter_mut().zip(&*distances) {
            let walk = WALKS[usize::from(distance) % DISTANCES];
            *bid = price.saturating_sub(fall * u32::from(walk));
        }
    }
    Ok(())
}

#[cfg(test)]
mod tests {
    use super::*;
    use crate::placing::lend;
    use reference::places;
    use reference::random::{Random, Spread};

    #[test]
    fn placing_places_and_refuses_as_the_reference() {
        let mut random = Random::new(1);
        let spread = Spread { guests: 5..=5, stations: 3..=3, prices: 0..=1_000_000, falls: 0..=3_000, coordinates: 0..=31 };
        for _ in 0..5_000 {
            let mut places = spread.places(&mut random);
            let mut bids = vec![77; *random.pick(&[15, 15, 15, 14, 16])];
            for _ in 0..random.below(3) {
                match random.below(10) {
                    0 => places.prices.resize(*random.pick(&[4, 6]), 1),
                    1 => places.falls.resize(*random.pick(&[4, 6]), 1),
                    2 => places.guest_second.resize(*random.pick(&[4, 6]), 1),
                    3 => places.station_second.resize(*random.pick(&[2, 4]), 1),
                    4 => places.station_first.resize(*random.pick(&[0, 41]), 1),
                    5 => places.guest_first[random.below(5)] = *random.pick(&[31, 32]),
                    6 => places.guest_second[random.below(4)] = *random.pick(&[31, 32]),
                    7 => places.station_second[random.below(2)] = *random.pick(&[31, 32]),
                    8 => places.prices[random.below(4)] = *random.pick(&[1_000_000, 1_000_001]),
                    _ => places.falls[random.below(4)] = *random.pick(&[1_000_000, 1_000_001]),
                }
            }
            let expected = places::place_bids(&places, bids.len());
            assert_eq!(place_bids(&lend(&places), &mut bids).map(|()| bids), expected, "{places:?}");
        }
    }
}
