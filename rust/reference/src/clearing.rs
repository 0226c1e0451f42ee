//! Document 01, 'Clearing', by its numbers 1 to 8, and document 02, 'The longest wait goes first', 'A second round for
//! quiet days' and 'New trade rule for the cut'.

use crate::market::Market;
use std::cmp::Reverse;

/// Each guest's station (0 for none) and charge, each station's kWh sold and payment.
#[derive(Clone, Debug, PartialEq, Eq)]
pub struct Outcome {
    pub cut: u128,
    pub stations: Vec<usize>,
    pub charges: Vec<u128>,
    pub sold: Vec<u128>,
    pub paid: Vec<u128>,
    pub margin: u128,
}

/// A guest that is a candidate at a station.
struct Candidate {
    guest: usize,
    station: usize,
    ticket: u32,
    total: u128,
}

/// A place that a guest holds at a station.
#[derive(Clone)]
pub struct Place {
    pub station: usize,
    total: u128,
    charge: u128,
}

fn amount(market: &Market, guest: usize) -> u128 {
    u128::from(market.amounts[guest - 1])
}

/// 1. The cut, under the rule of a number.
pub fn cut(rule: u8, market: &Market) -> u128 {
    let mut rising = market.asks.clone();
    rising.sort();
    let m = market.stations();
    let position = match rule {
        1 => (m + 1).div_ceil(2),
        2 => (2 * m).div_euclid(3) + 1,
        _ => panic!("rule {rule} is refused"),
    };
    u128::from(rising[position - 1])
}

/// A station's candidates, in no order.
fn candidates(market: &Market, cut: u128, station: usize) -> Vec<Candidate> {
    let mut candidates = Vec::new();
    // 2. open stations
    if u128::from(market.asks[station - 1]) >= cut {
        return candidates;
    }
    // 3. candidates
    for guest in 1..=market.guests() {
        let bid = u128::from(market.bid(guest, station));
        if bid >= cut {
            let (ticket, total) = (market.tickets[guest - 1], bid * amount(market, guest));
            candidates.push(Candidate { guest, station, ticket, total });
        }
    }
    candidates
}

/// 6. The charge of a guest at a station with this floor.
fn charge(market: &Market, cut: u128, floor: u128, guest: usize) -> u128 {
    floor.max(cut * amount(market, guest))
}

/// The outcome where guests have these stations and stations these floors.
fn settled(market: &Market, cut: u128, stations: Vec<usize>, floors: &[u128]) -> Outcome {
    let (n, m) = (market.guests(), market.stations());
    let mut outcome = Outcome { cut, stations, charges: vec![0; n], sold: vec![0; m], paid: vec![0; m], margin: 0 };
    for guest in 1..=n {
        let station = outcome.stations[guest - 1];
        if station > 0 {
            let charge = charge(market, cut, floors[station - 1], guest);
            outcome.charges[guest - 1] = charge;
            outcome.sold[station - 1] += amount(market, guest);
            outcome.margin += charge - cut * amount(market, guest);
        }
    }
    // 8. payments
    for station in 1..=m {
        outcome.paid[station - 1] = cut * outcome.sold[station - 1];
    }
    outcome
}

/// The places that each guest holds, and each station's floor.
pub fn places_held(market: &Market, cut: u128) -> (Vec<Vec<Place>>, Vec<u128>) {
    let (n, m) = (market.guests(), market.stations());
    let mut floors = vec![0; m];
    let mut places: Vec<Vec<Place>> = vec![Vec::new(); n];
    for station in 1..=m {
        let mut candidates = candidates(market, cut, station);
        // 4. their order: falling totals, of equal ones the lower ticket first
        candidates.sort_by_key(|candidate| (Reverse(candidate.total), candidate.ticket));
        let bays = usize::from(market.bays[station - 1]);
        // 5. the floor: the first candidate without a place
        let floor = candidates.get(bays).map_or(0, |candidate| candidate.total);
        floors[station - 1] = floor;
        for candidate in candidates.iter().take(bays) {
            let charge = charge(market, cut, floor, candidate.guest);
            places[candidate.guest - 1].push(Place { station, total: candidate.total, charge });
        }
    }
    (places, floors)
}

/// Of the other candidates of a station, total and ticket of the first who has no place beside the guest.
pub fn first_out_beside(market: &Market, cut: u128, station: usize, guest: usize) -> Option<(u128, u32)> {
    let mut others = candidates(market, cut, station);
    others.retain(|candidate| candidate.guest != guest);
    others.sort_by_key(|candidate| (Reverse(candidate.total), candidate.ticket));
    let bays = usize::from(market.bays[station - 1]);
    others.get(bays - 1).map(|candidate| (candidate.total, candidate.ticket))
}

/// The clearing of an accepted market, under rule 1 or 2.
pub fn clear(rule: u8, market: &Market) -> Outcome {
    let cut = cut(rule, market);
    let (mut places, floors) = places_held(market, cut);
    let mut seats = vec![0; market.guests()];
    for (seat, held) in seats.iter_mut().zip(&mut places) {
        // 7. the place with the greatest total less charge, of equal ones at the lower station
        held.sort_by_key(|place| (Reverse(place.total - place.charge), place.station));
        *seat = held.first().map_or(0, |place| place.station);
    }
    settled(market, cut, seats, &floors)
}

/// The efficient clearing of an accepted market, for quiet days, under rule 1 or 2.
pub fn clear_efficient(rule: u8, market: &Market) -> Outcome {
    let (n, m) = (market.guests(), market.stations());
    let cut = cut(rule, market);
    // all candidacies of all stations: falling total, lower ticket, lower station
    let mut candidacies: Vec<Candidate> = (1..=m).flat_map(|station| candidates(market, cut, station)).collect();
    candidacies.sort_by_key(|candidacy| (Reverse(candidacy.total), candidacy.ticket, candidacy.station));
    let mut seats = vec![0; n];
    let mut left = market.bays.clone();
    let mut floors = vec![None; m];
    for Candidate { guest, station, total, .. } in candidacies {
        if seats[guest - 1] > 0 {
            continue; // a seated guest's later one
        }
        if left[station - 1] > 0 {
            left[station - 1] -= 1;
            seats[guest - 1] = station;
        } else if floors[station - 1].is_none() {
            floors[station - 1] = Some(total);
        }
    }
    let floors: Vec<u128> = floors.into_iter().map(|floor| floor.unwrap_or(0)).collect();
    settled(market, cut, seats, &floors)
}
