//! Seeded random numbers, markets and places.

use crate::faults::{MAX_AMOUNT, MAX_BAYS, MAX_GUESTS, MAX_PRICE, MAX_STATIONS};
use crate::market::Market;
use crate::places::Places;
use std::ops::RangeInclusive;

/// The splitmix64 generator.
pub struct Random(u64);

impl Random {
    pub fn new(seed: u64) -> Random {
        Random(seed)
    }

    pub fn bits(&mut self) -> u64 {
        self.0 = self.0.wrapping_add(0x9E37_79B9_7F4A_7C15);
        let mut z = self.0;
        z = (z ^ (z >> 30)).wrapping_mul(0xBF58_476D_1CE4_E5B9);
        z = (z ^ (z >> 27)).wrapping_mul(0x94D0_49BB_1331_11EB);
        z ^ (z >> 31)
    }

    pub fn within(&mut self, range: RangeInclusive<u64>) -> u64 {
        range.start() + self.bits() % (range.end() - range.start() + 1)
    }

    pub fn below(&mut self, bound: usize) -> usize {
        self.within(0..=bound as u64 - 1) as usize
    }

    pub fn chance(&mut self, percent: u64) -> bool {
        self.within(1..=100) <= percent
    }

    pub fn pick<'a, T>(&mut self, from: &'a [T]) -> &'a T {
        &from[self.below(from.len())]
    }
}

/// Tickets 1, 2, 3 and so on for so many guests.
pub fn numbered(_random: &mut Random, guests: usize) -> Vec<u32> {
    (1..=guests as u32).collect()
}

/// Different tickets for so many guests, in no order.
pub fn mixed(random: &mut Random, guests: usize) -> Vec<u32> {
    different(random, guests, 0..=u64::from(u32::MAX))
}

/// Different tickets for so many guests: from anywhere or close together, rising, rising but for two, falling or mixed.
pub fn any(random: &mut Random, guests: usize) -> Vec<u32> {
    let width = guests as u64 * random.within(1..=3);
    let greatest = u64::from(u32::MAX);
    let first = *random.pick(&[0, 1 << 16, (1 << 31) - width / 2, greatest - width]);
    let range = if random.chance(50) { first..=first + width } else { 0..=greatest };
    let mut tickets = different(random, guests, range);
    match random.below(5) {
        0 => tickets.sort(),
        1 => tickets.sort_by(|one, other| other.cmp(one)),
        2 if guests > 0 => {
            tickets.sort();
            tickets.swap(random.below(guests), random.below(guests));
        }
        _ => {}
    }
    tickets
}

/// So many different numbers of a range that has more, in no order.
fn different(random: &mut Random, count: usize, range: RangeInclusive<u64>) -> Vec<u32> {
    let mut numbers = Vec::new();
    while numbers.len() < count {
        let number = random.within(range.clone()) as u32;
        if !numbers.contains(&number) {
            numbers.push(number);
        }
    }
    numbers
}

/// The ranges that a random market's numbers come from.
#[derive(Clone)]
pub struct Shape {
    pub guests: RangeInclusive<u64>,
    pub stations: RangeInclusive<u64>,
    pub asks: RangeInclusive<u64>,
    pub bays: RangeInclusive<u64>,
    pub amounts: RangeInclusive<u64>,
    /// The tickets of so many guests.
    pub tickets: fn(&mut Random, usize) -> Vec<u32>,
    pub bids: RangeInclusive<u64>,
    /// Of a hundred bids, how many are 0.
    pub empty: u64,
}

impl Shape {
    /// Anything within the limits.
    pub fn whole() -> Shape {
        let price = 0..=u64::from(MAX_PRICE);
        Shape {
            guests: 0..=MAX_GUESTS as u64,
            stations: 1..=MAX_STATIONS as u64,
            asks: price.clone(),
            bays: 1..=u64::from(MAX_BAYS),
            amounts: 1..=u64::from(MAX_AMOUNT),
            tickets: any,
            bids: price,
            empty: 0,
        }
    }

    /// As many guests and stations as there may be.
    pub fn full() -> Shape {
        Shape { guests: 200..=200, stations: 40..=40, ..Shape::whole() }
    }

    pub fn market(&self, random: &mut Random) -> Market {
        let n = random.within(self.guests.clone());
        let m = random.within(self.stations.clone());
        let asks: Vec<u32> = (0..m).map(|_| random.within(self.asks.clone()) as u32).collect();
        let bays: Vec<u16> = (0..m).map(|_| random.within(self.bays.clone()) as u16).collect();
        let amounts: Vec<u16> = (0..n).map(|_| random.within(self.amounts.clone()) as u16).collect();
        let tickets = (self.tickets)(random, n as usize);
        let bids: Vec<u32> =
            (0..n * m).map(|_| if random.chance(self.empty) { 0 } else { random.within(self.bids.clone()) as u32 }).collect();
        Market::new(&asks, &bays, &amounts, &tickets, &bids)
    }
}

/// The ranges that random places' numbers come from.
#[derive(Clone)]
pub struct Spread {
    pub guests: RangeInclusive<u64>,
    pub stations: RangeInclusive<u64>,
    pub prices: RangeInclusive<u64>,
    pub falls: RangeInclusive<u64>,
    pub coordinates: RangeInclusive<u64>,
}

impl Spread {
    pub fn places(&self, random: &mut Random) -> Places {
        let n = random.within(self.guests.clone());
        let m = random.within(self.stations.clone());
        let mut numbers = |range: &RangeInclusive<u64>| (0..n).map(|_| random.within(range.clone()) as u32).collect();
        let (prices, falls) = (numbers(&self.prices), numbers(&self.falls));
        let mut coordinates = |count| (0..count).map(|_| random.within(self.coordinates.clone()) as u16).collect();
        Places {
            prices,
            falls,
            guest_first: coordinates(n),
            guest_second: coordinates(n),
            station_first: coordinates(m),
            station_second: coordinates(m),
        }
    }
}
