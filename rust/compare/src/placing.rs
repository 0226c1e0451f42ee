//! Placing bids against the reference: every two cells of the grid, random places and changed ones, and bids that are
//! placed and then cleared.

use crate::Tally;
use crate::call::{self, Clearing, Mechanism};
use crate::markets::{Place, other_lengths, set};
use bay_market::lent;
use reference::faults::{ListLengths, MAX_CELL, MAX_GUESTS, MAX_PRICE, MAX_STATIONS};
use reference::market::Market;
use reference::places::{Cell, Places, place_bids, squared_distance, walk};
use reference::random::{Random, Shape, Spread};

/// A call: what is lent, and the length of the bid table.
#[derive(Clone, Debug)]
struct Placing {
    places: Places,
    table: usize,
}

impl Placing {
    fn of(places: Places) -> Placing {
        let table = places.guests() * places.stations();
        Placing { places, table }
    }
}

fn check(random: &mut Random, tally: &mut Tally, placing: &Placing) -> Result<(), String> {
    let Placing { places, table } = placing;
    let expected = place_bids(places, *table);
    tally.count(&expected);
    call::place_bids(random, places, *table, &expected).map_err(|what| format!("{what}\n{}", show(placing)))
}

/// A call for a failing case's message.
fn show(Placing { places, table }: &Placing) -> String {
    format!(
        "prices {:?}\nfalls {:?}\nguests, first {:?}\nsecond {:?}\nstations, first {:?}\nsecond {:?}\nbid table of {table}",
        places.prices, places.falls, places.guest_first, places.guest_second, places.station_first, places.station_second
    )
}

/// Anything within the limits, with falls at which most bids are not 0.
fn whole() -> Spread {
    Spread {
        guests: 0..=MAX_GUESTS as u64,
        stations: 1..=MAX_STATIONS as u64,
        prices: 0..=u64::from(MAX_PRICE),
        falls: 0..=3_000,
        coordinates: 0..=u64::from(MAX_CELL),
    }
}

/// Ranges of accepted places, from small numbers to the limits.
fn spreads() -> Vec<Spread> {
    let some = Spread { guests: 0..=12, stations: 1..=8, ..whole() };
    let greatest = u64::from(MAX_PRICE)..=u64::from(MAX_PRICE);
    vec![
        some.clone(),
        Spread { prices: 0..=500, falls: 0..=3, ..some.clone() },
        // near each other, and falls that leave little
        Spread { falls: 0..=u64::from(MAX_PRICE), coordinates: 0..=2, ..some.clone() },
        // at the ends of the grid and of the numbers
        Spread { prices: greatest.clone(), falls: greatest, ..some },
        whole(),
        Spread { guests: 200..=200, stations: 40..=40, ..whole() },
    ]
}

/// Accepted places.
fn accepted(random: &mut Random, spreads: &[Spread]) -> Places {
    let mut places = random.pick(spreads).places(random);
    match random.below(4) {
        0 => nearly_nothing(random, &mut places),
        1 => at_the_ends(random, &mut places),
        _ => {}
    }
    places
}

/// Gives each guest a price that its fall leaves next to nothing of at a station, where the price's limit lets it.
fn nearly_nothing(random: &mut Random, places: &mut Places) {
    for guest in 1..=places.guests() {
        let station = 1 + random.below(places.stations());
        let walked = walk(squared_distance(places.guest(guest), places.station(station))) as u32;
        let lost = places.falls[guest - 1].saturating_mul(walked);
        let price = *random.pick(&[lost.saturating_sub(1), lost, lost.saturating_add(1)]);
        places.prices[guest - 1] = price.min(MAX_PRICE);
    }
}

/// Moves every number to an end of its range or next to it.
fn at_the_ends(random: &mut Random, places: &mut Places) {
    for number in places.prices.iter_mut().chain(&mut places.falls) {
        *number = *random.pick(&[0, 1, MAX_PRICE - 1, MAX_PRICE]);
    }
    let guests = places.guest_first.iter_mut().chain(&mut places.guest_second);
    for coordinate in guests.chain(&mut places.station_first).chain(&mut places.station_second) {
        *coordinate = *random.pick(&[0, 1, MAX_CELL - 1, MAX_CELL]);
    }
}

#[derive(Clone, Copy, Debug)]
enum List {
    Prices,
    Falls,
    GuestFirst,
    GuestSecond,
    StationFirst,
    StationSecond,
}

const PRICES: [List; 2] = [List::Prices, List::Falls];
const COORDINATES: [List; 4] = [List::GuestFirst, List::GuestSecond, List::StationFirst, List::StationSecond];

/// One number of a call made wrong, or moved to its limit.
#[derive(Clone, Copy, Debug)]
enum Change {
    /// A list gets another length; the others stay.
    Length(List, usize),
    Table(usize),
    Value(List, Place, u32),
    /// So many guests, with price, fall and cell for each.
    Guests(usize),
    /// So many stations, with a cell for each.
    Stations(usize),
}

/// Every change that is tried, for n guests and m stations.
fn changes(n: usize, m: usize) -> Vec<Change> {
    let mut changes = Vec::new();
    for list in [List::Prices, List::Falls, List::GuestFirst, List::GuestSecond] {
        changes.extend(other_lengths(n).into_iter().map(|other| Change::Length(list, other)));
    }
    for list in [List::StationFirst, List::StationSecond] {
        changes.extend(other_lengths(m).into_iter().map(|other| Change::Length(list, other)));
    }
    changes.extend(other_lengths(n * m).into_iter().map(Change::Table));
    // among them values whose low bits alone are in range
    let cell = u32::from(MAX_CELL);
    let coordinates = [0, cell, cell + 1, 1 << 6 | 1, 1 << 8 | 1, 1 << 15 | 1, u32::from(u16::MAX)];
    let prices = [0, MAX_PRICE, MAX_PRICE + 1, 1 << 24 | 1, 1 << 31 | 1, u32::MAX];
    for place in [Place::First, Place::Last, Place::Any] {
        for list in COORDINATES {
            changes.extend(coordinates.map(|value| Change::Value(list, place, value)));
        }
        for list in PRICES {
            changes.extend(prices.map(|value| Change::Value(list, place, value)));
        }
    }
    changes.extend([0, MAX_GUESTS, MAX_GUESTS + 1].map(Change::Guests));
    changes.extend([0, MAX_STATIONS, MAX_STATIONS + 1].map(Change::Stations));
    changes
}

impl Change {
    fn apply(self, random: &mut Random, Placing { places, table }: &mut Placing) {
        match self {
            Change::Length(List::Prices, length) => places.prices.resize(length, 1),
            Change::Length(List::Falls, length) => places.falls.resize(length, 1),
            Change::Length(List::GuestFirst, length) => places.guest_first.resize(length, 1),
            Change::Length(List::GuestSecond, length) => places.guest_second.resize(length, 1),
            Change::Length(List::StationFirst, length) => places.station_first.resize(length, 1),
            Change::Length(List::StationSecond, length) => places.station_second.resize(length, 1),
            Change::Table(length) => *table = length,
            Change::Value(List::Prices, place, value) => set(random, &mut places.prices, place, value),
            Change::Value(List::Falls, place, value) => set(random, &mut places.falls, place, value),
            Change::Value(List::GuestFirst, place, value) => set(random, &mut places.guest_first, place, value as u16),
            Change::Value(List::GuestSecond, place, value) => set(random, &mut places.guest_second, place, value as u16),
            Change::Value(List::StationFirst, place, value) => set(random, &mut places.station_first, place, value as u16),
            Change::Value(List::StationSecond, place, value) => set(random, &mut places.station_second, place, value as u16),
            Change::Guests(guests) => {
                places.prices.resize(guests, 1);
                places.falls.resize(guests, 1);
                places.guest_first.resize(guests, 1);
                places.guest_second.resize(guests, 1);
                *table = guests * places.stations();
            }
            Change::Stations(stations) => {
                places.station_first.resize(stations, 1);
                places.station_second.resize(stations, 1);
                *table = places.guests() * stations;
            }
        }
    }
}

/// The placing with a change.
fn changed(random: &mut Random, placing: &Placing, change: Change) -> Placing {
    let mut changed = placing.clone();
    change.apply(random, &mut changed);
    changed
}

/// Every two cells of the grid, at a price and a fall that show each walk.
fn every_two_cells(random: &mut Random, tally: &mut Tally) -> Result<(), String> {
    let side = 0..=MAX_CELL;
    let cells: Vec<Cell> = side.clone().flat_map(|first| side.clone().map(move |second| (first, second))).collect();
    for guests in cells.chunks(MAX_GUESTS) {
        for stations in cells.chunks(MAX_STATIONS) {
            let (guest_first, guest_second) = guests.iter().copied().unzip();
            let (station_first, station_second) = stations.iter().copied().unzip();
            let (prices, falls) = (vec![MAX_PRICE; guests.len()], vec![1; guests.len()]);
            let places = Places { prices, falls, guest_first, guest_second, station_first, station_second };
            check(random, tally, &Placing::of(places))?;
        }
    }
    Ok(())
}

/// Places a market's bids by the engine and clears it by both mechanisms, against the reference with its own bids.
fn check_market(random: &mut Random, tally: &mut Tally, places: &Places) -> Result<(), String> {
    let (n, m) = (places.guests() as u64, places.stations() as u64);
    let asks = 0..=places.prices.iter().copied().max().unwrap_or(0).into();
    let shape = Shape { guests: n..=n, stations: m..=m, asks, bays: 1..=4, ..Shape::whole() };
    let mut market = shape.market(random);
    let lent = lent::Places {
        prices: &places.prices,
        falls: &places.falls,
        guest_first: &places.guest_first,
        guest_second: &places.guest_second,
        station_first: &places.station_first,
        station_second: &places.station_second,
    };
    let shown = show(&Placing::of(places.clone()));
    lent::place_bids(&lent, &mut market.bids).map_err(|refusal| format!("refused {}\n{shown}", refusal.number()))?;
    let bids = place_bids(places, market.bids.len()).expect("accepted places");
    for mechanism in [Mechanism::Truthful, Mechanism::Efficient] {
        let rule = *random.pick(&[1, 2]);
        let expected = Ok(mechanism.expected(rule, &Market { bids: bids.clone(), ..market.clone() }));
        tally.count(&expected);
        let clearing = Clearing { mechanism, rule, market: &market, lists: ListLengths::of(&market) };
        call::clear(random, clearing, &expected).map_err(|what| format!("{what}\n{shown}"))?;
    }
    Ok(())
}

pub fn run(random: &mut Random, tally: &mut Tally, cases: usize) -> Result<(), String> {
    every_two_cells(random, tally)?;
    let spreads = spreads();
    for _ in 0..cases {
        let mut placing = Placing::of(accepted(random, &spreads));
        if random.chance(40) {
            let changes = changes(placing.places.guests(), placing.places.stations());
            for _ in 0..random.within(1..=4) {
                random.pick(&changes).apply(random, &mut placing);
            }
        }
        check(random, tally, &placing)?;
    }
    // each change alone and each two together, in a few places; each alone in the most
    let few = Spread { guests: 3..=6, stations: 2..=5, ..whole() };
    let most = Spread { guests: 200..=200, stations: 40..=40, ..whole() };
    for spread in [few.clone(), Spread { prices: 0..=50, falls: 0..=2, ..few }, most] {
        let placing = Placing::of(spread.places(random));
        let changes = changes(placing.places.guests(), placing.places.stations());
        for first in &changes {
            let with_one = changed(random, &placing, *first);
            check(random, tally, &with_one)?;
            for second in changes.iter().filter(|_| placing.table < 1_000) {
                let with_two = changed(random, &with_one, *second);
                check(random, tally, &with_two)?;
            }
        }
    }
    for _ in 0..cases / 10 {
        let places = accepted(random, &spreads);
        check_market(random, tally, &places)?;
    }
    tally.require(&[0, 2, 5, 16, 17])
}
