//! Random markets, and faults to put into them.

use reference::faults::{ListLengths, MAX_AMOUNT, MAX_BAYS, MAX_GUESTS, MAX_PRICE, MAX_STATIONS};
use reference::market::Market;
use reference::random::{self, Random, Shape};
use reference::sheet::shortest;

/// A handful of guests and stations, and small numbers.
pub fn small() -> Shape {
    let sizes = Shape { guests: 0..=6, stations: 1..=6, bays: 1..=3, ..Shape::whole() };
    Shape { asks: 0..=5, amounts: 1..=4, bids: 0..=8, empty: 10, ..sizes }
}

/// Many ties in totals and gains.
pub fn tied() -> Shape {
    Shape { guests: 2..=12, stations: 2..=8, asks: 0..=2, amounts: 1..=3, bids: 1..=6, ..small() }
}

pub fn middling() -> Shape {
    let sizes = Shape { guests: 0..=40, stations: 1..=12, bays: 1..=10, ..Shape::whole() };
    Shape { asks: 0..=1_000, bids: 0..=2_000, empty: 30, ..sizes }
}

/// Ranges of accepted markets, from small numbers to the limits.
pub fn shapes() -> Vec<Shape> {
    vec![
        small(),
        tied(),
        middling(),
        Shape { empty: 20, ..Shape::whole() },
        Shape::full(),
        Shape { bays: 1..=10, empty: 50, ..Shape::full() },
        // everyone equal
        Shape { guests: 5..=40, stations: 3..=9, asks: 0..=1, amounts: 7..=7, bids: 9..=9, ..small() },
        // bids close to the cut
        Shape { guests: 0..=30, stations: 1..=9, asks: 99..=102, bids: 98..=103, amounts: 1..=2, ..small() },
        // all are candidates at every open station
        Shape { guests: 1..=200, stations: 2..=40, asks: 0..=500, bids: 500..=900, bays: 1..=20, ..Shape::whole() },
        // totals and charges at their greatest
        Shape {
            guests: 0..=20,
            asks: 999_990..=1_000_000,
            bids: 999_990..=1_000_000,
            amounts: 990..=1_000,
            bays: 1..=9,
            ..Shape::whole()
        },
    ]
}

/// An accepted market.
pub fn accepted(random: &mut Random, shapes: &[Shape]) -> Market {
    let mut market = random.pick(shapes).market(random);
    match random.below(8) {
        0 => at_the_ends(random, &mut market),
        1 => equal_totals(random, &mut market),
        _ => {}
    }
    market
}

/// Moves every number to an end of its range or next to it.
fn at_the_ends(random: &mut Random, market: &mut Market) {
    for ask in &mut market.asks {
        *ask = *random.pick(&[0, 1, MAX_PRICE - 1, MAX_PRICE]);
    }
    for bays in &mut market.bays {
        *bays = *random.pick(&[1, 2, MAX_BAYS - 1, MAX_BAYS]);
    }
    for amount in &mut market.amounts {
        *amount = *random.pick(&[1, 2, MAX_AMOUNT - 1, MAX_AMOUNT]);
    }
    for (guest, ticket) in market.tickets.iter_mut().enumerate() {
        *ticket = if random.chance(50) { guest as u32 } else { u32::MAX - guest as u32 };
    }
    for bid in &mut market.bids {
        *bid = *random.pick(&[0, 1, MAX_PRICE - 1, MAX_PRICE]);
    }
}

/// Gives every bid the same total, or one next to it.
fn equal_totals(random: &mut Random, market: &mut Market) {
    let (m, total) = (market.stations(), 840 * random.within(1..=20) as u32);
    for amount in &mut market.amounts {
        *amount = *random.pick(&[1, 2, 3, 4, 5, 6, 7, 8, 10, 12]);
    }
    for (place, bid) in market.bids.iter_mut().enumerate() {
        *bid = total / u32::from(market.amounts[place / m]) + u32::from(random.chance(10));
    }
    for ask in &mut market.asks {
        *ask = random.within(0..=70) as u32;
    }
}

#[derive(Clone, Copy, Debug, PartialEq, Eq)]
pub enum Table {
    Asks,
    Bays,
    Amounts,
    Tickets,
    Bids,
}

#[derive(Clone, Copy, Debug, PartialEq, Eq)]
pub enum List {
    Stations,
    Charges,
    Sold,
    Paid,
}

#[derive(Clone, Copy, Debug)]
pub enum Place {
    First,
    Last,
    Any,
}

/// Two guests.
#[derive(Clone, Copy, Debug)]
pub enum Pair {
    Neighbours,
    /// The first and the last.
    Ends,
    Any,
}

pub const PAIRS: [Pair; 3] = [Pair::Neighbours, Pair::Ends, Pair::Any];

impl Pair {
    /// Their places among so many, at least two.
    fn places(self, random: &mut Random, guests: usize) -> (usize, usize) {
        let second = 1 + random.below(guests - 1);
        match self {
            Pair::Neighbours => (second - 1, second),
            Pair::Ends => (0, guests - 1),
            Pair::Any => (random.below(second), second),
        }
    }
}

/// One number of a call made wrong, or moved to its limit.
#[derive(Clone, Copy, Debug)]
pub enum Change {
    /// A table gets another length; the others stay.
    Length(Table, usize),
    Value(Table, Place, u32),
    /// The later guest of a pair gets the ticket of the earlier one with these bits turned over.
    Tickets(Pair, u32),
    Width(usize),
    List(List, usize),
    /// The market gets so many guests, with a row of bids for each.
    Guests(usize),
    /// The market gets so many stations, with bays and bids for each.
    Stations(usize),
}

/// Every change that is tried, for a market with n guests and m stations.
pub fn changes(n: usize, m: usize) -> Vec<Change> {
    let mut changes = Vec::new();
    let tables = [(Table::Asks, m), (Table::Bays, m), (Table::Amounts, n), (Table::Tickets, n), (Table::Bids, n * m)];
    for (table, length) in tables {
        for other in other_lengths(length) {
            changes.push(Change::Length(table, other));
        }
    }
    for (list, length) in [(List::Stations, n), (List::Charges, n), (List::Sold, m), (List::Paid, m)] {
        for other in other_lengths(length) {
            changes.push(Change::List(list, other));
        }
    }
    for other in other_lengths(m).into_iter().chain([usize::MAX, 1 << 32 | m, 1 << 63 | m]) {
        changes.push(Change::Width(other));
    }
    // among them values whose low bits alone are in range
    let price = [0, MAX_PRICE, MAX_PRICE + 1, 1 << 24 | 1, 1 << 31 | 1, u32::MAX];
    let bays = [0, 1, u32::from(MAX_BAYS), u32::from(MAX_BAYS) + 1, 1 << 8 | 1, 1 << 15 | 1, u32::from(u16::MAX)];
    let amount = [0, 1, u32::from(MAX_AMOUNT), u32::from(MAX_AMOUNT) + 1, 1 << 10 | 1, 1 << 15 | 1, u32::from(u16::MAX)];
    for place in [Place::First, Place::Last, Place::Any] {
        changes.extend(price.map(|value| Change::Value(Table::Asks, place, value)));
        changes.extend(bays.map(|value| Change::Value(Table::Bays, place, value)));
        changes.extend(amount.map(|value| Change::Value(Table::Amounts, place, value)));
        changes.extend([0, u32::MAX].map(|value| Change::Value(Table::Tickets, place, value)));
        changes.extend(price.map(|value| Change::Value(Table::Bids, place, value)));
    }
    for pair in PAIRS {
        changes.extend([0, 1, 1 << 8, 1 << 16, 1 << 31].map(|bits| Change::Tickets(pair, bits)));
    }
    changes.extend([0, MAX_GUESTS, MAX_GUESTS + 1].map(Change::Guests));
    changes.extend([0, MAX_STATIONS, MAX_STATIONS + 1].map(Change::Stations));
    changes
}

/// Every change of the market itself.
pub fn market_changes(market: &Market) -> Vec<Change> {
    let all = changes(market.guests(), market.stations()).into_iter();
    all.filter(|change| !matches!(change, Change::List(..))).collect()
}

/// Lengths that are not the given one.
pub fn other_lengths(length: usize) -> Vec<usize> {
    [0, length.saturating_sub(1), length + 1, 2 * length].into_iter().filter(|&other| other != length).collect()
}

impl Change {
    pub fn apply(self, random: &mut Random, market: &mut Market, lists: &mut ListLengths) {
        match self {
            Change::Length(Table::Asks, length) => market.asks.resize(length, 1),
            Change::Length(Table::Bays, length) => market.bays.resize(length, 1),
            Change::Length(Table::Amounts, length) => market.amounts.resize(length, 1),
            Change::Length(Table::Tickets, length) => market.tickets.resize(length, 1),
            Change::Length(Table::Bids, length) => market.bids.resize(length, 1),
            Change::Value(Table::Asks, place, value) => set(random, &mut market.asks, place, value),
            Change::Value(Table::Bays, place, value) => set(random, &mut market.bays, place, value as u16),
            Change::Value(Table::Amounts, place, value) => set(random, &mut market.amounts, place, value as u16),
            Change::Value(Table::Tickets, place, value) => set(random, &mut market.tickets, place, value),
            Change::Value(Table::Bids, place, value) => set(random, &mut market.bids, place, value),
            Change::Tickets(_, _) if market.tickets.len() < 2 => {}
            Change::Tickets(pair, bits) => {
                let (earlier, later) = pair.places(random, market.tickets.len());
                market.tickets[later] = market.tickets[earlier] ^ bits;
            }
            Change::Width(width) => market.width = width,
            Change::List(List::Stations, length) => lists.stations = length,
            Change::List(List::Charges, length) => lists.charges = length,
            Change::List(List::Sold, length) => lists.sold = length,
            Change::List(List::Paid, length) => lists.paid = length,
            Change::Guests(guests) => {
                market.amounts.resize(guests, 1);
                fit(random, market, lists);
            }
            Change::Stations(stations) => {
                market.asks.resize(stations, 1);
                fit(random, market, lists);
            }
        }
    }
}

/// The market with a change.
pub fn changed(random: &mut Random, market: &Market, change: Change) -> Market {
    let (mut changed, mut lists) = (market.clone(), ListLengths::of(market));
    change.apply(random, &mut changed, &mut lists);
    changed
}

/// Gives a place of a list, if it has one, a value.
pub fn set<T>(random: &mut Random, table: &mut [T], place: Place, value: T) {
    if table.is_empty() {
        return;
    }
    let at = match place {
        Place::First => 0,
        Place::Last => table.len() - 1,
        Place::Any => random.below(table.len()),
    };
    table[at] = value;
}

/// Gives bays, tickets, bids, width and result lists the lengths that the counts want. Where tickets have another length
/// they are made anew, so that they do not repeat.
fn fit(random: &mut Random, market: &mut Market, lists: &mut ListLengths) {
    let (n, m) = (market.guests(), market.stations());
    if market.tickets.len() != n {
        market.tickets = random::any(random, n);
    }
    market.bays.resize(m, 1);
    market.bids.resize(n * m, 1);
    market.width = m;
    *lists = ListLengths::of(market);
}

/// The shortest sheet that states a market, whose values may be out of range, where its lengths fit.
pub fn sheet(market: &Market) -> Option<Vec<u8>> {
    let (n, m) = (market.guests(), market.stations());
    (market.bays.len() == m && market.tickets.len() == n && market.bids.len() == n * m).then(|| shortest(market))
}

/// A market for a failing case's message: as numbers, and as a sheet where one states it.
pub fn show(market: &Market) -> String {
    let sheet = sheet(market).map_or("none: the lengths do not fit".to_string(), |sheet| hex(&sheet));
    format!(
        "asks {:?}\nbays {:?}\namounts {:?}\ntickets {:?}\nbids {:?}\nwidth {}\nsheet {sheet}",
        market.asks, market.bays, market.amounts, market.tickets, market.bids, market.width
    )
}

pub fn hex(bytes: &[u8]) -> String {
    bytes.iter().map(|byte| format!("{byte:02x}")).collect::<Vec<_>>().join(" ")
}

/// The numbers of rules, and others that name none.
pub const RULES: [u8; 5] = [1, 2, 0, 3, 255];

/// Mostly one of a rule.
pub fn any_rule(random: &mut Random) -> u8 {
    if random.chance(92) { *random.pick(&RULES[..2]) } else { *random.pick(&RULES[2..]) }
}
