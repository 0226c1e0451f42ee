//! Document 01, 'Refusals by place', with document 02's: the rows of clearing, of clearing with places and floors and of
//! explaining. Those of reading, writing, placing, joining, trying and posting stand with these.

use crate::market::Market;

pub const SHEET_ENDS: u8 = 1;
pub const COUNTS_OUT_OF_RANGE: u8 = 2;
pub const STRAY_BIT: u8 = 3;
pub const TRAILING_BYTES: u8 = 4;
pub const LENGTHS_DIFFER: u8 = 5;
pub const ASK_OUT_OF_RANGE: u8 = 6;
pub const BAYS_OUT_OF_RANGE: u8 = 7;
pub const AMOUNT_OUT_OF_RANGE: u8 = 8;
pub const BID_OUT_OF_RANGE: u8 = 9;
pub const LENT_LENGTHS: u8 = 10;
pub const ROUND_OUT_OF_TURN: u8 = 11;
pub const ACCOUNT_OVER_LIMIT: u8 = 12;
pub const BOOK_SIZE: u8 = 13;
pub const OUTPUT_TOO_SHORT: u8 = 14;
pub const TICKETS_REPEAT: u8 = 15;
pub const CELL_OFF_GRID: u8 = 16;
pub const PRICE_OR_FALL_OUT_OF_RANGE: u8 = 17;
pub const UNKNOWN_RULE: u8 = 18;
pub const EMPTY_BID: u8 = 19;
pub const STATIONS_DIFFER: u8 = 20;
pub const TICKET_IN_BOTH: u8 = 21;
pub const MALFORMED_TEXT: u8 = 22;
pub const FIELD_TOO_LARGE: u8 = 23;
pub const NO_SUCH_GUEST: u8 = 24;
pub const DESK_OUT_OF_RANGE: u8 = 25;

pub const MAX_GUESTS: usize = 200;
pub const MAX_STATIONS: usize = 40;
pub const MAX_DESKS: usize = 8;
pub const MAX_PRICE: u32 = 1_000_000;
pub const MAX_AMOUNT: u16 = 1_000;
pub const MAX_BAYS: u16 = 200;
pub const MAX_CELL: u16 = 31;

/// How long the result lists are that a clearing is lent.
#[derive(Clone, Copy, Debug, PartialEq, Eq)]
pub struct ListLengths {
    pub stations: usize,
    pub charges: usize,
    pub sold: usize,
    pub paid: usize,
}

impl ListLengths {
    /// The lengths that a market's results have.
    pub fn of(market: &Market) -> ListLengths {
        let (n, m) = (market.guests(), market.stations());
        ListLengths { stations: n, charges: n, sold: m, paid: m }
    }
}

/// How long the lists are that a clearing with places and floors is lent, or that are handed in to be marked.
#[derive(Clone, Copy, Debug, PartialEq, Eq)]
pub struct FullLengths {
    pub stations: usize,
    pub charges: usize,
    pub sold: usize,
    pub paid: usize,
    pub places: usize,
    pub floors: usize,
}

impl FullLengths {
    /// The lengths that a market's lists have.
    pub fn of(market: &Market) -> FullLengths {
        let (n, m) = (market.guests(), market.stations());
        FullLengths { stations: n, charges: n, sold: m, paid: m, places: n * m, floors: m }
    }
}

/// How long the lists are that an explanation is lent.
#[derive(Clone, Copy, Debug, PartialEq, Eq)]
pub struct ExplanationLengths {
    pub codes: usize,
    pub stations: usize,
    pub charges: usize,
    pub reasons: usize,
}

impl ExplanationLengths {
    /// The lengths that a market's explanation has.
    pub fn of(market: &Market) -> ExplanationLengths {
        let (n, m) = (market.guests(), market.stations());
        ExplanationLengths { codes: n * m, stations: n, charges: n, reasons: n }
    }
}

pub fn counts_in_range(n: usize, m: usize) -> bool {
    n <= MAX_GUESTS && (1..=MAX_STATIONS).contains(&m)
}

/// The first fault of a clearing under the rule of a number, by its own number.
pub fn clearing_fault(rule: u8, market: &Market, lists: ListLengths) -> Result<(), u8> {
    call_fault(rule, market, lists == ListLengths::of(market))
}

/// The first fault of a clearing with places and floors, or of a mark, under the rule of a number, by its own number.
pub fn full_clearing_fault(rule: u8, market: &Market, lists: FullLengths) -> Result<(), u8> {
    call_fault(rule, market, lists == FullLengths::of(market))
}

/// The first fault of an explanation under the rule of a number, by its own number.
pub fn explaining_fault(rule: u8, market: &Market, lists: ExplanationLengths) -> Result<(), u8> {
    call_fault(rule, market, lists == ExplanationLengths::of(market))
}

/// The first fault of a call that is given a market and lists, which fit the market or not.
fn call_fault(rule: u8, market: &Market, lists_fit: bool) -> Result<(), u8> {
    if ![1, 2].contains(&rule) {
        return Err(UNKNOWN_RULE);
    }
    let (n, m) = (market.guests(), market.stations());
    if !counts_in_range(n, m) {
        return Err(COUNTS_OUT_OF_RANGE);
    }
    if market.bays.len() != m || market.tickets.len() != n || market.bids.len() != n * m || market.width != m {
        return Err(LENGTHS_DIFFER);
    }
    if !lists_fit {
        return Err(LENT_LENGTHS);
    }
    if market.asks.iter().any(|&ask| ask > MAX_PRICE) {
        return Err(ASK_OUT_OF_RANGE);
    }
    if market.bays.iter().any(|&bays| bays == 0 || bays > MAX_BAYS) {
        return Err(BAYS_OUT_OF_RANGE);
    }
    if market.amounts.iter().any(|&amount| amount == 0 || amount > MAX_AMOUNT) {
        return Err(AMOUNT_OUT_OF_RANGE);
    }
    if market.bids.iter().any(|&bid| bid > MAX_PRICE) {
        return Err(BID_OUT_OF_RANGE);
    }
    if repeats(&market.tickets) {
        return Err(TICKETS_REPEAT);
    }
    Ok(())
}

/// Two of the tickets are equal.
fn repeats(tickets: &[u32]) -> bool {
    for later in 0..tickets.len() {
        for earlier in 0..later {
            if tickets[earlier] == tickets[later] {
                return true;
            }
        }
    }
    false
}

/// The first fault of a market: the clearing's, the rows on the rule and on result lists aside.
pub fn market_fault(market: &Market) -> Result<(), u8> {
    clearing_fault(1, market, ListLengths::of(market))
}
