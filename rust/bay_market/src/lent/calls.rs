//! The calls over memory that the caller lends. Benchmarks build this file over a library that is loaded.

use super::{Cleared, Counts, Explanation, FullResults, Gains, Joined, Ledger, Market, Places, Results, Submission, Tables};
use crate::{Desk, Refusal, Rule, slices};

/// Reads a sheet into the first places of the tables.
pub fn read(sheet: &[u8], tables: &mut Tables) -> Result<Counts, Refusal> {
    read_by(slices::read, sheet, tables)
}

/// A reader over slices: its bytes, the tables in the readers' order, and the two counts.
type Reader = fn(&[u8], &mut [u16], &mut [u32], &mut [u32], &mut [u16], &mut [u32], &mut u16, &mut u16) -> u8;

fn read_by(read: Reader, bytes: &[u8], tables: &mut Tables) -> Result<Counts, Refusal> {
    let mut counts = Counts { guests: 0, stations: 0 };
    // the order is the readers': amounts, tickets, asks, bays, bids
    let answer = read(
        bytes,
        tables.amounts,
        tables.tickets,
        tables.asks,
        tables.bays,
        tables.bids,
        &mut counts.guests,
        &mut counts.stations,
    );
    Refusal::check(answer).map(|()| counts)
}

/// Reads a comma-separated market into the first places of the tables: a line of asks, one of bays, then for each guest one
/// with its ticket, amount and bids, each line with CR LF at its end. A bid may be empty, which is 0. The call takes up to
/// [`MAX_STACK_READ_CSV`](crate::MAX_STACK_READ_CSV) bytes of stack.
///
/// ```
/// use bay_market::lent::{Counts, Tables, read_csv};
/// use bay_market::Refusal;
///
/// let (amounts, tickets, bids) = (&mut [77; 200], &mut [77; 200], &mut [77; 8000]);
/// let mut tables = Tables { amounts, tickets, asks: &mut [77; 40], bays: &mut [77; 40], bids };
/// assert_eq!(read_csv(b"2,6\n", &mut tables), Err(Refusal::MalformedText));
/// assert_eq!(read_csv(b"2,6\r\n1,65536\r\n", &mut tables), Err(Refusal::FieldTooLarge));
/// assert_eq!(tables.asks, &[77; 40]);
/// let counts = read_csv(b"2,6\r\n1,1\r\n1,3,8,\r\n2,3,8,\r\n", &mut tables)?;
/// assert_eq!(counts, Counts { guests: 2, stations: 2 });
/// let market = tables.market(counts);
/// assert_eq!((market.tickets, market.amounts, market.bids), (&[1, 2][..], &[3, 3][..], &[8, 0, 8, 0][..]));
/// assert_eq!(tables.bids[4..], [77; 7996]);
/// # Ok::<(), Refusal>(())
/// ```
pub fn read_csv(text: &[u8], tables: &mut Tables) -> Result<Counts, Refusal> {
    read_by(slices::read_csv, text, tables)
}

/// Writes the market's shortest sheet, with a set bit exactly where a bid is not 0, over the first bytes of `sheet`. Gives
/// its length; the bytes beyond stay. [`MAX_SHEET`](crate::MAX_SHEET) bytes are enough for every market.
///
/// ```
/// use bay_market::Refusal;
/// use bay_market::lent::{Market, write};
///
/// let market = Market { asks: &[5], bays: &[2], amounts: &[3, 4], tickets: &[8, 7], bids: &[0, 9], width: 1 };
/// let mut sheet = [77; 30];
/// assert_eq!(write(&market, &mut sheet), Ok(28));
/// assert_eq!(sheet[..10], [2, 0, 1, 0, 5, 0, 0, 0, 2, 0]);
/// assert_eq!(sheet[10..], [3, 0, 8, 0, 0, 0, 0, 4, 0, 7, 0, 0, 0, 1, 9, 0, 0, 0, 77, 77]);
/// assert_eq!(write(&market, &mut sheet[..27]), Err(Refusal::OutputTooShort));
/// ```
pub fn write(market: &Market, sheet: &mut [u8]) -> Result<usize, Refusal> {
    let Market { asks, bays, amounts, tickets, bids, width } = *market;
    let mut length = 0;
    let answer = slices::write(asks, bays, amounts, tickets, bids, width, sheet, &mut length);
    Refusal::check(answer).map(|()| length)
}

/// Fills n rows of m bids: a guest's bid at a station is its price less its fall times the walk between their cells, or 0
/// where that is negative.
///
/// ```
/// use bay_market::Refusal;
/// use bay_market::lent::{Places, place_bids};
///
/// // one guest at (0, 0), stations at (3, 4), (1, 1) and (31, 31): walks of 50, 14 and 438 tenths of a cell
/// let (station_first, station_second) = (&[3, 1, 31], &[4, 1, 31]);
/// let places =
///     Places { prices: &[900], falls: &[3], guest_first: &[0], guest_second: &[0], station_first, station_second };
/// let mut bids = [77; 3];
/// assert_eq!(place_bids(&places, &mut bids[..2]), Err(Refusal::LengthsDiffer));
/// assert_eq!(place_bids(&Places { guest_first: &[32], ..places }, &mut bids), Err(Refusal::CellOffGrid));
/// assert_eq!(bids, [77; 3]);
/// assert_eq!(place_bids(&places, &mut bids), Ok(()));
/// assert_eq!(bids, [750, 858, 0]);
/// ```
pub fn place_bids(places: &Places, bids: &mut [u32]) -> Result<(), Refusal> {
    let Places { prices, falls, guest_first, guest_second, station_first, station_second } = *places;
    Refusal::check(slices::place_bids(prices, falls, guest_first, guest_second, station_first, station_second, bids))
}

/// Joins two markets of the same stations into one, the first one's guests in front. In truthful rounds by one rule whoever
/// holds a place in the joined market held it in its own, and its charge at that station is no lower.
///
/// ```
/// use bay_market::Refusal;
/// use bay_market::lent::{Joined, Market, join};
///
/// let gate = Market { asks: &[2, 6], bays: &[1, 1], amounts: &[3], tickets: &[7], bids: &[8, 0], width: 2 };
/// let other = Market { tickets: &[4], bids: &[9, 5], ..gate };
/// let (mut asks, mut bays, mut amounts, mut tickets, mut bids) = ([77; 2], [77; 2], [77; 2], [77; 2], [77; 4]);
/// let mut joined = Joined {
///     asks: &mut asks,
///     bays: &mut bays,
///     amounts: &mut amounts,
///     tickets: &mut tickets,
///     bids: &mut bids,
/// };
/// assert_eq!(join(&gate, &gate, &mut joined), Err(Refusal::TicketInBoth));
/// assert_eq!(join(&gate, &Market { bays: &[1, 2], ..other }, &mut joined), Err(Refusal::StationsDiffer));
/// assert_eq!(joined.tickets, [77; 2]);
/// assert_eq!(join(&gate, &other, &mut joined), Ok(()));
/// assert_eq!((asks, bays, amounts, tickets, bids), ([2, 6], [1, 1], [3, 3], [7, 4], [8, 0, 9, 5]));
/// ```
pub fn join(first: &Market, second: &Market, joined: &mut Joined) -> Result<(), Refusal> {
    let Joined { asks, bays, amounts, tickets, bids } = joined;
    Refusal::check(slices::join(
        first.asks,
        first.bays,
        first.amounts,
        first.tickets,
        first.bids,
        first.width,
        second.asks,
        second.bays,
        second.amounts,
        second.tickets,
        second.bids,
        second.width,
        asks,
        bays,
        amounts,
        tickets,
        bids,
    ))
}

/// Clears a market by a rule in a truthful round: no guest and no station gains by a false report.
pub fn clear(rule: Rule, market: &Market, results: &mut Results) -> Result<Cleared, Refusal> {
    clear_by(Mechanism::Truthful, rule, market, results)
}

/// Clears a market by a rule and the efficient mechanism, for quiet days: whoever [`clear`] seats is seated here too, and
/// others may be. Stations keep the guarantee that truth pays best; guests lose it. Only truthful rounds are posted.
///
/// ```
/// use bay_market::Rule;
/// use bay_market::lent::{Cleared, Market, Results, clear_efficient};
///
/// // guest 2 is outbid at station 1, where its total becomes the floor, and is seated at station 2
/// let (amounts, tickets, bids) = (&[1, 1], &[1, 2], &[10, 0, 0, 0, 9, 5, 0, 0]);
/// let market = Market { asks: &[0, 0, 1, 1], bays: &[1; 4], amounts, tickets, bids, width: 4 };
/// let (mut stations, mut charges, mut sold, mut paid) = ([0; 2], [0; 2], [0; 4], [0; 4]);
/// let mut results = Results { stations: &mut stations, charges: &mut charges, sold: &mut sold, paid: &mut paid };
/// assert_eq!(clear_efficient(Rule::Median, &market, &mut results), Ok(Cleared { cut: 1, margin: 8 }));
/// assert_eq!((stations, charges, sold, paid), ([1, 2], [9, 1], [1, 1, 0, 0], [1, 1, 0, 0]));
/// ```
pub fn clear_efficient(rule: Rule, market: &Market, results: &mut Results) -> Result<Cleared, Refusal> {
    clear_by(Mechanism::Efficient, rule, market, results)
}

enum Mechanism {
    Truthful,
    Efficient,
}

fn clear_by(mechanism: Mechanism, rule: Rule, market: &Market, results: &mut Results) -> Result<Cleared, Refusal> {
    let Market { asks, bays, amounts, tickets, bids, width } = *market;
    let Results { stations, charges, sold, paid } = results;
    let mut cleared = Cleared { cut: 0, margin: 0 };
    let clear = match mechanism {
        Mechanism::Truthful => slices::clear,
        Mechanism::Efficient => slices::clear_efficient,
    };
    let answer = clear(
        rule.number(),
        asks,
        bays,
        amounts,
        tickets,
        bids,
        width,
        stations,
        charges,
        sold,
        paid,
        &mut cleared.cut,
        &mut cleared.margin,
    );
    Refusal::check(answer).map(|()| cleared)
}

/// Tells each guest what decided the truthful round by a rule, that of [`clear`]: a code for each guest and station, and
/// each guest's outcome.
///
/// ```
/// use bay_market::lent::{Explanation, Market, explain};
/// use bay_market::{Code, GuestOutcome, Reason, Rule};
///
/// let (amounts, tickets) = (&[3, 3], &[1, 2]);
/// let market = Market { asks: &[2, 6], bays: &[1, 1], amounts, tickets, bids: &[8, 0, 8, 0], width: 2 };
/// let (mut codes, mut stations, mut charges, mut reasons) = ([77; 4], [77; 2], [77; 2], [77; 2]);
/// let mut explanation =
///     Explanation { codes: &mut codes, stations: &mut stations, charges: &mut charges, reasons: &mut reasons };
/// assert_eq!(explain(Rule::Median, &market, &mut explanation), Ok(()));
/// assert_eq!((codes, stations, charges, reasons), ([0, 1, 4, 1], [1, 0], [24, 0], [0, 4]));
/// assert_eq!(Code::from_number(codes[2]), Some(Code::NotHeld(Reason::Outbid)));
/// let outcome = GuestOutcome::from_numbers(stations[0], charges[0], reasons[0]);
/// assert_eq!(outcome, Some(GuestOutcome::Win { station: 1, charge: 24 }));
/// ```
pub fn explain(rule: Rule, market: &Market, explanation: &mut Explanation) -> Result<(), Refusal> {
    let Market { asks, bays, amounts, tickets, bids, width } = *market;
    let Explanation { codes, stations, charges, reasons } = explanation;
    let rule = rule.number();
    Refusal::check(slices::explain(rule, asks, bays, amounts, tickets, bids, width, codes, stations, charges, reasons))
}

/// Tells what another row of bids would have done, in truthful rounds by a rule: a guest's gains by its bids in the market
/// and by the other row, where a kWh at each station has these worths to it, and a number of [`Change`](crate::Change) for
/// each guest, 0 for the guest itself. Guests are numbered from 1. Where its bids in the market are its worths, the second
/// gain is never the larger. The call takes up to [`MAX_STACK_TRY`](crate::MAX_STACK_TRY) bytes of stack.
///
/// ```
/// use bay_market::lent::{Gains, Market, try_row};
/// use bay_market::{Refusal, Rule};
///
/// // guest 2, to which a kWh at station 1 is worth 10, tries 14: it has the bay for guest 1's total of 27
/// let (amounts, tickets) = (&[3, 2], &[1, 2]);
/// let market = Market { asks: &[2, 6], bays: &[1, 1], amounts, tickets, bids: &[9, 0, 10, 0], width: 2 };
/// let mut changes = [77; 2];
/// assert_eq!(try_row(Rule::Median, &market, 3, &[10, 0], &[14, 0], &mut changes), Err(Refusal::NoSuchGuest));
/// assert_eq!(changes, [77; 2]);
/// let gains = try_row(Rule::Median, &market, 2, &[10, 0], &[14, 0], &mut changes);
/// assert_eq!((gains, changes), (Ok(Gains { first: 0, second: -7 }), [2, 0]));
/// ```
pub fn try_row(
    rule: Rule,
    market: &Market,
    guest: u32,
    worths: &[u32],
    row: &[u32],
    changes: &mut [u8],
) -> Result<Gains, Refusal> {
    let Market { asks, bays, amounts, tickets, bids, width } = *market;
    let mut gains = Gains { first: 0, second: 0 };
    let answer = slices::r#try(
        rule.number(),
        asks,
        bays,
        amounts,
        tickets,
        bids,
        width,
        guest,
        worths,
        row,
        changes,
        &mut gains.first,
        &mut gains.second,
    );
    Refusal::check(answer).map(|()| gains)
}

/// Gives a guest's price list in a truthful round by a rule: for each station the least total, bid times amount, with which
/// the guest holds a place there, [`NO_BAR`](crate::NO_BAR) where the station is not open, and its charge there, 0 where it
/// is not. Its own bids do not move the list. Guests are numbered from 1.
///
/// ```
/// use bay_market::lent::{Market, menu};
/// use bay_market::{NO_BAR, Refusal, Rule};
///
/// // guest 2 needs a total of 28 for the bay, since guest 1 wins a tie, and pays 27
/// let (amounts, tickets) = (&[3, 2], &[1, 2]);
/// let market = Market { asks: &[2, 6], bays: &[1, 1], amounts, tickets, bids: &[9, 0, 10, 0], width: 2 };
/// let (mut bars, mut prices) = ([77; 2], [77; 2]);
/// assert_eq!(menu(Rule::Median, &market, 3, &mut bars, &mut prices), Err(Refusal::NoSuchGuest));
/// assert_eq!((bars, prices), ([77; 2], [77; 2]));
/// assert_eq!(menu(Rule::Median, &market, 2, &mut bars, &mut prices), Ok(()));
/// assert_eq!((bars, prices), ([28, NO_BAR], [27, 0]));
/// ```
pub fn menu(rule: Rule, market: &Market, guest: u32, bars: &mut [u32], prices: &mut [u32]) -> Result<(), Refusal> {
    let Market { asks, bays, amounts, tickets, bids, width } = *market;
    let rule = rule.number();
    Refusal::check(slices::menu(rule, asks, bays, amounts, tickets, bids, width, guest, bars, prices))
}

/// Gives the gain of each of many rows of bids, one after the other: the second gain of [`try_row`] with that row. No row
/// gains more than one that is the worths.
///
/// ```
/// use bay_market::Rule;
/// use bay_market::lent::{Market, gains};
///
/// let (amounts, tickets) = (&[3, 2], &[1, 2]);
/// let market = Market { asks: &[2, 6], bays: &[1, 1], amounts, tickets, bids: &[9, 0, 10, 0], width: 2 };
/// let mut out = [77; 2];
/// assert_eq!(gains(Rule::Median, &market, 2, &[10, 0], &[10, 0, 14, 0], &mut out), Ok(()));
/// assert_eq!(out, [0, -7]);
/// ```
pub fn gains(rule: Rule, market: &Market, guest: u32, worths: &[u32], rows: &[u32], gains: &mut [i64]) -> Result<(), Refusal> {
    let Market { asks, bays, amounts, tickets, bids, width } = *market;
    let rule = rule.number();
    Refusal::check(slices::gains(rule, asks, bays, amounts, tickets, bids, width, guest, worths, rows, gains))
}

/// Clears a market by a rule as [`clear`] does, and gives the places and floors of that round besides.
///
/// ```
/// use bay_market::lent::{Cleared, FullResults, Market, clear_marked};
/// use bay_market::{Refusal, Rule};
///
/// // guest 2 has no place at station 1, and its total of 20 is the floor there
/// let (amounts, tickets) = (&[3, 2], &[1, 2]);
/// let market = Market { asks: &[2, 6], bays: &[1, 1], amounts, tickets, bids: &[9, 0, 10, 0], width: 2 };
/// let (mut stations, mut charges, mut sold, mut paid) = ([77; 2], [77; 2], [77; 2], [77; 2]);
/// let (mut places, mut floors) = ([77; 4], [77; 2]);
/// let mut results = FullResults {
///     stations: &mut stations,
///     charges: &mut charges,
///     sold: &mut sold,
///     paid: &mut paid,
///     places: &mut places,
///     floors: &mut floors,
/// };
/// assert_eq!(clear_marked(Rule::Median, &market, &mut results), Ok(Cleared { cut: 6, margin: 2 }));
/// assert_eq!((stations, charges, sold, paid), ([1, 0], [20, 0], [3, 0], [18, 0]));
/// assert_eq!((places, floors), ([1, 0, 0, 0], [20, 0]));
/// ```
pub fn clear_marked(rule: Rule, market: &Market, results: &mut FullResults) -> Result<Cleared, Refusal> {
    let Market { asks, bays, amounts, tickets, bids, width } = *market;
    let FullResults { stations, charges, sold, paid, places, floors } = results;
    let mut cleared = Cleared { cut: 0, margin: 0 };
    let answer = slices::clear_marked(
        rule.number(),
        asks,
        bays,
        amounts,
        tickets,
        bids,
        width,
        stations,
        charges,
        sold,
        paid,
        places,
        floors,
        &mut cleared.cut,
        &mut cleared.margin,
    );
    Refusal::check(answer).map(|()| cleared)
}

/// Marks a clearing that is handed in: whether all its numbers are those that [`clear_marked`] gives of the market by that
/// rule. A place of another value than 0 and 1 is a wrong number as any other.
///
/// ```
/// use bay_market::lent::{Market, Submission, mark};
/// use bay_market::{Refusal, Rule};
///
/// let (amounts, tickets) = (&[3, 2], &[1, 2]);
/// let market = Market { asks: &[2, 6], bays: &[1, 1], amounts, tickets, bids: &[9, 0, 10, 0], width: 2 };
/// let submission = Submission {
///     stations: &[1, 0],
///     charges: &[20, 0],
///     sold: &[3, 0],
///     paid: &[18, 0],
///     places: &[1, 0, 0, 0],
///     floors: &[20, 0],
///     cut: 6,
///     margin: 2,
/// };
/// assert_eq!(mark(Rule::Median, &market, &submission), Ok(true));
/// assert_eq!(mark(Rule::Median, &market, &Submission { floors: &[19, 0], ..submission }), Ok(false));
/// assert_eq!(mark(Rule::Median, &market, &Submission { places: &[2, 0, 0, 0], ..submission }), Ok(false));
/// assert_eq!(mark(Rule::Median, &market, &Submission { floors: &[20], ..submission }), Err(Refusal::LentLengths));
/// ```
pub fn mark(rule: Rule, market: &Market, submission: &Submission) -> Result<bool, Refusal> {
    let Market { asks, bays, amounts, tickets, bids, width } = *market;
    let Submission { stations, charges, sold, paid, places, floors, cut, margin } = *submission;
    let mut correct = 0;
    let answer = slices::mark(
        rule.number(),
        asks,
        bays,
        amounts,
        tickets,
        bids,
        width,
        stations,
        charges,
        sold,
        paid,
        places,
        floors,
        cut,
        margin,
        &mut correct,
    );
    Refusal::check(answer).map(|()| match correct {
        0 => false,
        1 => true,
        number => unreachable!("the engine gave mark {number}"),
    })
}

/// Clears a market by a rule as [`clear`] does and posts it to the ledger as a round of a desk.
///
/// ```
/// use bay_market::lent::{Ledger, Market, post};
/// use bay_market::{Desk, Refusal, Rule, StationAccount};
///
/// let (amounts, tickets) = (&[3, 3], &[1, 2]);
/// let market = Market { asks: &[2, 6], bays: &[1, 1], amounts, tickets, bids: &[8, 0, 8, 0], width: 2 };
/// let (mut guests, mut stations, mut house, mut last) = ([0; 2], [StationAccount::default(); 2], 0, [0; 8]);
/// let mut ledger = Ledger { guests: &mut guests, stations: &mut stations, house: &mut house, last: &mut last };
/// let [north, south, ..] = Desk::ALL;
/// assert_eq!(post(Rule::Median, &market, north, 1, &mut ledger), Ok(()));
/// assert_eq!(post(Rule::Median, &market, north, 1, &mut ledger), Err(Refusal::RoundOutOfTurn));
/// assert_eq!(post(Rule::Median, &market, south, 1, &mut ledger), Ok(()));
/// assert_eq!((guests, house, last), ([48, 0], 12, [1, 1, 0, 0, 0, 0, 0, 0]));
/// ```
pub fn post(rule: Rule, market: &Market, desk: Desk, round: u32, ledger: &mut Ledger) -> Result<(), Refusal> {
    let Market { asks, bays, amounts, tickets, bids, width } = *market;
    let Ledger { guests, stations, house, last } = ledger;
    let (rule, desk) = (rule.number(), desk.number());
    Refusal::check(slices::post(rule, asks, bays, amounts, tickets, bids, width, desk, round, guests, stations, house, last))
}
