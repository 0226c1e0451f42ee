//! Calls of each function of the static library, on memory that is watched: as C calls it, through the safe function
//! over slices, and through the types that own their lists.

pub mod menus;

use crate::lent::Lent;
use bay_market::c::{
    bay_market_clear, bay_market_clear_efficient, bay_market_clear_marked, bay_market_explain, bay_market_join, bay_market_mark,
    bay_market_place_bids, bay_market_post, bay_market_read, bay_market_read_csv, bay_market_try, bay_market_write,
};
use bay_market::{
    Cell, Change, Code, Desk, MAX_BIDS, MAX_DESKS, MAX_GUESTS, MAX_SHEET, MAX_STATIONS, Reason, Refusal, Rule, StationAccount,
    lent,
};
use reference::clearing::{self, Outcome};
use reference::explaining::{Explanation, GuestOutcome};
use reference::faults::{ExplanationLengths, FullLengths, ListLengths, OUTPUT_TOO_SHORT};
use reference::gates::joined_lengths;
use reference::ledger::Ledger;
use reference::market::Market;
use reference::marking::{FullOutcome, Submission};
use reference::other_rows::{OtherRow, Tried};
use reference::places::Places;
use reference::random::Random;
use reference::sheet::{GREATEST, TableLengths};
use std::sync::OnceLock;

/// The lent tables of a market.
struct Tables {
    asks: Lent<u32>,
    bays: Lent<u16>,
    amounts: Lent<u16>,
    tickets: Lent<u32>,
    bids: Lent<u32>,
}

impl Tables {
    fn of(random: &mut Random, market: &Market) -> Tables {
        Tables {
            asks: Lent::holding(random, &market.asks),
            bays: Lent::holding(random, &market.bays),
            amounts: Lent::holding(random, &market.amounts),
            tickets: Lent::holding(random, &market.tickets),
            bids: Lent::holding(random, &market.bids),
        }
    }

    fn lend(&mut self, width: usize) -> lent::Market<'_> {
        lent::Market {
            asks: self.asks.slice(),
            bays: self.bays.slice(),
            amounts: self.amounts.slice(),
            tickets: self.tickets.slice(),
            bids: self.bids.slice(),
            width,
        }
    }

    fn untouched(&self) -> bool {
        let guests = self.amounts.untouched() && self.tickets.untouched() && self.bids.untouched();
        guests && self.asks.untouched() && self.bays.untouched()
    }
}

/// By which way a function is called.
#[derive(Clone, Copy, Debug, PartialEq, Eq)]
pub enum Way {
    C,
    Slices,
    Owned,
}

pub const WAYS: [(&str, Way); 3] = [("c", Way::C), ("slices", Way::Slices), ("owned", Way::Owned)];

/// The one way that is gone, or all.
static ONLY: OnceLock<Way> = OnceLock::new();

/// From now on only one way is gone.
pub fn only(way: Way) {
    ONLY.set(way).expect("one way");
}

/// A mismatch, in words.
fn require(holds: bool, what: &str) -> Result<(), String> {
    if holds { Ok(()) } else { Err(what.to_string()) }
}

fn require_answer<T>(answer: u8, expected: &Result<T, u8>) -> Result<(), String> {
    let number = expected.as_ref().err().copied().unwrap_or(0);
    require(answer == number, &format!("answered {answer}, expected {number}"))
}

/// A safe function's answer by its number, its numbers handed to `keep`.
fn numbered<T>(answer: Result<T, Refusal>, keep: impl FnOnce(T)) -> u8 {
    answer.map(keep).map_or_else(Refusal::number, |()| 0)
}

/// Runs a call by each way.
fn each_way(mut call: impl FnMut(Way) -> Result<(), String>) -> Result<(), String> {
    let gone = WAYS.iter().filter(|(_, way)| ONLY.get().is_none_or(|only| only == way));
    gone.into_iter().try_for_each(|(name, way)| call(*way).map_err(|what| format!("{what} ({name})")))
}

/// What a market is read from.
#[derive(Clone, Copy, Debug, PartialEq, Eq)]
pub enum Form {
    Sheet,
    Csv,
}

impl Form {
    /// The reader, by the types that own their lists.
    fn read(self, bytes: &[u8]) -> Result<bay_market::Market, Refusal> {
        match self {
            Form::Sheet => bay_market::Market::read(bytes),
            Form::Csv => bay_market::Market::from_csv(bytes),
        }
    }

    /// The reader over slices.
    fn read_slices(self, bytes: &[u8], tables: &mut lent::Tables) -> Result<lent::Counts, Refusal> {
        match self {
            Form::Sheet => lent::read(bytes, tables),
            Form::Csv => lent::read_csv(bytes, tables),
        }
    }
}

/// Reads a sheet or a text and holds answer and memory to what is expected.
pub fn read(
    form: Form,
    random: &mut Random,
    bytes: &[u8],
    lengths: TableLengths,
    expected: &Result<Market, u8>,
) -> Result<(), String> {
    each_way(|way| match way {
        Way::C => read_lent(way, form, random, bytes, lengths, expected),
        _ if lengths != GREATEST => Ok(()), // the types do not let it happen
        Way::Slices => read_lent(way, form, random, bytes, lengths, expected),
        Way::Owned => {
            let read = form.read(bytes).map_err(Refusal::number);
            require(read == expected.as_ref().map(own).map_err(|&number| number), "the owned market differs")
        }
    })
}

#[rustfmt::skip] // pointer and length on one line
fn read_lent(
    way: Way, form: Form, random: &mut Random, bytes: &[u8], lengths: TableLengths, expected: &Result<Market, u8>,
) -> Result<(), String> {
    let in_c = match form {
        Form::Sheet => bay_market_read,
        Form::Csv => bay_market_read_csv,
    };
    let mut bytes: Lent<u8> = Lent::holding(random, bytes);
    let mut amounts: Lent<u16> = Lent::noise(random, lengths.amounts);
    let mut tickets: Lent<u32> = Lent::noise(random, lengths.tickets);
    let mut asks: Lent<u32> = Lent::noise(random, lengths.asks);
    let mut bays: Lent<u16> = Lent::noise(random, lengths.bays);
    let mut bids: Lent<u32> = Lent::noise(random, lengths.bids);
    let mut n: Lent<u16> = Lent::noise(random, 1);
    let mut m: Lent<u16> = Lent::noise(random, 1);
    let answer = match way {
        // SAFETY: each pointer and length is that of a lent part of a vector of its own.
        Way::C => unsafe {
            in_c(
                bytes.pointer(), bytes.len(),
                amounts.pointer(), amounts.len(),
                tickets.pointer(), tickets.len(),
                asks.pointer(), asks.len(),
                bays.pointer(), bays.len(),
                bids.pointer(), bids.len(),
                n.pointer(), m.pointer(),
            )
        },
        _ => {
            let size = "a table of the greatest size";
            let mut tables = lent::Tables {
                amounts: amounts.slice().try_into().expect(size),
                tickets: tickets.slice().try_into().expect(size),
                asks: asks.slice().try_into().expect(size),
                bays: bays.slice().try_into().expect(size),
                bids: bids.slice().try_into().expect(size),
            };
            numbered(form.read_slices(bytes.slice(), &mut tables), |counts| {
                *n.number() = counts.guests;
                *m.number() = counts.stations;
            })
        }
    };
    require_answer(answer, expected)?;
    require(bytes.untouched(), "what is read was written")?;
    let Ok(market) = expected else {
        let guests = amounts.untouched() && tickets.untouched() && bids.untouched() && n.untouched();
        return require(guests && asks.untouched() && bays.untouched() && m.untouched(), "a refused call wrote");
    };
    require(n.holds([market.guests() as u16]), "n differs")?;
    require(m.holds([market.stations() as u16]), "m differs")?;
    require(amounts.holds(market.amounts.iter().copied()), "amounts differ")?;
    require(tickets.holds(market.tickets.iter().copied()), "tickets differ")?;
    require(asks.holds(market.asks.iter().copied()), "asks differ")?;
    require(bays.holds(market.bays.iter().copied()), "bays differ")?;
    require(bids.holds(market.bids.iter().copied()), "bids differ")
}

/// Writes a market's sheet into an output of so many bytes and holds answer and memory to what is expected.
pub fn write(random: &mut Random, market: &Market, output: usize, expected: &Result<Vec<u8>, u8>) -> Result<(), String> {
    each_way(|way| match way {
        Way::C | Way::Slices => write_lent(way, random, market, output, expected),
        Way::Owned if market.width != market.stations() || *expected == Err(OUTPUT_TOO_SHORT) => Ok(()),
        Way::Owned => require(own(market).to_sheet().map_err(Refusal::number) == *expected, "the owned sheet differs"),
    })
}

#[rustfmt::skip] // pointer and length on one line
fn write_lent(
    way: Way, random: &mut Random, market: &Market, output: usize, expected: &Result<Vec<u8>, u8>,
) -> Result<(), String> {
    let mut tables = Tables::of(random, market);
    let mut sheet: Lent<u8> = Lent::noise(random, output);
    let mut length: Lent<usize> = Lent::noise(random, 1);
    let answer = match way {
        // SAFETY: as in `read_lent`.
        Way::C => unsafe {
            bay_market_write(
                tables.asks.pointer(), tables.asks.len(),
                tables.bays.pointer(), tables.bays.len(),
                tables.amounts.pointer(), tables.amounts.len(),
                tables.tickets.pointer(), tables.tickets.len(),
                tables.bids.pointer(), tables.bids.len(),
                market.width,
                sheet.pointer(), sheet.len(),
                length.pointer(),
            )
        },
        _ => numbered(lent::write(&tables.lend(market.width), sheet.slice()), |written| *length.number() = written),
    };
    require_answer(answer, expected)?;
    require(tables.untouched(), "the market was written")?;
    let Ok(written) = expected else {
        return require(sheet.untouched() && length.untouched(), "a refused call wrote");
    };
    require(length.holds([written.len()]), "the length differs")?;
    require(sheet.holds(written.iter().copied()), "the sheet, or what follows it, differs")
}

/// Reads a sheet that states an accepted market and writes what was read, and does so again with what was written. The
/// engine is held to nothing but itself.
pub fn round_trip(sheet: &[u8]) -> Result<(), String> {
    each_way(|way| {
        let first = read_and_write(way, sheet)?;
        let second = read_and_write(way, &first.1)?;
        require_trip(sheet, &first, &second)
    })
}

/// A market that was read, and the sheet that was written of it.
type Passed = (bay_market::Market, Vec<u8>);

fn require_trip(sheet: &[u8], (market, first): &Passed, (again, second): &Passed) -> Result<(), String> {
    require(first == sheet, "what was written differs from the sheet")?;
    require(again == market, "the second reading differs")?;
    require(second == first, "the second writing differs")
}

#[rustfmt::skip] // pointer and length on one line
fn read_and_write(way: Way, sheet: &[u8]) -> Result<Passed, String> {
    let accepted = |answer| require_answer::<()>(answer, &Ok(()));
    let read = read_by(way, Form::Sheet, sheet)?;
    let mut written = Vec::new();
    if way == Way::Owned {
        accepted(numbered(read.to_sheet(), |sheet| written = sheet))?;
        return Ok((read, written));
    }
    let market = read.lend();
    written.resize(MAX_SHEET, 0xFF);
    let mut length = 0;
    accepted(match way {
        // SAFETY: each pointer and length is that of a list.
        Way::C => unsafe {
            bay_market_write(
                market.asks.as_ptr(), market.asks.len(),
                market.bays.as_ptr(), market.bays.len(),
                market.amounts.as_ptr(), market.amounts.len(),
                market.tickets.as_ptr(), market.tickets.len(),
                market.bids.as_ptr(), market.bids.len(),
                market.width,
                written.as_mut_ptr(), written.len(),
                &mut length,
            )
        },
        _ => numbered(lent::write(&market, &mut written), |count| length = count),
    })?;
    require(length <= MAX_SHEET, "the length is beyond the output")?;
    written.truncate(length);
    Ok((read, written))
}

/// The market that a sheet or a text states, which is to be read.
#[rustfmt::skip] // pointer and length on one line
fn read_by(way: Way, form: Form, bytes: &[u8]) -> Result<bay_market::Market, String> {
    let accepted = |answer| require_answer::<()>(answer, &Ok(()));
    let mut read = bay_market::Market::default();
    if way == Way::Owned {
        accepted(numbered(form.read(bytes), |market| read = market))?;
        return Ok(read);
    }
    let in_c = match form {
        Form::Sheet => bay_market_read,
        Form::Csv => bay_market_read_csv,
    };
    let (amounts, tickets) = (&mut [77; MAX_GUESTS], &mut [77; MAX_GUESTS]);
    let (asks, bays, bids) = (&mut [77; MAX_STATIONS], &mut [77; MAX_STATIONS], &mut [77; MAX_BIDS]);
    let mut tables = lent::Tables { amounts, tickets, asks, bays, bids };
    let mut counts = lent::Counts { guests: 0, stations: 0 };
    accepted(match way {
        // SAFETY: each pointer and length is that of an array.
        Way::C => unsafe {
            in_c(
                bytes.as_ptr(), bytes.len(),
                tables.amounts.as_mut_ptr(), tables.amounts.len(),
                tables.tickets.as_mut_ptr(), tables.tickets.len(),
                tables.asks.as_mut_ptr(), tables.asks.len(),
                tables.bays.as_mut_ptr(), tables.bays.len(),
                tables.bids.as_mut_ptr(), tables.bids.len(),
                &mut counts.guests, &mut counts.stations,
            )
        },
        _ => numbered(form.read_slices(bytes, &mut tables), |read| counts = read),
    })?;
    let market = tables.market(counts);
    Ok(bay_market::Market {
        asks: market.asks.to_vec(), bays: market.bays.to_vec(),
        amounts: market.amounts.to_vec(), tickets: market.tickets.to_vec(), bids: market.bids.to_vec(),
    })
}

/// Reads a text that states a market, and clears by a rule what was read and the market as its tables have it.
pub fn csv_trip(rule: Rule, market: &Market, text: &[u8]) -> Result<(), String> {
    each_way(|way| {
        let read = read_by(way, Form::Csv, text)?;
        require(read == own(market), "what was read differs from the market")?;
        require(read.clear(rule) == own(market).clear(rule), "the clearings differ")?;
        require(read.to_sheet() == own(market).to_sheet(), "the sheets differ")
    })
}

/// Places bids in a table of so many places and holds answer and memory to what is expected.
pub fn place_bids(random: &mut Random, places: &Places, table: usize, expected: &Result<Vec<u32>, u8>) -> Result<(), String> {
    each_way(|way| match way {
        Way::C | Way::Slices => place_bids_lent(way, random, places, table, expected),
        Way::Owned => match own_places(places) {
            Some(owned) if table == places.guests() * places.stations() => {
                require(owned.bids().map_err(Refusal::number) == *expected, "the owned bids differ")
            }
            _ => Ok(()), // the types do not let it happen
        },
    })
}

#[rustfmt::skip] // pointer and length on one line
fn place_bids_lent(
    way: Way, random: &mut Random, places: &Places, table: usize, expected: &Result<Vec<u32>, u8>,
) -> Result<(), String> {
    let mut prices: Lent<u32> = Lent::holding(random, &places.prices);
    let mut falls: Lent<u32> = Lent::holding(random, &places.falls);
    let mut guest_first: Lent<u16> = Lent::holding(random, &places.guest_first);
    let mut guest_second: Lent<u16> = Lent::holding(random, &places.guest_second);
    let mut station_first: Lent<u16> = Lent::holding(random, &places.station_first);
    let mut station_second: Lent<u16> = Lent::holding(random, &places.station_second);
    let mut bids: Lent<u32> = Lent::noise(random, table);
    let answer = match way {
        // SAFETY: as in `read_lent`.
        Way::C => unsafe {
            bay_market_place_bids(
                prices.pointer(), prices.len(),
                falls.pointer(), falls.len(),
                guest_first.pointer(), guest_first.len(),
                guest_second.pointer(), guest_second.len(),
                station_first.pointer(), station_first.len(),
                station_second.pointer(), station_second.len(),
                bids.pointer(), bids.len(),
            )
        },
        _ => {
            let places = lent::Places {
                prices: prices.slice(), falls: falls.slice(),
                guest_first: guest_first.slice(), guest_second: guest_second.slice(),
                station_first: station_first.slice(), station_second: station_second.slice(),
            };
            numbered(lent::place_bids(&places, bids.slice()), |()| ())
        }
    };
    require_answer(answer, expected)?;
    let guests = prices.untouched() && falls.untouched() && guest_first.untouched() && guest_second.untouched();
    require(guests && station_first.untouched() && station_second.untouched(), "the places were written")?;
    match expected {
        Ok(placed) => require(bids.holds(placed.iter().copied()), "bids differ"),
        Err(_) => require(bids.untouched(), "a refused call wrote"),
    }
}

/// Joins two markets into tables of these lengths and holds answer and memory to what is expected.
pub fn join(
    random: &mut Random,
    first: &Market,
    second: &Market,
    lengths: TableLengths,
    expected: &Result<Market, u8>,
) -> Result<(), String> {
    each_way(|way| match way {
        Way::C | Way::Slices => join_lent(way, random, first, second, lengths, expected),
        Way::Owned if first.width != first.stations() || second.width != second.stations() => Ok(()),
        Way::Owned if lengths != joined_lengths(first, second) => Ok(()), // the types do not let it happen
        Way::Owned => {
            let joined = own(first).join(&own(second)).map_err(Refusal::number);
            require(joined == expected.as_ref().map(own).map_err(|&number| number), "the owned market differs")
        }
    })
}

#[rustfmt::skip] // pointer and length on one line
fn join_lent(
    way: Way, random: &mut Random, first: &Market, second: &Market, lengths: TableLengths, expected: &Result<Market, u8>,
) -> Result<(), String> {
    let (mut one, mut two) = (Tables::of(random, first), Tables::of(random, second));
    let mut asks: Lent<u32> = Lent::noise(random, lengths.asks);
    let mut bays: Lent<u16> = Lent::noise(random, lengths.bays);
    let mut amounts: Lent<u16> = Lent::noise(random, lengths.amounts);
    let mut tickets: Lent<u32> = Lent::noise(random, lengths.tickets);
    let mut bids: Lent<u32> = Lent::noise(random, lengths.bids);
    let answer = match way {
        // SAFETY: as in `read_lent`.
        Way::C => unsafe {
            bay_market_join(
                one.asks.pointer(), one.asks.len(),
                one.bays.pointer(), one.bays.len(),
                one.amounts.pointer(), one.amounts.len(),
                one.tickets.pointer(), one.tickets.len(),
                one.bids.pointer(), one.bids.len(),
                first.width,
                two.asks.pointer(), two.asks.len(),
                two.bays.pointer(), two.bays.len(),
                two.amounts.pointer(), two.amounts.len(),
                two.tickets.pointer(), two.tickets.len(),
                two.bids.pointer(), two.bids.len(),
                second.width,
                asks.pointer(), asks.len(),
                bays.pointer(), bays.len(),
                amounts.pointer(), amounts.len(),
                tickets.pointer(), tickets.len(),
                bids.pointer(), bids.len(),
            )
        },
        _ => {
            let mut joined = lent::Joined {
                asks: asks.slice(), bays: bays.slice(), amounts: amounts.slice(), tickets: tickets.slice(),
                bids: bids.slice(),
            };
            numbered(lent::join(&one.lend(first.width), &two.lend(second.width), &mut joined), |()| ())
        }
    };
    require_answer(answer, expected)?;
    require(one.untouched() && two.untouched(), "a market was written")?;
    match expected {
        Ok(market) => {
            let guests = amounts.holds(market.amounts.iter().copied()) && tickets.holds(market.tickets.iter().copied());
            let stations = asks.holds(market.asks.iter().copied()) && bays.holds(market.bays.iter().copied());
            require(guests && stations && bids.holds(market.bids.iter().copied()), "joined tables differ")
        }
        Err(_) => {
            let guests = amounts.untouched() && tickets.untouched() && bids.untouched();
            require(guests && asks.untouched() && bays.untouched(), "a refused call wrote")
        }
    }
}

/// By which mechanism a market is cleared.
#[derive(Clone, Copy, Debug, PartialEq, Eq)]
pub enum Mechanism {
    Truthful,
    Efficient,
}

impl Mechanism {
    /// The reference's clearing of an accepted market.
    pub fn expected(self, rule: u8, market: &Market) -> Outcome {
        match self {
            Mechanism::Truthful => clearing::clear(rule, market),
            Mechanism::Efficient => clearing::clear_efficient(rule, market),
        }
    }

    /// The engine's clearing, by the types that own their lists.
    pub fn clear(self, rule: Rule, market: &Market) -> Result<bay_market::Clearing, u8> {
        let cleared = match self {
            Mechanism::Truthful => own(market).clear(rule),
            Mechanism::Efficient => own(market).clear_efficient(rule),
        };
        cleared.map_err(Refusal::number)
    }
}

/// What a clearing is lent: the number of a rule, a market, and result lists of these lengths.
#[derive(Clone, Copy)]
pub struct Clearing<'a> {
    pub mechanism: Mechanism,
    pub rule: u8,
    pub market: &'a Market,
    pub lists: ListLengths,
}

/// Clears a market and holds answer and memory to what is expected.
pub fn clear(random: &mut Random, clearing: Clearing, expected: &Result<Outcome, u8>) -> Result<(), String> {
    let Clearing { mechanism, rule, market, lists } = clearing;
    each_way(|way| match (way, Rule::from_number(rule)) {
        (Way::C, _) | (Way::Slices, Some(_)) => clear_lent(way, random, clearing, expected),
        (_, None) => Ok(()), // the types do not let it happen
        (Way::Owned, _) if market.width != market.stations() || lists != ListLengths::of(market) => Ok(()),
        (Way::Owned, Some(rule)) => {
            let expected = expected.as_ref().map(own_outcome).map_err(|&number| number);
            require(mechanism.clear(rule, market) == expected, "the owned clearing differs")
        }
    })
}

#[rustfmt::skip] // pointer and length on one line
fn clear_lent(way: Way, random: &mut Random, clearing: Clearing, expected: &Result<Outcome, u8>) -> Result<(), String> {
    let Clearing { mechanism, rule, market, lists } = clearing;
    let in_c = match mechanism {
        Mechanism::Truthful => bay_market_clear,
        Mechanism::Efficient => bay_market_clear_efficient,
    };
    let in_slices = match mechanism {
        Mechanism::Truthful => lent::clear,
        Mechanism::Efficient => lent::clear_efficient,
    };
    let mut tables = Tables::of(random, market);
    let mut stations: Lent<u16> = Lent::noise(random, lists.stations);
    let mut charges: Lent<u32> = Lent::noise(random, lists.charges);
    let mut sold: Lent<u32> = Lent::noise(random, lists.sold);
    let mut paid: Lent<u64> = Lent::noise(random, lists.paid);
    let mut cut: Lent<u32> = Lent::noise(random, 1);
    let mut margin: Lent<u64> = Lent::noise(random, 1);
    let answer = match way {
        // SAFETY: as in `read_lent`.
        Way::C => unsafe {
            in_c(
                rule,
                tables.asks.pointer(), tables.asks.len(),
                tables.bays.pointer(), tables.bays.len(),
                tables.amounts.pointer(), tables.amounts.len(),
                tables.tickets.pointer(), tables.tickets.len(),
                tables.bids.pointer(), tables.bids.len(),
                market.width,
                stations.pointer(), stations.len(),
                charges.pointer(), charges.len(),
                sold.pointer(), sold.len(),
                paid.pointer(), paid.len(),
                cut.pointer(), margin.pointer(),
            )
        },
        _ => {
            let mut results = lent::Results {
                stations: stations.slice(), charges: charges.slice(), sold: sold.slice(), paid: paid.slice(),
            };
            numbered(in_slices(known(rule), &tables.lend(market.width), &mut results), |cleared| {
                *cut.number() = cleared.cut;
                *margin.number() = cleared.margin;
            })
        }
    };
    require_answer(answer, expected)?;
    require(tables.untouched(), "the market was written")?;
    let Ok(outcome) = expected else {
        let lists = stations.untouched() && charges.untouched() && sold.untouched() && paid.untouched();
        return require(lists && cut.untouched() && margin.untouched(), "a refused call wrote");
    };
    require(cut.holds([narrow(outcome.cut)]), "the cut differs")?;
    require(margin.holds([narrow(outcome.margin)]), "the margin differs")?;
    require(stations.holds(outcome.stations.iter().map(|&station| station as u16)), "stations differ")?;
    require(charges.holds(outcome.charges.iter().map(|&charge| narrow(charge))), "charges differ")?;
    require(sold.holds(outcome.sold.iter().map(|&sold| narrow(sold))), "kWh sold differ")?;
    require(paid.holds(outcome.paid.iter().map(|&paid| narrow(paid))), "payments differ")
}

/// The rule of a number that names one.
fn known(rule: u8) -> Rule {
    Rule::from_number(rule).expect("a rule")
}

/// What an explanation is lent: the number of a rule, a market, and lists of these lengths.
#[derive(Clone, Copy)]
pub struct Explaining<'a> {
    pub rule: u8,
    pub market: &'a Market,
    pub lists: ExplanationLengths,
}

/// Tells what decided and holds answer and memory to what is expected.
pub fn explain(random: &mut Random, explaining: Explaining, expected: &Result<Explanation, u8>) -> Result<(), String> {
    let Explaining { rule, market, lists } = explaining;
    each_way(|way| match (way, Rule::from_number(rule)) {
        (Way::C, _) | (Way::Slices, Some(_)) => explain_lent(way, random, explaining, expected),
        (_, None) => Ok(()), // the types do not let it happen
        (Way::Owned, _) if market.width != market.stations() || lists != ExplanationLengths::of(market) => Ok(()),
        (Way::Owned, Some(rule)) => {
            let expected = expected.as_ref().map(own_explanation).map_err(|&number| number);
            require(own(market).explain(rule).map_err(Refusal::number) == expected, "the owned explanation differs")
        }
    })
}

#[rustfmt::skip] // pointer and length on one line
fn explain_lent(
    way: Way, random: &mut Random, explaining: Explaining, expected: &Result<Explanation, u8>,
) -> Result<(), String> {
    let Explaining { rule, market, lists } = explaining;
    let mut tables = Tables::of(random, market);
    let mut codes: Lent<u8> = Lent::noise(random, lists.codes);
    let mut stations: Lent<u16> = Lent::noise(random, lists.stations);
    let mut charges: Lent<u32> = Lent::noise(random, lists.charges);
    let mut reasons: Lent<u8> = Lent::noise(random, lists.reasons);
    let answer = match way {
        // SAFETY: as in `read_lent`.
        Way::C => unsafe {
            bay_market_explain(
                rule,
                tables.asks.pointer(), tables.asks.len(),
                tables.bays.pointer(), tables.bays.len(),
                tables.amounts.pointer(), tables.amounts.len(),
                tables.tickets.pointer(), tables.tickets.len(),
                tables.bids.pointer(), tables.bids.len(),
                market.width,
                codes.pointer(), codes.len(),
                stations.pointer(), stations.len(),
                charges.pointer(), charges.len(),
                reasons.pointer(), reasons.len(),
            )
        },
        _ => {
            let mut explanation = lent::Explanation {
                codes: codes.slice(), stations: stations.slice(), charges: charges.slice(), reasons: reasons.slice(),
            };
            numbered(lent::explain(known(rule), &tables.lend(market.width), &mut explanation), |()| ())
        }
    };
    require_answer(answer, expected)?;
    require(tables.untouched(), "the market was written")?;
    let Ok(explanation) = expected else {
        let outcomes = stations.untouched() && charges.untouched() && reasons.untouched();
        return require(codes.untouched() && outcomes, "a refused call wrote");
    };
    let outcomes: Vec<(u16, u32, u8)> = explanation.outcomes.iter().map(outcome_numbers).collect();
    require(codes.holds(explanation.codes.iter().copied()), "codes differ")?;
    require(stations.holds(outcomes.iter().map(|outcome| outcome.0)), "stations differ")?;
    require(charges.holds(outcomes.iter().map(|outcome| outcome.1)), "charges differ")?;
    require(reasons.holds(outcomes.iter().map(|outcome| outcome.2)), "reasons differ")
}

/// Station, charge and reason of an outcome: a win has reason 0, a loss station 0 and charge 0.
fn outcome_numbers(outcome: &GuestOutcome) -> (u16, u32, u8) {
    match *outcome {
        GuestOutcome::Win { station, charge } => (station as u16, narrow(charge), 0),
        GuestOutcome::Loss(code) => (0, 0, code),
    }
}

/// What the engine tells, as numbers.
#[derive(Clone, Debug)]
pub struct Told {
    pub codes: Vec<u8>,
    pub stations: Vec<u16>,
    pub charges: Vec<u32>,
    pub reasons: Vec<u8>,
}

/// What the engine tells of an accepted market, by each way, held to something.
pub fn tell(rule: Rule, market: &Market, hold: impl Fn(&Told) -> Result<(), String>) -> Result<(), String> {
    each_way(|way| hold(&tell_by(way, rule, market)?))
}

#[rustfmt::skip] // pointer and length on one line
fn tell_by(way: Way, rule: Rule, market: &Market) -> Result<Told, String> {
    let accepted = |answer| require_answer::<()>(answer, &Ok(()));
    let n = market.guests();
    let mut told = Told {
        codes: vec![77; n * market.stations()], stations: vec![77; n], charges: vec![77; n], reasons: vec![77; n],
    };
    accepted(match way {
        // SAFETY: each pointer and length is that of a vector.
        Way::C => unsafe {
            bay_market_explain(
                rule.number(),
                market.asks.as_ptr(), market.asks.len(),
                market.bays.as_ptr(), market.bays.len(),
                market.amounts.as_ptr(), market.amounts.len(),
                market.tickets.as_ptr(), market.tickets.len(),
                market.bids.as_ptr(), market.bids.len(),
                market.width,
                told.codes.as_mut_ptr(), told.codes.len(),
                told.stations.as_mut_ptr(), told.stations.len(),
                told.charges.as_mut_ptr(), told.charges.len(),
                told.reasons.as_mut_ptr(), told.reasons.len(),
            )
        },
        Way::Slices => {
            let mut explanation = lent::Explanation {
                codes: &mut told.codes, stations: &mut told.stations,
                charges: &mut told.charges, reasons: &mut told.reasons,
            };
            numbered(lent::explain(rule, &own(market).lend(), &mut explanation), |()| ())
        }
        Way::Owned => numbered(own(market).explain(rule), |explanation| {
            told.codes = explanation.codes.into_iter().map(Code::number).collect();
            let numbers = |outcome| match outcome {
                bay_market::GuestOutcome::Win { station, charge } => ((station, charge), 0),
                bay_market::GuestOutcome::Loss(reason) => ((0, 0), reason.number()),
            };
            let (seats, reasons): (Vec<(u16, u32)>, Vec<u8>) = explanation.outcomes.into_iter().map(numbers).unzip();
            (told.stations, told.charges) = seats.into_iter().unzip();
            told.reasons = reasons;
        }),
    })?;
    Ok(told)
}

/// What trying a row is lent: the number of a rule, a market, the other row, and a list of changes of this length.
#[derive(Clone, Copy)]
pub struct Trying<'a> {
    pub rule: u8,
    pub market: &'a Market,
    pub other: &'a OtherRow,
    pub changes: usize,
}

/// Tries a row and holds answer and memory to what is expected.
pub fn try_row(random: &mut Random, trying: Trying, expected: &Result<Tried, u8>) -> Result<(), String> {
    let Trying { rule, market, other, changes } = trying;
    each_way(|way| match (way, Rule::from_number(rule)) {
        (Way::C, _) | (Way::Slices, Some(_)) => try_lent(way, random, trying, expected),
        (_, None) => Ok(()), // the types do not let it happen
        (Way::Owned, _) if market.width != market.stations() || changes != market.guests() => Ok(()),
        (Way::Owned, Some(rule)) => {
            let tried = own(market).try_row(rule, other.guest, &other.worths, &other.row).map_err(Refusal::number);
            let expected = expected.as_ref().map(own_tried).map_err(|&number| number);
            require(tried == expected, "the owned answer differs")
        }
    })
}

#[rustfmt::skip] // pointer and length on one line
fn try_lent(way: Way, random: &mut Random, trying: Trying, expected: &Result<Tried, u8>) -> Result<(), String> {
    let Trying { rule, market, other, changes } = trying;
    let mut tables = Tables::of(random, market);
    let mut worths: Lent<u32> = Lent::holding(random, &other.worths);
    let mut row: Lent<u32> = Lent::holding(random, &other.row);
    let mut changes: Lent<u8> = Lent::noise(random, changes);
    let mut first: Lent<i64> = Lent::noise(random, 1);
    let mut second: Lent<i64> = Lent::noise(random, 1);
    let answer = match way {
        // SAFETY: as in `read_lent`.
        Way::C => unsafe {
            bay_market_try(
                rule,
                tables.asks.pointer(), tables.asks.len(),
                tables.bays.pointer(), tables.bays.len(),
                tables.amounts.pointer(), tables.amounts.len(),
                tables.tickets.pointer(), tables.tickets.len(),
                tables.bids.pointer(), tables.bids.len(),
                market.width, other.guest,
                worths.pointer(), worths.len(),
                row.pointer(), row.len(),
                changes.pointer(), changes.len(),
                first.pointer(), second.pointer(),
            )
        },
        _ => {
            let tables = tables.lend(market.width);
            let gains = lent::try_row(known(rule), &tables, other.guest, worths.slice(), row.slice(), changes.slice());
            numbered(gains, |gains| {
                *first.number() = gains.first;
                *second.number() = gains.second;
            })
        }
    };
    require_answer(answer, expected)?;
    require(tables.untouched() && worths.untouched() && row.untouched(), "the market, worths or row were written")?;
    let Ok(tried) = expected else {
        return require(changes.untouched() && first.untouched() && second.untouched(), "a refused call wrote");
    };
    require(first.holds([signed(tried.first_gain)]), "the first gain differs")?;
    require(second.holds([signed(tried.second_gain)]), "the second gain differs")?;
    require(changes.holds(tried.changes.iter().copied()), "changes differ")
}

/// What the engine tells of another row, as numbers.
#[derive(Clone, Debug)]
pub struct RowTold {
    pub gains: [i64; 2],
    pub changes: Vec<u8>,
}

/// What the engine tells of another row of an accepted market, by each way, held to something.
pub fn tell_row(
    rule: Rule,
    market: &Market,
    other: &OtherRow,
    hold: impl Fn(&RowTold) -> Result<(), String>,
) -> Result<(), String> {
    each_way(|way| hold(&tell_row_by(way, rule, market, other)?))
}

#[rustfmt::skip] // pointer and length on one line
pub fn tell_row_by(way: Way, rule: Rule, market: &Market, other: &OtherRow) -> Result<RowTold, String> {
    let mut told = RowTold { gains: [77; 2], changes: vec![77; market.guests()] };
    let [first, second] = &mut told.gains;
    let answer = match way {
        // SAFETY: each pointer and length is that of a vector or a number.
        Way::C => unsafe {
            bay_market_try(
                rule.number(),
                market.asks.as_ptr(), market.asks.len(),
                market.bays.as_ptr(), market.bays.len(),
                market.amounts.as_ptr(), market.amounts.len(),
                market.tickets.as_ptr(), market.tickets.len(),
                market.bids.as_ptr(), market.bids.len(),
                market.width, other.guest,
                other.worths.as_ptr(), other.worths.len(),
                other.row.as_ptr(), other.row.len(),
                told.changes.as_mut_ptr(), told.changes.len(),
                first, second,
            )
        },
        Way::Slices => {
            let market = own(market);
            let gains = lent::try_row(rule, &market.lend(), other.guest, &other.worths, &other.row, &mut told.changes);
            numbered(gains, |gains| told.gains = [gains.first, gains.second])
        }
        Way::Owned => numbered(own(market).try_row(rule, other.guest, &other.worths, &other.row), |tried| {
            told.gains = [tried.first_gain, tried.second_gain];
            told.changes = tried.changes.into_iter().map(Change::number).collect();
        }),
    };
    require_answer::<()>(answer, &Ok(()))?;
    Ok(told)
}

/// What a clearing with places and floors is lent: the number of a rule, a market, and lists of these lengths.
#[derive(Clone, Copy)]
pub struct FullClearing<'a> {
    pub rule: u8,
    pub market: &'a Market,
    pub lists: FullLengths,
}

/// Clears a market with places and floors and holds answer and memory to what is expected.
pub fn clear_marked(random: &mut Random, clearing: FullClearing, expected: &Result<FullOutcome, u8>) -> Result<(), String> {
    let FullClearing { rule, market, lists } = clearing;
    each_way(|way| match (way, Rule::from_number(rule)) {
        (Way::C, _) | (Way::Slices, Some(_)) => clear_marked_lent(way, random, clearing, expected),
        (_, None) => Ok(()), // the types do not let it happen
        (Way::Owned, _) if market.width != market.stations() || lists != FullLengths::of(market) => Ok(()),
        (Way::Owned, Some(rule)) => {
            let expected = expected.as_ref().map(|full| own_submission(&handed_in(full))).map_err(|&number| number);
            require(own(market).clear_marked(rule).map_err(Refusal::number) == expected, "the owned full clearing differs")
        }
    })
}

#[rustfmt::skip] // pointer and length on one line
fn clear_marked_lent(
    way: Way, random: &mut Random, clearing: FullClearing, expected: &Result<FullOutcome, u8>,
) -> Result<(), String> {
    let FullClearing { rule, market, lists } = clearing;
    let mut tables = Tables::of(random, market);
    let mut stations: Lent<u16> = Lent::noise(random, lists.stations);
    let mut charges: Lent<u32> = Lent::noise(random, lists.charges);
    let mut sold: Lent<u32> = Lent::noise(random, lists.sold);
    let mut paid: Lent<u64> = Lent::noise(random, lists.paid);
    let mut places: Lent<u8> = Lent::noise(random, lists.places);
    let mut floors: Lent<u32> = Lent::noise(random, lists.floors);
    let mut cut: Lent<u32> = Lent::noise(random, 1);
    let mut margin: Lent<u64> = Lent::noise(random, 1);
    let answer = match way {
        // SAFETY: as in `read_lent`.
        Way::C => unsafe {
            bay_market_clear_marked(
                rule,
                tables.asks.pointer(), tables.asks.len(),
                tables.bays.pointer(), tables.bays.len(),
                tables.amounts.pointer(), tables.amounts.len(),
                tables.tickets.pointer(), tables.tickets.len(),
                tables.bids.pointer(), tables.bids.len(),
                market.width,
                stations.pointer(), stations.len(),
                charges.pointer(), charges.len(),
                sold.pointer(), sold.len(),
                paid.pointer(), paid.len(),
                places.pointer(), places.len(),
                floors.pointer(), floors.len(),
                cut.pointer(), margin.pointer(),
            )
        },
        _ => {
            let mut results = lent::FullResults {
                stations: stations.slice(), charges: charges.slice(), sold: sold.slice(), paid: paid.slice(),
                places: places.slice(), floors: floors.slice(),
            };
            numbered(lent::clear_marked(known(rule), &tables.lend(market.width), &mut results), |cleared| {
                *cut.number() = cleared.cut;
                *margin.number() = cleared.margin;
            })
        }
    };
    require_answer(answer, expected)?;
    require(tables.untouched(), "the market was written")?;
    let Ok(full) = expected else {
        let results = stations.untouched() && charges.untouched() && sold.untouched() && paid.untouched();
        let besides = places.untouched() && floors.untouched() && cut.untouched() && margin.untouched();
        return require(results && besides, "a refused call wrote");
    };
    let expected = handed_in(full);
    require(cut.holds([expected.cut]), "the cut differs")?;
    require(margin.holds([expected.margin]), "the margin differs")?;
    require(stations.holds(expected.stations), "stations differ")?;
    require(charges.holds(expected.charges), "charges differ")?;
    require(sold.holds(expected.sold), "kWh sold differ")?;
    require(paid.holds(expected.paid), "payments differ")?;
    require(places.holds(expected.places), "places differ")?;
    require(floors.holds(expected.floors), "floors differ")
}

/// A mark: the number of a rule, a market, and what is handed in.
#[derive(Clone, Copy)]
pub struct Marking<'a> {
    pub rule: u8,
    pub market: &'a Market,
    pub submission: &'a Submission,
}

/// Marks what is handed in and holds answer and memory to what is expected.
pub fn mark(random: &mut Random, marking: Marking, expected: &Result<bool, u8>) -> Result<(), String> {
    let Marking { rule, market, submission } = marking;
    each_way(|way| match (way, Rule::from_number(rule)) {
        (Way::C, _) | (Way::Slices, Some(_)) => mark_lent(way, random, marking, expected),
        (_, None) => Ok(()), // the types do not let it happen
        (Way::Owned, _) if market.width != market.stations() => Ok(()),
        (Way::Owned, Some(rule)) => {
            let marked = own(market).mark(rule, &own_submission(submission)).map_err(Refusal::number);
            require(marked == *expected, "the owned mark differs")
        }
    })
}

#[rustfmt::skip] // pointer and length on one line
fn mark_lent(way: Way, random: &mut Random, marking: Marking, expected: &Result<bool, u8>) -> Result<(), String> {
    let Marking { rule, market, submission } = marking;
    let mut tables = Tables::of(random, market);
    let mut stations: Lent<u16> = Lent::holding(random, &submission.stations);
    let mut charges: Lent<u32> = Lent::holding(random, &submission.charges);
    let mut sold: Lent<u32> = Lent::holding(random, &submission.sold);
    let mut paid: Lent<u64> = Lent::holding(random, &submission.paid);
    let mut places: Lent<u8> = Lent::holding(random, &submission.places);
    let mut floors: Lent<u32> = Lent::holding(random, &submission.floors);
    let (cut, margin) = (submission.cut, submission.margin);
    let mut correct: Lent<u8> = Lent::noise(random, 1);
    let answer = match way {
        // SAFETY: as in `read_lent`.
        Way::C => unsafe {
            bay_market_mark(
                rule,
                tables.asks.pointer(), tables.asks.len(),
                tables.bays.pointer(), tables.bays.len(),
                tables.amounts.pointer(), tables.amounts.len(),
                tables.tickets.pointer(), tables.tickets.len(),
                tables.bids.pointer(), tables.bids.len(),
                market.width,
                stations.pointer(), stations.len(),
                charges.pointer(), charges.len(),
                sold.pointer(), sold.len(),
                paid.pointer(), paid.len(),
                places.pointer(), places.len(),
                floors.pointer(), floors.len(),
                cut, margin,
                correct.pointer(),
            )
        },
        _ => {
            let submission = lent::Submission {
                stations: stations.slice(), charges: charges.slice(), sold: sold.slice(), paid: paid.slice(),
                places: places.slice(), floors: floors.slice(), cut, margin,
            };
            let marked = lent::mark(known(rule), &tables.lend(market.width), &submission);
            numbered(marked, |marked| *correct.number() = u8::from(marked))
        }
    };
    require_answer(answer, expected)?;
    require(tables.untouched(), "the market was written")?;
    let results = stations.untouched() && charges.untouched() && sold.untouched() && paid.untouched();
    require(results && places.untouched() && floors.untouched(), "what is handed in was written")?;
    match expected {
        Ok(right) => require(correct.holds([u8::from(*right)]), "the mark differs"),
        Err(_) => require(correct.untouched(), "a refused call wrote"),
    }
}

/// What the engine gives of an accepted market, by each way, held to something that may go on by the same way.
pub fn hand_in(rule: Rule, market: &Market, mut hold: impl FnMut(Way, Submission) -> Result<(), String>) -> Result<(), String> {
    each_way(|way| hold(way, hand_in_by(way, rule, market)?))
}

/// The same by one way.
#[rustfmt::skip] // pointer and length on one line
pub fn hand_in_by(way: Way, rule: Rule, market: &Market) -> Result<Submission, String> {
    let (n, m) = (market.guests(), market.stations());
    let mut given = Submission {
        stations: vec![77; n], charges: vec![77; n], sold: vec![77; m], paid: vec![77; m],
        places: vec![77; n * m], floors: vec![77; m], cut: 77, margin: 77,
    };
    let answer = match way {
        // SAFETY: each pointer and length is that of a vector or a number.
        Way::C => unsafe {
            bay_market_clear_marked(
                rule.number(),
                market.asks.as_ptr(), market.asks.len(),
                market.bays.as_ptr(), market.bays.len(),
                market.amounts.as_ptr(), market.amounts.len(),
                market.tickets.as_ptr(), market.tickets.len(),
                market.bids.as_ptr(), market.bids.len(),
                market.width,
                given.stations.as_mut_ptr(), given.stations.len(),
                given.charges.as_mut_ptr(), given.charges.len(),
                given.sold.as_mut_ptr(), given.sold.len(),
                given.paid.as_mut_ptr(), given.paid.len(),
                given.places.as_mut_ptr(), given.places.len(),
                given.floors.as_mut_ptr(), given.floors.len(),
                &mut given.cut, &mut given.margin,
            )
        },
        Way::Slices => {
            let mut results = lent::FullResults {
                stations: &mut given.stations, charges: &mut given.charges, sold: &mut given.sold,
                paid: &mut given.paid, places: &mut given.places, floors: &mut given.floors,
            };
            numbered(lent::clear_marked(rule, &own(market).lend(), &mut results), |cleared| {
                (given.cut, given.margin) = (cleared.cut, cleared.margin);
            })
        }
        Way::Owned => numbered(own(market).clear_marked(rule), |full| {
            let bay_market::Submission { clearing, places, floors } = full;
            let bay_market::Clearing { cut, stations, charges, sold, paid, margin } = clearing;
            given = Submission { stations, charges, sold, paid, places, floors, cut, margin };
        }),
    };
    require_answer::<()>(answer, &Ok(()))?;
    Ok(given)
}

/// The engine's mark of what is handed in with an accepted market and lists that fit.
#[rustfmt::skip] // pointer and length on one line
pub fn mark_by(
    way: Way, rule: Rule, market: &bay_market::Market, submission: &Submission,
) -> Result<bool, String> {
    let lent = market.lend();
    let Submission { stations, charges, sold, paid, places, floors, cut, margin } = submission;
    let (cut, margin) = (*cut, *margin);
    let mut correct = 77;
    let answer = match way {
        // SAFETY: each pointer and length is that of a vector, and the number is one.
        Way::C => unsafe {
            bay_market_mark(
                rule.number(),
                lent.asks.as_ptr(), lent.asks.len(),
                lent.bays.as_ptr(), lent.bays.len(),
                lent.amounts.as_ptr(), lent.amounts.len(),
                lent.tickets.as_ptr(), lent.tickets.len(),
                lent.bids.as_ptr(), lent.bids.len(),
                lent.width,
                stations.as_ptr(), stations.len(),
                charges.as_ptr(), charges.len(),
                sold.as_ptr(), sold.len(),
                paid.as_ptr(), paid.len(),
                places.as_ptr(), places.len(),
                floors.as_ptr(), floors.len(),
                cut, margin,
                &mut correct,
            )
        },
        Way::Slices => {
            let submission = lent::Submission { stations, charges, sold, paid, places, floors, cut, margin };
            numbered(lent::mark(rule, &lent, &submission), |marked| correct = u8::from(marked))
        }
        Way::Owned => numbered(market.mark(rule, &own_submission(submission)), |marked| correct = u8::from(marked)),
    };
    require_answer::<()>(answer, &Ok(()))?;
    require(correct <= 1, &format!("the mark is {correct}"))?;
    Ok(correct == 1)
}

/// A posting to a ledger as it is before, and the ledger as it is to be after.
pub struct Posting<'a> {
    pub rule: u8,
    pub market: &'a Market,
    pub desk: u8,
    pub round: u32,
    pub before: &'a Ledger,
    pub expected: Result<(), u8>,
    pub after: &'a Ledger,
}

/// Posts a market and holds answer and memory to what is expected.
pub fn post(random: &mut Random, posting: &Posting) -> Result<(), String> {
    let Posting { rule, market, desk, round, before, expected, after } = *posting;
    let known = Rule::from_number(rule).zip(Desk::from_number(desk));
    each_way(|way| match (way, known) {
        (Way::C, _) | (Way::Slices, Some(_)) => post_lent(way, random, posting),
        (_, None) => Ok(()), // the types do not let it happen
        (Way::Owned, _) if market.width != market.stations() || before.last.len() != MAX_DESKS => Ok(()),
        (Way::Owned, Some((rule, desk))) => {
            let mut ledger = own_ledger(before);
            let answer = ledger.post(rule, &own(market), desk, round).map_err(Refusal::number);
            require(answer == expected && ledger == own_ledger(after), "the owned ledger differs")
        }
    })
}

#[rustfmt::skip] // pointer and length on one line
fn post_lent(way: Way, random: &mut Random, posting: &Posting) -> Result<(), String> {
    let Posting { rule, market, desk, round, before, expected, after } = *posting;
    let mut tables = Tables::of(random, market);
    let mut guests: Lent<u64> = Lent::holding(random, &guest_accounts(before));
    let mut stations: Lent<StationAccount> = Lent::holding(random, &station_accounts(before));
    let mut house: Lent<u64> = Lent::holding(random, &[narrow(before.house)]);
    let mut last: Lent<u32> = Lent::holding(random, &last_rounds(before));
    let answer = match way {
        // SAFETY: as in `read_lent`.
        Way::C => unsafe {
            bay_market_post(
                rule,
                tables.asks.pointer(), tables.asks.len(),
                tables.bays.pointer(), tables.bays.len(),
                tables.amounts.pointer(), tables.amounts.len(),
                tables.tickets.pointer(), tables.tickets.len(),
                tables.bids.pointer(), tables.bids.len(),
                market.width, desk, round,
                guests.pointer(), guests.len(),
                stations.pointer(), stations.len(),
                house.pointer(),
                last.pointer(), last.len(),
            )
        },
        _ => {
            let mut ledger = lent::Ledger {
                guests: guests.slice(), stations: stations.slice(), house: house.number(), last: last.slice(),
            };
            let desk = Desk::from_number(desk).expect("a desk");
            numbered(lent::post(known(rule), &tables.lend(market.width), desk, round, &mut ledger), |()| ())
        }
    };
    require_answer(answer, &expected)?;
    require(tables.untouched(), "the market was written")?;
    require(guests.holds(guest_accounts(after)), "guest accounts differ")?;
    require(stations.holds(station_accounts(after)), "station accounts differ")?;
    require(house.holds([narrow(after.house)]), "the house's account differs")?;
    require(last.holds(last_rounds(after)), "the last rounds differ")
}

fn last_rounds(ledger: &Ledger) -> Vec<u32> {
    ledger.last.iter().map(|&last| narrow(last)).collect()
}

fn guest_accounts(ledger: &Ledger) -> Vec<u64> {
    ledger.guests.iter().map(|&account| narrow(account)).collect()
}

fn station_accounts(ledger: &Ledger) -> Vec<StationAccount> {
    ledger.stations.iter().map(|account| StationAccount { sold: narrow(account.sold), paid: narrow(account.paid) }).collect()
}

/// The reference's market, outcome, explanation and ledger as those that the engine's crate owns.
pub fn own(market: &Market) -> bay_market::Market {
    bay_market::Market {
        asks: market.asks.clone(),
        bays: market.bays.clone(),
        amounts: market.amounts.clone(),
        tickets: market.tickets.clone(),
        bids: market.bids.clone(),
    }
}

/// The reference's places as the engine's crate owns them, where each cell has both coordinates.
pub fn own_places(places: &Places) -> Option<bay_market::Places> {
    let cells = |first: &[u16], second: &[u16]| {
        let cell = |(&first, &second)| Cell { first, second };
        (first.len() == second.len()).then(|| first.iter().zip(second).map(cell).collect())
    };
    Some(bay_market::Places {
        prices: places.prices.clone(),
        falls: places.falls.clone(),
        guests: cells(&places.guest_first, &places.guest_second)?,
        stations: cells(&places.station_first, &places.station_second)?,
    })
}

fn own_outcome(outcome: &Outcome) -> bay_market::Clearing {
    bay_market::Clearing {
        cut: narrow(outcome.cut),
        stations: outcome.stations.iter().map(|&station| station as u16).collect(),
        charges: outcome.charges.iter().map(|&charge| narrow(charge)).collect(),
        sold: outcome.sold.iter().map(|&sold| narrow(sold)).collect(),
        paid: outcome.paid.iter().map(|&paid| narrow(paid)).collect(),
        margin: narrow(outcome.margin),
    }
}

/// The reference's clearing with places and floors as it is handed in.
pub fn handed_in(full: &FullOutcome) -> Submission {
    let bay_market::Clearing { cut, stations, charges, sold, paid, margin } = own_outcome(&full.outcome);
    let floors = full.floors.iter().map(|&floor| narrow(floor)).collect();
    Submission { stations, charges, sold, paid, places: full.places.clone(), floors, cut, margin }
}

fn own_submission(submission: &Submission) -> bay_market::Submission {
    let Submission { stations, charges, sold, paid, places, floors, cut, margin } = submission.clone();
    bay_market::Submission { clearing: bay_market::Clearing { cut, stations, charges, sold, paid, margin }, places, floors }
}

fn own_explanation(explanation: &Explanation) -> bay_market::Explanation {
    let outcome = |outcome: &GuestOutcome| match *outcome {
        GuestOutcome::Win { station, charge } => {
            bay_market::GuestOutcome::Win { station: station as u16, charge: narrow(charge) }
        }
        GuestOutcome::Loss(code) => bay_market::GuestOutcome::Loss(Reason::from_number(code).expect("a reason")),
    };
    bay_market::Explanation {
        codes: explanation.codes.iter().map(|&code| Code::from_number(code).expect("a code")).collect(),
        outcomes: explanation.outcomes.iter().map(outcome).collect(),
    }
}

fn own_tried(tried: &Tried) -> bay_market::Tried {
    let change = |&number: &u8| Change::from_number(number).expect("a change");
    bay_market::Tried {
        first_gain: signed(tried.first_gain),
        second_gain: signed(tried.second_gain),
        changes: tried.changes.iter().map(change).collect(),
    }
}

fn own_ledger(ledger: &Ledger) -> bay_market::Ledger {
    bay_market::Ledger {
        guests: guest_accounts(ledger),
        stations: station_accounts(ledger),
        house: narrow(ledger.house),
        last: last_rounds(ledger).try_into().expect("eight desks"),
    }
}

/// A number of the reference at the engine's width.
fn narrow<T: TryFrom<u128>>(number: u128) -> T {
    T::try_from(number).ok().expect("the reference is beyond the engine's width")
}

/// A signed number of the reference at the engine's width.
fn signed(number: i128) -> i64 {
    i64::try_from(number).expect("the reference is beyond the engine's width")
}

#[cfg(test)]
mod tests {
    use super::*;

    #[test]
    fn every_fault_of_a_trip_is_seen() {
        let passed = |ask: u32, sheet: &[u8]| (bay_market::Market { asks: vec![ask], ..Default::default() }, sheet.to_vec());
        let says = |sheet: &[u8], first: Passed, second: Passed| require_trip(sheet, &first, &second).unwrap_err();
        assert_eq!(require_trip(&[1, 2], &passed(1, &[1, 2]), &passed(1, &[1, 2])), Ok(()));
        for sheet in [&[1][..], &[1, 3], &[1, 2, 3]] {
            assert!(says(&[1, 2], passed(1, sheet), passed(1, sheet)).contains("from the sheet"));
        }
        assert!(says(&[1], passed(1, &[1]), passed(2, &[1])).contains("reading"));
        assert!(says(&[1], passed(1, &[1]), passed(1, &[2])).contains("writing"));
    }
}
