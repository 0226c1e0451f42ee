//! Document 01's cases and limits and document 02's of tickets, quiet rounds and what decided, each market also through
//! its sheet; document 02's of parking places, two gates, comma-separated markets and marks.

use crate::clearing::{Outcome, clear, clear_efficient};
use crate::csv;
use crate::explaining::{GuestOutcome, GuestOutcome::Loss, explain};
use crate::faults::{
    ExplanationLengths, FullLengths, ListLengths, clearing_fault, explaining_fault, full_clearing_fault, market_fault,
};
use crate::gates::{join, joining_fault};
use crate::ledger::{Ledger, MAX_ACCOUNT, StationAccount};
use crate::market::Market;
use crate::marking::{Submission, clear_fully, mark};
use crate::other_rows::{OtherRow, Tried, try_row, trying_fault, with_row};
use crate::places::{Cell, Places, place_bids, placing_fault, squared_distance, walk};
use crate::report::Form;
use crate::sheet::{GREATEST, TableLengths, read, shortest, stating, write};
use crate::{report, samples};

/// A market with one bay at each station.
fn one_bay(asks: &[u32], amounts: &[u16], bids: &[u32]) -> Market {
    Market::numbered(asks, &vec![1; asks.len()], amounts, bids)
}

/// A market is accepted and is what its sheet states.
fn accepted(market: &Market) {
    assert_eq!(read(&shortest(market), GREATEST).as_ref(), Ok(market));
    let all = if market.bids.contains(&0) { Err(&19) } else { Ok(market) };
    assert_eq!(read(&stating(market, |_, _| true), GREATEST).as_ref(), all);
    assert_eq!(market_fault(market), Ok(()));
}

/// An accepted market clears to the given cut, stations, charges, (sold, paid), margin.
fn clears(market: &Market, cut: u128, stations: &[usize], charges: &[u128], sales: &[(u128, u128)], margin: u128) {
    accepted(market);
    is_outcome(clear(1, market), cut, stations, charges, sales, margin);
}

/// The same in a quiet round.
fn clears_quiet(market: &Market, cut: u128, stations: &[usize], charges: &[u128], sales: &[(u128, u128)], margin: u128) {
    accepted(market);
    is_outcome(clear_efficient(1, market), cut, stations, charges, sales, margin);
}

fn is_outcome(outcome: Outcome, cut: u128, stations: &[usize], charges: &[u128], sales: &[(u128, u128)], margin: u128) {
    assert_eq!(outcome.cut, cut);
    assert_eq!(outcome.stations, stations);
    assert_eq!(outcome.charges, charges);
    assert_eq!(outcome.sold.iter().copied().zip(outcome.paid).collect::<Vec<_>>(), sales);
    assert_eq!(outcome.margin, margin);
}

#[test]
fn cases_a_to_j() {
    let none = (0, 0);
    clears(&samples::table_i(), 3, &[4, 0, 2, 0, 0], &[15, 0, 18, 0, 0], &[none, (6, 18), none, (5, 15), none], 0);
    clears(&one_bay(&[5], &[1], &[9]), 5, &[0], &[0], &[none], 0);
    clears(&one_bay(&[2, 6], &[1], &[6, 0]), 6, &[1], &[6], &[(1, 6), none], 0);
    clears(&one_bay(&[2, 6], &[1], &[5, 0]), 6, &[0], &[0], &[none, none], 0);
    clears(&samples::case_e(), 6, &[1, 0], &[24, 0], &[(3, 18), none], 6);
    clears(&one_bay(&[2, 6], &[10, 2], &[7, 0, 20, 0]), 6, &[1, 0], &[60, 0], &[(10, 60), none], 0);
    clears(&one_bay(&[2, 6], &[3, 2], &[9, 0, 10, 0]), 6, &[1, 0], &[20, 0], &[(3, 18), none], 2);
    clears(&one_bay(&[4, 4], &[1], &[9, 9]), 4, &[0], &[0], &[none, none], 0);
    clears(&one_bay(&[2, 6], &[], &[]), 6, &[], &[], &[none, none], 0);
    clears(&one_bay(&[1, 1, 6, 6], &[1], &[8, 8, 0, 0]), 6, &[1], &[6], &[(1, 6), none, none, none], 0);
}

#[test]
fn a_guest_seated_elsewhere_still_sets_the_floor() {
    // guest 1 holds station 2's place, and is the first candidate without a place at station 1
    let market = one_bay(&[1, 1, 2, 2], &[1, 1], &[5, 9, 0, 0, 7, 0, 0, 0]);
    clears(&market, 2, &[2, 1], &[2, 5], &[(1, 2), (1, 2), (0, 0), (0, 0)], 3);
}

/// Four guests with one total for two bays, with these tickets.
fn tied(tickets: [u32; 4]) -> Market {
    Market::new(&[2, 6], &[2, 1], &[3; 4], &tickets, &[8, 0, 8, 0, 8, 0, 8, 0])
}

#[test]
fn of_equal_totals_the_lower_ticket_stands_first() {
    let case_e = Market { tickets: vec![9, 4], ..samples::case_e() };
    clears(&case_e, 6, &[0, 1], &[0, 24], &[(3, 18), (0, 0)], 6);
    let seats = |tickets, stations: [usize; 4]| {
        let charges = stations.map(|station| if station == 0 { 0 } else { 24 });
        clears(&tied(tickets), 6, &stations, &charges, &[(6, 36), (0, 0)], 12);
    };
    seats([3, 5, 7, 9], [1, 1, 0, 0]);
    seats([9, 7, 5, 3], [0, 0, 1, 1]);
    seats([5, 9, 3, 7], [1, 0, 1, 0]);
    seats([u32::MAX, 0, u32::MAX - 1, 1], [0, 1, 0, 1]);
    // the higher total stands first, whatever the tickets
    clears(&one_bay(&[2, 6], &[3, 3], &[8, 0, 9, 0]), 6, &[0, 1], &[0, 24], &[(3, 18), (0, 0)], 6);
}

#[test]
fn quiet_rounds() {
    let none = (0, 0);
    let sales = [none, (10, 30), none, (8, 24), none];
    clears_quiet(&samples::table_i(), 3, &[4, 0, 2, 2, 4], &[15, 0, 18, 12, 9], &sales, 0);
    // guest 2 is turned away at station 1, which sets the floor there, and is seated at station 2 later
    let later = one_bay(&[0, 0, 1, 1], &[1, 1], &[10, 0, 0, 0, 9, 5, 0, 0]);
    clears_quiet(&later, 1, &[1, 2], &[9, 1], &[(1, 1), (1, 1), none, none], 8);
    // of two that are turned away the first sets the floor
    let two = one_bay(&[0, 1], &[1, 1, 1], &[7, 0, 9, 0, 8, 0]);
    clears_quiet(&two, 1, &[0, 1, 0], &[0, 8, 0], &[(1, 1), none], 7);
    clears_quiet(&samples::case_e(), 6, &[1, 0], &[24, 0], &[(3, 18), none], 6);
    clears_quiet(&one_bay(&[5], &[1], &[9]), 5, &[0], &[0], &[none], 0);
    clears_quiet(&one_bay(&[2, 6], &[], &[]), 6, &[], &[], &[none, none], 0);
}

#[test]
fn in_a_quiet_round_a_guest_seated_before_sets_no_floor() {
    // as above, where guest 2 is charged 5
    let market = one_bay(&[1, 1, 2, 2], &[1, 1], &[5, 9, 0, 0, 7, 0, 0, 0]);
    clears_quiet(&market, 2, &[2, 1], &[2, 2], &[(1, 2), (1, 2), (0, 0), (0, 0)], 0);
}

#[test]
fn in_a_quiet_round_the_lower_ticket_and_then_the_lower_station_stand_first() {
    let seats = |tickets, stations: [usize; 4]| assert_eq!(clear_efficient(1, &tied(tickets)).stations, stations);
    seats([3, 5, 7, 9], [1, 1, 0, 0]);
    seats([5, 9, 3, 7], [1, 0, 1, 0]);
    // one total everywhere
    let mut market = one_bay(&[1, 1, 1, 2, 2, 2], &[1, 1], &[4; 12]);
    let sold = [(1, 2), (1, 2), (0, 0), (0, 0), (0, 0), (0, 0)];
    clears_quiet(&market, 2, &[1, 2], &[4, 2], &sold, 2);
    market.tickets = vec![9, 4];
    clears_quiet(&market, 2, &[2, 1], &[2, 4], &sold, 2);
}

#[test]
fn in_a_quiet_round_a_false_bid_may_pay() {
    // both stations are worth 2 to guest 1
    let gain = |clear: fn(u8, &Market) -> Outcome, row: [u32; 2]| {
        let outcome = clear(1, &one_bay(&[0, 0, 1, 1], &[1, 1], &[row[0], row[1], 0, 0, 2, 0, 0, 0]));
        assert!(outcome.stations[0] > 0);
        2 - outcome.charges[0]
    };
    assert_eq!((gain(clear, [2, 2]), gain(clear, [0, 2])), (1, 1));
    assert_eq!((gain(clear_efficient, [2, 2]), gain(clear_efficient, [0, 2])), (0, 1));
}

#[test]
fn no_two_tickets_are_equal() {
    for tickets in [[9, 7, 5, 9], [9, 9, 5, 3], [9, 7, 5, 5], [0; 4], [u32::MAX, 1, 2, u32::MAX]] {
        assert_eq!(market_fault(&tied(tickets)), Err(15));
    }
    // alike in their low or high bits
    for bit in 0..32 {
        assert_eq!(market_fault(&tied([9, 1 << 9, 1 << 19, 9 ^ 1 << bit])), Ok(()));
    }
    let many = one_bay(&[1], &[1; 200], &[0; 200]);
    for (first, second) in [(0, 199), (98, 99), (198, 199)] {
        let mut market = many.clone();
        market.tickets[second] = market.tickets[first];
        assert_eq!(market_fault(&market), Err(15));
    }
    for tickets in [vec![9, 7, 5], vec![9, 7, 5, 3, 1], vec![]] {
        assert_eq!(market_fault(&Market { tickets, ..tied([1, 2, 3, 4]) }), Err(5));
    }
}

#[test]
fn limits() {
    assert_eq!(market_fault(&Market::new(&[1], &[1], &[1, 1], &[0, 4_294_967_295], &[0, 0])), Ok(()));
    assert_eq!(market_fault(&one_bay(&[1_000_000], &[1], &[0])), Ok(()));
    assert_eq!(market_fault(&one_bay(&[1_000_001], &[1], &[0])), Err(6));
    assert_eq!(market_fault(&one_bay(&[1], &[1; 200], &[0; 200])), Ok(()));
    assert_eq!(market_fault(&one_bay(&[1], &[1; 201], &[0; 201])), Err(2));
    assert_eq!(market_fault(&one_bay(&[1; 40], &[1], &[0; 40])), Ok(()));
    assert_eq!(market_fault(&one_bay(&[1; 41], &[1], &[0; 41])), Err(2));
    assert_eq!(market_fault(&one_bay(&[], &[1], &[])), Err(2));
    assert_eq!(market_fault(&Market::numbered(&[1], &[200], &[1], &[0])), Ok(()));
    assert_eq!(market_fault(&Market::numbered(&[1], &[201], &[1], &[0])), Err(7));
    assert_eq!(market_fault(&Market::numbered(&[1], &[0], &[1], &[0])), Err(7));
    assert_eq!(market_fault(&one_bay(&[1], &[1_000], &[0])), Ok(()));
    assert_eq!(market_fault(&one_bay(&[1], &[1_001], &[0])), Err(8));
    assert_eq!(market_fault(&one_bay(&[1], &[0], &[0])), Err(8));
    assert_eq!(market_fault(&one_bay(&[1], &[1], &[1_000_000])), Ok(()));
    assert_eq!(market_fault(&one_bay(&[1], &[1], &[1_000_001])), Err(9));
}

#[test]
fn clearing_refuses_in_the_tables_order() {
    // every fault at once, mended one after the other
    let mut market = Market { width: 1, ..Market::new(&[1_000_001; 41], &[0; 40], &[0; 2], &[7; 3], &[1_000_001; 80]) };
    let mut lists = ListLengths { stations: 2, charges: 2, sold: 40, paid: 41 };
    for rule in [0, 3, 255] {
        assert_eq!(clearing_fault(rule, &market, lists), Err(18));
    }
    assert_eq!(clearing_fault(1, &market, lists), Err(2));
    assert_eq!(clearing_fault(2, &market, lists), Err(2));
    market.asks.pop();
    assert_eq!(clearing_fault(1, &market, lists), Err(5));
    market.width = 40;
    assert_eq!(clearing_fault(1, &market, lists), Err(5));
    market.tickets.pop();
    assert_eq!(clearing_fault(1, &market, lists), Err(10));
    lists.paid = 40;
    assert_eq!(clearing_fault(1, &market, lists), Err(6));
    market.asks = vec![1; 40];
    assert_eq!(clearing_fault(1, &market, lists), Err(7));
    market.bays = vec![1; 40];
    assert_eq!(clearing_fault(1, &market, lists), Err(8));
    market.amounts = vec![1; 2];
    assert_eq!(clearing_fault(1, &market, lists), Err(9));
    market.bids = vec![1; 80];
    assert_eq!(clearing_fault(1, &market, lists), Err(15));
    market.tickets = vec![7, 6];
    assert_eq!(clearing_fault(1, &market, lists), Ok(()));
}

#[test]
fn explaining_refuses_in_the_tables_order() {
    // every fault at once, mended one after the other
    let mut market = Market { width: 1, ..Market::new(&[1_000_001; 41], &[0; 40], &[0; 2], &[7; 3], &[1_000_001; 80]) };
    let right = ExplanationLengths { codes: 80, stations: 2, charges: 2, reasons: 2 };
    let wrong = ExplanationLengths { codes: 79, ..right };
    for rule in [0, 3, 255] {
        assert_eq!(explaining_fault(rule, &market, wrong), Err(18));
    }
    assert_eq!(explaining_fault(1, &market, wrong), Err(2));
    market.asks.pop();
    assert_eq!(explaining_fault(2, &market, wrong), Err(5));
    market.width = 40;
    assert_eq!(explaining_fault(1, &market, wrong), Err(5));
    market.tickets.pop();
    for length in [0, 1, 3, 79, 81] {
        assert_eq!(explaining_fault(1, &market, ExplanationLengths { codes: length, ..right }), Err(10));
        assert_eq!(explaining_fault(1, &market, ExplanationLengths { stations: length, ..right }), Err(10));
        assert_eq!(explaining_fault(1, &market, ExplanationLengths { charges: length, ..right }), Err(10));
        assert_eq!(explaining_fault(1, &market, ExplanationLengths { reasons: length, ..right }), Err(10));
    }
    assert_eq!(explaining_fault(1, &market, right), Err(6));
    market.asks = vec![1; 40];
    assert_eq!(explaining_fault(1, &market, right), Err(7));
    market.bays = vec![1; 40];
    assert_eq!(explaining_fault(1, &market, right), Err(8));
    market.amounts = vec![1; 2];
    assert_eq!(explaining_fault(1, &market, right), Err(9));
    market.bids = vec![1; 80];
    assert_eq!(explaining_fault(1, &market, right), Err(15));
    market.tickets = vec![7, 6];
    assert_eq!(explaining_fault(1, &market, right), Ok(()));
}

fn win(station: usize, charge: u128) -> GuestOutcome {
    GuestOutcome::Win { station, charge }
}

/// An accepted market's codes, row after row, and outcomes, under a rule.
fn explains(rule: u8, market: &Market, codes: &[u8], outcomes: &[GuestOutcome]) {
    accepted(market);
    let explanation = explain(rule, market);
    assert_eq!(explanation.codes, codes);
    assert_eq!(explanation.outcomes, outcomes);
}

#[test]
fn what_decided_the_cases() {
    explains(1, &samples::case_e(), &[0, 1, 4, 1], &[win(1, 24), Loss(4)]);
    explains(1, &Market { tickets: vec![9, 4], ..samples::case_e() }, &[4, 1, 0, 1], &[Loss(4), win(1, 24)]);
    // cut 3, stations 2 and 4 open: of three candidates at 2 and four at 4, guests 1 and 3 hold both places of each
    let codes = [
        1, 0, 1, 0, 2, //
        2, 1, 2, 3, 1, //
        2, 0, 1, 0, 1, //
        2, 4, 1, 4, 1, //
        1, 1, 2, 4, 2,
    ];
    explains(1, &samples::table_i(), &codes, &[win(4, 15), Loss(3), win(2, 18), Loss(4), Loss(4)]);
    explains(1, &one_bay(&[5], &[1], &[9]), &[2], &[Loss(2)]);
    explains(1, &one_bay(&[5], &[1], &[0]), &[1], &[Loss(1)]);
    explains(1, &one_bay(&[2, 6], &[1], &[6, 0]), &[0, 1], &[win(1, 6)]);
    explains(1, &one_bay(&[2, 6], &[1], &[5, 0]), &[3, 1], &[Loss(3)]);
    explains(1, &one_bay(&[4, 4], &[1], &[9, 9]), &[2, 2], &[Loss(2)]);
    explains(1, &one_bay(&[2, 6], &[], &[]), &[], &[]);
    // a bid below the cut where the station is not open, and a cut of 0
    explains(1, &one_bay(&[2, 6], &[1], &[0, 1]), &[1, 2], &[Loss(2)]);
    explains(1, &one_bay(&[0, 0], &[1], &[0, 1]), &[1, 2], &[Loss(2)]);
    // guest 1 is outbid at station 1 and wins at station 2
    let elsewhere = one_bay(&[1, 1, 2, 2], &[1, 1], &[5, 9, 0, 0, 7, 0, 0, 0]);
    explains(1, &elsewhere, &[4, 0, 1, 1, 0, 1, 1, 1], &[win(2, 2), win(1, 5)]);
}

#[test]
fn what_decided_by_each_rule() {
    let market = six([3, 4, 0, 9, 5, 0]);
    explains(1, &market, &[3, 0, 1, 2, 2, 1], &[win(2, 4)]);
    explains(2, &market, &[3, 3, 1, 0, 2, 1], &[win(4, 5)]);
}

#[test]
fn the_text_of_what_decided() {
    let why = |rule, market: &Market| report::printed_why(Form::Sheet, rule, &shortest(market));
    assert_eq!(why(1, &samples::case_e()), "guest 1 wins station 1 charge 24\nguest 2 loses: outbid\n");
    // cut 3, station 1 open
    let four = one_bay(&[1, 3], &[1; 4], &[0, 0, 0, 9, 2, 9, 5, 0]);
    let text = "guest 1 loses: no bid\nguest 2 loses: station not open\nguest 3 loses: bid below the cut\n\
        guest 4 wins station 1 charge 3\n";
    assert_eq!(why(1, &four), text);
    assert_eq!(why(1, &six([0, 0, 0, 9, 0, 0])), "guest 1 loses: station not open\n");
    assert_eq!(why(2, &six([0, 0, 0, 9, 0, 0])), "guest 1 wins station 4 charge 5\n");
    assert_eq!(why(1, &one_bay(&[2, 6], &[], &[])), "");
    assert_eq!(why(1, &samples::refused()), "refused 6\n");
    assert_eq!(report::printed_why(Form::Sheet, 1, &SHEET_E[..3]), "refused 1\n");
}

const SHEET_E: [u8; 38] = [
    0x02, 0x00, 0x02, 0x00, 0x02, 0x00, 0x00, 0x00, 0x01, 0x00, 0x06, 0x00, 0x00, 0x00, 0x01, 0x00, //
    0x03, 0x00, 0x01, 0x00, 0x00, 0x00, 0x01, 0x08, 0x00, 0x00, 0x00, //
    0x03, 0x00, 0x02, 0x00, 0x00, 0x00, 0x01, 0x08, 0x00, 0x00, 0x00,
];

#[test]
fn sheet_e_and_its_text() {
    assert_eq!(shortest(&samples::case_e()), SHEET_E);
    let text = "cut 6\nguest 1 station 1 charge 24\nguest 2 station 0 charge 0\n\
        station 1 sold 3 paid 18\nstation 2 sold 0 paid 0\nmargin 6\n";
    assert_eq!(report::printed(Form::Sheet, 1, &SHEET_E), text);
    assert_eq!(report::printed(Form::Sheet, 1, &SHEET_E[..3]), "refused 1\n");
    assert_eq!(report::printed_quiet(Form::Sheet, 1, &SHEET_E), text);
    assert_eq!(report::printed_quiet(Form::Sheet, 1, &SHEET_E[..3]), "refused 1\n");
    assert_eq!(report::written(Form::Sheet, &SHEET_E), SHEET_E);
    assert_eq!(report::written(Form::Sheet, &stating(&samples::case_e(), |_, _| true)), b"refused 19\n");
    assert_eq!(report::written(Form::Sheet, &SHEET_E[..3]), b"refused 1\n");
}

#[test]
fn every_other_sheet_of_a_market_is_longer_and_refused() {
    let market = one_bay(&[2, 6, 1], &[3, 4, 5], &[0, 7, 0, 0, 0, 0, 8, 9, 1]);
    let empty = [(1, 1), (1, 3), (2, 1), (2, 2), (2, 3)];
    for choice in 0u32..1 << empty.len() {
        let bit = |place: usize| choice >> place & 1 == 1;
        let sheet = stating(&market, |guest, station| empty.iter().position(|&at| at == (guest, station)).is_some_and(bit));
        assert_eq!(sheet.len(), shortest(&market).len() + 4 * choice.count_ones() as usize);
        assert_eq!(sheet == shortest(&market), choice == 0);
        assert_eq!(read(&sheet, GREATEST).as_ref(), if choice == 0 { Ok(&market) } else { Err(&19) });
    }
}

#[test]
fn empty_bids_are_refused_in_turn() {
    let rows = |first: &[u8], second: &[u8]| [&SHEET_E[..22], first, &[3, 0, 2, 0, 0, 0], second].concat();
    let both = |x: u8, y: u8| [3, x, 0, 0, 0, y, 0, 0, 0];
    let refusal = |sheet: &[u8]| read(sheet, GREATEST).unwrap_err();
    let market = one_bay(&[2, 6], &[3, 3], &[8, 8, 8, 8]);
    assert_eq!(read(&rows(&both(8, 8), &both(8, 8)), GREATEST), Ok(market));
    // the first and the last of row 1, and of row 2
    assert_eq!(refusal(&rows(&both(0, 8), &both(8, 8))), 19);
    assert_eq!(refusal(&rows(&both(8, 0), &both(8, 8))), 19);
    assert_eq!(refusal(&rows(&both(8, 8), &both(0, 8))), 19);
    let last = rows(&both(8, 8), &both(8, 0));
    assert_eq!(refusal(&last), 19);
    // before it: the sheet's end inside it, a stray bit of its row
    for length in 42..46 {
        assert_eq!(refusal(&last[..length]), 1);
    }
    assert_eq!(refusal(&rows(&[7, 0, 0, 0, 0], &[])), 3);
    // after it: the sheet's end inside the next bid and the next row, a stray bit of that, a byte more
    let first = rows(&both(0, 8), &[]);
    for length in [27, 30, 32] {
        assert_eq!(refusal(&first[..length]), 19);
    }
    assert_eq!(refusal(&rows(&both(8, 0), &[4])), 19);
    assert_eq!(refusal(&[&last[..], &[0]].concat()), 19);
    // one of forty
    let market = Market::numbered(&[1; 40], &[1; 40], &[3], &[8; 40]);
    let sheet = shortest(&market);
    assert_eq!(read(&sheet, GREATEST), Ok(market));
    for bid in 0..40 {
        let mut empty = sheet.clone();
        empty[4 + 6 * 40 + 11 + 4 * bid] = 0;
        assert_eq!(refusal(&empty), 19);
    }
}

#[test]
fn writing_refuses_in_the_tables_order() {
    let case_e = samples::case_e();
    assert_eq!(write(&samples::refused(), 0), Err(6));
    assert_eq!(write(&Market { width: 1, ..case_e.clone() }, 0), Err(5));
    assert_eq!(write(&Market::numbered(&[], &[], &[], &[]), 0), Err(2));
    assert_eq!(write(&Market { tickets: vec![7, 7], ..case_e.clone() }, 0), Err(15));
    assert_eq!(write(&case_e, 37), Err(14));
    assert_eq!(write(&case_e, 38), Ok(SHEET_E.to_vec()));
    assert_eq!(write(&case_e, 39), Ok(SHEET_E.to_vec()));
}

#[test]
fn reading_refuses_in_the_tables_order() {
    let refusal = |sheet: &[u8]| read(sheet, GREATEST).unwrap_err();
    assert_eq!(read(&[], TableLengths { bids: 7_999, ..GREATEST }), Err(10));
    assert_eq!(read(&[], TableLengths { tickets: 199, ..GREATEST }), Err(10));
    assert_eq!(refusal(&[201, 0, 0]), 1);
    assert_eq!(refusal(&[201, 0, 1, 0]), 2);
    assert_eq!(refusal(&[0, 0, 0, 0]), 2);
    assert_eq!(refusal(&[0, 0, 41, 0]), 2);
    // one guest, nine stations: 6 bytes for each station, amount, ticket, map
    let mut sheet = [vec![1, 0, 9, 0], vec![0; 54], vec![0, 0, 1, 2, 3, 4, 1, 2]].concat();
    for length in 0..65 {
        assert_eq!(refusal(&sheet[..length]), 1);
    }
    assert_eq!(refusal(&sheet), 3);
    sheet[65] = 0;
    assert_eq!(refusal(&sheet), 1);
    sheet.extend([0; 3]);
    assert_eq!(refusal(&sheet), 1);
    sheet.extend([0; 2]);
    assert_eq!(refusal(&sheet), 19);
    sheet[68] = 1;
    assert_eq!(refusal(&sheet), 4);
    sheet.pop();
    assert_eq!(read(&sheet, GREATEST).map(|market| market.tickets), Ok(vec![0x0403_0201]));
}

#[test]
fn the_largest_sheet_has_34_444_bytes() {
    let market = Market::numbered(&[1; 40], &[1; 40], &[1; 200], &[1; 8_000]);
    assert_eq!(shortest(&market).len(), 34_444);
}

#[test]
fn case_e_posts_once_as_round_1() {
    let mut ledger = Ledger::empty(3, 2);
    assert_eq!(ledger.post(1, &samples::case_e(), 0, 1), Ok(()));
    let posted = Ledger {
        guests: vec![24, 0, 0],
        stations: vec![StationAccount { sold: 3, paid: 18 }, StationAccount::default()],
        house: 6,
        last: vec![1, 0, 0, 0, 0, 0, 0, 0],
    };
    assert_eq!(ledger, posted);
    assert!(ledger.balances());
    assert_eq!(ledger.post(1, &samples::case_e(), 0, 1), Err(11));
    assert_eq!(ledger, posted);
}

#[test]
fn desks_count_their_own_rounds() {
    let mut ledger = Ledger::empty(2, 2);
    for desk in 0..8 {
        assert_eq!(ledger.post(1, &samples::case_e(), desk, 1), Ok(()));
        assert_eq!(ledger.post(1, &samples::case_e(), desk, 1), Err(11));
        assert_eq!(ledger.last.iter().sum::<u128>(), u128::from(desk) + 1);
    }
    assert_eq!((ledger.guests[0], ledger.house, ledger.balances()), (8 * 24, 8 * 6, true));
    assert_eq!(ledger.post(1, &samples::case_e(), 8, 1), Err(25));
}

/// Asks 1 to 6, one bay each, one guest of 1 kWh.
fn six(bids: [u32; 6]) -> Market {
    one_bay(&[1, 2, 3, 4, 5, 6], &[1], &bids)
}

#[test]
fn asks_1_to_6_have_a_cut_by_each_rule() {
    let fourth = six([0, 0, 0, 9, 0, 0]);
    for clear in [clear, clear_efficient] {
        let cleared = |rule| (clear(rule, &fourth).cut, clear(rule, &fourth).stations[0], clear(rule, &fourth).charges[0]);
        assert_eq!((cleared(1), cleared(2)), ((4, 0, 0), (5, 4, 5)));
    }
    // each position lies from 1 to m
    for m in 1..=40 {
        let asks: Vec<u32> = (1..=m).collect();
        let market = Market::numbered(&asks, &vec![1; asks.len()], &[], &[]);
        let cuts = [1, 2].map(|rule| clear(rule, &market).cut);
        assert_eq!(cuts, [u128::from(m / 2 + 1), u128::from(2 * m / 3 + 1)]);
        assert!(1 <= cuts[0] && cuts[0] <= cuts[1] && cuts[1] <= u128::from(m));
    }
}

#[test]
fn rounds_of_both_rules_stand_in_one_book() {
    let first = six([9, 0, 0, 0, 0, 0]);
    let mut ledger = Ledger::empty(1, 6);
    assert_eq!(ledger.post(1, &first, 0, 1), Ok(()));
    assert_eq!(ledger.post(2, &first, 0, 2), Ok(()));
    assert_eq!(ledger.post(3, &first, 0, 3), Err(18));
    assert_eq!((ledger.guests[0], ledger.stations[0].sold, ledger.stations[0].paid, ledger.last[0]), (9, 2, 9, 2));
}

#[test]
fn posting_refuses_in_the_tables_order() {
    let case_e = samples::case_e();
    let over = Ledger { house: MAX_ACCOUNT + 1, ..Ledger::empty(201, 2) };
    assert_eq!(over.clone().post(0, &samples::refused(), 0, 2), Err(18));
    assert_eq!(over.clone().post(1, &samples::refused(), 0, 2), Err(6));
    assert_eq!(over.clone().post(1, &Market { tickets: vec![7, 7], ..case_e.clone() }, 0, 2), Err(15));
    assert_eq!(over.clone().post(1, &case_e, 0, 2), Err(13));
    for (guests, stations, answer) in [(200, 40, Ok(())), (2, 2, Ok(())), (1, 2, Err(13)), (2, 1, Err(13)), (2, 41, Err(13))] {
        assert_eq!(Ledger::empty(guests, stations).post(1, &case_e, 0, 1), answer);
    }
    for lasts in [0, 7, 9] {
        let mut odd = Ledger { last: vec![0; lasts], ..Ledger::empty(2, 2) };
        assert_eq!(odd.post(1, &case_e, 8, 2), Err(13));
    }
    let mut over = Ledger { guests: vec![0; 2], ..over };
    assert_eq!(over.post(1, &case_e, 8, 2), Err(25));
    assert_eq!(over.post(1, &case_e, 0, 2), Err(11));
    assert_eq!(over.post(1, &case_e, 0, 1), Err(12));
    over.house = MAX_ACCOUNT;
    assert_eq!(over.post(1, &case_e, 0, 1), Err(12));
    over.house -= 6;
    assert_eq!(over.post(1, &case_e, 0, 1), Ok(()));
}

#[test]
fn no_round_follows_the_last() {
    let mut ledger = Ledger { last: vec![4_294_967_294, 0, 0, 0, 0, 0, 0, 0], ..Ledger::empty(2, 2) };
    assert_eq!(ledger.post(1, &samples::case_e(), 0, u32::MAX), Ok(()));
    for round in [0, 1, u32::MAX] {
        assert_eq!(ledger.post(1, &samples::case_e(), 0, round), Err(11));
    }
    assert_eq!(ledger.post(1, &samples::case_e(), 1, 1), Ok(()));
}

/// Guests with these prices, falls and cells, and stations at these cells.
fn placed(guests: &[(u32, u32, Cell)], stations: &[Cell]) -> Places {
    Places {
        prices: guests.iter().map(|guest| guest.0).collect(),
        falls: guests.iter().map(|guest| guest.1).collect(),
        guest_first: guests.iter().map(|guest| guest.2.0).collect(),
        guest_second: guests.iter().map(|guest| guest.2.1).collect(),
        station_first: stations.iter().map(|cell| cell.0).collect(),
        station_second: stations.iter().map(|cell| cell.1).collect(),
    }
}

#[test]
fn a_walk_is_the_greatest_whole_number() {
    for q in 0..=1_922 {
        let d = walk(q);
        assert!(d * d <= 100 * q && (d + 1) * (d + 1) > 100 * q, "{q}");
    }
    assert_eq!((squared_distance((0, 0), (3, 4)), walk(25)), (25, 50));
    assert_eq!((squared_distance((5, 9), (4, 10)), walk(2)), (2, 14));
    assert_eq!((squared_distance((31, 0), (0, 31)), walk(1_922)), (1_922, 438));
}

#[test]
fn a_bid_is_price_less_fall_times_walk() {
    let stations = [(3, 4), (1, 1), (31, 31), (0, 0)];
    let guests = [(1_000_000, 1, (0, 0)), (1_000, 20, (0, 0)), (1_000_000, 1_000_000, (3, 4)), (7, 0, (31, 31))];
    let bids = [999_950, 999_986, 999_562, 1_000_000, 0, 720, 0, 1_000, 1_000_000, 0, 0, 0, 7, 7, 7, 7];
    assert_eq!(place_bids(&placed(&guests, &stations), 16), Ok(bids.to_vec()));
    // 50 tenths at 20 mills each: a bid of 1, of 0, and 0 where it would be negative
    let guests = [(1_001, 20, (0, 0)), (1_000, 20, (0, 0)), (999, 20, (0, 0))];
    assert_eq!(place_bids(&placed(&guests, &[(3, 4)]), 3), Ok(vec![1, 0, 0]));
    assert_eq!(place_bids(&placed(&[], &[(0, 0)]), 0), Ok(vec![]));
}

#[test]
fn placing_refuses_in_order() {
    // every fault at once, mended one after the other
    let mut places = placed(&[(1_000_001, 1_000_001, (32, 32)); 2], &[(32, 32); 41]);
    places.prices.pop();
    assert_eq!(placing_fault(&places, 82), Err(2));
    places.station_first.pop();
    assert_eq!(placing_fault(&places, 80), Err(5));
    places.station_second.pop();
    assert_eq!(placing_fault(&places, 80), Err(5));
    places.prices.push(1_000_001);
    assert_eq!(placing_fault(&places, 79), Err(5));
    assert_eq!(placing_fault(&places, 80), Err(16));
    places.guest_first.fill(31);
    places.guest_second.fill(31);
    places.station_first.fill(31);
    assert_eq!(placing_fault(&places, 80), Err(16));
    places.station_second.fill(31);
    assert_eq!(placing_fault(&places, 80), Err(17));
    places.prices.fill(1_000_000);
    assert_eq!(placing_fault(&places, 80), Err(17));
    places.falls.fill(1_000_000);
    assert_eq!(placing_fault(&places, 80), Ok(()));
}

/// The lengths of lent tables for so many guests and stations.
fn room(n: usize, m: usize) -> TableLengths {
    TableLengths { amounts: n, tickets: n, asks: m, bays: m, bids: n * m }
}

#[test]
fn two_gates_are_one_market() {
    let [north, south] = samples::gates();
    assert_eq!(join(&north, &south, room(5, 5)), Ok(samples::table_i()));
    let gate = |ticket: u32| Market::new(&[2, 6], &[1, 1], &[3], &[ticket], &[8, 0]);
    assert_eq!(join(&gate(1), &gate(2), room(2, 2)), Ok(samples::case_e()));
    let nobody = Market::new(&[2, 6], &[1, 1], &[], &[], &[]);
    assert_eq!(join(&nobody, &gate(7), room(1, 2)), Ok(gate(7)));
    assert_eq!(join(&gate(7), &nobody, room(1, 2)), Ok(gate(7)));
    assert_eq!(join(&nobody, &nobody, room(0, 2)), Ok(nobody.clone()));
}

#[test]
fn joining_refuses_in_order() {
    // every fault at once, mended one after the other
    let crowd = |count: usize, ask: u32| Market::numbered(&[ask], &[1], &vec![1; count], &vec![1; count]);
    let (mut first, mut second) = (crowd(100, 1_000_001), crowd(101, 1_000_001));
    second.tickets[1] = 1;
    second.bays[0] = 2;
    assert_eq!(joining_fault(&first, &second, room(0, 0)), Err(6));
    first.asks[0] = 5;
    assert_eq!(joining_fault(&first, &second, room(0, 0)), Err(6));
    second.asks[0] = 4;
    assert_eq!(joining_fault(&first, &second, room(0, 0)), Err(15));
    second.tickets[1] = 2;
    assert_eq!(joining_fault(&first, &second, room(0, 0)), Err(20));
    second.asks[0] = 5;
    assert_eq!(joining_fault(&first, &second, room(0, 0)), Err(20));
    second.bays[0] = 1;
    assert_eq!(joining_fault(&first, &second, room(0, 0)), Err(2));
    let mut second = crowd(100, 5);
    assert_eq!(joining_fault(&first, &second, room(0, 0)), Err(21));
    for ticket in &mut second.tickets {
        *ticket += 99;
    }
    assert_eq!(joining_fault(&first, &second, room(0, 0)), Err(21));
    second.tickets[0] = 0;
    assert_eq!(joining_fault(&first, &second, room(199, 1)), Err(10));
    assert_eq!(joining_fault(&first, &second, TableLengths { bids: 201, ..room(200, 1) }), Err(10));
    assert_eq!(joining_fault(&first, &second, room(200, 1)), Ok(()));
}

/// An accepted market has these places, row after row, and floors under a rule, and what says so is passed.
fn marks(rule: u8, market: &Market, places: &[u8], floors: &[u32]) -> Submission {
    accepted(market);
    let full = clear_fully(rule, market);
    assert_eq!(full.outcome, clear(rule, market));
    let outcome = &full.outcome;
    let narrow = |list: &[u128]| list.iter().map(|&number| number as u32).collect();
    let submission = Submission {
        stations: outcome.stations.iter().map(|&station| station as u16).collect(),
        charges: narrow(&outcome.charges),
        sold: narrow(&outcome.sold),
        paid: outcome.paid.iter().map(|&paid| paid as u64).collect(),
        places: places.to_vec(),
        floors: floors.to_vec(),
        cut: outcome.cut as u32,
        margin: outcome.margin as u64,
    };
    assert_eq!((full.places, narrow(&full.floors)), (submission.places.clone(), submission.floors.clone()));
    assert_eq!(mark(rule, market, &submission), Ok(true));
    submission
}

#[test]
fn places_and_floors_of_the_cases() {
    // guests 1 and 3 hold the places of stations 2 and 4; next come guest 4's totals of 16 and 12
    let places = [
        0, 1, 0, 1, 0, //
        0, 0, 0, 0, 0, //
        0, 1, 0, 1, 0, //
        0, 0, 0, 0, 0, //
        0, 0, 0, 0, 0,
    ];
    marks(1, &samples::table_i(), &places, &[0, 16, 0, 12, 0]);
    // under rule 2 the cut is 4 and station 3 is open too: guest 2 holds a place there, guests 1, 3 and 4 stand for the two
    // bays of station 2, of which guest 4 gets none, and guests 1 and 3 have both bays of station 4
    let places = [
        0, 1, 0, 1, 0, //
        0, 0, 1, 0, 0, //
        0, 1, 0, 1, 0, //
        0, 0, 0, 0, 0, //
        0, 0, 0, 0, 0,
    ];
    marks(2, &samples::table_i(), &places, &[0, 16, 0, 0, 0]);
    marks(1, &one_bay(&[5], &[1], &[9]), &[0], &[0]);
    marks(1, &one_bay(&[2, 6], &[1], &[6, 0]), &[1, 0], &[0, 0]);
    marks(1, &one_bay(&[2, 6], &[1], &[5, 0]), &[0, 0], &[0, 0]);
    marks(1, &samples::case_e(), &[1, 0, 0, 0], &[24, 0]);
    marks(1, &Market { tickets: vec![9, 4], ..samples::case_e() }, &[0, 0, 1, 0], &[24, 0]);
    marks(1, &one_bay(&[2, 6], &[10, 2], &[7, 0, 20, 0]), &[1, 0, 0, 0], &[40, 0]);
    marks(1, &one_bay(&[2, 6], &[3, 2], &[9, 0, 10, 0]), &[1, 0, 0, 0], &[20, 0]);
    // no station is open, whatever the bids
    marks(1, &one_bay(&[4, 4], &[1, 2], &[9, 9, 9, 9]), &[0; 4], &[0, 0]);
    marks(2, &one_bay(&[2, 6], &[], &[]), &[], &[0, 0]);
    // both places are held, and one goes to nobody
    marks(1, &one_bay(&[1, 1, 6, 6], &[1], &[8, 8, 0, 0]), &[1, 1, 0, 0], &[0; 4]);
    // a guest seated elsewhere sets the floor
    let market = one_bay(&[1, 1, 2, 2], &[1, 1], &[5, 9, 0, 0, 7, 0, 0, 0]);
    marks(1, &market, &[0, 1, 0, 0, 1, 0, 0, 0], &[5, 0, 0, 0]);
}

#[test]
fn each_wrong_number_earns_a_no() {
    let case_g = one_bay(&[2, 6], &[3, 2], &[9, 0, 10, 0]);
    let right = marks(1, &case_g, &[1, 0, 0, 0], &[20, 0]);
    let changes: [fn(&mut Submission); 13] = [
        |handed| handed.stations.swap(0, 1),
        |handed| handed.stations[1] = 256,
        |handed| handed.charges[0] = 18,
        |handed| handed.charges[1] = 20,
        |handed| handed.sold[0] = 5,
        |handed| handed.paid[0] = 20,
        |handed| handed.paid[1] = 1 << 32,
        |handed| handed.places[0] = 0,
        |handed| handed.places[0] = 2,
        |handed| handed.places[3] = 255,
        |handed| handed.floors[0] = 27,
        |handed| handed.cut = 2,
        |handed| handed.margin = 0,
    ];
    for change in changes {
        let mut handed = right.clone();
        change(&mut handed);
        assert_eq!(mark(1, &case_g, &handed), Ok(false), "{handed:?}");
    }
    // the floor of a station that is not open is 0, though its candidate would have one
    let closed = one_bay(&[2, 6], &[3, 2], &[9, 9, 10, 10]);
    assert_eq!(mark(1, &closed, &right), Ok(true));
    assert_eq!(mark(1, &closed, &Submission { floors: vec![20, 20], ..right.clone() }), Ok(false));
    // the same market under the other rule has another cut, so another clearing
    let three = one_bay(&[2, 4, 6], &[1], &[9, 0, 0]);
    let handed = marks(1, &three, &[1, 0, 0], &[0; 3]);
    assert_eq!(mark(2, &three, &handed), Ok(false));
}

#[test]
fn marking_refuses_in_the_tables_order() {
    // every fault at once, mended one after the other
    let mut market = Market { width: 1, ..Market::new(&[1_000_001; 41], &[0; 40], &[0; 2], &[7; 3], &[1_000_001; 80]) };
    let right = FullLengths { stations: 2, charges: 2, sold: 40, paid: 40, places: 80, floors: 40 };
    let wrong = FullLengths { floors: 39, ..right };
    for rule in [0, 3, 255] {
        assert_eq!(full_clearing_fault(rule, &market, wrong), Err(18));
    }
    assert_eq!(full_clearing_fault(1, &market, wrong), Err(2));
    market.asks.pop();
    assert_eq!(full_clearing_fault(2, &market, wrong), Err(5));
    market.width = 40;
    assert_eq!(full_clearing_fault(1, &market, wrong), Err(5));
    market.tickets.pop();
    for length in [0, 1, 3, 39, 41, 79, 81] {
        assert_eq!(full_clearing_fault(1, &market, FullLengths { stations: length, ..right }), Err(10));
        assert_eq!(full_clearing_fault(1, &market, FullLengths { charges: length, ..right }), Err(10));
        assert_eq!(full_clearing_fault(1, &market, FullLengths { sold: length, ..right }), Err(10));
        assert_eq!(full_clearing_fault(1, &market, FullLengths { paid: length, ..right }), Err(10));
        assert_eq!(full_clearing_fault(1, &market, FullLengths { places: length, ..right }), Err(10));
        assert_eq!(full_clearing_fault(1, &market, FullLengths { floors: length, ..right }), Err(10));
    }
    assert_eq!(full_clearing_fault(1, &market, right), Err(6));
    market.asks = vec![1; 40];
    assert_eq!(full_clearing_fault(1, &market, right), Err(7));
    market.bays = vec![1; 40];
    assert_eq!(full_clearing_fault(1, &market, right), Err(8));
    market.amounts = vec![1; 2];
    assert_eq!(full_clearing_fault(1, &market, right), Err(9));
    market.bids = vec![1; 80];
    assert_eq!(full_clearing_fault(1, &market, right), Err(15));
    market.tickets = vec![7, 6];
    assert_eq!(full_clearing_fault(1, &market, right), Ok(()));
}

/// Another row at two stations, the worths first.
fn other(guest: u32, worths: &[u32], row: &[u32]) -> OtherRow {
    OtherRow { guest, worths: worths.to_vec(), row: row.to_vec() }
}

#[test]
fn other_rows_of_case_g() {
    let case_g = one_bay(&[2, 6], &[3, 2], &[9, 0, 10, 0]);
    let tried = |first_gain, second_gain, changes: [u8; 2]| Ok(Tried { first_gain, second_gain, changes: changes.to_vec() });
    let false_row = other(2, &[10, 0], &[14, 0]);
    assert_eq!(try_row(1, &case_g, &false_row, 2), tried(0, -7, [2, 0]));
    let with = with_row(&case_g, &false_row);
    assert_eq!(with.bids, [9, 0, 14, 0]);
    assert_eq!(try_row(1, &with, &other(2, &[10, 0], &[10, 0]), 2), tried(-7, 0, [1, 0]));
    assert_eq!(try_row(1, &case_g, &other(1, &[9, 0], &[0, 0]), 2), tried(7, 0, [0, 1]));
    // a guest that moves to another station is no change
    let two = one_bay(&[1, 1, 6, 6], &[1, 1], &[8, 0, 0, 0, 7, 7, 0, 0]);
    assert_eq!(try_row(1, &two, &other(1, &[8, 0, 0, 0], &[0; 4]), 2), tried(1, 0, [0, 0]));
}

#[test]
fn trying_refuses_in_order() {
    // every fault at once, mended one after the other
    let mut market = Market::new(&[2, 1_000_001], &[1, 1], &[3, 2], &[1, 1], &[9, 0, 10, 0]);
    let mut row = other(3, &[1_000_001], &[14, 0]);
    assert_eq!(trying_fault(3, &market, &row, 1), Err(18));
    assert_eq!(trying_fault(1, &market, &row, 1), Err(6));
    market.asks[1] = 6;
    assert_eq!(trying_fault(1, &market, &row, 1), Err(15));
    market.tickets[1] = 2;
    assert_eq!(trying_fault(1, &market, &row, 1), Err(24));
    row.guest = 0;
    assert_eq!(trying_fault(2, &market, &row, 1), Err(24));
    row.guest = 2;
    assert_eq!(trying_fault(1, &market, &row, 1), Err(5));
    (row.worths, row.row) = (vec![1_000_001, 0], vec![14]);
    assert_eq!(trying_fault(1, &market, &row, 1), Err(5));
    row.row = vec![14, 1_000_001];
    assert_eq!(trying_fault(1, &market, &row, 1), Err(10));
    assert_eq!(trying_fault(1, &market, &row, 3), Err(10));
    assert_eq!(trying_fault(1, &market, &row, 2), Err(9));
    row.worths[0] = 1_000_000;
    assert_eq!(trying_fault(1, &market, &row, 2), Err(9));
    row.row[1] = 1_000_000;
    assert_eq!(trying_fault(1, &market, &row, 2), Ok(()));
    assert_eq!(trying_fault(1, &one_bay(&[2, 6], &[], &[]), &other(1, &[0, 0], &[0, 0]), 0), Err(24));
}

/// The answer to a text.
fn csv_answer(text: &str) -> u8 {
    csv::read(text.as_bytes(), GREATEST).err().unwrap_or(0)
}

#[test]
fn comma_separated_markets_are_read() {
    let case_e = "2,6\r\n1,1\r\n1,3,8,\r\n2,3,8,\r\n";
    assert_eq!(csv::read(case_e.as_bytes(), GREATEST), Ok(samples::case_e()));
    assert_eq!(csv::shortest(&samples::case_e()), case_e.as_bytes());
    assert_eq!(csv::read(b"2,6\r\n1,1\r\n", GREATEST), Ok(Market::numbered(&[2, 6], &[1, 1], &[], &[])));
    // zeros in front, and bids that are empty or 0, also at a line's end
    let zeros = b"0000000000,05\r\n0000000001,0\r\n0,0000000007,,\r\n0000000009,0,0000000003,0\r\n";
    assert_eq!(csv::read(zeros, GREATEST), Ok(Market::new(&[0, 5], &[1, 0], &[7, 0], &[0, 9], &[0, 0, 3, 0])));
    let widest = Market::new(&[u32::MAX], &[u16::MAX], &[u16::MAX], &[u32::MAX], &[u32::MAX]);
    assert_eq!(csv::shortest(&widest), b"4294967295\r\n65535\r\n4294967295,65535,4294967295\r\n");
    for market in [widest, samples::table_i(), samples::case_e(), samples::full(), samples::refused()] {
        assert_eq!(csv::read(&csv::shortest(&market), GREATEST), Ok(market.clone()));
        assert_eq!(csv::read(&csv::stating(&market, |_, value| format!("{value:010}")), GREATEST), Ok(market));
    }
    for tables in [TableLengths { bids: 7_999, ..GREATEST }, TableLengths { tickets: 201, ..GREATEST }] {
        assert_eq!(csv::read(case_e.as_bytes(), tables), Err(10));
        assert_eq!(csv::read(b"x", tables), Err(10));
    }
}

#[test]
fn comma_separated_markets_are_refused_at_the_first_place() {
    for (text, answer) in [
        // a missing line or line end; CR or LF alone
        ("", 22),
        ("1\r\n", 22),
        ("1\r\n1", 22),
        ("1\r\n1\r", 22),
        ("1\r\n1\r\n", 0),
        ("1\r\n1\r\n1,1,1", 22),
        ("1\r\n1\r\n1,1,1\r", 22),
        ("1\n1\n", 22),
        ("1\r\n1\r\n\n", 22),
        ("1\r\r\n1\r\n", 22),
        ("1\r,1\r\n1\r\n", 22),
        // another byte
        ("x", 22),
        ("1\r\n1\r\n1,1,1\r\nx", 22),
        ("1\r\n1\r\n\0", 22),
        (" 1\r\n1\r\n", 22),
        ("\"1\"\r\n1\r\n", 22),
        ("-1\r\n1\r\n", 22),
        ("/\r\n1\r\n", 22),
        (":\r\n1\r\n", 22),
        // an empty field that is no bid
        ("\r\n\r\n", 22),
        (",1\r\n1,1\r\n", 22),
        ("1,\r\n1,1\r\n", 22),
        ("1,1\r\n1,\r\n", 22),
        ("1\r\n1\r\n,1,1\r\n", 22),
        ("1\r\n1\r\n1,,1\r\n", 22),
        ("1\r\n1\r\n\r\n", 22),
        // a wrong count of fields
        ("1,1\r\n1\r\n", 22),
        ("1\r\n1,1\r\n", 22),
        ("1\r\n1\r\n1,1\r\n", 22),
        ("1\r\n1\r\n1,1,1,\r\n", 22),
        ("1,1\r\n1,1\r\n1,1,,\r\n", 0),
        // more than ten digits, or a value too large, whatever ends the field and whatever comes later
        ("00000000000\r\n", 23),
        ("00000000000", 23),
        ("00000000000x", 23),
        ("00000000000\n", 23),
        ("18446744073709551617\r\n", 23),
        ("4294967296\r\n", 23),
        ("1\r\n65536,", 23),
        ("1\r\n1\r\n4294967296,1,1\r\n", 23),
        ("1\r\n1\r\n1,65536,1\r\n", 23),
        ("1\r\n1\r\n1,1,4294967296", 23),
        ("1x00000000000", 22),
        ("1\r00000000000", 22),
    ] {
        assert_eq!(csv_answer(text), answer, "{text:?}");
    }
    // the comma after the 40th ask
    for (rest, answer) in
        [("1,", 2), (",", 2), ("4294967296,", 23), ("1x", 22), ("x,", 22), ("1\r,", 22), ("1\r\n1,x", 22), ("1", 22)]
    {
        assert_eq!(csv_answer(&("1,".repeat(39) + rest)), answer, "{rest:?}");
    }
    assert_eq!(csv_answer(&format!("{0}1\r\n{0}1\r\n", "1,".repeat(39))), 0);
    // the first byte of guest line 201
    let guests = |count: usize| "1\r\n1\r\n".to_string() + &"1,1,\r\n".repeat(count);
    for (rest, answer) in [("", 0), ("\r\n", 2), ("x", 2), ("1", 2), ("\n", 2), (",", 2), ("\0", 2)] {
        assert_eq!(csv_answer(&(guests(200) + rest)), answer, "{rest:?}");
    }
    for (rest, answer) in [("x", 22), ("1,1,\rx", 22), ("1,1,\r", 22), ("1,1,\n1", 22), ("65536,65536,", 23)] {
        assert_eq!(csv_answer(&(guests(199) + rest)), answer, "{rest:?}");
    }
}

#[test]
fn the_sample_files_are_current() {
    let folder = std::path::Path::new(env!("CARGO_MANIFEST_DIR")).join("../../examples");
    for (name, sheet) in samples::sheets() {
        assert_eq!(std::fs::read(folder.join(format!("{name}.sheet"))).unwrap(), sheet, "{name}");
        assert_eq!(
            std::fs::read_to_string(folder.join(format!("{name}.txt"))).unwrap(),
            report::printed(Form::Sheet, 1, &sheet),
            "{name}"
        );
    }
    // LibreOffice wrote it
    let text = std::fs::read(folder.join("fleet.csv")).unwrap();
    assert_eq!(csv::read(&text, GREATEST), Ok(samples::fleet()));
    assert_eq!(csv::shortest(&samples::fleet()), text);
    let printed = std::fs::read_to_string(folder.join("fleet.txt")).unwrap();
    assert_eq!(report::printed(Form::Csv, 1, &text), printed);
    assert_eq!(report::written(Form::Csv, &text), shortest(&samples::fleet()));
    assert_eq!(report::printed(Form::Csv, 1, &text[3..]), "refused 22\n");
    assert_eq!(report::printed_why(Form::Csv, 1, &text[..text.len() - 1]), "refused 22\n");
}
