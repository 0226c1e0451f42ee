//! The functions of include/bay_market.h, where each is documented.
//!
//! Mind the order of arguments: `bay_market_read` takes amounts, tickets, asks, bays, bids, the others that take a market
//! asks, bays, amounts, tickets, bids, after the rule's number where they have one. Amounts and bays have one type,
//! tickets, asks and bids another, so the compiler cannot see a swap. `bay_market_place_bids` takes prices, falls, then
//! the guests' first and second coordinates, then the stations', and `bay_market_try` a guest's worths before its other row.
//! `bay_market_clear_marked` and `bay_market_mark` take charges, sold and floors, which have one type, in this order. The
//! safe functions name each.

use crate::StationAccount;

unsafe extern "C" {
    pub safe fn bay_market_version() -> u32;
    pub safe fn bay_market_1_0_0() -> u32;
}

// scripts/exports writes what follows from crates/bay_market/src
#[rustfmt::skip] // pointer and length on one line
unsafe extern "C" {
    pub fn bay_market_read(
        sheet: *const u8, sheet_len: usize,
        amounts: *mut u16, amounts_len: usize,
        tickets: *mut u32, tickets_len: usize,
        asks: *mut u32, asks_len: usize,
        bays: *mut u16, bays_len: usize,
        bids: *mut u32, bids_len: usize,
        n: *mut u16, m: *mut u16,
    ) -> u8;

    pub fn bay_market_read_csv(
        text: *const u8, text_len: usize,
        amounts: *mut u16, amounts_len: usize,
        tickets: *mut u32, tickets_len: usize,
        asks: *mut u32, asks_len: usize,
        bays: *mut u16, bays_len: usize,
        bids: *mut u32, bids_len: usize,
        n: *mut u16, m: *mut u16,
    ) -> u8;

    pub fn bay_market_write(
        asks: *const u32, asks_len: usize,
        bays: *const u16, bays_len: usize,
        amounts: *const u16, amounts_len: usize,
        tickets: *const u32, tickets_len: usize,
        bids: *const u32, bids_len: usize,
        width: usize,
        sheet: *mut u8, sheet_len: usize,
        length: *mut usize,
    ) -> u8;

    pub fn bay_market_place_bids(
        prices: *const u32, prices_len: usize,
        falls: *const u32, falls_len: usize,
        guest_first: *const u16, guest_first_len: usize,
        guest_second: *const u16, guest_second_len: usize,
        station_first: *const u16, station_first_len: usize,
        station_second: *const u16, station_second_len: usize,
        bids: *mut u32, bids_len: usize,
    ) -> u8;

    pub fn bay_market_join(
        asks: *const u32, asks_len: usize,
        bays: *const u16, bays_len: usize,
        amounts: *const u16, amounts_len: usize,
        tickets: *const u32, tickets_len: usize,
        bids: *const u32, bids_len: usize,
        width: usize,
        asks2: *const u32, asks2_len: usize,
        bays2: *const u16, bays2_len: usize,
        amounts2: *const u16, amounts2_len: usize,
        tickets2: *const u32, tickets2_len: usize,
        bids2: *const u32, bids2_len: usize,
        width2: usize,
        joined_asks: *mut u32, joined_asks_len: usize,
        joined_bays: *mut u16, joined_bays_len: usize,
        joined_amounts: *mut u16, joined_amounts_len: usize,
        joined_tickets: *mut u32, joined_tickets_len: usize,
        joined_bids: *mut u32, joined_bids_len: usize,
    ) -> u8;

    pub fn bay_market_clear(
        rule: u8,
        asks: *const u32, asks_len: usize,
        bays: *const u16, bays_len: usize,
        amounts: *const u16, amounts_len: usize,
        tickets: *const u32, tickets_len: usize,
        bids: *const u32, bids_len: usize,
        width: usize,
        stations: *mut u16, stations_len: usize,
        charges: *mut u32, charges_len: usize,
        sold: *mut u32, sold_len: usize,
        paid: *mut u64, paid_len: usize,
        cut: *mut u32, margin: *mut u64,
    ) -> u8;

    pub fn bay_market_clear_efficient(
        rule: u8,
        asks: *const u32, asks_len: usize,
        bays: *const u16, bays_len: usize,
        amounts: *const u16, amounts_len: usize,
        tickets: *const u32, tickets_len: usize,
        bids: *const u32, bids_len: usize,
        width: usize,
        stations: *mut u16, stations_len: usize,
        charges: *mut u32, charges_len: usize,
        sold: *mut u32, sold_len: usize,
        paid: *mut u64, paid_len: usize,
        cut: *mut u32, margin: *mut u64,
    ) -> u8;

    pub fn bay_market_explain(
        rule: u8,
        asks: *const u32, asks_len: usize,
        bays: *const u16, bays_len: usize,
        amounts: *const u16, amounts_len: usize,
        tickets: *const u32, tickets_len: usize,
        bids: *const u32, bids_len: usize,
        width: usize,
        codes: *mut u8, codes_len: usize,
        stations: *mut u16, stations_len: usize,
        charges: *mut u32, charges_len: usize,
        reasons: *mut u8, reasons_len: usize,
    ) -> u8;

    pub fn bay_market_try(
        rule: u8,
        asks: *const u32, asks_len: usize,
        bays: *const u16, bays_len: usize,
        amounts: *const u16, amounts_len: usize,
        tickets: *const u32, tickets_len: usize,
        bids: *const u32, bids_len: usize,
        width: usize, guest: u32,
        worths: *const u32, worths_len: usize,
        row: *const u32, row_len: usize,
        changes: *mut u8, changes_len: usize,
        first_gain: *mut i64, second_gain: *mut i64,
    ) -> u8;

    pub fn bay_market_menu(
        rule: u8,
        asks: *const u32, asks_len: usize,
        bays: *const u16, bays_len: usize,
        amounts: *const u16, amounts_len: usize,
        tickets: *const u32, tickets_len: usize,
        bids: *const u32, bids_len: usize,
        width: usize, guest: u32,
        bars: *mut u32, bars_len: usize,
        prices: *mut u32, prices_len: usize,
    ) -> u8;

    pub fn bay_market_gains(
        rule: u8,
        asks: *const u32, asks_len: usize,
        bays: *const u16, bays_len: usize,
        amounts: *const u16, amounts_len: usize,
        tickets: *const u32, tickets_len: usize,
        bids: *const u32, bids_len: usize,
        width: usize, guest: u32,
        worths: *const u32, worths_len: usize,
        rows: *const u32, rows_len: usize,
        gains: *mut i64, gains_len: usize,
    ) -> u8;

    pub fn bay_market_clear_marked(
        rule: u8,
        asks: *const u32, asks_len: usize,
        bays: *const u16, bays_len: usize,
        amounts: *const u16, amounts_len: usize,
        tickets: *const u32, tickets_len: usize,
        bids: *const u32, bids_len: usize,
        width: usize,
        stations: *mut u16, stations_len: usize,
        charges: *mut u32, charges_len: usize,
        sold: *mut u32, sold_len: usize,
        paid: *mut u64, paid_len: usize,
        places: *mut u8, places_len: usize,
        floors: *mut u32, floors_len: usize,
        cut: *mut u32, margin: *mut u64,
    ) -> u8;

    pub fn bay_market_mark(
        rule: u8,
        asks: *const u32, asks_len: usize,
        bays: *const u16, bays_len: usize,
        amounts: *const u16, amounts_len: usize,
        tickets: *const u32, tickets_len: usize,
        bids: *const u32, bids_len: usize,
        width: usize,
        stations: *const u16, stations_len: usize,
        charges: *const u32, charges_len: usize,
        sold: *const u32, sold_len: usize,
        paid: *const u64, paid_len: usize,
        places: *const u8, places_len: usize,
        floors: *const u32, floors_len: usize,
        cut: u32, margin: u64,
        correct: *mut u8,
    ) -> u8;

    pub fn bay_market_post(
        rule: u8,
        asks: *const u32, asks_len: usize,
        bays: *const u16, bays_len: usize,
        amounts: *const u16, amounts_len: usize,
        tickets: *const u32, tickets_len: usize,
        bids: *const u32, bids_len: usize,
        width: usize, desk: u8, round: u32,
        guests: *mut u64, guests_len: usize,
        stations: *mut StationAccount, stations_len: usize,
        house: *mut u64,
        last: *mut u32, last_len: usize,
    ) -> u8;
}
// end of what scripts/exports writes
