//! Each function of [`c`](crate::c) over slices.
// scripts/exports writes this file from crates/bay_market/src.
#![allow(clippy::too_many_arguments)]

use crate::c;
use crate::StationAccount;

pub(crate) fn clear(
    rule: u8,
    asks: &[u32],
    bays: &[u16],
    amounts: &[u16],
    tickets: &[u32],
    bids: &[u32],
    width: usize,
    stations: &mut [u16],
    charges: &mut [u32],
    sold: &mut [u32],
    paid: &mut [u64],
    cut: &mut u32, margin: &mut u64,
) -> u8 {
    // SAFETY: every pointer and length is that of a live slice or number, and borrows keep
    // the written ones apart.
    unsafe {
        c::bay_market_clear(
            rule,
            asks.as_ptr(), asks.len(),
            bays.as_ptr(), bays.len(),
            amounts.as_ptr(), amounts.len(),
            tickets.as_ptr(), tickets.len(),
            bids.as_ptr(), bids.len(),
            width,
            stations.as_mut_ptr(), stations.len(),
            charges.as_mut_ptr(), charges.len(),
            sold.as_mut_ptr(), sold.len(),
            paid.as_mut_ptr(), paid.len(),
            cut, margin,
        )
    }
}

pub(crate) fn clear_efficient(
    rule: u8,
    asks: &[u32],
    bays: &[u16],
    amounts: &[u16],
    tickets: &[u32],
    bids: &[u32],
    width: usize,
    stations: &mut [u16],
    charges: &mut [u32],
    sold: &mut [u32],
    paid: &mut [u64],
    cut: &mut u32, margin: &mut u64,
) -> u8 {
    // SAFETY: every pointer and length is that of a live slice or number, and borrows keep
    // the written ones apart.
    unsafe {
        c::bay_market_clear_efficient(
            rule,
            asks.as_ptr(), asks.len(),
            bays.as_ptr(), bays.len(),
            amounts.as_ptr(), amounts.len(),
            tickets.as_ptr(), tickets.len(),
            bids.as_ptr(), bids.len(),
            width,
            stations.as_mut_ptr(), stations.len(),
            charges.as_mut_ptr(), charges.len(),
            sold.as_mut_ptr(), sold.len(),
            paid.as_mut_ptr(), paid.len(),
            cut, margin,
        )
    }
}

pub(crate) fn clear_marked(
    rule: u8,
    asks: &[u32],
    bays: &[u16],
    amounts: &[u16],
    tickets: &[u32],
    bids: &[u32],
    width: usize,
    stations: &mut [u16],
    charges: &mut [u32],
    sold: &mut [u32],
    paid: &mut [u64],
    places: &mut [u8],
    floors: &mut [u32],
    cut: &mut u32, margin: &mut u64,
) -> u8 {
    // SAFETY: every pointer and length is that of a live slice or number, and borrows keep
    // the written ones apart.
    unsafe {
        c::bay_market_clear_marked(
            rule,
            asks.as_ptr(), asks.len(),
            bays.as_ptr(), bays.len(),
            amounts.as_ptr(), amounts.len(),
            tickets.as_ptr(), tickets.len(),
            bids.as_ptr(), bids.len(),
            width,
            stations.as_mut_ptr(), stations.len(),
            charges.as_mut_ptr(), charges.len(),
            sold.as_mut_ptr(), sold.len(),
            paid.as_mut_ptr(), paid.len(),
            places.as_mut_ptr(), places.len(),
            floors.as_mut_ptr(), floors.len(),
            cut, margin,
        )
    }
}

pub(crate) fn explain(
    rule: u8,
    asks: &[u32],
    bays: &[u16],
    amounts: &[u16],
    tickets: &[u32],
    bids: &[u32],
    width: usize,
    codes: &mut [u8],
    stations: &mut [u16],
    charges: &mut [u32],
    reasons: &mut [u8],
) -> u8 {
    // SAFETY: every pointer and length is that of a live slice or number, and borrows keep
    // the written ones apart.
    unsafe {
        c::bay_market_explain(
            rule,
            asks.as_ptr(), asks.len(),
            bays.as_ptr(), bays.len(),
            amounts.as_ptr(), amounts.len(),
            tickets.as_ptr(), tickets.len(),
            bids.as_ptr(), bids.len(),
            width,
            codes.as_mut_ptr(), codes.len(),
            stations.as_mut_ptr(), stations.len(),
            charges.as_mut_ptr(), charges.len(),
            reasons.as_mut_ptr(), reasons.len(),
        )
    }
}

pub(crate) fn gains(
    rule: u8,
    asks: &[u32],
    bays: &[u16],
    amounts: &[u16],
    tickets: &[u32],
    bids: &[u32],
    width: usize, guest: u32,
    worths: &[u32],
    rows: &[u32],
    gains: &mut [i64],
) -> u8 {
    // SAFETY: every pointer and length is that of a live slice or number, and borrows keep
    // the written ones apart.
    unsafe {
        c::bay_market_gains(
            rule,
            asks.as_ptr(), asks.len(),
            bays.as_ptr(), bays.len(),
            amounts.as_ptr(), amounts.len(),
            tickets.as_ptr(), tickets.len(),
            bids.as_ptr(), bids.len(),
            width, guest,
            worths.as_ptr(), worths.len(),
            rows.as_ptr(), rows.len(),
            gains.as_mut_ptr(), gains.len(),
        )
    }
}

pub(crate) fn join(
    asks: &[u32],
    bays: &[u16],
    amounts: &[u16],
    tickets: &[u32],
    bids: &[u32],
    width: usize,
    asks2: &[u32],
    bays2: &[u16],
    amounts2: &[u16],
    tickets2: &[u32],
    bids2: &[u32],
    width2: usize,
    joined_asks: &mut [u32],
    joined_bays: &mut [u16],
    joined_amounts: &mut [u16],
    joined_tickets: &mut [u32],
    joined_bids: &mut [u32],
) -> u8 {
    // SAFETY: every pointer and length is that of a live slice or number, and borrows keep
    // the written ones apart.
    unsafe {
        c::bay_market_join(
            asks.as_ptr(), asks.len(),
            bays.as_ptr(), bays.len(),
            amounts.as_ptr(), amounts.len(),
            tickets.as_ptr(), tickets.len(),
            bids.as_ptr(), bids.len(),
            width,
            asks2.as_ptr(), asks2.len(),
            bays2.as_ptr(), bays2.len(),
            amounts2.as_ptr(), amounts2.len(),
            tickets2.as_ptr(), tickets2.len(),
            bids2.as_ptr(), bids2.len(),
            width2,
            joined_asks.as_mut_ptr(), joined_asks.len(),
            joined_bays.as_mut_ptr(), joined_bays.len(),
            joined_amounts.as_mut_ptr(), joined_amounts.len(),
            joined_tickets.as_mut_ptr(), joined_tickets.len(),
            joined_bids.as_mut_ptr(), joined_bids.len(),
        )
    }
}

pub(crate) fn mark(
    rule: u8,
    asks: &[u32],
    bays: &[u16],
    amounts: &[u16],
    tickets: &[u32],
    bids: &[u32],
    width: usize,
    stations: &[u16],
    charges: &[u32],
    sold: &[u32],
    paid: &[u64],
    places: &[u8],
    floors: &[u32],
    cut: u32, margin: u64,
    correct: &mut u8,
) -> u8 {
    // SAFETY: every pointer and length is that of a live slice or number, and borrows keep
    // the written ones apart.
    unsafe {
        c::bay_market_mark(
            rule,
            asks.as_ptr(), asks.len(),
            bays.as_ptr(), bays.len(),
            amounts.as_ptr(), amounts.len(),
            tickets.as_ptr(), tickets.len(),
            bids.as_ptr(), bids.len(),
            width,
            stations.as_ptr(), stations.len(),
            charges.as_ptr(), charges.len(),
            sold.as_ptr(), sold.len(),
            paid.as_ptr(), paid.len(),
            places.as_ptr(), places.len(),
            floors.as_ptr(), floors.len(),
            cut, margin,
            correct,
        )
    }
}

pub(crate) fn menu(
    rule: u8,
    asks: &[u32],
    bays: &[u16],
    amounts: &[u16],
    tickets: &[u32],
    bids: &[u32],
    width: usize, guest: u32,
    bars: &mut [u32],
    prices: &mut [u32],
) -> u8 {
    // SAFETY: every pointer and length is that of a live slice or number, and borrows keep
    // the written ones apart.
    unsafe {
        c::bay_market_menu(
            rule,
            asks.as_ptr(), asks.len(),
            bays.as_ptr(), bays.len(),
            amounts.as_ptr(), amounts.len(),
            tickets.as_ptr(), tickets.len(),
            bids.as_ptr(), bids.len(),
            width, guest,
            bars.as_mut_ptr(), bars.len(),
            prices.as_mut_ptr(), prices.len(),
        )
    }
}

pub(crate) fn place_bids(
    prices: &[u32],
    falls: &[u32],
    guest_first: &[u16],
    guest_second: &[u16],
    station_first: &[u16],
    station_second: &[u16],
    bids: &mut [u32],
) -> u8 {
    // SAFETY: every pointer and length is that of a live slice or number, and borrows keep
    // the written ones apart.
    unsafe {
        c::bay_market_place_bids(
            prices.as_ptr(), prices.len(),
            falls.as_ptr(), falls.len(),
            guest_first.as_ptr(), guest_first.len(),
            guest_second.as_ptr(), guest_second.len(),
            station_first.as_ptr(), station_first.len(),
            station_second.as_ptr(), station_second.len(),
            bids.as_mut_ptr(), bids.len(),
        )
    }
}

pub(crate) fn post(
    rule: u8,
    asks: &[u32],
    bays: &[u16],
    amounts: &[u16],
    tickets: &[u32],
    bids: &[u32],
    width: usize, desk: u8, round: u32,
    guests: &mut [u64],
    stations: &mut [StationAccount],
    house: &mut u64,
    last: &mut [u32],
) -> u8 {
    // SAFETY: every pointer and length is that of a live slice or number, and borrows keep
    // the written ones apart.
    unsafe {
        c::bay_market_post(
            rule,
            asks.as_ptr(), asks.len(),
            bays.as_ptr(), bays.len(),
            amounts.as_ptr(), amounts.len(),
            tickets.as_ptr(), tickets.len(),
            bids.as_ptr(), bids.len(),
            width, desk, round,
            guests.as_mut_ptr(), guests.len(),
            stations.as_mut_ptr(), stations.len(),
            house,
            last.as_mut_ptr(), last.len(),
        )
    }
}

pub(crate) fn read(
    sheet: &[u8],
    amounts: &mut [u16],
    tickets: &mut [u32],
    asks: &mut [u32],
    bays: &mut [u16],
    bids: &mut [u32],
    n: &mut u16, m: &mut u16,
) -> u8 {
    // SAFETY: every pointer and length is that of a live slice or number, and borrows keep
    // the written ones apart.
    unsafe {
        c::bay_market_read(
            sheet.as_ptr(), sheet.len(),
            amounts.as_mut_ptr(), amounts.len(),
            tickets.as_mut_ptr(), tickets.len(),
            asks.as_mut_ptr(), asks.len(),
            bays.as_mut_ptr(), bays.len(),
            bids.as_mut_ptr(), bids.len(),
            n, m,
        )
    }
}

pub(crate) fn read_csv(
    text: &[u8],
    amounts: &mut [u16],
    tickets: &mut [u32],
    asks: &mut [u32],
    bays: &mut [u16],
    bids: &mut [u32],
    n: &mut u16, m: &mut u16,
) -> u8 {
    // SAFETY: every pointer and length is that of a live slice or number, and borrows keep
    // the written ones apart.
    unsafe {
        c::bay_market_read_csv(
            text.as_ptr(), text.len(),
            amounts.as_mut_ptr(), amounts.len(),
            tickets.as_mut_ptr(), tickets.len(),
            asks.as_mut_ptr(), asks.len(),
            bays.as_mut_ptr(), bays.len(),
            bids.as_mut_ptr(), bids.len(),
            n, m,
        )
    }
}

pub(crate) fn r#try(
    rule: u8,
    asks: &[u32],
    bays: &[u16],
    amounts: &[u16],
    tickets: &[u32],
    bids: &[u32],
    width: usize, guest: u32,
    worths: &[u32],
    row: &[u32],
    changes: &mut [u8],
    first_gain: &mut i64, second_gain: &mut i64,
) -> u8 {
    // SAFETY: every pointer and length is that of a live slice or number, and borrows keep
    // the written ones apart.
    unsafe {
        c::bay_market_try(
            rule,
            asks.as_ptr(), asks.len(),
            bays.as_ptr(), bays.len(),
            amounts.as_ptr(), amounts.len(),
            tickets.as_ptr(), tickets.len(),
            bids.as_ptr(), bids.len(),
            width, guest,
            worths.as_ptr(), worths.len(),
            row.as_ptr(), row.len(),
            changes.as_mut_ptr(), changes.len(),
            first_gain, second_gain,
        )
    }
}

pub(crate) fn write(
    asks: &[u32],
    bays: &[u16],
    amounts: &[u16],
    tickets: &[u32],
    bids: &[u32],
    width: usize,
    sheet: &mut [u8],
    length: &mut usize,
) -> u8 {
    // SAFETY: every pointer and length is that of a live slice or number, and borrows keep
    // the written ones apart.
    unsafe {
        c::bay_market_write(
            asks.as_ptr(), asks.len(),
            bays.as_ptr(), bays.len(),
            amounts.as_ptr(), amounts.len(),
            tickets.as_ptr(), tickets.len(),
            bids.as_ptr(), bids.len(),
            width,
            sheet.as_mut_ptr(), sheet.len(),
            length,
        )
    }
}
