//! Document 01, 'The sheet', with document 02's tickets in it, and document 02, 'Sheets we can send out' and 'No empty
//! bids in a sheet'.

use crate::faults::{self, MAX_GUESTS, MAX_STATIONS};
use crate::market::Market;

/// How long the tables are that the reader is lent.
#[derive(Clone, Copy, Debug, PartialEq, Eq)]
pub struct TableLengths {
    pub amounts: usize,
    pub tickets: usize,
    pub asks: usize,
    pub bays: usize,
    pub bids: usize,
}

/// The lengths that the reader accepts.
pub const GREATEST: TableLengths = TableLengths {
    amounts: MAX_GUESTS,
    tickets: MAX_GUESTS,
    asks: MAX_STATIONS,
    bays: MAX_STATIONS,
    bids: MAX_GUESTS * MAX_STATIONS,
};

/// The part of a sheet that is still to be read.
struct Rest<'a>(&'a [u8]);

impl<'a> Rest<'a> {
    fn field(&mut self, bytes: usize) -> Result<&'a [u8], u8> {
        if self.0.len() < bytes {
            return Err(faults::SHEET_ENDS);
        }
        let (field, rest) = self.0.split_at(bytes);
        self.0 = rest;
        Ok(field)
    }

    fn number16(&mut self) -> Result<u16, u8> {
        let field = self.field(2)?;
        Ok(u16::from_le_bytes([field[0], field[1]]))
    }

    fn number32(&mut self) -> Result<u32, u8> {
        let field = self.field(4)?;
        Ok(u32::from_le_bytes([field[0], field[1], field[2], field[3]]))
    }

    /// A bid that has a set bit.
    fn bid(&mut self) -> Result<u32, u8> {
        match self.number32()? {
            0 => Err(faults::EMPTY_BID),
            bid => Ok(bid),
        }
    }

    /// One bit for each station, and no other bit.
    fn bit_map(&mut self, stations: usize) -> Result<Vec<bool>, u8> {
        let mut bits = Vec::new();
        for byte in self.field(stations.div_ceil(8))? {
            for place in 0..8 {
                bits.push(byte >> place & 1 == 1);
            }
        }
        let beyond = bits.split_off(stations);
        if beyond.contains(&true) {
            return Err(faults::STRAY_BIT);
        }
        Ok(bits)
    }
}

/// The market that a sheet states, or the number of its first fault.
pub fn read(sheet: &[u8], tables: TableLengths) -> Result<Market, u8> {
    if tables != GREATEST {
        return Err(faults::LENT_LENGTHS);
    }
    if sheet.len() < 4 {
        return Err(faults::SHEET_ENDS);
    }
    let mut rest = Rest(sheet);
    let n = usize::from(rest.number16()?);
    let m = usize::from(rest.number16()?);
    if !faults::counts_in_range(n, m) {
        return Err(faults::COUNTS_OUT_OF_RANGE);
    }
    let mut market = Market::new(&[], &[], &[], &[], &[]);
    market.width = m;
    for _station in 1..=m {
        market.asks.push(rest.number32()?);
        market.bays.push(rest.number16()?);
    }
    for _guest in 1..=n {
        market.amounts.push(rest.number16()?);
        market.tickets.push(rest.number32()?);
        for set in rest.bit_map(m)? {
            market.bids.push(if set { rest.bid()? } else { 0 });
        }
    }
    if !rest.0.is_empty() {
        return Err(faults::TRAILING_BYTES);
    }
    Ok(market)
}

/// The sheet of a market whose tables fit its counts. `empty` says for each guest and station, from 1, whether a bid of 0
/// gets a set bit; where one does, the reader refuses the sheet.
pub fn stating(market: &Market, mut empty: impl FnMut(usize, usize) -> bool) -> Vec<u8> {
    let (n, m) = (market.guests(), market.stations());
    let mut sheet = Vec::new();
    sheet.extend((n as u16).to_le_bytes());
    sheet.extend((m as u16).to_le_bytes());
    for station in 1..=m {
        sheet.extend(market.asks[station - 1].to_le_bytes());
        sheet.extend(market.bays[station - 1].to_le_bytes());
    }
    for guest in 1..=n {
        sheet.extend(market.amounts[guest - 1].to_le_bytes());
        sheet.extend(market.tickets[guest - 1].to_le_bytes());
        let mut map = vec![0; m.div_ceil(8)];
        let mut bids = Vec::new();
        for station in 1..=m {
            let bid = market.bid(guest, station);
            if bid != 0 || empty(guest, station) {
                map[(station - 1) / 8] |= 1u8 << ((station - 1) % 8);
                bids.extend(bid.to_le_bytes());
            }
        }
        sheet.extend(map);
        sheet.extend(bids);
    }
    sheet
}

/// The one sheet that states the market, whose tables fit its counts: no bid of 0 gets a set bit.
pub fn shortest(market: &Market) -> Vec<u8> {
    stating(market, |_guest, _station| false)
}

/// The sheet that is written of a market into an output of so many bytes, or the number of the first fault.
pub fn write(market: &Market, output: usize) -> Result<Vec<u8>, u8> {
    faults::market_fault(market)?;
    let sheet = shortest(market);
    if output < sheet.len() {
        return Err(faults::OUTPUT_TOO_SHORT);
    }
    Ok(sheet)
}
