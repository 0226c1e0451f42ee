//! Document 02, 'Comma-separated markets': the text byte by byte, and at each place, the end too, the faults that are met
//! there.

use crate::faults::{self, MAX_GUESTS, MAX_STATIONS};
use crate::market::Market;
use crate::sheet::{GREATEST, TableLengths};

/// The table that a field belongs to.
#[derive(Clone, Copy, Debug, PartialEq, Eq)]
pub enum Table {
    Asks,
    Bays,
    Tickets,
    Amounts,
    Bids,
}

impl Table {
    /// Of a field, by its line and its number in the line, both from 0.
    pub fn of(line: usize, field: usize) -> Table {
        match (line, field) {
            (0, _) => Table::Asks,
            (1, _) => Table::Bays,
            (_, 0) => Table::Tickets,
            (_, 1) => Table::Amounts,
            _ => Table::Bids,
        }
    }

    /// The greatest value of the table's width.
    pub fn greatest(self) -> u128 {
        match self {
            Table::Asks | Table::Tickets | Table::Bids => 4_294_967_295,
            Table::Bays | Table::Amounts => 65_535,
        }
    }
}

/// The text before a place.
#[derive(Default)]
struct Before {
    /// The lines that have ended, as their fields' digits.
    lines: Vec<Vec<String>>,
    /// The fields of this line that have ended.
    fields: Vec<String>,
    /// The digits since the last field ended.
    digits: String,
    /// The byte before the place is CR.
    cr: bool,
}

impl Before {
    fn starts_line(&self) -> bool {
        self.fields.is_empty() && self.digits.is_empty() && !self.cr
    }

    /// How many fields this line is to have; the first line says it itself.
    fn fields_due(&self) -> Option<usize> {
        let m = self.lines.first()?.len();
        Some(if self.lines.len() == 1 { m } else { m + 2 })
    }

    /// The table of the field that the digits are of.
    fn table(&self) -> Table {
        Table::of(self.lines.len(), self.fields.len())
    }

    /// A field that ends here is too large.
    fn too_large(&self) -> bool {
        self.digits.len() > 10 || value(&self.digits) > self.table().greatest()
    }

    /// A field that ends here is empty and may not be.
    fn wrongly_empty(&self) -> bool {
        self.digits.is_empty() && self.table() != Table::Bids
    }

    /// The fault of the place: a byte, or the end.
    fn fault(&self, byte: Option<u8>) -> Result<(), u8> {
        let malformed = |holds: bool| if holds { Err(faults::MALFORMED_TEXT) } else { Ok(()) };
        if byte.is_none() && self.starts_line() {
            return malformed(self.lines.len() < 2); // a missing line
        }
        if byte.is_some() && self.starts_line() && self.lines.len() == 2 + MAX_GUESTS {
            return Err(faults::COUNTS_OUT_OF_RANGE);
        }
        if self.cr {
            return malformed(byte != Some(b'\n'));
        }
        if byte.is_some_and(|byte| byte.is_ascii_digit()) {
            return Ok(());
        }
        // a field ends here
        if self.too_large() {
            return Err(faults::FIELD_TOO_LARGE);
        }
        let count = self.fields.len() + 1;
        match byte {
            Some(b',') if self.lines.is_empty() && count == MAX_STATIONS => Err(faults::COUNTS_OUT_OF_RANGE),
            Some(b',') => malformed(self.wrongly_empty() || self.fields_due() == Some(count)),
            Some(b'\r') => malformed(self.wrongly_empty() || self.fields_due().is_some_and(|due| count < due)),
            _ => malformed(true), // another byte, LF with no CR before it, the end inside a line
        }
    }

    /// Takes a byte that is no fault.
    fn pass(&mut self, byte: u8) {
        match byte {
            b',' => self.fields.push(std::mem::take(&mut self.digits)),
            b'\r' => {
                self.fields.push(std::mem::take(&mut self.digits));
                self.cr = true;
            }
            b'\n' => {
                self.lines.push(std::mem::take(&mut self.fields));
                self.cr = false;
            }
            digit => self.digits.push(char::from(digit)),
        }
    }
}

/// A field's number; an empty one is 0.
fn value(digits: &str) -> u128 {
    // 38 digits fit, and whatever has more is refused for that
    if digits.is_empty() { 0 } else { digits[..digits.len().min(38)].parse().expect("digits") }
}

/// The market that a text states, or the number of its first fault.
pub fn read(text: &[u8], tables: TableLengths) -> Result<Market, u8> {
    if tables != GREATEST {
        return Err(faults::LENT_LENGTHS);
    }
    let mut before = Before::default();
    for &byte in text {
        before.fault(Some(byte))?;
        before.pass(byte);
    }
    before.fault(None)?;
    let mut market = Market::new(&[], &[], &[], &[], &[]);
    for (line, fields) in before.lines.iter().enumerate() {
        for (field, digits) in fields.iter().enumerate() {
            let value = value(digits);
            match Table::of(line, field) {
                Table::Asks => market.asks.push(value as u32),
                Table::Bays => market.bays.push(value as u16),
                Table::Tickets => market.tickets.push(value as u32),
                Table::Amounts => market.amounts.push(value as u16),
                Table::Bids => market.bids.push(value as u32),
            }
        }
    }
    market.width = market.stations();
    Ok(market)
}

/// The lines of a market whose tables fit its counts, as the values of their fields.
pub fn lines(market: &Market) -> Vec<Vec<u32>> {
    let bays = market.bays.iter().map(|&bays| bays.into()).collect();
    let mut lines = vec![market.asks.clone(), bays];
    for guest in 1..=market.guests() {
        let mut line = vec![market.tickets[guest - 1], market.amounts[guest - 1].into()];
        line.extend((1..=market.stations()).map(|station| market.bid(guest, station)));
        lines.push(line);
    }
    lines
}

/// A text of a market whose tables fit its counts, its fields made by `written` of table and value.
pub fn stating(market: &Market, mut written: impl FnMut(Table, u32) -> String) -> Vec<u8> {
    let mut text = String::new();
    for (line, values) in lines(market).into_iter().enumerate() {
        let fields = values.into_iter().enumerate().map(|(field, value)| written(Table::of(line, field), value));
        text += &fields.collect::<Vec<_>>().join(",");
        text += "\r\n";
    }
    text.into_bytes()
}

/// The shortest text: no zeros in front, and an empty field for a bid of 0.
pub fn shortest(market: &Market) -> Vec<u8> {
    stating(market, |table, value| if table == Table::Bids && value == 0 { String::new() } else { value.to_string() })
}
