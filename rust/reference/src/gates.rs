//! Document 02, 'Two gates, one market'.

use crate::faults::{self, MAX_GUESTS};
use crate::market::Market;
use crate::sheet::TableLengths;

/// The lengths of the joined market's tables.
pub fn joined_lengths(first: &Market, second: &Market) -> TableLengths {
    let (n, m) = (first.guests() + second.guests(), first.stations());
    TableLengths { amounts: n, tickets: n, asks: m, bays: m, bids: n * m }
}

/// The first fault of a call with lent tables of these lengths, by its number.
pub fn joining_fault(first: &Market, second: &Market, tables: TableLengths) -> Result<(), u8> {
    faults::market_fault(first)?;
    faults::market_fault(second)?;
    if first.asks != second.asks || first.bays != second.bays {
        return Err(faults::STATIONS_DIFFER);
    }
    if first.guests() + second.guests() > MAX_GUESTS {
        return Err(faults::COUNTS_OUT_OF_RANGE);
    }
    if first.tickets.iter().any(|ticket| second.tickets.contains(ticket)) {
        return Err(faults::TICKET_IN_BOTH);
    }
    if tables != joined_lengths(first, second) {
        return Err(faults::LENT_LENGTHS);
    }
    Ok(())
}

/// The joined market, the first one's guests in front, or the number of the first fault.
pub fn join(first: &Market, second: &Market, tables: TableLengths) -> Result<Market, u8> {
    joining_fault(first, second, tables)?;
    let mut joined = first.clone();
    joined.amounts.extend(&second.amounts);
    joined.tickets.extend(&second.tickets);
    joined.bids.extend(&second.bids);
    Ok(joined)
}
