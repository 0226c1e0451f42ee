//! Reading a sheet.

use super::faults::counts_fit;
use bay_market::lent::{Counts, Tables};

fn number16(sheet: &[u8], at: usize) -> u16 {
    u16::from_le_bytes(sheet[at..at + 2].try_into().expect("2 bytes"))
}

fn number32(sheet: &[u8], at: usize) -> u32 {
    u32::from_le_bytes(sheet[at..at + 4].try_into().expect("4 bytes"))
}

/// Where a row's bit map begins, after amount and ticket.
pub const MAP: usize = 2 + 4;

/// A row's bit map of 1 to 5 bytes, the lowest bit for station 1: 8 bytes at once, where there are so many.
fn bit_map(sheet: &[u8], at: usize, bytes: usize) -> u64 {
    if let Some(word) = sheet.get(at..at + 8) {
        return u64::from_le_bytes(word.try_into().expect("8 bytes")) & (u64::MAX >> (64 - 8 * bytes));
    }
    sheet[at..at + bytes].iter().rev().fold(0, |map, &byte| map << 8 | u64::from(byte))
}

/// Reads a sheet in two walks: one that checks, one that fills.
pub fn read(sheet: &[u8], tables: &mut Tables) -> Result<Counts, u8> {
    if sheet.len() < 4 {
        return Err(1);
    }
    let counts = Counts { guests: number16(sheet, 0), stations: number16(sheet, 2) };
    let (n, m) = (usize::from(counts.guests), usize::from(counts.stations));
    if !counts_fit(n, m) {
        return Err(2);
    }
    let bytes = m.div_ceil(8);
    let rows = 4 + 6 * m;

    let mut at = rows;
    for _ in 0..n {
        if sheet.len() < at + MAP + bytes {
            return Err(1);
        }
        let map = bit_map(sheet, at + MAP, bytes);
        if map >> m != 0 {
            return Err(3);
        }
        let bids = &sheet[at + MAP + bytes..];
        let fields = 4 * map.count_ones() as usize;
        // a fold and not `any`: with no way out several fields are compared at once
        if bids[..fields.min(bids.len())].chunks_exact(4).fold(false, |empty, bid| empty | (bid == [0; 4])) {
            return Err(19);
        }
        if bids.len() < fields {
            return Err(1);
        }
        at += MAP + bytes + fields;
    }
    if sheet.len() < at {
        return Err(1);
    }
    if sheet.len() > at {
        return Err(4);
    }

    for station in 0..m {
        tables.asks[station] = number32(sheet, 4 + 6 * station);
        tables.bays[station] = number16(sheet, 8 + 6 * station);
    }
    let mut at = rows;
    for guest in 0..n {
        tables.amounts[guest] = number16(sheet, at);
        tables.tickets[guest] = number32(sheet, at + 2);
        let mut map = bit_map(sheet, at + MAP, bytes);
        at += MAP + bytes;
        let row = &mut tables.bids[guest * m..(guest + 1) * m];
        if map.count_ones() as usize == m {
            for (bid, field) in row.iter_mut().zip(sheet[at..].chunks_exact(4)) {
                *bid = number32(field, 0);
            }
            at += 4 * m;
            continue;
        }
        row.fill(0);
        while map != 0 {
            row[map.trailing_zeros() as usize] = number32(sheet, at);
            at += 4;
            map &= map - 1;
        }
    }
    Ok(counts)
}

#[cfg(test)]
mod tests {
    use super::*;
    use crate::reading::Read;
    use reference::random::Random;
    use reference::sheet::GREATEST;
    use reference::{samples, sheet};

    #[test]
    fn reading_refuses_as_the_reference() {
        let mut random = Random::new(1);
        for _ in 0..5_000 {
            let mut sheet = sheet::shortest(&samples::table_i());
            for _ in 0..random.below(2) {
                let (row, bid) = (random.below(5), random.below(3));
                sheet[34 + 19 * row + 7 + 4 * bid..][..4].fill(0);
            }
            match random.below(3) {
                0 => sheet.truncate(random.below(sheet.len())),
                1 => sheet.push(0),
                _ => sheet[random.below(70)] ^= 1 << random.below(8),
            }
            let expected = sheet::read(&sheet, GREATEST);
            assert_eq!(read(&sheet, &mut Read::new().lend()).map(|_| ()), expected.map(|_| ()), "{sheet:?}");
        }
    }
}
