//! Writing a sheet.

use super::Scratch;
use super::faults::{lengths_fault, values_fault};
use super::reading::MAP;
use bay_market::lent::Market;

/// The bit of each station in its half of a map.
static POWERS: [u32; 32] = {
    let mut powers = [0; 32];
    let mut station = 0;
    while station < 32 {
        powers[station] = 1 << station;
        station += 1;
    }
    powers
};

/// The map of up to 32 bids: no bit waits for another, so that several are made at once.
fn half_map(bids: &[u32]) -> u32 {
    bids.iter().zip(&POWERS).fold(0, |map, (&bid, &power)| map | if bid == 0 { 0 } else { power })
}

fn row_map(row: &[u32]) -> u64 {
    let (low, high) = row.split_at(row.len().min(32));
    u64::from(half_map(low)) | u64::from(half_map(high)) << 32
}

/// Writes the bids of a row with this map that are not 0, from a place on; the place after them.
pub type WriteBids = fn(&[u32], u64, &mut [u8], usize) -> usize;

/// The map's set bits are stepped over; a row in which none is 0 is written without a test.
pub fn by_map(row: &[u32], map: u64, sheet: &mut [u8], mut at: usize) -> usize {
    if map.count_ones() as usize == row.len() {
        for (field, bid) in sheet[at..].chunks_exact_mut(4).zip(row) {
            field.copy_from_slice(&bid.to_le_bytes());
        }
        return at + 4 * row.len();
    }
    let mut left = map;
    while left != 0 {
        sheet[at..at + 4].copy_from_slice(&row[left.trailing_zeros() as usize].to_le_bytes());
        at += 4;
        left &= left - 1;
    }
    at
}

/// One bid is looked at after the other.
pub fn by_bid(row: &[u32], _map: u64, sheet: &mut [u8], mut at: usize) -> usize {
    for &bid in row.iter().filter(|&&bid| bid != 0) {
        sheet[at..at + 4].copy_from_slice(&bid.to_le_bytes());
        at += 4;
    }
    at
}

/// Puts a map of so many bytes: 8 at once where there is room, since the bids are written over the rest.
fn put_map(sheet: &mut [u8], at: usize, bytes: usize, map: u64) {
    match sheet.get_mut(at..at + 8) {
        Some(word) => word.copy_from_slice(&map.to_le_bytes()),
        None => sheet[at..at + bytes].copy_from_slice(&map.to_le_bytes()[..bytes]),
    }
}

/// Writes the market's shortest sheet in two walks: one that makes the maps, whose set bits give the length, and one that
/// writes.
pub fn write(scratch: &mut Scratch, market: &Market, sheet: &mut [u8], write_bids: WriteBids) -> Result<usize, u8> {
    lengths_fault(market)?;
    values_fault(&mut scratch.ranks, market)?;
    let (n, m) = (market.amounts.len(), market.asks.len());
    let bytes = m.div_ceil(8);
    let maps = &mut scratch.maps[..n];
    let mut bids = 0;
    for (map, row) in maps.iter_mut().zip(market.bids.chunks_exact(m)) {
        *map = row_map(row);
        bids += map.count_ones() as usize;
    }
    let rows = 4 + 6 * m;
    let length = rows + n * (MAP + bytes) + 4 * bids;
    let sheet = sheet.get_mut(..length).ok_or(14)?;

    sheet[..2].copy_from_slice(&(n as u16).to_le_bytes());
    sheet[2..4].copy_from_slice(&(m as u16).to_le_bytes());
    for (field, (ask, bays)) in sheet[4..rows].chunks_exact_mut(6).zip(market.asks.iter().zip(market.bays)) {
        field[..4].copy_from_slice(&ask.to_le_bytes());
        field[4..].copy_from_slice(&bays.to_le_bytes());
    }
    let mut at = rows;
    let guests = market.amounts.iter().zip(market.tickets).zip(&*maps);
    for (row, ((amount, ticket), &map)) in market.bids.chunks_exact(m).zip(guests) {
        sheet[at..at + 2].copy_from_slice(&amount.to_le_bytes());
        sheet[at + 2..at + MAP].copy_from_slice(&ticket.to_le_bytes());
        put_map(sheet, at + MAP, bytes, map);
        at = write_bids(row, map, sheet, at + MAP + bytes);
    }
    Ok(length)
}

#[cfg(test)]
mod tests {
    use super::*;
    use crate::baseline::samples::damaged;
    use crate::markets::lend;
    use reference::random::Random;
    use reference::{samples, sheet};

    #[test]
    fn writing_refuses_as_the_reference() {
        let mut random = Random::new(1);
        let mut scratch = Scratch::new();
        for _ in 0..2_000 {
            let market = if random.chance(50) { samples::table_i() } else { damaged(&mut random) };
            let mut output = vec![0; random.below(150)];
            let expected = sheet::write(&market, output.len());
            for write_bids in [by_map as WriteBids, by_bid] {
                let answer = write(&mut scratch, &lend(&market), &mut output, write_bids);
                assert_eq!(answer.map(|length| output[..length].to_vec()), expected, "{market:?}");
            }
        }
    }
}
