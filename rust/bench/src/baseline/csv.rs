//! Reading a comma-separated market.

use bay_market::lent::{Counts, Tables};
use bay_market::{MAX_GUESTS, MAX_STATIONS};

/// What is left of a text.
struct Rest<'a>(&'a [u8]);

impl Rest<'_> {
    /// Passes a field of digits; its number, and whether it is empty.
    fn field(&mut self, greatest: u32) -> Result<(u32, bool), u8> {
        let (mut rest, mut value) = (self.0, 0u64);
        while let [digit @ b'0'..=b'9', after @ ..] = rest {
            value = value.wrapping_mul(10).wrapping_add((digit - b'0').into());
            rest = after;
        }
        let digits = self.0.len() - rest.len();
        self.0 = rest;
        if digits > 10 || value > greatest.into() { Err(23) } else { Ok((value as u32, digits == 0)) }
    }

    fn pass(&mut self, byte: u8) -> Result<(), u8> {
        match self.0 {
            [first, after @ ..] if *first == byte => {
                self.0 = after;
                Ok(())
            }
            _ => Err(22),
        }
    }

    /// A field that is not empty, and the byte after it.
    fn number(&mut self, greatest: u32, end: u8) -> Result<u32, u8> {
        match self.field(greatest)? {
            (_, true) => Err(22),
            (value, false) => self.pass(end).map(|()| value),
        }
    }

    fn bid(&mut self, end: u8) -> Result<u32, u8> {
        let (value, _) = self.field(u32::MAX)?;
        self.pass(end).map(|()| value)
    }
}

/// One pass, which writes as it goes: a text that is refused leaves what was read of it.
pub fn read_csv(text: &[u8], tables: &mut Tables) -> Result<Counts, u8> {
    let mut rest = Rest(text);
    let (mut n, mut m) = (0, 0);
    loop {
        let (ask, empty) = rest.field(u32::MAX)?;
        let comma = rest.0.first() == Some(&b',');
        if comma && m + 1 == MAX_STATIONS {
            return Err(2);
        }
        if empty {
            return Err(22);
        }
        tables.asks[m] = ask;
        m += 1;
        if !comma {
            break;
        }
        rest.pass(b',')?;
    }
    rest.pass(b'\r')?;
    rest.pass(b'\n')?;
    for (station, bays) in tables.bays[..m].iter_mut().enumerate() {
        *bays = rest.number(u16::MAX.into(), if station + 1 == m { b'\r' } else { b',' })? as u16;
    }
    rest.pass(b'\n')?;
    let mut rows = tables.bids.chunks_exact_mut(m);
    while !rest.0.is_empty() {
        if n == MAX_GUESTS {
            return Err(2);
        }
        tables.tickets[n] = rest.number(u32::MAX, b',')?;
        tables.amounts[n] = rest.number(u16::MAX.into(), b',')? as u16;
        if let Some((last, others)) = rows.next().and_then(<[u32]>::split_last_mut) {
            for bid in others {
                *bid = rest.bid(b',')?;
            }
            *last = rest.bid(b'\r')?;
        }
        rest.pass(b'\n')?;
        n += 1;
    }
    Ok(Counts { guests: n as u16, stations: m as u16 })
}

#[cfg(test)]
mod tests {
    use super::*;
    use crate::reading::Read;
    use reference::random::{self, Random, Shape};
    use reference::sheet::GREATEST;
    use reference::{csv, market, samples};

    #[test]
    fn reading_comma_separated_markets_refuses_as_the_reference() {
        let mut random = Random::new(1);
        let crowd = Shape { guests: 200..=201, stations: 1..=1, ..Shape::whole() };
        let wide = Shape { guests: 0..=1, stations: 39..=42, ..Shape::whole() };
        for case in 0..20_000 {
            let market = match case % 20 {
                0 => crowd.market(&mut random),
                1 => wide.market(&mut random),
                _ => market::Market { tickets: random::any(&mut random, 5), ..samples::table_i() },
            };
            let mut text = csv::shortest(&market);
            for _ in 0..random.below(3) {
                let at = random.below(text.len());
                match random.below(4) {
                    0 => text.truncate(at + 1),
                    1 => text[at] = *random.pick(b"0159,\r\n x"),
                    2 => {
                        let more = *random.pick(&[&b"65535"[..], b"429496729", b"00000000", b",", b"\r\n"]);
                        text.splice(at..at, more.iter().copied());
                    }
                    _ => text.push(*random.pick(b"19,\r\n x")),
                }
            }
            let mut tables = Read::new();
            let answer = read_csv(&text, &mut tables.lend());
            let read = answer.map(|counts| tables.market(counts));
            assert_eq!(read, csv::read(&text, GREATEST), "{}", text.escape_ascii());
        }
    }
}
