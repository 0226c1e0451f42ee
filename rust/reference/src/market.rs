/// A market as it is lent: tables of any lengths and values, and the row width of the bid table.
#[derive(Clone, Debug, PartialEq, Eq)]
pub struct Market {
    pub asks: Vec<u32>,
    pub bays: Vec<u16>,
    pub amounts: Vec<u16>,
    pub tickets: Vec<u32>,
    pub bids: Vec<u32>,
    pub width: usize,
}

impl Market {
    pub fn new(asks: &[u32], bays: &[u16], amounts: &[u16], tickets: &[u32], bids: &[u32]) -> Market {
        Market {
            asks: asks.to_vec(),
            bays: bays.to_vec(),
            amounts: amounts.to_vec(),
            tickets: tickets.to_vec(),
            bids: bids.to_vec(),
            width: asks.len(),
        }
    }

    /// With tickets 1, 2, 3 and so on in guest order.
    pub fn numbered(asks: &[u32], bays: &[u16], amounts: &[u16], bids: &[u32]) -> Market {
        let tickets: Vec<u32> = (1..=amounts.len() as u32).collect();
        Market::new(asks, bays, amounts, &tickets, bids)
    }

    /// n
    pub fn guests(&self) -> usize {
        self.amounts.len()
    }

    /// m
    pub fn stations(&self) -> usize {
        self.asks.len()
    }

    /// The bid of a guest at a station, both numbered from 1.
    pub fn bid(&self, guest: usize, station: usize) -> u32 {
        self.bids[(guest - 1) * self.stations() + station - 1]
    }
}
