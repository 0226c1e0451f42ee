//! The engine over lists of its own.

use crate::{
    Change, Code, Desk, GuestOutcome, MAX_BIDS, MAX_DESKS, MAX_GUESTS, MAX_SHEET, MAX_STATIONS, Refusal, Rule, StationAccount,
    lent,
};

/// A market: n amounts and tickets, m asks, m bays, and n times m bids, guest after guest (0: no bid).
#[derive(Clone, Debug, Default, PartialEq, Eq)]
pub struct Market {
    pub asks: Vec<u32>,
    pub bays: Vec<u16>,
    pub amounts: Vec<u16>,
    pub tickets: Vec<u32>,
    pub bids: Vec<u32>,
}

/// A cell of the grid; a coordinate is 0 to 31.
#[derive(Clone, Copy, Debug, PartialEq, Eq)]
pub struct Cell {
    pub first: u16,
    pub second: u16,
}

/// What bids are placed from: n guests' prices, falls and cells, and m stations' cells. A price is in mills per kWh, a fall
/// in mills per kWh for each tenth of a cell that the guest walks.
#[derive(Clone, Debug, Default, PartialEq, Eq)]
pub struct Places {
    pub prices: Vec<u32>,
    pub falls: Vec<u32>,
    pub guests: Vec<Cell>,
    pub stations: Vec<Cell>,
}

/// A market's clearing: each guest's station (0: none) and charge, each station's kWh sold and payment.
#[derive(Clone, Debug, PartialEq, Eq)]
pub struct Clearing {
    pub cut: u32,
    pub stations: Vec<u16>,
    pub charges: Vec<u32>,
    pub sold: Vec<u32>,
    pub paid: Vec<u64>,
    pub margin: u64,
}

/// What decided a market's truthful round: a code for each guest and station, guest after guest as the bids, and each
/// guest's outcome.
#[derive(Clone, Debug, PartialEq, Eq)]
pub struct Explanation {
    pub codes: Vec<Code>,
    pub outcomes: Vec<GuestOutcome>,
}

/// What another row of a guest would have done: its gains by its bids in the market and by the other row, in mills, negative
/// where it would pay more than its station is worth to it; and a change for each guest, none for the guest itself.
#[derive(Clone, Debug, PartialEq, Eq)]
pub struct Tried {
    pub first_gain: i64,
    pub second_gain: i64,
    pub changes: Vec<Change>,
}

/// A guest's price list: for each station the least total, bid times amount, with which it holds a place there,
/// [`NO_BAR`](crate::NO_BAR) where the station is not open, and its charge there, 0 where it is not.
#[derive(Clone, Debug, PartialEq, Eq)]
pub struct PriceList {
    pub bars: Vec<u32>,
    pub prices: Vec<u32>,
}

/// A whole clearing, as it is handed in to be marked: with a byte for each guest and station, guest after guest as the bids,
/// 1 where the guest holds a place there and else 0, and with each station's floor, the total of the first candidate without
/// a place, 0 where there is none and at a station that is not open.
#[derive(Clone, Debug, PartialEq, Eq)]
pub struct Submission {
    pub clearing: Clearing,
    pub places: Vec<u8>,
    pub floors: Vec<u32>,
}

/// The ledger (document 01: the book).
#[derive(Clone, Debug, PartialEq, Eq)]
pub struct Ledger {
    pub guests: Vec<u64>,
    pub stations: Vec<StationAccount>,
    pub house: u64,
    /// The last round of each desk; 0 before its first.
    pub last: [u32; MAX_DESKS],
}

impl Market {
    /// The market that a sheet states. Whether its values are in range, its clearing says.
    ///
    /// ```
    /// use bay_market::{Market, Refusal};
    ///
    /// let sheet = [0, 0, 1, 0, 5, 0, 0, 0, 2, 0]; // no guest, a station that asks 5 and has 2 bays
    /// assert_eq!(Market::read(&sheet), Ok(Market { asks: vec![5], bays: vec![2], ..Market::default() }));
    /// assert_eq!(Market::read(&sheet[..9]), Err(Refusal::SheetEnds));
    /// ```
    pub fn read(sheet: &[u8]) -> Result<Market, Refusal> {
        Market::read_by(lent::read, sheet)
    }

    /// The market that a comma-separated text states: a line of asks, one of bays, then for each guest one with its ticket,
    /// amount and bids, each line with CR LF at its end. A bid may be empty, which is 0. Whether values are in range, the
    /// clearing says.
    ///
    /// ```
    /// use bay_market::{Market, Refusal, Rule};
    ///
    /// let market = Market::from_csv(b"2,6\r\n1,1\r\n1,3,8,\r\n2,3,8,\r\n")?;
    /// assert_eq!((&market.tickets[..], &market.bids[..]), (&[1, 2][..], &[8, 0, 8, 0][..]));
    /// assert_eq!(market.clear(Rule::Median)?.charges, [24, 0]);
    /// assert_eq!(Market::from_csv(b"2,6\n1,1\n"), Err(Refusal::MalformedText)); // lines end in CR LF
    /// assert_eq!(Market::from_csv(b"2,6\r\n1,65536\r\n"), Err(Refusal::FieldTooLarge)); // bays are 16 bits wide
    /// # Ok::<(), Refusal>(())
    /// ```
    pub fn from_csv(text: &[u8]) -> Result<Market, Refusal> {
        Market::read_by(lent::read_csv, text)
    }

    fn read_by(
        read: impl Fn(&[u8], &mut lent::Tables) -> Result<lent::Counts, Refusal>,
        bytes: &[u8],
    ) -> Result<Market, Refusal> {
        let mut tables = lent::Tables {
            amounts: &mut [0; MAX_GUESTS],
            tickets: &mut [0; MAX_GUESTS],
            asks: &mut [0; MAX_STATIONS],
            bays: &mut [0; MAX_STATIONS],
            bids: &mut [0; MAX_BIDS],
        };
        let counts = read(bytes, &mut tables)?;
        let read = tables.market(counts);
        Ok(Market {
            asks: read.asks.into(),
            bays: read.bays.into(),
            amounts: read.amounts.into(),
            tickets: read.tickets.into(),
            bids: read.bids.into(),
        })
    }

    /// The shortest sheet that states the market, with a set bit exactly where a bid is not 0. It is refused where its
    /// clearing would be.
    ///
    /// ```
    /// use bay_market::{Market, Refusal};
    ///
    /// // one guest, with no bid: the one sheet that states it
    /// let sheet = [1, 0, 1, 0, 5, 0, 0, 0, 2, 0, 3, 0, 7, 0, 0, 0, 0];
    /// assert_eq!(Market::read(&sheet)?.to_sheet()?, sheet);
    /// // and with a set bit and a bid of 0
    /// let empty = [1, 0, 1, 0, 5, 0, 0, 0, 2, 0, 3, 0, 7, 0, 0, 0, 1, 0, 0, 0, 0];
    /// assert_eq!(Market::read(&empty), Err(Refusal::EmptyBid));
    /// # Ok::<(), Refusal>(())
    /// ```
    pub fn to_sheet(&self) -> Result<Vec<u8>, Refusal> {
        let mut sheet = [0; MAX_SHEET];
        let length = lent::write(&self.lend(), &mut sheet)?;
        Ok(sheet[..length].into())
    }

    /// This market joined with another of the same stations, as of a second gate, whose guests come after its own. In
    /// truthful rounds by one rule whoever holds a place in the joined market held it in its own, and its charge at that
    /// station is no lower.
    ///
    /// ```
    /// use bay_market::{Market, Refusal, Rule};
    ///
    /// let gate = |ticket| Market {
    ///     asks: vec![2, 6],
    ///     bays: vec![1, 1],
    ///     amounts: vec![3],
    ///     tickets: vec![ticket],
    ///     bids: vec![8, 0],
    /// };
    /// let joined = gate(1).join(&gate(2))?;
    /// // alone each has the bay for the cut; together the first keeps it, for the other's total
    /// assert_eq!(gate(1).clear(Rule::Median)?.charges, [18]);
    /// assert_eq!(joined.clear(Rule::Median)?.charges, [24, 0]);
    /// assert_eq!(gate(1).join(&gate(1)), Err(Refusal::TicketInBoth));
    /// # Ok::<(), Refusal>(())
    /// ```
    pub fn join(&self, second: &Market) -> Result<Market, Refusal> {
        let (n, m) = within_limits(self.amounts.len() + second.amounts.len(), self.asks.len());
        let mut joined =
            Market { asks: vec![0; m], bays: vec![0; m], amounts: vec![0; n], tickets: vec![0; n], bids: vec![0; n * m] };
        let Market { asks, bays, amounts, tickets, bids } = &mut joined;
        lent::join(&self.lend(), &second.lend(), &mut lent::Joined { asks, bays, amounts, tickets, bids })?;
        Ok(joined)
    }

    /// The truthful round by a rule: no guest and no station gains by a false report.
    ///
    /// ```
    /// use bay_market::{Market, Refusal, Rule};
    ///
    /// // asks 1 to 6: station 4 is open under rule 2 alone
    /// let (asks, bays) = (vec![1, 2, 3, 4, 5, 6], vec![1; 6]);
    /// let market = Market { asks, bays, amounts: vec![1], tickets: vec![1], bids: vec![0, 0, 0, 9, 0, 0] };
    /// let (first, second) = (market.clear(Rule::Median)?, market.clear(Rule::TwoThirds)?);
    /// assert_eq!((first.cut, first.stations), (4, vec![0]));
    /// assert_eq!((second.cut, second.stations), (5, vec![4]));
    /// # Ok::<(), Refusal>(())
    /// ```
    pub fn clear(&self, rule: Rule) -> Result<Clearing, Refusal> {
        self.clear_by(rule, lent::clear)
    }

    /// The efficient round by a rule, for quiet days: whoever [`clear`](Market::clear) seats is seated here too, and others
    /// may be. Stations keep the guarantee that truth pays best; guests lose it. Only truthful rounds are posted.
    ///
    /// ```
    /// use bay_market::{Market, Refusal, Rule};
    ///
    /// // of two stations that are open guest 1 bids at the first and guest 2 at both; each has one bay
    /// let (asks, bays) = (vec![0, 0, 1, 1], vec![1; 4]);
    /// let bids = vec![10, 0, 0, 0, 9, 5, 0, 0];
    /// let market = Market { asks, bays, amounts: vec![1, 1], tickets: vec![1, 2], bids };
    /// let clearing = market.clear_efficient(Rule::Median)?;
    /// assert_eq!((clearing.stations, clearing.charges), (vec![1, 2], vec![9, 1]));
    /// # Ok::<(), Refusal>(())
    /// ```
    pub fn clear_efficient(&self, rule: Rule) -> Result<Clearing, Refusal> {
        self.clear_by(rule, lent::clear_efficient)
    }

    fn clear_by(
        &self,
        rule: Rule,
        clear: impl Fn(Rule, &lent::Market, &mut lent::Results) -> Result<lent::Cleared, Refusal>,
    ) -> Result<Clearing, Refusal> {
        let (n, m) = within_limits(self.amounts.len(), self.asks.len());
        let (mut seats, mut charges) = (vec![0; n], vec![0; n]);
        let (mut sold, mut paid) = (vec![0; m], vec![0; m]);
        let mut results = lent::Results { stations: &mut seats, charges: &mut charges, sold: &mut sold, paid: &mut paid };
        let lent::Cleared { cut, margin } = clear(rule, &self.lend(), &mut results)?;
        Ok(Clearing { cut, stations: seats, charges, sold, paid, margin })
    }

    /// Tells each guest what decided the truthful round by a rule, that of [`clear`](Market::clear).
    ///
    /// ```
    /// use bay_market::{Code, GuestOutcome, Market, Reason, Refusal, Rule};
    ///
    /// let (amounts, tickets) = (vec![3, 3], vec![1, 2]);
    /// let market = Market { asks: vec![2, 6], bays: vec![1, 1], amounts, tickets, bids: vec![8, 0, 8, 7] };
    /// let told = market.explain(Rule::Median)?;
    /// assert_eq!(told.outcomes, [GuestOutcome::Win { station: 1, charge: 24 }, GuestOutcome::Loss(Reason::Outbid)]);
    /// assert_eq!(told.codes[..2], [Code::Held, Code::NotHeld(Reason::NoBid)]);
    /// assert_eq!(told.codes[2..], [Code::NotHeld(Reason::Outbid), Code::NotHeld(Reason::NotOpen)]);
    /// assert_eq!(Reason::Outbid.to_string(), "outbid");
    /// # Ok::<(), Refusal>(())
    /// ```
    pub fn explain(&self, rule: Rule) -> Result<Explanation, Refusal> {
        let (n, m) = within_limits(self.amounts.len(), self.asks.len());
        let (mut codes, mut reasons) = (vec![0; n * m], vec![0; n]);
        let (mut seats, mut charges) = (vec![0; n], vec![0; n]);
        let mut explanation =
            lent::Explanation { codes: &mut codes, stations: &mut seats, charges: &mut charges, reasons: &mut reasons };
        lent::explain(rule, &self.lend(), &mut explanation)?;
        let code = |number| Code::from_number(number).unwrap_or_else(|| unreachable!("the engine gave code {number}"));
        let outcome = |((station, charge), reason)| {
            GuestOutcome::from_numbers(station, charge, reason)
                .unwrap_or_else(|| unreachable!("the engine gave station {station}, charge {charge}, reason {reason}"))
        };
        Ok(Explanation {
            codes: codes.into_iter().map(code).collect(),
            outcomes: seats.into_iter().zip(charges).zip(reasons).map(outcome).collect(),
        })
    }

    /// Tells what another row of bids would have done, in truthful rounds by a rule. The guest is named by its number, from
    /// 1; `worths` are what a kWh at each station is worth to it. Where its bids in the market are its worths, the second
    /// gain is never the larger.
    ///
    /// ```
    /// use bay_market::{Change, Market, Refusal, Rule};
    ///
    /// // a kWh at station 1 is worth 10 to guest 2, which bids so, and is outbid; by 14 it has the bay for 27, and loses 7
    /// let (amounts, tickets) = (vec![3, 2], vec![1, 2]);
    /// let market = Market { asks: vec![2, 6], bays: vec![1, 1], amounts, tickets, bids: vec![9, 0, 10, 0] };
    /// let tried = market.try_row(Rule::Median, 2, &[10, 0], &[14, 0])?;
    /// assert_eq!((tried.first_gain, tried.second_gain), (0, -7));
    /// assert_eq!(tried.changes, [Change::BecomesUnseated, Change::Unchanged]);
    /// assert_eq!(market.try_row(Rule::Median, 3, &[10, 0], &[14, 0]), Err(Refusal::NoSuchGuest));
    /// # Ok::<(), Refusal>(())
    /// ```
    pub fn try_row(&self, rule: Rule, guest: u32, worths: &[u32], row: &[u32]) -> Result<Tried, Refusal> {
        let (n, _) = within_limits(self.amounts.len(), self.asks.len());
        let mut changes = vec![0; n];
        let gains = lent::try_row(rule, &self.lend(), guest, worths, row, &mut changes)?;
        let change = |number| Change::from_number(number).unwrap_or_else(|| unreachable!("the engine gave change {number}"));
        let changes = changes.into_iter().map(change).collect();
        Ok(Tried { first_gain: gains.first, second_gain: gains.second, changes })
    }

    /// A guest's price list in a truthful round by a rule. The guest is named by its number, from 1; its own bids do not
    /// move the list.
    ///
    /// ```
    /// use bay_market::{Market, NO_BAR, Refusal, Rule};
    ///
    /// // guest 2 needs a total of 28 for the bay of station 1, since guest 1 wins a tie, and pays 27
    /// let (amounts, tickets) = (vec![3, 2], vec![1, 2]);
    /// let market = Market { asks: vec![2, 6], bays: vec![1, 1], amounts, tickets, bids: vec![9, 0, 10, 0] };
    /// let list = market.menu(Rule::Median, 2)?;
    /// assert_eq!((list.bars, list.prices), (vec![28, NO_BAR], vec![27, 0]));
    /// assert_eq!(market.menu(Rule::Median, 3), Err(Refusal::NoSuchGuest));
    /// # Ok::<(), Refusal>(())
    /// ```
    pub fn menu(&self, rule: Rule, guest: u32) -> Result<PriceList, Refusal> {
        let (_, m) = within_limits(self.amounts.len(), self.asks.len());
        let mut list = PriceList { bars: vec![0; m], prices: vec![0; m] };
        lent::menu(rule, &self.lend(), guest, &mut list.bars, &mut list.prices)?;
        Ok(list)
    }

    /// The gain of each of many rows of bids, one after the other, by a guest's worths: the second gain of
    /// [`try_row`](Market::try_row) with that row. No row gains more than one that is the worths.
    ///
    /// ```
    /// use bay_market::{Market, Refusal, Rule};
    ///
    /// let (amounts, tickets) = (vec![3, 2], vec![1, 2]);
    /// let market = Market { asks: vec![2, 6], bays: vec![1, 1], amounts, tickets, bids: vec![9, 0, 10, 0] };
    /// assert_eq!(market.gains(Rule::Median, 2, &[10, 0], &[10, 0, 14, 0])?, [0, -7]);
    /// assert_eq!(market.gains(Rule::Median, 2, &[10, 0], &[10, 0, 14]), Err(Refusal::LengthsDiffer));
    /// # Ok::<(), Refusal>(())
    /// ```
    pub fn gains(&self, rule: Rule, guest: u32, worths: &[u32], rows: &[u32]) -> Result<Vec<i64>, Refusal> {
        let mut gains = vec![0; rows.len() / self.asks.len().max(1)];
        lent::gains(rule, &self.lend(), guest, worths, rows, &mut gains)?;
        Ok(gains)
    }

    /// The truthful round by a rule, that of [`clear`](Market::clear), with its places and floors: what [`mark`](Market::mark)
    /// passes.
    ///
    /// ```
    /// use bay_market::{Market, Refusal, Rule};
    ///
    /// // guest 2 has no place at station 1, and its total of 20 is the floor there
    /// let (amounts, tickets) = (vec![3, 2], vec![1, 2]);
    /// let market = Market { asks: vec![2, 6], bays: vec![1, 1], amounts, tickets, bids: vec![9, 0, 10, 0] };
    /// let full = market.clear_marked(Rule::Median)?;
    /// assert_eq!(full.clearing, market.clear(Rule::Median)?);
    /// assert_eq!((full.places, full.floors), (vec![1, 0, 0, 0], vec![20, 0]));
    /// # Ok::<(), Refusal>(())
    /// ```
    pub fn clear_marked(&self, rule: Rule) -> Result<Submission, Refusal> {
        let (n, m) = within_limits(self.amounts.len(), self.asks.len());
        let (mut seats, mut charges) = (vec![0; n], vec![0; n]);
        let (mut sold, mut paid) = (vec![0; m], vec![0; m]);
        let (mut places, mut floors) = (vec![0; n * m], vec![0; m]);
        let mut results = lent::FullResults {
            stations: &mut seats,
            charges: &mut charges,
            sold: &mut sold,
            paid: &mut paid,
            places: &mut places,
            floors: &mut floors,
        };
        let lent::Cleared { cut, margin } = lent::clear_marked(rule, &self.lend(), &mut results)?;
        let clearing = Clearing { cut, stations: seats, charges, sold, paid, margin };
        Ok(Submission { clearing, places, floors })
    }

    /// Marks a clearing that is handed in: whether all its numbers are those of the truthful round by a rule, that of
    /// [`clear_marked`](Market::clear_marked).
    ///
    /// ```
    /// use bay_market::{Market, Refusal, Rule};
    ///
    /// let (amounts, tickets) = (vec![3, 2], vec![1, 2]);
    /// let market = Market { asks: vec![2, 6], bays: vec![1, 1], amounts, tickets, bids: vec![9, 0, 10, 0] };
    /// let mut submission = market.clear_marked(Rule::Median)?;
    /// assert!(market.mark(Rule::Median, &submission)?);
    /// submission.clearing.charges[0] = 21;
    /// assert!(!market.mark(Rule::Median, &submission)?);
    /// submission.floors.pop();
    /// assert_eq!(market.mark(Rule::Median, &submission), Err(Refusal::LentLengths));
    /// # Ok::<(), Refusal>(())
    /// ```
    pub fn mark(&self, rule: Rule, submission: &Submission) -> Result<bool, Refusal> {
        lent::mark(rule, &self.lend(), &submission.lend())
    }

    pub fn lend(&self) -> lent::Market<'_> {
        lent::Market {
            asks: &self.asks,
            bays: &self.bays,
            amounts: &self.amounts,
            tickets: &self.tickets,
            bids: &self.bids,
            width: self.asks.len(),
        }
    }
}

impl Submission {
    pub fn lend(&self) -> lent::Submission<'_> {
        let Submission { clearing, places, floors } = self;
        lent::Submission {
            stations: &clearing.stations,
            charges: &clearing.charges,
            sold: &clearing.sold,
            paid: &clearing.paid,
            places,
            floors,
            cut: clearing.cut,
            margin: clearing.margin,
        }
    }
}

impl Places {
    /// The bids of a market, guest after guest: price less fall times walk, or 0 where that is negative.
    ///
    /// ```
    /// use bay_market::{Cell, Market, Places, Refusal, Rule};
    ///
    /// let cell = |first, second| Cell { first, second };
    /// let places = Places {
    ///     prices: vec![500, 500],
    ///     falls: vec![2, 2],
    ///     guests: vec![cell(3, 4), cell(0, 0)],
    ///     stations: vec![cell(0, 0), cell(1, 1)],
    /// };
    /// let bids = places.bids()?;
    /// assert_eq!(bids, [400, 428, 500, 472]);
    ///
    /// // it clears as any other market: of two equal prices the nearer guest has the bay
    /// let (amounts, tickets) = (vec![10, 10], vec![1, 2]);
    /// let clearing = Market { asks: vec![200, 300], bays: vec![1, 1], amounts, tickets, bids }.clear(Rule::Median)?;
    /// assert_eq!((clearing.stations, clearing.charges), (vec![0, 1], vec![0, 4_000]));
    /// # Ok::<(), Refusal>(())
    /// ```
    pub fn bids(&self) -> Result<Vec<u32>, Refusal> {
        let (guest_first, guest_second) = coordinates(&self.guests);
        let (station_first, station_second) = coordinates(&self.stations);
        let places = lent::Places {
            prices: &self.prices,
            falls: &self.falls,
            guest_first: &guest_first,
            guest_second: &guest_second,
            station_first: &station_first,
            station_second: &station_second,
        };
        let (n, m) = within_limits(self.guests.len(), self.stations.len());
        let mut bids = vec![0; n * m];
        lent::place_bids(&places, &mut bids)?;
        Ok(bids)
    }
}

/// The first and the second coordinates.
fn coordinates(cells: &[Cell]) -> (Vec<u16>, Vec<u16>) {
    cells.iter().map(|cell| (cell.first, cell.second)).unzip()
}

/// The counts that lists are made for. Lists beyond the limits are not made: the call is refused for its counts.
fn within_limits(n: usize, m: usize) -> (usize, usize) {
    if n <= MAX_GUESTS && m <= MAX_STATIONS { (n, m) } else { (0, 0) }
}

impl Ledger {
    /// An empty ledger with so many accounts.
    pub fn new(guests: usize, stations: usize) -> Ledger {
        Ledger { guests: vec![0; guests], stations: vec![StationAccount::default(); stations], house: 0, last: [0; MAX_DESKS] }
    }

    /// Clears a market by a rule as [`Market::clear`] does and posts it as a round of a desk. A refused one leaves the
    /// ledger as it is.
    pub fn post(&mut self, rule: Rule, market: &Market, desk: Desk, round: u32) -> Result<(), Refusal> {
        lent::post(rule, &market.lend(), desk, round, &mut self.lend())
    }

    pub fn lend(&mut self) -> lent::Ledger<'_> {
        lent::Ledger { guests: &mut self.guests, stations: &mut self.stations, house: &mut self.house, last: &mut self.last }
    }
}

#[cfg(test)]
mod tests {
    use super::*;
    use crate::{MAX_PRICE, MAX_TEXT};

    const SHEET_E: [u8; 38] = [
        2, 0, 2, 0, 2, 0, 0, 0, 1, 0, 6, 0, 0, 0, 1, 0, //
        3, 0, 1, 0, 0, 0, 1, 8, 0, 0, 0, 3, 0, 2, 0, 0, 0, 1, 8, 0, 0, 0,
    ];

    fn case_e() -> Market {
        Market { asks: vec![2, 6], bays: vec![1, 1], amounts: vec![3, 3], tickets: vec![1, 2], bids: vec![8, 0, 8, 0] }
    }

    #[test]
    fn reads_and_clears_case_e() {
        assert_eq!(Market::read(&SHEET_E), Ok(case_e()));
        let expected =
            Clearing { cut: 6, stations: vec![1, 0], charges: vec![24, 0], sold: vec![3, 0], paid: vec![18, 0], margin: 6 };
        assert_eq!(case_e().clear(Rule::Median), Ok(expected));
    }

    #[test]
    fn the_lower_ticket_goes_first() {
        let clearing = Market { tickets: vec![9, 4], ..case_e() }.clear(Rule::Median).unwrap();
        assert_eq!((clearing.stations, clearing.charges), (vec![0, 1], vec![0, 24]));
        assert_eq!(Market { tickets: vec![4, 4], ..case_e() }.clear(Rule::Median), Err(Refusal::TicketsRepeat));
        assert_eq!(Market { tickets: vec![4], ..case_e() }.clear(Rule::Median), Err(Refusal::LengthsDiffer));
    }

    fn table_i() -> Market {
        Market {
            asks: vec![4, 1, 3, 2, 5],
            bays: vec![1, 2, 4, 2, 3],
            amounts: vec![5, 2, 6, 4, 3],
            tickets: vec![1, 2, 3, 4, 5],
            bids: vec![
                0, 4, 0, 5, 2, //
                2, 0, 5, 1, 0, //
                7, 5, 0, 4, 0, //
                6, 4, 0, 3, 0, //
                0, 0, 2, 3, 5,
            ],
        }
    }

    #[test]
    fn clears_table_i_in_both_rounds() {
        let (stations, charges) = (vec![4, 0, 2, 0, 0], vec![15, 0, 18, 0, 0]);
        let (sold, paid) = (vec![0, 6, 0, 5, 0], vec![0, 18, 0, 15, 0]);
        assert_eq!(table_i().clear(Rule::Median), Ok(Clearing { cut: 3, stations, charges, sold, paid, margin: 0 }));
        let (stations, charges) = (vec![4, 0, 2, 2, 4], vec![15, 0, 18, 12, 9]);
        let (sold, paid) = (vec![0, 10, 0, 8, 0], vec![0, 30, 0, 24, 0]);
        assert_eq!(table_i().clear_efficient(Rule::Median), Ok(Clearing { cut: 3, stations, charges, sold, paid, margin: 0 }));
    }

    /// Codes, and station, charge and reason of each guest.
    type Numbers = (Vec<u8>, Vec<(u16, u32, u8)>);

    fn told(market: &Market, rule: Rule) -> Result<Numbers, Refusal> {
        let outcome = |outcome| match outcome {
            GuestOutcome::Win { station, charge } => (station, charge, 0),
            GuestOutcome::Loss(reason) => (0, 0, reason.number()),
        };
        let told = market.explain(rule)?;
        Ok((told.codes.into_iter().map(Code::number).collect(), told.outcomes.into_iter().map(outcome).collect()))
    }

    #[test]
    fn explains_case_e_and_table_i() {
        assert_eq!(told(&case_e(), Rule::Median), Ok((vec![0, 1, 4, 1], vec![(1, 24, 0), (0, 0, 4)])));
        let higher_first = Market { tickets: vec![9, 4], ..case_e() };
        assert_eq!(told(&higher_first, Rule::Median), Ok((vec![4, 1, 0, 1], vec![(0, 0, 4), (1, 24, 0)])));
        // guest 1 holds a place at station 2 too, and guest 3 one at station 4
        let codes = vec![
            1, 0, 1, 0, 2, //
            2, 1, 2, 3, 1, //
            2, 0, 1, 0, 1, //
            2, 4, 1, 4, 1, //
            1, 1, 2, 4, 2,
        ];
        let outcomes = vec![(4, 15, 0), (0, 0, 3), (2, 18, 0), (0, 0, 4), (0, 0, 4)];
        assert_eq!(told(&table_i(), Rule::Median), Ok((codes, outcomes)));
    }

    #[test]
    fn explains_each_rule_and_no_guests() {
        let (asks, bays) = (vec![1, 2, 3, 4, 5, 6], vec![1; 6]);
        let six = Market { asks, bays, amounts: vec![1], tickets: vec![1], bids: vec![3, 4, 0, 9, 5, 0] };
        assert_eq!(told(&six, Rule::Median), Ok((vec![3, 0, 1, 2, 2, 1], vec![(2, 4, 0)])));
        assert_eq!(told(&six, Rule::TwoThirds), Ok((vec![3, 3, 1, 0, 2, 1], vec![(4, 5, 0)])));
        let none = Market { amounts: vec![], tickets: vec![], bids: vec![], ..case_e() };
        assert_eq!(told(&none, Rule::Median), Ok((vec![], vec![])));
    }

    #[test]
    fn tries_rows_of_case_g() {
        let case_g = Market { amounts: vec![3, 2], bids: vec![9, 0, 10, 0], ..case_e() };
        let tried = |guest, worths: &[u32], row: &[u32]| {
            let tried = case_g.try_row(Rule::Median, guest, worths, row)?;
            Ok((tried.first_gain, tried.second_gain, tried.changes.into_iter().map(Change::number).collect()))
        };
        assert_eq!(tried(2, &[10, 0], &[14, 0]), Ok((0, -7, vec![2, 0])));
        assert_eq!(tried(1, &[9, 0], &[0, 0]), Ok((7, 0, vec![0, 1])));
        assert_eq!(tried(1, &[0, MAX_PRICE], &[MAX_PRICE; 2]), Ok((-20, -20, vec![0, 0])));
        assert_eq!(tried(0, &[9, 0], &[0, 0]), Err(Refusal::NoSuchGuest));
        assert_eq!(tried(3, &[9], &[0, 0]), Err(Refusal::NoSuchGuest));
        assert_eq!(tried(2, &[9], &[0, 0]), Err(Refusal::LengthsDiffer));
        assert_eq!(tried(2, &[9, 0], &[0, 0, 0]), Err(Refusal::LengthsDiffer));
        assert_eq!(tried(2, &[9, MAX_PRICE + 1], &[0, 0]), Err(Refusal::BidOutOfRange));
        assert_eq!(tried(2, &[9, 0], &[MAX_PRICE + 1, 0]), Err(Refusal::BidOutOfRange));
        let mut changes = [77; 3];
        for wrong in [1, 3] {
            let answer = lent::try_row(Rule::Median, &case_g.lend(), 2, &[9, 0], &[0, 0], &mut changes[..wrong]);
            assert_eq!(answer, Err(Refusal::LentLengths));
        }
        assert_eq!(changes, [77; 3]);
    }

    #[test]
    fn marks_table_i() {
        // guests 1 and 3 hold both places of stations 2 and 4, where guest 4 with totals of 16 and 12 comes next
        let full = table_i().clear_marked(Rule::Median).unwrap();
        assert_eq!(Ok(&full.clearing), table_i().clear(Rule::Median).as_ref());
        let places = vec![
            0, 1, 0, 1, 0, //
            0, 0, 0, 0, 0, //
            0, 1, 0, 1, 0, //
            0, 0, 0, 0, 0, //
            0, 0, 0, 0, 0,
        ];
        assert_eq!((&full.places, &full.floors), (&places, &vec![0, 16, 0, 12, 0]));
        assert_eq!(table_i().mark(Rule::Median, &full), Ok(true));
        assert_eq!(table_i().mark(Rule::TwoThirds, &full), Ok(false));
        let changes: [fn(&mut Submission); 10] = [
            |full| full.clearing.stations[0] = 2,
            |full| full.clearing.charges[1] = 1,
            |full| full.clearing.sold[3] = 6,
            |full| full.clearing.paid[1] |= 1 << 63,
            |full| full.places[24] = 1,
            |full| full.places[1] = 2,
            |full| full.floors[0] = 9,
            |full| full.floors[3] = 0,
            |full| full.clearing.cut = 4,
            |full| full.clearing.margin = 1 << 32,
        ];
        for change in changes {
            let mut other = full.clone();
            change(&mut other);
            assert_eq!(table_i().mark(Rule::Median, &other), Ok(false), "{other:?}");
        }
        let lengths: [fn(&mut Submission); 6] = [
            |full| full.clearing.stations.push(0),
            |full| full.clearing.charges.truncate(4),
            |full| full.clearing.sold.push(0),
            |full| full.clearing.paid.truncate(4),
            |full| full.places.push(0),
            |full| full.floors.truncate(4),
        ];
        for change in lengths {
            let mut other = full.clone();
            change(&mut other);
            assert_eq!(table_i().mark(Rule::Median, &other), Err(Refusal::LentLengths), "{other:?}");
        }
        let none = Market { amounts: vec![], tickets: vec![], bids: vec![], ..table_i() };
        let full = none.clear_marked(Rule::TwoThirds).unwrap();
        assert_eq!((full.places.len(), &full.floors), (0, &vec![0; 5]));
        assert_eq!(none.mark(Rule::TwoThirds, &full), Ok(true));
    }

    #[test]
    fn writes_case_e() {
        assert_eq!(case_e().to_sheet(), Ok(SHEET_E.into()));
        assert_eq!(Market { asks: vec![2, 1_000_001], ..case_e() }.to_sheet(), Err(Refusal::AskOutOfRange));
        let mut sheet = [77; 39];
        assert_eq!(lent::write(&case_e().lend(), &mut sheet[..37]), Err(Refusal::OutputTooShort));
        assert_eq!(sheet, [77; 39]);
        assert_eq!(lent::write(&case_e().lend(), &mut sheet), Ok(38));
        assert_eq!((&sheet[..38], sheet[38]), (&SHEET_E[..], 77));
    }

    #[test]
    fn the_largest_sheet_fits() {
        let (amounts, tickets) = (vec![1; 200], (0..200).collect());
        let largest = Market { asks: vec![1; 40], bays: vec![1; 40], amounts, tickets, bids: vec![1; 8_000] };
        assert_eq!(largest.to_sheet().map(|sheet| sheet.len()), Ok(MAX_SHEET));
    }

    #[test]
    fn reads_case_e_as_text() {
        let text = "2,6\r\n1,1\r\n1,3,8,\r\n2,3,8,\r\n";
        assert_eq!(Market::from_csv(text.as_bytes()), Ok(case_e()));
        assert_eq!(Market::from_csv(text.replace("8,", "0000000008,0").as_bytes()), Ok(case_e()));
        assert_eq!(Market::from_csv(text.replace('\r', "").as_bytes()), Err(Refusal::MalformedText));
        assert_eq!(Market::from_csv(text.replace('8', "00000000008").as_bytes()), Err(Refusal::FieldTooLarge));
        assert_eq!(Market::from_csv(&b"1,".repeat(40)), Err(Refusal::CountsOutOfRange));
    }

    #[test]
    fn the_longest_text_is_read() {
        let line = |count: usize| vec!["0000000001"; count].join(",") + "\r\n";
        let text = line(40).repeat(2) + &line(42).repeat(200);
        assert_eq!(text.len(), MAX_TEXT);
        let read = Market::from_csv(text.as_bytes()).map(|market| (market.amounts.len(), market.bids));
        assert_eq!(read, Ok((200, vec![1; 8_000])));
    }

    #[test]
    fn refuses_what_the_lists_cannot_be() {
        assert_eq!(Market::default().to_sheet(), Err(Refusal::CountsOutOfRange));
        assert_eq!(Market::default().clear(Rule::Median), Err(Refusal::CountsOutOfRange));
        assert_eq!(Market { amounts: vec![1; 201], ..case_e() }.clear(Rule::Median), Err(Refusal::CountsOutOfRange));
        assert_eq!(Market { bays: vec![1], ..case_e() }.clear(Rule::Median), Err(Refusal::LengthsDiffer));
        assert_eq!(Market::default().clear_efficient(Rule::Median), Err(Refusal::CountsOutOfRange));
        assert_eq!(Market { amounts: vec![1; 201], ..case_e() }.clear_efficient(Rule::Median), Err(Refusal::CountsOutOfRange));
        assert_eq!(Market { bays: vec![1], ..case_e() }.clear_efficient(Rule::Median), Err(Refusal::LengthsDiffer));
        assert_eq!(Market::default().explain(Rule::Median), Err(Refusal::CountsOutOfRange));
        assert_eq!(Market { amounts: vec![1; 201], ..case_e() }.explain(Rule::Median), Err(Refusal::CountsOutOfRange));
        assert_eq!(Market { asks: vec![1; 41], ..case_e() }.explain(Rule::Median), Err(Refusal::CountsOutOfRange));
        assert_eq!(Market { bays: vec![1], ..case_e() }.explain(Rule::Median), Err(Refusal::LengthsDiffer));
        assert_eq!(Market { tickets: vec![4, 4], ..case_e() }.explain(Rule::Median), Err(Refusal::TicketsRepeat));
        assert_eq!(Market::default().clear_marked(Rule::Median), Err(Refusal::CountsOutOfRange));
        assert_eq!(Market { amounts: vec![1; 201], ..case_e() }.clear_marked(Rule::Median), Err(Refusal::CountsOutOfRange));
        assert_eq!(Market { bays: vec![1], ..case_e() }.clear_marked(Rule::Median), Err(Refusal::LengthsDiffer));
        let full = case_e().clear_marked(Rule::Median).unwrap();
        let marked = |market: &Market| market.mark(Rule::Median, &full);
        assert_eq!(marked(&Market::default()), Err(Refusal::CountsOutOfRange));
        assert_eq!(marked(&Market { bays: vec![1], ..case_e() }), Err(Refusal::LengthsDiffer));
        assert_eq!(marked(&Market { tickets: vec![4, 4], ..case_e() }), Err(Refusal::TicketsRepeat));
        let tried = |market: &Market| market.try_row(Rule::Median, 0, &[], &[]);
        assert_eq!(tried(&Market::default()), Err(Refusal::CountsOutOfRange));
        assert_eq!(tried(&Market { amounts: vec![1; 201], ..case_e() }), Err(Refusal::CountsOutOfRange));
        assert_eq!(tried(&Market { tickets: vec![4, 4], ..case_e() }), Err(Refusal::TicketsRepeat));
    }

    fn cells<const N: usize>(cells: [(u16, u16); N]) -> Vec<Cell> {
        cells.map(|(first, second)| Cell { first, second }).to_vec()
    }

    #[test]
    fn places_bids() {
        let stations = cells([(3, 4), (1, 1), (31, 31)]);
        let places = Places { prices: vec![1_000_000, 1_000], falls: vec![1, 20], guests: cells([(0, 0); 2]), stations };
        assert_eq!(places.bids(), Ok(vec![999_950, 999_986, 999_562, 0, 720, 0]));
        assert_eq!(Places { guests: cells([(0, 0), (0, 32)]), ..places.clone() }.bids(), Err(Refusal::CellOffGrid));
        assert_eq!(Places { stations: cells([(32, 0)]), ..places.clone() }.bids(), Err(Refusal::CellOffGrid));
        assert_eq!(Places { falls: vec![1, 1_000_001], ..places.clone() }.bids(), Err(Refusal::PriceOrFallOutOfRange));
        assert_eq!(Places { prices: vec![1], ..places.clone() }.bids(), Err(Refusal::LengthsDiffer));
        assert_eq!(Places { guests: cells([(0, 0); 201]), ..places.clone() }.bids(), Err(Refusal::CountsOutOfRange));
        assert_eq!(Places { stations: cells([(0, 0); 41]), ..places }.bids(), Err(Refusal::CountsOutOfRange));
        assert_eq!(Places::default().bids(), Err(Refusal::CountsOutOfRange));
    }

    #[test]
    fn posts_case_e_once_from_each_desk() {
        let mut ledger = Ledger::new(3, 2);
        let [first, .., last] = Desk::ALL;
        assert_eq!(ledger.post(Rule::Median, &case_e(), first, 1), Ok(()));
        assert_eq!(ledger.post(Rule::Median, &case_e(), first, 1), Err(Refusal::RoundOutOfTurn));
        let stations = vec![StationAccount { sold: 3, paid: 18 }, StationAccount::default()];
        assert_eq!(ledger, Ledger { guests: vec![24, 0, 0], stations, house: 6, last: [1, 0, 0, 0, 0, 0, 0, 0] });
        assert_eq!(ledger.post(Rule::Median, &case_e(), last, 1), Ok(()));
        assert_eq!((ledger.guests[0], ledger.house, ledger.last), (48, 12, [1, 0, 0, 0, 0, 0, 0, 1]));
    }

    #[test]
    fn asks_1_to_6_have_a_cut_by_each_rule() {
        let (asks, bays) = (vec![1, 2, 3, 4, 5, 6], vec![1; 6]);
        let six = Market { asks, bays, amounts: vec![1], tickets: vec![1], bids: vec![0, 0, 0, 9, 0, 0] };
        let cleared = |clearing: Clearing| (clearing.cut, clearing.stations[0], clearing.charges[0]);
        assert_eq!(six.clear(Rule::Median).map(cleared), Ok((4, 0, 0)));
        assert_eq!(six.clear(Rule::TwoThirds).map(cleared), Ok((5, 4, 5)));
        assert_eq!(six.clear_efficient(Rule::TwoThirds).map(cleared), Ok((5, 4, 5)));
        let mut ledger = Ledger::new(1, 6);
        let [desk, ..] = Desk::ALL;
        assert_eq!(ledger.post(Rule::Median, &six, desk, 1), Ok(()));
        assert_eq!(ledger.post(Rule::TwoThirds, &six, desk, 2), Ok(()));
        assert_eq!((ledger.guests[0], ledger.stations[3].paid, ledger.last[0]), (5, 5, 2));
    }
}
