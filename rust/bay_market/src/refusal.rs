// scripts/refusals writes this file from refusals.txt.

/// Why a call was refused, by its number in the header.
#[derive(Clone, Copy, Debug, PartialEq, Eq, Hash)]
#[repr(u8)]
pub enum Refusal {
    /// the sheet ends inside a field
    SheetEnds = 1,
    /// more than 200 guests, no station, or more than 40
    CountsOutOfRange = 2,
    /// a bit map has a bit beyond the last station
    StrayBit = 3,
    /// bytes follow the last row
    TrailingBytes = 4,
    /// a list, the bid table or the row width does not fit the counts
    LengthsDiffer = 5,
    /// an ask is above 1,000,000
    AskOutOfRange = 6,
    /// a station has no bays or more than 200
    BaysOutOfRange = 7,
    /// an amount is 0 or above 1,000
    AmountOutOfRange = 8,
    /// a bid or a worth is above 1,000,000
    BidOutOfRange = 9,
    /// a list that is lent or handed in has another length
    LentLengths = 10,
    /// the round is not the desk's last one plus 1, or no round is left
    RoundOutOfTurn = 11,
    /// an account is above 10^15, or would be
    AccountOverLimit = 12,
    /// the ledger is beyond the limits, too small or not of eight desks
    BookSize = 13,
    /// the output is shorter than the sheet
    OutputTooShort = 14,
    /// two guests have the same ticket
    TicketsRepeat = 15,
    /// a cell is off the grid: a coordinate is above 31
    CellOffGrid = 16,
    /// a price or fall is above 1,000,000
    PriceOrFallOutOfRange = 17,
    /// the number names no rule: it is neither 1 nor 2
    UnknownRule = 18,
    /// a set bit of the sheet has a bid of 0
    EmptyBid = 19,
    /// two markets differ in their stations' count, asks or bays
    StationsDiffer = 20,
    /// a ticket is in both markets
    TicketInBoth = 21,
    /// a byte of the text, or its end, stands where it may not
    MalformedText = 22,
    /// a field has more than ten digits, or does not fit its table
    FieldTooLarge = 23,
    /// the guest's number is 0 or above the market's guests
    NoSuchGuest = 24,
    /// the desk is none of the eight: its number is above 7
    DeskOutOfRange = 25,
}

impl Refusal {
    /// All refusals, by rising number.
    pub const ALL: [Refusal; 25] = [
        Refusal::SheetEnds,
        Refusal::CountsOutOfRange,
        Refusal::StrayBit,
        Refusal::TrailingBytes,
        Refusal::LengthsDiffer,
        Refusal::AskOutOfRange,
        Refusal::BaysOutOfRange,
        Refusal::AmountOutOfRange,
        Refusal::BidOutOfRange,
        Refusal::LentLengths,
        Refusal::RoundOutOfTurn,
        Refusal::AccountOverLimit,
        Refusal::BookSize,
        Refusal::OutputTooShort,
        Refusal::TicketsRepeat,
        Refusal::CellOffGrid,
        Refusal::PriceOrFallOutOfRange,
        Refusal::UnknownRule,
        Refusal::EmptyBid,
        Refusal::StationsDiffer,
        Refusal::TicketInBoth,
        Refusal::MalformedText,
        Refusal::FieldTooLarge,
        Refusal::NoSuchGuest,
        Refusal::DeskOutOfRange,
    ];

    /// What the refusal says.
    pub const fn text(self) -> &'static str {
        match self {
            Refusal::SheetEnds => "the sheet ends inside a field",
            Refusal::CountsOutOfRange => "more than 200 guests, no station, or more than 40",
            Refusal::StrayBit => "a bit map has a bit beyond the last station",
            Refusal::TrailingBytes => "bytes follow the last row",
            Refusal::LengthsDiffer => "a list, the bid table or the row width does not fit the counts",
            Refusal::AskOutOfRange => "an ask is above 1,000,000",
            Refusal::BaysOutOfRange => "a station has no bays or more than 200",
            Refusal::AmountOutOfRange => "an amount is 0 or above 1,000",
            Refusal::BidOutOfRange => "a bid or a worth is above 1,000,000",
            Refusal::LentLengths => "a list that is lent or handed in has another length",
            Refusal::RoundOutOfTurn => "the round is not the desk's last one plus 1, or no round is left",
            Refusal::AccountOverLimit => "an account is above 10^15, or would be",
            Refusal::BookSize => "the ledger is beyond the limits, too small or not of eight desks",
            Refusal::OutputTooShort => "the output is shorter than the sheet",
            Refusal::TicketsRepeat => "two guests have the same ticket",
            Refusal::CellOffGrid => "a cell is off the grid: a coordinate is above 31",
            Refusal::PriceOrFallOutOfRange => "a price or fall is above 1,000,000",
            Refusal::UnknownRule => "the number names no rule: it is neither 1 nor 2",
            Refusal::EmptyBid => "a set bit of the sheet has a bid of 0",
            Refusal::StationsDiffer => "two markets differ in their stations' count, asks or bays",
            Refusal::TicketInBoth => "a ticket is in both markets",
            Refusal::MalformedText => "a byte of the text, or its end, stands where it may not",
            Refusal::FieldTooLarge => "a field has more than ten digits, or does not fit its table",
            Refusal::NoSuchGuest => "the guest's number is 0 or above the market's guests",
            Refusal::DeskOutOfRange => "the desk is none of the eight: its number is above 7",
        }
    }
}
