//! What decided a truthful round, as the guests are told, and what another row of one does to the others.

/// Why a guest holds no place at a station; the first that applies counts.
#[derive(Clone, Copy, Debug, PartialEq, Eq, PartialOrd, Ord, Hash)]
#[repr(u8)]
pub enum Reason {
    /// Its bid there is 0.
    NoBid = 1,
    /// The station's ask is not below the cut.
    NotOpen = 2,
    /// Its bid there is below the cut.
    BelowCut = 3,
    /// It is a candidate there without a place.
    Outbid = 4,
}

impl Reason {
    /// Its number in the header.
    pub const fn number(self) -> u8 {
        self as u8
    }

    /// The reason with a number of the header.
    pub const fn from_number(number: u8) -> Option<Reason> {
        match number {
            1 => Some(Reason::NoBid),
            2 => Some(Reason::NotOpen),
            3 => Some(Reason::BelowCut),
            4 => Some(Reason::Outbid),
            _ => None,
        }
    }

    /// What the reason says.
    pub const fn text(self) -> &'static str {
        match self {
            Reason::NoBid => "no bid",
            Reason::NotOpen => "station not open",
            Reason::BelowCut => "bid below the cut",
            Reason::Outbid => "outbid",
        }
    }
}

impl std::fmt::Display for Reason {
    fn fmt(&self, f: &mut std::fmt::Formatter) -> std::fmt::Result {
        f.write_str(self.text())
    }
}

/// What decided about a guest at a station.
#[derive(Clone, Copy, Debug, PartialEq, Eq, Hash)]
pub enum Code {
    /// The guest holds a place there, and is seated there or at another that it holds.
    Held,
    NotHeld(Reason),
}

impl Code {
    /// Its number in the header.
    pub const fn number(self) -> u8 {
        match self {
            Code::Held => 0,
            Code::NotHeld(reason) => reason.number(),
        }
    }

    /// The code with a number of the header.
    pub const fn from_number(number: u8) -> Option<Code> {
        match (number, Reason::from_number(number)) {
            (0, _) => Some(Code::Held),
            (_, Some(reason)) => Some(Code::NotHeld(reason)),
            (_, None) => None,
        }
    }
}

/// A guest's outcome.
#[derive(Clone, Copy, Debug, PartialEq, Eq, Hash)]
pub enum GuestOutcome {
    /// Seated at a station, numbered from 1, for a charge.
    Win { station: u16, charge: u32 },
    /// Not seated; the reason has the highest number of the guest's row of codes.
    Loss(Reason),
}

impl GuestOutcome {
    /// The outcome with a station, a charge and a reason of the header.
    pub const fn from_numbers(station: u16, charge: u32, reason: u8) -> Option<GuestOutcome> {
        match (station, charge, Reason::from_number(reason)) {
            (0, 0, Some(reason)) => Some(GuestOutcome::Loss(reason)),
            (1.., _, None) if reason == 0 => Some(GuestOutcome::Win { station, charge }),
            _ => None,
        }
    }
}

/// What another row of a guest does to another guest.
#[derive(Clone, Copy, Debug, PartialEq, Eq, Hash)]
#[repr(u8)]
pub enum Change {
    /// It is seated in both rounds or in neither.
    Unchanged = 0,
    /// It is seated in the second round alone.
    BecomesSeated = 1,
    /// It is seated in the first round alone.
    BecomesUnseated = 2,
}

impl Change {
    /// Its number in the header.
    pub const fn number(self) -> u8 {
        self as u8
    }

    /// The change with a number of the header.
    pub const fn from_number(number: u8) -> Option<Change> {
        match number {
            0 => Some(Change::Unchanged),
            1 => Some(Change::BecomesSeated),
            2 => Some(Change::BecomesUnseated),
            _ => None,
        }
    }
}

#[cfg(test)]
mod tests {
    use super::*;

    #[test]
    fn codes_and_reasons_keep_their_numbers() {
        let reasons = [Reason::NoBid, Reason::NotOpen, Reason::BelowCut, Reason::Outbid];
        for (number, reason) in (1..).zip(reasons) {
            assert_eq!((reason.number(), Reason::from_number(number)), (number, Some(reason)));
            let code = Code::NotHeld(reason);
            assert_eq!((code.number(), Code::from_number(number)), (number, Some(code)));
        }
        assert!(reasons.is_sorted());
        assert_eq!((Code::Held.number(), Code::from_number(0)), (0, Some(Code::Held)));
        assert_eq!(Reason::from_number(0), None);
        for number in 5..=255 {
            assert_eq!((Reason::from_number(number), Code::from_number(number)), (None, None));
        }
    }

    #[test]
    fn changes_keep_their_numbers() {
        for (number, change) in (0..).zip([Change::Unchanged, Change::BecomesSeated, Change::BecomesUnseated]) {
            assert_eq!((change.number(), Change::from_number(number)), (number, Some(change)));
        }
        assert!((3..=255).all(|number| Change::from_number(number).is_none()));
    }

    #[test]
    fn an_outcome_is_a_win_or_a_loss() {
        let win = |station, charge| Some(GuestOutcome::Win { station, charge });
        assert_eq!(GuestOutcome::from_numbers(3, 24, 0), win(3, 24));
        assert_eq!(GuestOutcome::from_numbers(u16::MAX, 0, 0), win(u16::MAX, 0));
        assert_eq!(GuestOutcome::from_numbers(0, 0, 4), Some(GuestOutcome::Loss(Reason::Outbid)));
        for (station, charge, reason) in [(0, 0, 0), (0, 0, 5), (0, 1, 4), (3, 24, 1), (3, 24, 5), (0, 24, 0)] {
            assert_eq!(GuestOutcome::from_numbers(station, charge, reason), None);
        }
    }
}
