//! Refusals: a reason with its published number, and a place.

/// Why a call was refused. The discriminants are the published numbers.
#[derive(Clone, Copy, Debug, PartialEq, Eq)]
pub enum Reason {
    Short = 1,
    BadLabel = 2,
    BadLength = 3,
    Overrun = 4,
    Deep = 5,
    NoRow = 6,
    NoPart = 7,
    Small = 8,
    Reserved = 9,
    Unknown = 10,
    BadIndex = 11,
    Ragged = 12,
    BadKept = 13,
    TooBig = 14,
    TooLong = 15,
    BadStart = 16,
}

impl Reason {
    pub fn number(self) -> u8 {
        self as u8
    }

    /// The refusal for this reason at a given place.
    pub fn at(self, place: u64) -> Refusal {
        Refusal {
            reason: self,
            place,
        }
    }

    /// The refusal for this reason at place 0.
    pub fn at_start(self) -> Refusal {
        self.at(0)
    }
}

/// What a refused call answers.
#[derive(Clone, Copy, Debug, PartialEq, Eq)]
pub struct Refusal {
    pub reason: Reason,
    pub place: u64,
}
