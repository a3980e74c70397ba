//! Refusals: numbers, names and words.

use crate::ffi::Outcome;
use std::error::Error;
use std::fmt;

/// Why a call was refused. The discriminants are the published numbers.
#[derive(Clone, Copy, Debug, PartialEq, Eq, Hash)]
#[non_exhaustive]
#[repr(u8)]
pub enum Refusal {
    /// Too few bytes remain for a label or a number.
    Short = 1,
    /// Bytes 0 to 11 are not those of a label of an allowed version.
    BadLabel = 2,
    /// The length field of a version 1 label is not spaces followed by digits.
    BadLength = 3,
    /// The value ends beyond its enclosing value or the file.
    Overrun = 4,
    /// A label stands deeper than depth 8.
    Deep = 5,
    /// No row has this number or begins from this place on.
    NoRow = 6,
    /// The window does not fit the row, or the column is outside of the window.
    NoPart = 7,
    /// The lent output is too short.
    Small = 8,
    /// The VAX number has sign 1 and exponent 0.
    Reserved = 9,
    /// There is no such field, or the element or field has no limits.
    Unknown = 10,
    /// The list is not the index of this file, or the row count is not this file's.
    BadIndex = 11,
    /// The waveform file is no multiple of 2,080 bytes, or the rest of the burst file none of 1,272.
    Ragged = 12,
    /// These bytes are no kept index of the kind asked for.
    BadKept = 13,
    /// There are more than 4,294,967,295 bytes in the file or in two files joined, or too many entries
    /// to be kept.
    TooBig = 14,
    /// A version 1 label cannot hold a length of more than 99,999,999 bytes.
    TooLong = 15,
    /// The first record's place is beyond the file.
    BadStart = 16,
}

impl Refusal {
    /// Every refusal, in the order of the numbers.
    pub const ALL: [Refusal; 16] = [
        Refusal::Short,
        Refusal::BadLabel,
        Refusal::BadLength,
        Refusal::Overrun,
        Refusal::Deep,
        Refusal::NoRow,
        Refusal::NoPart,
        Refusal::Small,
        Refusal::Reserved,
        Refusal::Unknown,
        Refusal::BadIndex,
        Refusal::Ragged,
        Refusal::BadKept,
        Refusal::TooBig,
        Refusal::TooLong,
        Refusal::BadStart,
    ];

    /// The published number.
    ///
    /// ```
    /// assert_eq!(crestulbino::Refusal::Overrun.number(), 4);
    /// ```
    pub const fn number(self) -> u64 {
        self as u64
    }

    /// The refusal with this number, if there is one.
    ///
    /// ```
    /// use crestulbino::Refusal;
    ///
    /// assert_eq!(Refusal::from_number(4), Some(Refusal::Overrun));
    /// assert_eq!(Refusal::from_number(0), None);
    /// ```
    pub fn from_number(number: u64) -> Option<Refusal> {
        let before = usize::try_from(number).ok()?.checked_sub(1)?;
        Refusal::ALL.get(before).copied()
    }

    /// The published name.
    ///
    /// ```
    /// assert_eq!(crestulbino::Refusal::Overrun.name(), "OVERRUN");
    /// ```
    pub const fn name(self) -> &'static str {
        self.words().0
    }

    /// The refusal in words.
    ///
    /// ```
    /// assert_eq!(crestulbino::Refusal::Small.text(), "the lent output is too short");
    /// ```
    pub const fn text(self) -> &'static str {
        self.words().1
    }

    /// Name and words, as in the C header.
    const fn words(self) -> (&'static str, &'static str) {
        match self {
            Refusal::Short => ("SHORT", "too few bytes remain for a label or a number"),
            Refusal::BadLabel => (
                "BADLABEL",
                "bytes 0 to 11 are not those of a label of an allowed version",
            ),
            Refusal::BadLength => (
                "BADLENGTH",
                "the length field of a version 1 label is not spaces followed by digits",
            ),
            Refusal::Overrun => (
                "OVERRUN",
                "the value ends beyond its enclosing value or the file",
            ),
            Refusal::Deep => ("DEEP", "a label stands deeper than depth 8"),
            Refusal::NoRow => (
                "NOROW",
                "no row has this number or begins from this place on",
            ),
            Refusal::NoPart => (
                "NOPART",
                "the window does not fit the row, or the column is outside of the window",
            ),
            Refusal::Small => ("SMALL", "the lent output is too short"),
            Refusal::Reserved => ("RESERVED", "the VAX number has sign 1 and exponent 0"),
            Refusal::Unknown => (
                "UNKNOWN",
                "there is no such field, or the element or field has no limits",
            ),
            Refusal::BadIndex => (
                "BADINDEX",
                "the list is not the index of this file, or the row count is not this file's",
            ),
            Refusal::Ragged => (
                "RAGGED",
                "the waveform file is no multiple of 2,080 bytes, or the rest of the burst file none of 1,272",
            ),
            Refusal::BadKept => (
                "BADKEPT",
                "these bytes are no kept index of the kind asked for",
            ),
            Refusal::TooBig => (
                "TOOBIG",
                "there are more than 4,294,967,295 bytes in the file or in two files joined, or too many entries to be kept",
            ),
            Refusal::TooLong => (
                "TOOLONG",
                "a version 1 label cannot hold a length of more than 99,999,999 bytes",
            ),
            Refusal::BadStart => ("BADSTART", "the first record's place is beyond the file"),
        }
    }
}

/// Shown in words.
impl fmt::Display for Refusal {
    fn fmt(&self, f: &mut fmt::Formatter<'_>) -> fmt::Result {
        f.write_str(self.text())
    }
}

/// A refused call: why, and where the fault stands.
///
/// ```
/// use crestulbino::{check, Kind, Refusal, Versions};
///
/// let refused = check(Kind::Labelled(Versions::One), &[0; 19]).unwrap_err();
/// assert_eq!((refused.refusal, refused.place), (Refusal::Short, 0));
/// assert_eq!(
///     refused.to_string(),
///     "refusal 1 SHORT at byte 0: too few bytes remain for a label or a number"
/// );
/// ```
#[derive(Clone, Copy, Debug, PartialEq, Eq, Hash)]
pub struct Refused {
    /// Why.
    pub refusal: Refusal,
    /// The number of bytes before the fault in what was lent; 0 where no place can be named.
    pub place: usize,
}

impl fmt::Display for Refused {
    fn fmt(&self, f: &mut fmt::Formatter<'_>) -> fmt::Result {
        let Refused { refusal, place } = self;
        let (number, name) = (refusal.number(), refusal.name());
        write!(f, "refusal {number} {name} at byte {place}: {refusal}")
    }
}

impl Error for Refused {}

impl Outcome {
    /// What the call came to.
    #[inline]
    pub(crate) fn result(self) -> Result<(), Refused> {
        if self.refusal == 0 {
            return Ok(());
        }
        Err(self.refused())
    }

    /// The refusal of a call that refused.
    pub(crate) fn refused(self) -> Refused {
        Refused {
            refusal: Refusal::from_number(self.refusal).unwrap_or_else(|| other_version()),
            place: self.place as usize,
        }
    }
}

/// The archive gave what its header rules out.
#[cold]
pub(crate) fn other_version() -> ! {
    panic!("the proved library's archive is of another version than this crate")
}

#[cfg(test)]
mod tests {
    use super::*;

    #[test]
    fn all_refusals_are_in_the_order_of_their_numbers() {
        for (before, refusal) in Refusal::ALL.into_iter().enumerate() {
            assert_eq!(refusal.number(), before as u64 + 1);
            assert_eq!(Refusal::from_number(refusal.number()), Some(refusal));
        }
        assert_eq!(Refusal::from_number(17), None);
    }

    #[test]
    fn an_answer_is_no_refusal() {
        let outcome = |refusal, place| Outcome { refusal, place }.result();
        assert_eq!(outcome(0, 0), Ok(()));
        let refused = outcome(4, 20).unwrap_err();
        assert_eq!((refused.refusal, refused.place), (Refusal::Overrun, 20));
    }

    #[test]
    #[should_panic(expected = "another version")]
    fn a_number_of_no_refusal_is_not_taken() {
        let _ = Outcome {
            refusal: 99,
            place: 0,
        }
        .result();
    }
}
