//! Fields of short bursts, verdicts on them, beam masks and compression modes.

use crate::ffi;
use crate::file::part;
use crate::numbers::Verdict;
use crate::refusal::{other_version, Refused};

/// The bytes of a record of a burst file, which is a row.
pub const BURST_BYTES: usize = 1_272;

/// How many fields a burst has: their positions are 1 to this.
pub const BURST_FIELDS: u64 = 255;

/// What a field of a burst holds, by how it is stored.
#[derive(Clone, Copy, Debug, PartialEq, Eq, Hash)]
pub enum Field<'a> {
    /// An integer of 4 bytes.
    Unsigned(u64),
    /// An integer of 4 bytes, in two's complement.
    Signed(i64),
    /// The stored bits of a float of 4 bytes.
    Float4(u32),
    /// The stored bits of a float of 8 bytes.
    Float8(u64),
    /// A text of 16 or 24 bytes, with its place in the file.
    Text(Text<'a>),
}

/// A text in a burst.
#[derive(Clone, Copy, Debug, PartialEq, Eq, Hash)]
pub struct Text<'a> {
    /// The place of its first byte in the file.
    pub place: usize,
    /// Its bytes, borrowed from the file.
    pub bytes: &'a [u8],
}

impl Field<'_> {
    /// The number that a float's bits stand for; nothing for any other field.
    ///
    /// ```
    /// use crestulbino::Field;
    ///
    /// assert_eq!(Field::Float4(0x3f80_0000).float(), Some(1.0));
    /// assert_eq!(Field::Float8(0xbfe0_0000_0000_0000).float(), Some(-0.5));
    /// assert_eq!(Field::Unsigned(0x3f80_0000).float(), None);
    /// ```
    pub fn float(self) -> Option<f64> {
        match self {
            Field::Float4(bits) => Some(f32::from_bits(bits).into()),
            Field::Float8(bits) => Some(f64::from_bits(bits)),
            Field::Unsigned(_) | Field::Signed(_) | Field::Text(_) => None,
        }
    }
}

/// Reads a field of a row of a burst file, whose first record is at the place `start`. `position`
/// is the field's number in the list of a record's fields, 1 to 255.
///
/// Refuses: `TooBig`, `BadStart`, `Ragged`, `NoRow`; `Unknown` for another position.
///
/// ```
/// use crestulbino::{burst_field, Field, Refusal};
///
/// let mut file = [b' '; 100 + 2 * 1_272];
/// file[1_372..1_376].copy_from_slice(&[0x6a, 0x6b, 0x74, 0x77]);
/// assert_eq!(burst_field(&file, 100, 1, 1)?, Field::Unsigned(0x7774_6b6a));
///
/// file[1_388..1_392].copy_from_slice(&0.25_f32.to_le_bytes());
/// assert_eq!(burst_field(&file, 100, 1, 5)?.float(), Some(0.25));
///
/// file[2_044..2_049].copy_from_slice(b"TITAN");
/// let Field::Text(target) = burst_field(&file, 100, 1, 154)? else {
///     panic!("no text");
/// };
/// assert_eq!((target.place, target.bytes), (2_044, &b"TITAN           "[..]));
///
/// let refused = burst_field(&file, 100, 1, 256).unwrap_err();
/// assert_eq!(refused.refusal, Refusal::Unknown);
/// # Ok::<(), crestulbino::Refused>(())
/// ```
#[inline]
pub fn burst_field(
    file: &[u8],
    start: usize,
    row: usize,
    position: u64,
) -> Result<Field<'_>, Refused> {
    let (start, row) = (start as u64, row as u64);
    let (mut of, mut bits, mut place, mut shown) = (0, 0, 0, 0);
    ffi::burst_field(
        file, start, row, position, &mut of, &mut bits, &mut place, &mut shown,
    )
    .result()?;
    Ok(match of {
        0 => Field::Unsigned(bits),
        1 => Field::Signed(bits as i64),
        2 => Field::Float4(bits.try_into().unwrap_or_else(|_| other_version())),
        3 => Field::Float8(bits),
        4 => Field::Text(Text {
            place: place as usize,
            bytes: part(file, place, shown),
        }),
        _ => other_version(),
    })
}

/// Compares a field of a row of a burst file with its limits, which are stated for some of the
/// integers.
///
/// Refuses: `TooBig`, `BadStart`, `Ragged`, `NoRow`; `Unknown` for a field without limits, and for
/// a position other than 1 to 255.
///
/// ```
/// use crestulbino::{burst_verdict, Refusal, Verdict};
///
/// let mut file = [0; 100 + 2 * 1_272];
/// // The month of the software's delivery is 1 to 12.
/// for (month, verdict) in [(0, Verdict::Below), (12, Verdict::Inside), (13, Verdict::Above)] {
///     file[1_616] = month;
///     assert_eq!(burst_verdict(&file, 100, 1, 62)?, verdict);
/// }
/// let refused = burst_verdict(&file, 100, 1, 1).unwrap_err();
/// assert_eq!(refused.refusal, Refusal::Unknown);
/// # Ok::<(), crestulbino::Refused>(())
/// ```
#[inline]
pub fn burst_verdict(
    file: &[u8],
    start: usize,
    row: usize,
    position: u64,
) -> Result<Verdict, Refused> {
    let mut verdict = 0;
    ffi::burst_verdict(file, start as u64, row as u64, position, &mut verdict).result()?;
    Ok(Verdict::of(verdict))
}

/// What a beam mask comes to.
#[derive(Clone, Copy, Debug, PartialEq, Eq, Hash)]
pub enum Beams {
    /// The mask is one of 0 to 31, and enables so many beams.
    Inside(u64),
    /// The mask is larger, and there is no number of beams.
    Above,
}

/// How many beams a mask enables, which is field 33 of a burst: as many as bits are set in it.
///
/// ```
/// use crestulbino::{beams, Beams};
///
/// assert_eq!(beams(0b11010), Beams::Inside(3));
/// assert_eq!(beams(32), Beams::Above);
/// ```
#[inline]
pub fn beams(mask: u64) -> Beams {
    let mut beams = 0;
    match Verdict::of(ffi::beams(mask, &mut beams)) {
        Verdict::Inside => Beams::Inside(beams),
        Verdict::Above => Beams::Above,
        Verdict::Below => other_version(),
    }
}

/// How the echo of a burst was compressed. The discriminants are the numbers in the field.
#[derive(Clone, Copy, Debug, PartialEq, Eq, Hash)]
#[repr(u8)]
pub enum Mode {
    /// 8 to 2 bits by block adaptive quantization.
    Baq8To2 = 0,
    /// 8 to 1 bit by block adaptive quantization: signs and thresholds only.
    Baq8To1 = 1,
    /// 8 bits to 0: no active mode data.
    Bits8To0 = 2,
    /// 8 bits to the 2 most significant ones.
    Bits8To2Msb = 3,
    /// 8 bits to the 4 most significant ones.
    Bits8To4Msb = 4,
    /// 8 bits straight.
    Bits8Straight = 5,
    /// 8 to 4 bits by block adaptive quantization, normally for the altimeter with low resolution.
    Baq8To4Low = 6,
    /// 8 to 4 bits by block adaptive quantization, normally for the altimeter with high resolution.
    Baq8To4High = 7,
}

impl Mode {
    /// Every mode, in the order of the numbers.
    pub const ALL: [Mode; 8] = [
        Mode::Baq8To2,
        Mode::Baq8To1,
        Mode::Bits8To0,
        Mode::Bits8To2Msb,
        Mode::Bits8To4Msb,
        Mode::Bits8Straight,
        Mode::Baq8To4Low,
        Mode::Baq8To4High,
    ];

    /// The mode's number, 0 to 7.
    ///
    /// ```
    /// assert_eq!(crestulbino::Mode::Bits8Straight.number(), 5);
    /// ```
    pub const fn number(self) -> u64 {
        self as u64
    }
}

/// The compression mode with this number, which is field 34 of a burst; nothing above 7.
///
/// ```
/// use crestulbino::{mode, Mode};
///
/// assert_eq!(mode(5), Some(Mode::Bits8Straight));
/// assert_eq!(mode(8), None);
/// ```
#[inline]
pub fn mode(number: u64) -> Option<Mode> {
    Some(match ffi::mode(number) {
        0 => Mode::Baq8To2,
        1 => Mode::Baq8To1,
        2 => Mode::Bits8To0,
        3 => Mode::Bits8To2Msb,
        4 => Mode::Bits8To4Msb,
        5 => Mode::Bits8Straight,
        6 => Mode::Baq8To4Low,
        7 => Mode::Baq8To4High,
        8 => return None,
        _ => other_version(),
    })
}

#[cfg(test)]
mod tests {
    use super::*;

    #[test]
    fn all_modes_are_in_the_order_of_their_numbers() {
        for (number, mode) in (0..).zip(Mode::ALL) {
            assert_eq!(mode.number(), number);
            assert_eq!(super::mode(number), Some(mode));
        }
    }

    #[test]
    fn texts_are_borrowed_from_the_file() {
        let file = [b'x'; 9 + BURST_BYTES];
        let field = burst_field(&file, 9, 0, 155).unwrap();
        let Field::Text(text) = field else {
            panic!("{field:?}");
        };
        assert_eq!((text.place, text.bytes.len()), (9 + 688, 24));
        assert_eq!(text.bytes.as_ptr(), file[9 + 688..].as_ptr());
    }

    #[test]
    fn signed_numbers_keep_their_sign() {
        let mut file = [0; BURST_BYTES];
        for (bytes, number) in [
            ([0xff; 4], -1),
            ([0, 0, 0, 0x80], -(1 << 31)),
            ([0xff, 0xff, 0xff, 0x7f], (1 << 31) - 1),
        ] {
            file[1_060..1_064].copy_from_slice(&bytes);
            assert_eq!(burst_field(&file, 0, 0, 203), Ok(Field::Signed(number)));
        }
    }
}
