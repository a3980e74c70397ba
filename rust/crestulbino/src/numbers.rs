//! Samples, VAX numbers, the per-orbit opening, and verdicts on altimeter elements.

use crate::ffi;
use crate::refusal::{other_version, Refused};

/// Twice the amplitude that a sample of a waveform row stands for: `2 * sample - 255`.
///
/// ```
/// assert_eq!([0, 127, 128, 255].map(crestulbino::sample), [-255, -1, 1, 255]);
/// ```
#[inline]
pub fn sample(sample: u8) -> i64 {
    ffi::sample(sample)
}

/// Reads a VAX F number from the first 4 bytes, exactly. What follows is ignored.
///
/// Refuses: `Short`, `Reserved`.
///
/// ```
/// assert_eq!(crestulbino::vax_f(&[0x80, 0x40, 0, 0])?, 1.0);
/// # Ok::<(), crestulbino::Refused>(())
/// ```
#[inline]
pub fn vax_f(bytes: &[u8]) -> Result<f64, Refused> {
    let mut number = 0.0;
    ffi::vax_f(bytes, &mut number).result()?;
    Ok(number)
}

/// Reads a VAX D number from the first 8 bytes as the nearest 64-bit float, a tie going to the even
/// one. What follows is ignored.
///
/// Refuses: `Short`, `Reserved`.
///
/// ```
/// assert_eq!(crestulbino::vax_d(&[0x80, 0xc0, 0, 0, 0, 0, 0, 0])?, -1.0);
/// // All 56 digits are ones: rounded to the next power of two.
/// let ones = [0xff, 0x40, 0xff, 0xff, 0xff, 0xff, 0xff, 0xff];
/// assert_eq!(crestulbino::vax_d(&ones)?, 2.0);
/// # Ok::<(), crestulbino::Refused>(())
/// ```
#[inline]
pub fn vax_d(bytes: &[u8]) -> Result<f64, Refused> {
    let mut number = 0.0;
    ffi::vax_d(bytes, &mut number).result()?;
    Ok(number)
}

/// Reads a VAX D number from the first 8 bytes, without the three lowest of its 55 fraction bits, for
/// old jobs. What follows is ignored. It is what [`vax_d`] gives, or the next float towards zero.
///
/// Refuses: `Short`, `Reserved`.
///
/// ```
/// let ones = [0xff, 0x40, 0xff, 0xff, 0xff, 0xff, 0xff, 0xff];
/// assert_eq!(crestulbino::vax_d_dropped(&ones)?, 2.0 - f64::EPSILON);
/// # Ok::<(), crestulbino::Refused>(())
/// ```
#[inline]
pub fn vax_d_dropped(bytes: &[u8]) -> Result<f64, Refused> {
    let mut number = 0.0;
    ffi::vax_d_dropped(bytes, &mut number).result()?;
    Ok(number)
}

/// The opening of the Magellan per-orbit parameters.
#[derive(Clone, Copy, Debug, PartialEq)]
pub struct Opening {
    /// The orbit's number.
    pub orbit: u64,
    /// When mapping starts, in seconds, as [`vax_d`] reads it.
    pub start: f64,
    /// When mapping stops, in seconds, as [`vax_d`] reads it.
    pub stop: f64,
}

/// Reads the opening from the first 20 bytes of the data block of the per-orbit parameters. In a
/// record of file 12 that block begins 8 bytes into the value, behind the secondary header.
///
/// Refuses: `Short`; `Reserved` at 4 for the start, then at 12 for the stop.
///
/// ```
/// let mut block = vec![0x78, 0x01, 0, 0];
/// block.extend([0x80, 0x40, 0, 0, 0, 0, 0, 0]);
/// block.extend([0x80, 0xc0, 0, 0, 0, 0, 0, 0]);
/// let opening = crestulbino::opening(&block)?;
/// assert_eq!((opening.orbit, opening.start, opening.stop), (376, 1.0, -1.0));
/// # Ok::<(), crestulbino::Refused>(())
/// ```
#[inline]
pub fn opening(bytes: &[u8]) -> Result<Opening, Refused> {
    let (mut orbit, mut start, mut stop) = (0, 0.0, 0.0);
    ffi::opening(bytes, &mut orbit, &mut start, &mut stop).result()?;
    Ok(Opening { orbit, start, stop })
}

/// Where a value stands with regard to the limits of its element or field, which are inside.
#[derive(Clone, Copy, Debug, PartialEq, Eq, Hash)]
pub enum Verdict {
    /// Less than the minimum.
    Below,
    /// Neither below nor above.
    Inside,
    /// More than the maximum.
    Above,
}

impl Verdict {
    /// The verdict with this number of the boundary.
    #[inline]
    pub(crate) fn of(number: u64) -> Verdict {
        match number {
            0 => Verdict::Below,
            1 => Verdict::Inside,
            2 => Verdict::Above,
            _ => other_version(),
        }
    }
}

/// Compares a value with the limits of a TOPEX altimeter element, 4.4.`element` in the definitions.
///
/// Refuses: `Unknown`.
///
/// ```
/// use crestulbino::{verdict, Verdict};
///
/// assert_eq!(verdict(141, -2_001)?, Verdict::Below);
/// assert_eq!(verdict(141, -2_000)?, Verdict::Inside);
/// assert_eq!(verdict(141, 2_001)?, Verdict::Above);
/// # Ok::<(), crestulbino::Refused>(())
/// ```
#[inline]
pub fn verdict(element: u64, value: i64) -> Result<Verdict, Refused> {
    let mut verdict = 0;
    ffi::verdict(element, value, &mut verdict).result()?;
    Ok(Verdict::of(verdict))
}
