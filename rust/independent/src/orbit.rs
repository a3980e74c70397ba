//! The opening of the per-orbit parameters.
//!
//! What is lent is the data block itself. In a record of file 12 that block
//! stands eight bytes into the value, behind the secondary header; nothing is
//! skipped here.

use crate::refusal::{Reason, Refusal};
use crate::vax;

/// Size of the opening.
pub const OPENING_BYTES: usize = 20;

const START: usize = 4;
const STOP: usize = 12;

/// Orbit number, and the times at which mapping starts and stops in seconds.
#[derive(Clone, Copy, Debug, PartialEq)]
pub struct Opening {
    pub orbit: u32,
    pub start: f64,
    pub stop: f64,
}

/// Reads the opening from the front of the lent bytes.
pub fn opening(bytes: &[u8]) -> Result<Opening, Refusal> {
    if bytes.len() < OPENING_BYTES {
        return Err(Reason::Short.at_start());
    }
    Ok(Opening {
        orbit: u32::from_le_bytes([bytes[0], bytes[1], bytes[2], bytes[3]]),
        start: time_at(bytes, START)?,
        stop: time_at(bytes, STOP)?,
    })
}

/// A D number at `place`, to the nearest, whose refusal names that place.
fn time_at(bytes: &[u8], place: usize) -> Result<f64, Refusal> {
    vax::d_float(&bytes[place..]).map_err(|refusal| refusal.reason.at(place as u64))
}

#[cfg(test)]
mod tests {
    use super::*;

    const ONE: [u8; 8] = [0x80, 0x40, 0, 0, 0, 0, 0, 0];
    const RESERVED: [u8; 8] = [0, 0x80, 0, 0, 0, 0, 0, 1];
    const ZERO: [u8; 8] = [0x7f, 0, 0xff, 0xff, 0xff, 0xff, 0xff, 0xff];

    fn block(start: [u8; 8], stop: [u8; 8]) -> Vec<u8> {
        [&[4, 3, 2, 0xff][..], &start, &stop].concat()
    }

    #[test]
    fn reads_all_three() {
        let mut bytes = block(ONE, ZERO);
        let expected = Opening {
            orbit: 0xff02_0304,
            start: 1.0,
            stop: 0.0,
        };
        assert_eq!(opening(&bytes), Ok(expected));
        bytes.extend([1; 500]);
        assert_eq!(opening(&bytes), Ok(expected));
    }

    #[test]
    fn both_times_are_the_nearest() {
        // 2 less a last place, and 2 less eight of them.
        let up = [0xff, 0x40, 0xff, 0xff, 0xff, 0xff, 0xff, 0xff];
        let down = [0xff, 0x40, 0xff, 0xff, 0xff, 0xff, 0xf8, 0xff];
        let read = opening(&block(up, down)).unwrap();
        assert_eq!((read.start, read.stop), (2.0, 2.0 - f64::EPSILON));
        let read = opening(&block(down, up)).unwrap();
        assert_eq!((read.start, read.stop), (2.0 - f64::EPSILON, 2.0));
    }

    #[test]
    fn the_earlier_reserved_number_is_named() {
        let at = |place| Err(Reason::Reserved.at(place));
        assert_eq!(opening(&block(RESERVED, ONE)), at(4));
        assert_eq!(opening(&block(ONE, RESERVED)), at(12));
        assert_eq!(opening(&block(RESERVED, RESERVED)), at(4));
    }

    #[test]
    fn short_comes_before_reserved() {
        let bytes = block(RESERVED, RESERVED);
        for length in 0..20 {
            assert_eq!(opening(&bytes[..length]), Err(Reason::Short.at_start()));
        }
    }
}
