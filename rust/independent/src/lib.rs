//! A second, separate reading of the documents on labelled, waveform and short
//! burst files. It exists to be compared with another implementation, one call at a
//! time, so it favours plain code that follows the documents closely.
//!
//! Places are counted in `u64` from the first lent byte. Lengths and places
//! are compared by subtraction, so that no sum can run past the end of the
//! number range.

#![forbid(unsafe_code)]

pub mod altimeter;
pub mod bursts;
pub mod joined;
pub mod kept;
pub mod label;
pub mod labelled;
pub mod orbit;
pub mod plotter;
pub mod refusal;
pub mod row_index;
pub mod substitute;
pub mod vax;
pub mod waveform;
pub mod window;

/// Refuses a file whose places would not fit an index of 32-bit numbers.
fn check_size(bytes: u64) -> Result<(), refusal::Refusal> {
    if bytes > u64::from(u32::MAX) {
        return Err(refusal::Reason::TooBig.at_start());
    }
    Ok(())
}

/// The place of row `number` of rows of one size, which stand from the place
/// `first` to `end`, found by passing the rows in front of it one by one.
fn pass_rows(first: u64, end: u64, size: u64, number: u64) -> Result<u64, refusal::Refusal> {
    let mut place = first;
    let mut rows_before = number;
    while place < end && rows_before > 0 {
        place += size;
        rows_before -= 1;
    }
    if place == end {
        return Err(refusal::Reason::NoRow.at_start());
    }
    Ok(place)
}

#[cfg(test)]
mod tests {
    use super::{check_size, pass_rows};
    use crate::refusal::Reason;

    #[test]
    fn file_size_limit_is_the_largest_32_bit_number() {
        assert_eq!(check_size(0), Ok(()));
        assert_eq!(check_size(4_294_967_295), Ok(()));
        assert_eq!(check_size(4_294_967_296), Err(Reason::TooBig.at_start()));
    }

    #[test]
    fn rows_are_passed_up_to_the_end() {
        assert_eq!(pass_rows(5, 25, 10, 1), Ok(15));
        assert_eq!(pass_rows(5, 25, 10, 2), Err(Reason::NoRow.at_start()));
        assert_eq!(pass_rows(5, 5, 10, 0), Err(Reason::NoRow.at_start()));
        assert_eq!(
            pass_rows(0, 20, 10, u64::MAX),
            Err(Reason::NoRow.at_start())
        );
    }
}
