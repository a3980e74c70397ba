//! Waveform files: rows of one size, each a prefix and then its samples.

use crate::refusal::{Reason, Refusal};
use crate::window::{Part, Row, Window};
use crate::{check_size, pass_rows};

/// A prefix and its samples together.
pub const RECORD_BYTES: u64 = 2_080;

/// What stands in front of the samples.
pub const PREFIX_BYTES: u64 = 32;

/// The samples are the row.
pub const SAMPLE_BYTES: u64 = 2_048;

/// Checks the size of a file and answers how many rows it has.
pub fn check(file: &[u8]) -> Result<u64, Refusal> {
    let length = file.len() as u64;
    check_size(length)?;
    if !length.is_multiple_of(RECORD_BYTES) {
        return Err(Reason::Ragged.at_start());
    }
    Ok(length / RECORD_BYTES)
}

/// Reads a window of row `number`, passing the rows in front of it one by one.
pub fn read_row(file: &[u8], number: u64, window: Window) -> Result<Part<'_>, Refusal> {
    check(file)?;
    let place = pass_rows(0, file.len() as u64, RECORD_BYTES, number)?;
    window.show(file, samples_at(place))
}

/// Reads a window of row `number` at its computed place.
pub fn jump(file: &[u8], number: u64, window: Window) -> Result<Part<'_>, Refusal> {
    if number >= check(file)? {
        return Err(Reason::NoRow.at_start());
    }
    window.show(file, samples_at(number * RECORD_BYTES))
}

/// Gives the row that begins at the place `from`, prefix first, with all of its
/// samples.
pub fn row_from(file: &[u8], from: u64) -> Result<Part<'_>, Refusal> {
    check(file)?;
    if !from.is_multiple_of(RECORD_BYTES) || from >= file.len() as u64 {
        return Err(Reason::NoRow.at_start());
    }
    let row = samples_at(from);
    Window::new(0, row.length).show(file, row)
}

/// Twice the amplitude that a sample stands for.
pub fn sample(byte: u8) -> i16 {
    2 * i16::from(byte) - 255
}

fn samples_at(record: u64) -> Row {
    Row::unlabelled(record + PREFIX_BYTES, SAMPLE_BYTES)
}

#[cfg(test)]
mod tests {
    use super::*;
    use crate::window::{Address, Nesting};

    /// A file in which each byte tells its row and whether it is a sample.
    fn rows(count: u8) -> Vec<u8> {
        (0..count)
            .flat_map(|row| [vec![0xff; 32], vec![row; 2_048]].concat())
            .collect()
    }

    #[test]
    fn only_whole_rows_are_taken() {
        assert_eq!(check(&[]), Ok(0));
        assert_eq!(check(&[0; 2_079]), Err(Reason::Ragged.at_start()));
        assert_eq!(check(&[0; 2_080]), Ok(1));
        assert_eq!(check(&[0; 2_081]), Err(Reason::Ragged.at_start()));
    }

    #[test]
    fn reading_and_jumping_agree() {
        let file = rows(3);
        let numbers = [
            0,
            1,
            2,
            3,
            4,
            u64::MAX,
            1 << 59,
            u64::MAX / RECORD_BYTES + 1,
        ];
        let windows = [(0, 2_048), (2_047, 1), (2_048, 0), (2_048, 1), (2_049, 0)];
        for number in numbers {
            for (first, count) in windows {
                let window = Window::new(first, count);
                let answer = jump(&file, number, window);
                assert_eq!(read_row(&file, number, window), answer);
                let expected = if number > 2 {
                    Err(Reason::NoRow.at_start())
                } else if first + count > 2_048 {
                    Err(Reason::NoPart.at_start())
                } else {
                    Ok(number * 2_080 + 32 + first)
                };
                assert_eq!(answer.map(|part| part.place), expected);
                if let Ok(part) = answer {
                    assert_eq!(part.bytes, vec![number as u8; count as usize]);
                }
            }
        }
    }

    #[test]
    fn a_ragged_file_is_refused_first() {
        let window = Window::new(9_999, 9);
        assert_eq!(read_row(&[0; 1], 5, window), Err(Reason::Ragged.at_start()));
        assert_eq!(jump(&[0; 1], 5, window), Err(Reason::Ragged.at_start()));
    }

    #[test]
    fn going_on_begins_where_rows_begin() {
        let file = rows(3);
        for row in 0..3u8 {
            let place = u64::from(row) * 2_080;
            let part = row_from(&file, place).unwrap();
            assert_eq!(part.place, place + 32);
            assert_eq!(part.bytes, [row; 2_048]);
        }
        let huge = u64::MAX / RECORD_BYTES * RECORD_BYTES;
        for place in [1, 32, 2_079, 2_081, 3 * 2_080, 4 * 2_080, huge, u64::MAX] {
            assert_eq!(row_from(&file, place), Err(Reason::NoRow.at_start()));
        }
        assert_eq!(row_from(&[], 0), Err(Reason::NoRow.at_start()));
        assert_eq!(row_from(&file[1..], 0), Err(Reason::Ragged.at_start()));
        assert_eq!(row_from(&file[1..], 1), Err(Reason::Ragged.at_start()));
    }

    #[test]
    fn samples_are_doubled_amplitudes() {
        for byte in 0..=255u8 {
            assert_eq!(f64::from(sample(byte)), 2.0 * (f64::from(byte) - 127.5));
        }
    }

    #[test]
    fn addresses_are_those_of_the_first_sample() {
        let file = rows(32);
        for (number, place) in [(0, 32), (1, 2_112), (31, 64_512)] {
            let nesting = Some(Nesting {
                depth: 0,
                outermost: place,
            });
            let address = Address {
                label: place,
                nesting,
            };
            for (first, count) in [(0, 2_048), (1_024, 7), (2_047, 1), (2_048, 0)] {
                let window = Window::new(first, count);
                let read = read_row(&file, number, window).unwrap();
                assert_eq!((read.place, read.address), (place + first, address));
                let jumped = jump(&file, number, window).unwrap();
                assert_eq!((jumped.place, jumped.address), (place + first, address));
            }
            let whole = row_from(&file, number * 2_080).unwrap();
            assert_eq!((whole.place, whole.address), (place, address));
        }
    }
}
