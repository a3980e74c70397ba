//! Plotter lines: the tone of a sample, strips of rows as dots, and the byte behind a dot.

use crate::ffi::{self, DotNumbers};
use crate::file::{Kind, Window};
use crate::refusal::{other_version, Refused};

/// The tone of a sample: the largest `t` with `t * t <= 255 * sample`.
///
/// ```
/// use crestulbino::tone;
///
/// assert_eq!([0, 1, 64, 254, 255].map(tone), [0, 15, 127, 254, 255]);
/// ```
#[inline]
pub fn tone(sample: u8) -> u8 {
    ffi::tone(sample)
}

/// The bytes of a line of so many columns, eight to a byte. A strip of `rows` lines needs
/// `rows * line_bytes(columns)` bytes.
///
/// ```
/// use crestulbino::line_bytes;
///
/// assert_eq!([0, 1, 8, 9].map(line_bytes), [0, 1, 1, 2]);
/// assert_eq!(line_bytes(usize::MAX), 1 << 61);
/// ```
pub const fn line_bytes(columns: usize) -> usize {
    columns.div_ceil(8)
}

/// Draws `rows` rows of a file from number `row` on, by one window, to the front of `lines`. Answers how
/// many bytes were written: `rows` times [`line_bytes`] of the window's count.
///
/// The strip's row `y`, counted from 0, is line `y`, and byte `x` of the window stands at column `x`. Lines
/// stand end to end, eight dots a byte, the leftmost highest; bits behind the last column are 0. A dot is
/// set exactly when the byte's [`tone`] is less than `4 * m + 2`, with `m` in row `y % 8` and column
/// `x % 8` of the ordered matrix of 8 by 8: dark samples have many dots. A strip of 0 rows has 0 bytes,
/// whatever row and window.
///
/// Refuses: as [`check`](crate::check), wherever in the file the fault stands; `NoRow` where any row of the
/// strip is missing; then `NoPart` where the window does not fit some row of it; `Small`. A row whose number
/// passes 64 bits is a missing one, and where the lines' bytes pass 64 bits there is no room for them.
///
/// ```
/// use crestulbino::{strip, Kind, Refusal, Versions, Window};
///
/// // Two rows of ten samples, from black to white and back.
/// let mut file = b"NJPL1I00DEMO00000010".to_vec();
/// file.extend([0, 1, 4, 16, 36, 64, 100, 144, 196, 255]);
/// file.extend(b"NJPL1I00DEMO00000010");
/// file.extend([255, 196, 144, 100, 64, 36, 16, 4, 1, 0]);
/// let kind = Kind::Labelled(Versions::One);
///
/// let mut lines = [7; 5];
/// assert_eq!(strip(kind, &file, 0, 2, Window::new(0, 10), &mut lines)?, 4);
/// assert_eq!(lines, [0b1111_0100, 0b0000_0000, 0b0010_1011, 0b1100_0000, 7]);
///
/// // Without room, nothing is written.
/// let mut lines = [7; 3];
/// let refused = strip(kind, &file, 0, 2, Window::new(0, 10), &mut lines).unwrap_err();
/// assert_eq!((refused.refusal, lines), (Refusal::Small, [7; 3]));
/// # Ok::<(), crestulbino::Refused>(())
/// ```
#[inline]
pub fn strip(
    kind: Kind,
    file: &[u8],
    row: usize,
    rows: usize,
    window: Window,
    lines: &mut [u8],
) -> Result<usize, Refused> {
    let (row, rows) = (row as u64, rows as u64);
    let (first, count) = (window.first as u64, window.count as u64);
    let mut written = 0;
    match kind {
        Kind::Labelled(versions) => {
            let version_2 = versions.version_2();
            ffi::strip_labelled(
                file,
                version_2,
                row,
                rows,
                first,
                count,
                lines,
                &mut written,
            )
        }
        Kind::Waveform => ffi::strip_waveform(file, row, rows, first, count, lines, &mut written),
        Kind::Bursts(start) => {
            let start = start as u64;
            ffi::strip_bursts(file, start, row, rows, first, count, lines, &mut written)
        }
    }
    .result()?;
    Ok(written as usize)
}

/// What stands behind a dot of a strip. [`behind`] answers it.
#[derive(Clone, Copy, Debug, PartialEq, Eq, Hash)]
pub struct Dot {
    /// The place of the byte in the file.
    pub place: usize,
    /// The byte there, a sample.
    pub byte: u8,
    /// Its [`tone`].
    pub tone: u8,
    /// Whether the dot is set.
    pub is_set: bool,
}

/// Says which byte stands behind the dot at a column and a line of the strip that begins at number `row`
/// with this window: byte `column` of the window of the row with number `row + line`. In every strip that
/// is drawn, the bit at that place of the lines is the one that is told here.
///
/// Refuses: as [`read_row`](crate::read_row) for that row and window, `NoRow` also where `row + line` is too
/// large for any row; then `NoPart` where the column is outside of the window.
///
/// ```
/// use crestulbino::{behind, Dot, Kind, Refusal, Window};
///
/// let mut file = [0; 2 * 2_080];
/// file[2_112 + 1_000 + 3] = 64;
/// let dot = behind(Kind::Waveform, &file, 0, Window::new(1_000, 8), 3, 1)?;
/// assert_eq!(dot, Dot { place: 3_115, byte: 64, tone: 127, is_set: false });
///
/// // There is no column 8, and no line 2.
/// let refused = behind(Kind::Waveform, &file, 0, Window::new(1_000, 8), 8, 1).unwrap_err();
/// assert_eq!(refused.refusal, Refusal::NoPart);
/// let refused = behind(Kind::Waveform, &file, 0, Window::new(1_000, 8), 3, 2).unwrap_err();
/// assert_eq!(refused.refusal, Refusal::NoRow);
/// # Ok::<(), crestulbino::Refused>(())
/// ```
#[inline]
pub fn behind(
    kind: Kind,
    file: &[u8],
    row: usize,
    window: Window,
    column: usize,
    line: usize,
) -> Result<Dot, Refused> {
    let (row, first, count) = (row as u64, window.first as u64, window.count as u64);
    let (column, line) = (column as u64, line as u64);
    let mut dot = DotNumbers::default();
    match kind {
        Kind::Labelled(versions) => {
            let version_2 = versions.version_2();
            ffi::behind_labelled(file, version_2, row, first, count, column, line, &mut dot)
        }
        Kind::Waveform => ffi::behind_waveform(file, row, first, count, column, line, &mut dot),
        Kind::Bursts(start) => {
            let start = start as u64;
            ffi::behind_bursts(file, start, row, first, count, column, line, &mut dot)
        }
    }
    .result()?;
    Ok(dot.into())
}

impl From<DotNumbers> for Dot {
    #[inline]
    fn from(dot: DotNumbers) -> Dot {
        let byte = |number: u64| u8::try_from(number).unwrap_or_else(|_| other_version());
        Dot {
            place: dot.place as usize,
            byte: byte(dot.byte),
            tone: byte(dot.tone),
            is_set: match dot.dot {
                0 => false,
                1 => true,
                _ => other_version(),
            },
        }
    }
}

#[cfg(test)]
mod tests {
    use super::*;
    use crate::label::Versions;

    /// Rows of three sizes, two of them in a group, with bytes that tell their places.
    fn labelled() -> Vec<u8> {
        let row = |bytes: std::ops::Range<u8>| {
            let label = format!("NJPL1I00DEMO{:08}", bytes.len());
            [label.into_bytes(), bytes.collect()].concat()
        };
        let inside = [row(0..40), row(100..137)].concat();
        let group = format!("CCSD1Z000001{:08}", inside.len());
        [row(1..49), group.into_bytes(), inside, row(9..50)].concat()
    }

    /// Files of every kind, each with a strip of it.
    fn strips() -> Vec<(Kind, Vec<u8>, usize, usize, Window)> {
        let any = |size: usize| -> Vec<u8> { (0..size).map(|at| (at * at % 251) as u8).collect() };
        let labelled_kind = Kind::Labelled(Versions::One);
        vec![
            (labelled_kind, labelled(), 0, 4, Window::new(0, 37)),
            (labelled_kind, labelled(), 1, 2, Window::new(3, 17)),
            (labelled_kind, labelled(), 3, 1, Window::new(41, 0)),
            (
                Kind::Waveform,
                any(10 * 2_080),
                0,
                10,
                Window::new(0, 2_048),
            ),
            (
                Kind::Waveform,
                any(10 * 2_080),
                1,
                9,
                Window::new(2_037, 11),
            ),
            (Kind::Bursts(7), any(7 + 3 * 1_272), 1, 2, Window::new(5, 9)),
        ]
    }

    /// Each dot of a line is where the byte of its column says, and the bits behind are 0.
    #[test]
    fn every_bit_is_told_by_the_byte_behind_it() {
        for (kind, file, row, rows, window) in strips() {
            let size = line_bytes(window.count);
            let mut lines = vec![0xa5; rows * size + 3];
            let written = strip(kind, &file, row, rows, window, &mut lines);
            assert_eq!(written, Ok(rows * size));
            assert_eq!(lines[rows * size..], [0xa5; 3]);
            for line in 0..rows {
                for column in 0..8 * size {
                    let byte = lines[line * size + column / 8];
                    let bit = byte >> (7 - column % 8) & 1 == 1;
                    let dot = behind(kind, &file, row, window, column, line);
                    if column >= window.count {
                        assert!(dot.is_err() && !bit);
                        continue;
                    }
                    let dot = dot.unwrap();
                    assert_eq!(dot.is_set, bit);
                    assert_eq!((dot.byte, dot.tone), (file[dot.place], tone(dot.byte)));
                    let shown = crate::read_row(kind, &file, row + line, window).unwrap();
                    assert_eq!(dot.place, shown.place + column);
                }
            }
        }
    }

    #[test]
    #[should_panic(expected = "another version")]
    fn a_dot_is_set_or_not() {
        let _ = Dot::from(DotNumbers {
            dot: 2,
            ..DotNumbers::default()
        });
    }

    #[test]
    #[should_panic(expected = "another version")]
    fn a_byte_is_no_larger_number() {
        let _ = Dot::from(DotNumbers {
            byte: 256,
            ..DotNumbers::default()
        });
    }
}
