//! Plotter lines: the tone of a sample, the ordered matrix, strips of rows as
//! dots, and the byte behind a dot.

use crate::label::Versions;
use crate::refusal::{Reason, Refusal};
use crate::window::{Part, Window};
use crate::{bursts, labelled, waveform};

/// What a file is told to be.
#[derive(Clone, Copy, Debug, PartialEq, Eq)]
pub enum Kind {
    /// With labels of these versions.
    Labelled(Versions),
    Waveform,
    /// With the first record at this place.
    Bursts(u64),
}

impl Kind {
    fn rows(self, file: &[u8]) -> Result<u64, Refusal> {
        match self {
            Kind::Labelled(versions) => labelled::check(versions, file),
            Kind::Waveform => waveform::check(file),
            Kind::Bursts(first) => bursts::check(file, first),
        }
    }

    fn read(self, file: &[u8], number: u64, window: Window) -> Result<Part<'_>, Refusal> {
        match self {
            Kind::Labelled(versions) => labelled::read_row(versions, file, number, window),
            Kind::Waveform => waveform::read_row(file, number, window),
            Kind::Bursts(first) => bursts::read_row(file, first, number, window),
        }
    }
}

/// The tone of a sample, looked for from the largest number down.
pub fn tone(sample: u8) -> u8 {
    let most = 255 * u32::from(sample);
    let fits = |tone: &u8| u32::from(*tone).pow(2) <= most;
    (0..=u8::MAX).rev().find(fits).unwrap_or_default()
}

/// The number of the ordered matrix at a row and a column, by their lowest three
/// bits. The matrix that the growth begins with is at the lowest bits, so they
/// count most; each doubling adds what the next bit of both says.
pub fn matrix_at(row: u64, column: u64) -> u32 {
    (0..3).fold(0, |number, bit| {
        let (down, right) = (row >> bit & 1, column >> bit & 1);
        // Left to right and top to bottom: 0, 2, 3, 1.
        let quarter = match (down, right) {
            (0, 0) => 0,
            (0, _) => 2,
            (_, 0) => 3,
            _ => 1,
        };
        4 * number + quarter
    })
}

/// Whether a tone leaves a dot at a column and a line.
fn is_dot(tone: u8, column: u64, line: u64) -> bool {
    u32::from(tone) < 4 * matrix_at(line, column) + 2
}

/// Draws so many rows from row `first` on, each by the window, to the front of
/// `out`. Answers how many bytes were written.
pub fn strip(
    kind: Kind,
    file: &[u8],
    first: u64,
    rows: u64,
    window: Window,
    out: &mut [u8],
) -> Result<u64, Refusal> {
    let in_file = kind.rows(file)?;
    if rows == 0 {
        return Ok(0);
    }
    if first > in_file || rows > in_file - first {
        return Err(Reason::NoRow.at_start());
    }
    // All rows are there, so their numbers are small, and so is what they have together.
    let parts = (first..first + rows).map(|number| kind.read(file, number, window));
    let parts: Vec<Part> = parts.collect::<Result<_, Refusal>>()?;
    let size = rows * window.count.div_ceil(8);
    if size > out.len() as u64 {
        return Err(Reason::Small.at_start());
    }
    let lines = (0..).zip(parts).flat_map(|(y, part)| line(y, part.bytes));
    out.iter_mut()
        .zip(lines)
        .for_each(|(slot, byte)| *slot = byte);
    Ok(size)
}

/// A line of whole bytes, in which each dot is set by itself.
fn line(y: u64, samples: &[u8]) -> Vec<u8> {
    let mut line = vec![0; samples.len().div_ceil(8)];
    for (x, &sample) in samples.iter().enumerate() {
        if is_dot(tone(sample), x as u64, y) {
            line[x / 8] |= 128 >> (x % 8);
        }
    }
    line
}

/// What stands behind a dot.
#[derive(Clone, Copy, Debug, PartialEq, Eq)]
pub struct Dot {
    /// The place of the byte in the file.
    pub place: u64,
    pub byte: u8,
    pub tone: u8,
    pub is_set: bool,
}

/// Tells what stands behind a column and a line of the strip from row `first` on.
pub fn behind(
    kind: Kind,
    file: &[u8],
    first: u64,
    window: Window,
    column: u64,
    line: u64,
) -> Result<Dot, Refusal> {
    let Some(number) = first.checked_add(line) else {
        // No row has such a number, but the file's faults come first.
        kind.rows(file)?;
        return Err(Reason::NoRow.at_start());
    };
    let part = kind.read(file, number, window)?;
    let inside = usize::try_from(column).ok();
    let byte = *inside
        .and_then(|column| part.bytes.get(column))
        .ok_or(Reason::NoPart.at_start())?;
    let tone = tone(byte);
    Ok(Dot {
        place: part.place + column,
        byte,
        tone,
        is_set: is_dot(tone, column, line),
    })
}

#[cfg(test)]
mod tests {
    use super::*;

    const FIRST: Kind = Kind::Labelled(Versions::First);
    const BOTH: Kind = Kind::Labelled(Versions::Both);

    #[test]
    fn tones_follow_their_rule_and_never_fall() {
        for sample in 0..=255u8 {
            let (tone, most) = (u32::from(tone(sample)), 255 * u32::from(sample));
            assert!(tone * tone <= most && most < (tone + 1) * (tone + 1));
            assert!(sample == 0 || tone >= u32::from(super::tone(sample - 1)));
        }
        assert_eq!([0, 1, 64, 254, 255].map(tone), [0, 15, 127, 254, 255]);
    }

    /// The matrix of twice the size, with a quarter for each number that is added.
    fn grown(matrix: &[Vec<u32>]) -> Vec<Vec<u32>> {
        let halves = [[0, 2], [3, 1]];
        let row_of = |half: [u32; 2], row: &Vec<u32>| {
            let quarter = |added| row.iter().map(move |number| 4 * number + added);
            half.into_iter().flat_map(quarter).collect()
        };
        halves
            .into_iter()
            .flat_map(|half| matrix.iter().map(move |row| row_of(half, row)))
            .collect()
    }

    #[test]
    fn the_matrix_is_the_one_that_grows() {
        let matrix = grown(&grown(&[vec![0, 2], vec![3, 1]]));
        assert_eq!(matrix[0], [0, 32, 8, 40, 2, 34, 10, 42]);
        assert_eq!(matrix[7], [63, 31, 55, 23, 61, 29, 53, 21]);
        for (row, column) in (0..24).flat_map(|row| (0..24).map(move |column| (row, column))) {
            let number = matrix[row % 8][column % 8];
            assert_eq!(matrix_at(row as u64, column as u64), number);
        }
        let mut numbers = matrix.concat();
        numbers.sort();
        assert_eq!(numbers, (0..64).collect::<Vec<_>>());
    }

    /// Of any tone, whether or not a sample has it, and in any aligned tile.
    #[test]
    fn a_tile_of_one_tone_holds_as_many_dots_as_the_law_says() {
        for tone in 0..=255u8 {
            for (top, left) in [(0, 0), (8, 0), (0, 8), (40, 16), (1 << 40, 1 << 63)] {
                let rows = (0..8).flat_map(|row| (0..8).map(move |column| (row, column)));
                let is_set = |(row, column): &(u64, u64)| is_dot(tone, left + column, top + row);
                let dots = rows.filter(is_set).count();
                assert_eq!(dots, 64 - (usize::from(tone) + 2) / 4, "{tone}");
            }
        }
    }

    fn labelled(rows: &[&[u8]]) -> Vec<u8> {
        let object = |row: &&[u8]| {
            let label = format!("NJPL1I00DEMO{:08}", row.len());
            [label.as_bytes(), row].concat()
        };
        rows.iter().flat_map(object).collect()
    }

    /// Bytes that differ from row to row and from column to column.
    fn any_bytes(size: usize) -> Vec<u8> {
        (0..size as u32)
            .map(|at| (at.wrapping_mul(0x9e37_79b9) >> 21) as u8)
            .collect()
    }

    /// Files of all kinds, each with so many rows of at least this size.
    fn files() -> Vec<(Kind, Vec<u8>, u64, u64)> {
        let any = any_bytes(2_000);
        let rows: Vec<&[u8]> = (0..20)
            .map(|row| &any[60 * row..60 * row + 40 + row])
            .collect();
        let flat = labelled(&rows);
        let (front, back) = flat.split_at(5 * 60 + 10);
        let group = |inside: &[u8]| {
            let length = (inside.len() as u64).to_be_bytes();
            [b"CCSD2U000001", &length[..], inside].concat()
        };
        let nested = [group(&group(front)), group(back)].concat();
        vec![
            (FIRST, flat, 20, 40),
            (BOTH, nested, 20, 40),
            (Kind::Waveform, any_bytes(11 * 2_080), 11, 2_048),
            (Kind::Bursts(5), any_bytes(5 + 3 * 1_272), 3, 1_272),
        ]
    }

    fn drawn(kind: Kind, file: &[u8], first: u64, rows: u64, window: Window) -> Vec<u8> {
        let size = rows * window.count.div_ceil(8);
        let mut out = vec![0x5a; size as usize + 2];
        assert_eq!(strip(kind, file, first, rows, window, &mut out), Ok(size));
        assert_eq!(out[size as usize..], [0x5a; 2]);
        out.truncate(size as usize);
        out
    }

    #[test]
    fn every_dot_is_the_one_that_is_told() {
        for (kind, file, rows, size) in files() {
            for (first, a, c) in [
                (0, 0, size),
                (1, 3, 17),
                (2, size - 9, 9),
                (0, 1, 8),
                (0, 9, 1),
            ] {
                let (rows, window) = (rows - first, Window::new(a, c));
                let lines = drawn(kind, &file, first, rows, window);
                let line_bytes = c.div_ceil(8);
                for (y, x) in (0..rows).flat_map(|y| (0..8 * line_bytes).map(move |x| (y, x))) {
                    let byte = lines[(y * line_bytes + x / 8) as usize];
                    let bit = byte << (x % 8) & 128 != 0;
                    let told = behind(kind, &file, first, window, x, y);
                    if x >= c {
                        assert_eq!((told, bit), (Err(Reason::NoPart.at_start()), false));
                        continue;
                    }
                    let dot = told.unwrap();
                    assert_eq!(dot.is_set, bit);
                    assert_eq!(
                        (dot.byte, dot.tone),
                        (file[dot.place as usize], tone(dot.byte))
                    );
                    let part = kind.read(&file, first + y, window).unwrap();
                    assert_eq!(dot.place, part.place + x);
                }
            }
        }
    }

    /// A tile of each sample in a strip, not at its front, of rows that do not begin at a multiple
    /// of eight.
    #[test]
    fn tiles_of_one_sample_in_a_strip() {
        for sample in 0..=255u8 {
            let row = [sample; 30];
            let file = labelled(&[&row[..]; 20]);
            let lines = drawn(FIRST, &file, 3, 16, Window::new(5, 24));
            let dots = 64 - (u32::from(tone(sample)) + 2) / 4;
            for (band, at) in [(0, 0), (0, 1), (1, 2)] {
                let tile = lines.iter().skip(24 * band + at).step_by(3).take(8);
                assert_eq!(tile.map(|byte| byte.count_ones()).sum::<u32>(), dots);
            }
        }
    }

    #[test]
    fn some_lines_by_hand() {
        let up = [0, 1, 4, 16, 36, 64, 100, 144, 196, 255];
        let down = [255, 196, 144, 100, 64, 36, 16, 4, 1, 0];
        let file = labelled(&[&up, &down]);
        let whole = Window::new(0, 10);
        assert_eq!(drawn(FIRST, &file, 0, 2, whole), [0xf4, 0, 0x2b, 0xc0]);
        // The same row as line 0.
        assert_eq!(drawn(FIRST, &file, 1, 1, whole), [0x15, 0x40]);
        assert_eq!(drawn(FIRST, &file, 0, 2, Window::new(3, 1)), [0, 0x80]);
        assert_eq!(drawn(FIRST, &file, 0, 2, Window::new(10, 0)), []);
    }

    /// What a strip comes to with so much room, of which nothing is changed.
    fn refusal(
        kind: Kind,
        file: &[u8],
        strip_of: (u64, u64),
        window: Window,
        room: usize,
    ) -> Reason {
        let mut out = vec![0x5a; room];
        let refused = strip(kind, file, strip_of.0, strip_of.1, window, &mut out).unwrap_err();
        assert_eq!((out, refused.place), (vec![0x5a; room], 0));
        refused.reason
    }

    #[test]
    fn rows_come_before_windows_and_windows_before_room() {
        let file = labelled(&[b"abcdefghi", b"abc", b"abcdefghi"]);
        let fits = Window::new(0, 3);
        let misfit = Window::new(0, 9);
        for room in [0, 1, 40] {
            for (first, rows) in [
                (0, 4),
                (3, 1),
                (1, 3),
                (u64::MAX, 1),
                (u64::MAX, 2),
                (1, u64::MAX),
                (2, u64::MAX - 1),
                (1 << 32, 1),
                (0, 1 << 32),
            ] {
                for window in [fits, misfit, Window::new(0, 0), Window::new(1, u64::MAX)] {
                    let reason = refusal(FIRST, &file, (first, rows), window, room);
                    assert_eq!(reason, Reason::NoRow);
                }
            }
            for (first, rows) in [(0, 2), (0, 3), (1, 1), (1, 2)] {
                for window in [
                    misfit,
                    Window::new(3, 1),
                    Window::new(4, 0),
                    Window::new(0, u64::MAX),
                    Window::new(0, u64::MAX - 7),
                    Window::new(u64::MAX, 1),
                ] {
                    let reason = refusal(FIRST, &file, (first, rows), window, room);
                    assert_eq!(reason, Reason::NoPart);
                }
            }
        }
        // Not asked for, the short row is in nobody's way.
        assert_eq!(drawn(FIRST, &file, 2, 1, misfit).len(), 2);
        for (rows, room) in [(3, 2), (3, 0), (1, 0)] {
            assert_eq!(refusal(FIRST, &file, (0, rows), fits, room), Reason::Small);
        }
    }

    #[test]
    fn a_strip_of_no_rows_is_empty() {
        for (kind, file, rows, _) in files() {
            for first in [0, rows, rows + 1, u64::MAX] {
                for window in [Window::new(0, 1), Window::new(u64::MAX, u64::MAX)] {
                    assert_eq!(strip(kind, &file, first, 0, window, &mut []), Ok(0));
                }
            }
            let cut = &file[..file.len() - 1];
            assert!(strip(kind, cut, 0, 0, Window::new(0, 0), &mut []).is_err());
        }
    }

    #[test]
    fn faults_come_first() {
        let late = b"NJPL1I00DEMO00000003abcNJPL1I00DEMO0000000x";
        let fault = Reason::BadLength.at(23);
        for (kind, file, refused) in [
            (FIRST, &late[..], fault),
            (
                FIRST,
                b"NJPL2I00DEMO\0\0\0\0\0\0\0\0",
                Reason::BadLabel.at(0),
            ),
            (Kind::Waveform, &[0; 2_079], Reason::Ragged.at(0)),
            (Kind::Bursts(2), &[0; 1], Reason::BadStart.at(0)),
            (Kind::Bursts(0), &[0; 1], Reason::Ragged.at(0)),
        ] {
            for (first, rows) in [(0, 0), (0, 1), (9, 9), (u64::MAX, u64::MAX)] {
                for window in [Window::new(0, 0), Window::new(9, u64::MAX)] {
                    let drawn = strip(kind, file, first, rows, window, &mut []);
                    assert_eq!(drawn, Err(refused));
                    for column in [0, u64::MAX] {
                        let told = behind(kind, file, first, window, column, rows);
                        assert_eq!(told, Err(refused));
                    }
                }
            }
        }
    }

    #[test]
    fn places_outside_of_a_strip() {
        let file = labelled(&[b"abcdefghi", b"abc"]);
        let no_row = Err(Reason::NoRow.at_start());
        let no_part = Err(Reason::NoPart.at_start());
        for (first, line) in [
            (0, 2),
            (2, 0),
            (1, u64::MAX),
            (u64::MAX, 1),
            (u64::MAX, u64::MAX),
        ] {
            for (window, column) in [(Window::new(0, 1), 0), (Window::new(9, 9), u64::MAX)] {
                assert_eq!(behind(FIRST, &file, first, window, column, line), no_row);
            }
        }
        for (window, column, line) in [
            (Window::new(0, 4), 0, 1),
            (Window::new(0, 3), 3, 1),
            (Window::new(0, 3), 3, 0),
            (Window::new(2, 3), u64::MAX, 0),
            (Window::new(2, 3), u64::MAX - 1, 0),
            (Window::new(9, 0), 0, 0),
        ] {
            assert_eq!(behind(FIRST, &file, 0, window, column, line), no_part);
        }
        // The window fits this row.
        let dot = behind(FIRST, &file, 0, Window::new(2, 7), 6, 0).unwrap();
        assert_eq!((dot.place, dot.byte), (28, b'i'));
    }
}
