//! A labelled file and its substitute: a row of the one that serves.

use crate::ffi::{self, Outcome, RowMemory};
use crate::file::{row_of, Row};
use crate::label::Versions;
use crate::refusal::{other_version, Refused};

/// Which of two files a row is shown from.
#[derive(Clone, Copy, Debug, PartialEq, Eq, Hash)]
pub enum Source {
    /// The original file.
    Original,
    /// The one in its place.
    Substitute,
}

impl Source {
    /// The source with this number of the boundary.
    #[inline]
    fn of(number: u64) -> Source {
        match number {
            0 => Source::Original,
            1 => Source::Substitute,
            _ => other_version(),
        }
    }
}

/// What [`substitute_row`] answers.
#[derive(Clone, Copy, Debug, PartialEq, Eq, Hash)]
pub struct Chosen<'a> {
    /// Which file the row is shown from.
    pub source: Source,
    /// The whole row. Its bytes are borrowed from that file, and its places are counted there.
    pub row: Row<'a>,
}

/// Gives a whole row of a labelled file or of its substitute, and says of which. The row is that of
/// the substitute, if that file is accepted as [`check`](crate::check) accepts it and has the row,
/// whatever the original is; else that of the original. `versions` holds for both.
///
/// Refuses: only where neither file serves, and then for the original alone: as
/// [`check`](crate::check) of a labelled file; `NoRow`.
///
/// ```
/// use crestulbino::{substitute_row, Refusal, Source, Versions};
///
/// let original = b"NJPL1I00DEMO00000003abcNJPL1I00DEMO00000002de";
/// let substitute = b"CCSD1Z00000100000021NJPL1I00DEMO00000001x";
/// let shown = substitute_row(Versions::One, original, substitute, 0)?;
/// assert_eq!(shown.source, Source::Substitute);
/// assert_eq!((shown.row.place, shown.row.bytes), (40, &b"x"[..]));
///
/// // There is no row 1 in the substitute.
/// let shown = substitute_row(Versions::One, original, substitute, 1)?;
/// assert_eq!(shown.source, Source::Original);
/// assert_eq!((shown.row.place, shown.row.bytes), (43, &b"de"[..]));
/// let refused = substitute_row(Versions::One, original, substitute, 2).unwrap_err();
/// assert_eq!(refused.refusal, Refusal::NoRow);
///
/// // A substitute with a fault does not serve, wherever the fault stands. Its refusal is not told.
/// let cut = &substitute[..40];
/// let shown = substitute_row(Versions::One, original, cut, 0)?;
/// assert_eq!((shown.source, shown.row.bytes), (Source::Original, &b"abc"[..]));
/// let refused = substitute_row(Versions::One, &original[..30], cut, 0).unwrap_err();
/// assert_eq!((refused.refusal, refused.place), (Refusal::Short, 23));
/// # Ok::<(), crestulbino::Refused>(())
/// ```
#[inline]
pub fn substitute_row<'a>(
    versions: Versions,
    original: &'a [u8],
    substitute: &'a [u8],
    row: usize,
) -> Result<Chosen<'a>, Refused> {
    let (mut source, mut shown) = (0, RowMemory::uninit());
    let version_2 = versions.version_2();
    let row = row as u64;
    let written = ffi::substitute_row(
        original,
        substitute,
        version_2,
        row,
        &mut source,
        &mut shown,
    );
    let row = written.map_err(Outcome::refused)?;
    let source = Source::of(source);
    let file = match source {
        Source::Original => original,
        Source::Substitute => substitute,
    };
    Ok(Chosen {
        source,
        row: row_of(file, row),
    })
}

#[cfg(test)]
mod tests {
    use super::*;
    use crate::file::{check, read_row, Kind, Window};

    /// Each has other bytes in its rows, a row without bytes among them, at other places, and the
    /// second one fewer rows.
    const ORIGINAL: &[u8] = b"NJPL1I00DEMO00000003abcCCSD1Z00000100000040\
                              NJPL1I00DEMO00000000NJPL1I00DEMO00000000NJPL1I00DEMO00000002de";
    const SUBSTITUTE: &[u8] = b"CCSD1U00000100000044NJPL1I00DEMO00000000NJPL1I00DEMO00000004wxyz\
                                NJPL1I00DEMO00000000";

    /// Both in one piece of memory, where the end of the one is the front of the other.
    fn side_by_side() -> Vec<u8> {
        [ORIGINAL, SUBSTITUTE].concat()
    }

    /// Whether the bytes are a part of the file, to the very address, with as many in front as the
    /// place says.
    fn is_part(bytes: &[u8], place: usize, file: &[u8]) -> bool {
        let (bytes, file) = (bytes.as_ptr_range(), file.as_ptr_range());
        bytes.start == file.start.wrapping_add(place) && bytes.end <= file.end
    }

    #[test]
    fn rows_are_borrowed_from_the_chosen_file() {
        let memory = side_by_side();
        let (original, substitute) = memory.split_at(ORIGINAL.len());
        for versions in [Versions::One, Versions::OneAndTwo] {
            let kind = Kind::Labelled(versions);
            assert_eq!(check(kind, original), Ok(4));
            assert_eq!(check(kind, substitute), Ok(3));
            for number in 0..4 {
                let shown = substitute_row(versions, original, substitute, number).unwrap();
                let (source, file) = match number {
                    3 => (Source::Original, original),
                    _ => (Source::Substitute, substitute),
                };
                assert_eq!(shown.source, source);
                assert!(is_part(shown.row.bytes, shown.row.place, file));
                let whole = Window::new(0, shown.row.bytes.len());
                assert_eq!(read_row(kind, file, number, whole), Ok(shown.row));
            }
        }
    }

    /// The same bytes lent as both are those of the substitute, and lent twice.
    #[test]
    fn a_file_may_be_its_own_substitute() {
        let memory = side_by_side();
        let file = &memory[..ORIGINAL.len()];
        let copy = file.to_vec();
        for (original, substitute) in [(file, file), (&copy[..], file), (file, &copy[..])] {
            for number in 0..4 {
                let shown = substitute_row(Versions::One, original, substitute, number).unwrap();
                assert_eq!(shown.source, Source::Substitute);
                assert!(is_part(shown.row.bytes, shown.row.place, substitute));
            }
        }
    }
}
