//! Files of all kinds: checked, read from the first byte, jumped into, gone through row by row.

use crate::ffi::{self, Outcome, RowMemory, Shown, Written};
use crate::label::Versions;
use crate::refusal::{other_version, Refused};
use std::iter::FusedIterator;

/// What a file is. The caller says so: no call can tell the kinds apart.
#[derive(Clone, Copy, Debug, PartialEq, Eq, Hash)]
pub enum Kind {
    /// Objects with 20-byte CCSDS labels of these versions. Those of the classes `Z`, `U` and `F`
    /// hold further objects; the values of all others are the rows.
    Labelled(Versions),
    /// Rows of 2,080 bytes: a prefix of 32, then 2,048 samples, which are the row.
    Waveform,
    /// Short bursts: records of 1,272 bytes, which are the rows, from this place of the first one on
    /// to the file's end. What is in front of it is not looked at.
    Bursts(usize),
}

impl Kind {
    /// The place from which [`row_from`] gives the first row: that of the first record in a burst
    /// file, and 0 in any other.
    ///
    /// ```
    /// use crestulbino::Kind;
    ///
    /// assert_eq!(Kind::Bursts(2_544).first_place(), 2_544);
    /// assert_eq!(Kind::Waveform.first_place(), 0);
    /// ```
    pub const fn first_place(self) -> usize {
        match self {
            Kind::Labelled(_) | Kind::Waveform => 0,
            Kind::Bursts(start) => start,
        }
    }
}

/// The part of a row that is wanted: `count` bytes from its byte `first` on.
#[derive(Clone, Copy, Debug, PartialEq, Eq, Hash)]
pub struct Window {
    /// How many bytes of the row stand before the window.
    pub first: usize,
    /// How many bytes the window has.
    pub count: usize,
}

impl Window {
    /// The window of `count` bytes from byte `first` on. It fits a row of as many bytes as both
    /// together, or more.
    ///
    /// ```
    /// use crestulbino::Window;
    ///
    /// assert_eq!(Window::new(2, 3), Window { first: 2, count: 3 });
    /// ```
    pub const fn new(first: usize, count: usize) -> Window {
        Window { first, count }
    }
}

/// A row, or the part of it that a window shows.
#[derive(Clone, Copy, Debug, PartialEq, Eq, Hash)]
pub struct Row<'a> {
    /// The place of its first byte in the file, for an empty one too.
    pub place: usize,
    /// Its bytes, borrowed from the file.
    pub bytes: &'a [u8],
    /// Where the row is found again in the file, whatever part of it is shown.
    pub address: Address,
}

impl Row<'_> {
    /// The place behind the last byte: where [`row_from`] goes on after a whole row.
    ///
    /// ```
    /// use crestulbino::{row_from, Kind, Versions};
    ///
    /// let row = row_from(Kind::Labelled(Versions::One), b"NJPL1I00DEMO00000003abc", 0)?;
    /// assert_eq!((row.place, row.end()), (20, 23));
    /// # Ok::<(), crestulbino::Refused>(())
    /// ```
    pub const fn end(&self) -> usize {
        self.place + self.bytes.len()
    }
}

/// Where a row is found again in its file. A row of a waveform or burst file has no label: it has its
/// own first byte for both places, and depth 0.
///
/// ```
/// use crestulbino::{jump_labelled, read_row, Kind, Nesting, Versions, Window};
///
/// let file = b"NJPL1I00DEMO00000000CCSD1Z00000100000023NJPL1I00DEMO00000003abc";
/// let read = read_row(Kind::Labelled(Versions::One), file, 1, Window::new(1, 2))?;
/// assert_eq!((read.place, read.address.label), (61, 40));
/// assert_eq!(read.address.nesting, Some(Nesting { depth: 2, outermost: 20 }));
///
/// let jumped = jump_labelled(Versions::One, file, &[0], 1, Window::new(1, 2))?;
/// assert_eq!((jumped.place, jumped.address.label), (61, 40));
/// assert_eq!(jumped.address.nesting, None);
///
/// let row = read_row(Kind::Waveform, &[0; 2 * 2_080], 1, Window::new(4, 4))?;
/// assert_eq!((row.place, row.address.label), (2_116, 2_112));
/// assert_eq!(row.address.nesting, Some(Nesting { depth: 0, outermost: 2_112 }));
/// # Ok::<(), crestulbino::Refused>(())
/// ```
#[derive(Clone, Copy, Debug, PartialEq, Eq, Hash)]
pub struct Address {
    /// The place of the row's label.
    pub label: usize,
    /// How the row is nested. It is absent where a labelled row was jumped or gone on to: only reading
    /// from the first byte tells it.
    pub nesting: Option<Nesting>,
}

/// How a row is nested.
#[derive(Clone, Copy, Debug, PartialEq, Eq, Hash)]
pub struct Nesting {
    /// How deep the row's label stands: 1 at the outermost level, up to 8.
    pub depth: usize,
    /// The place of the outermost object that the row lies in: that of its own label at depth 1.
    pub outermost: usize,
}

/// Checks a whole file and answers how many rows it has.
///
/// Refuses: `TooBig`. Then for a labelled file, at its first faulty label: `Deep`, `Short`,
/// `BadLabel`, also for a version that is not allowed, `BadLength` in version 1, `Overrun`; for a
/// waveform file: `Ragged`; for a burst file: `BadStart` for a first place beyond the file's length,
/// `Ragged`.
///
/// ```
/// use crestulbino::{check, Kind, Refusal, Versions};
///
/// let (one, both) = (Kind::Labelled(Versions::One), Kind::Labelled(Versions::OneAndTwo));
/// assert_eq!(check(one, b"NJPL1I00DEMO00000003abc")?, 1);
/// let set_of_two = b"CCSD1U00SET100000043NJPL1I00DEMO00000003abcNJPL1I00DEMO00000000";
/// assert_eq!(check(one, set_of_two)?, 2);
///
/// let mixed = b"CCSD1U00SET100000023NJPL2I00DEMO\0\0\0\0\0\0\0\x03abc";
/// assert_eq!(check(both, mixed)?, 1);
/// let refused = check(one, mixed).unwrap_err();
/// assert_eq!((refused.refusal, refused.place), (Refusal::BadLabel, 20));
///
/// assert_eq!(check(Kind::Waveform, &[0; 2 * 2_080])?, 2);
/// let refused = check(Kind::Waveform, &[0; 2_079]).unwrap_err();
/// assert_eq!(refused.refusal, Refusal::Ragged);
///
/// let bursts = [0; 100 + 3 * 1_272];
/// assert_eq!(check(Kind::Bursts(100), &bursts)?, 3);
/// assert_eq!(check(Kind::Bursts(bursts.len()), &bursts)?, 0);
/// let refused = check(Kind::Bursts(bursts.len() + 1), &bursts).unwrap_err();
/// assert_eq!(refused.refusal, Refusal::BadStart);
/// # Ok::<(), crestulbino::Refused>(())
/// ```
#[inline]
pub fn check(kind: Kind, file: &[u8]) -> Result<usize, Refused> {
    let mut rows = 0;
    match kind {
        Kind::Labelled(versions) => ffi::check_labelled(file, versions.version_2(), &mut rows),
        Kind::Waveform => ffi::check_waveform(file, &mut rows),
        Kind::Bursts(start) => ffi::check_bursts(file, start as u64, &mut rows),
    }
    .result()?;
    Ok(rows as usize)
}

/// Reads a window of a row by going through the file from its first byte, in a burst file from
/// its first place. Rows are numbered from 0.
///
/// Refuses: as [`check`], wherever in the file the fault stands; `NoRow`; `NoPart`.
///
/// ```
/// use crestulbino::{read_row, Kind, Versions, Window};
///
/// let file = b"NJPL1I00DEMO00000003abcNJPL1I00DEMO00000002de";
/// let row = read_row(Kind::Labelled(Versions::One), file, 1, Window::new(0, 2))?;
/// assert_eq!((row.place, row.bytes), (43, &b"de"[..]));
///
/// let mixed = b"NJPL1I00DEMO00000003abcNJPL2I00DEMO\0\0\0\0\0\0\0\x02de";
/// assert_eq!(read_row(Kind::Labelled(Versions::OneAndTwo), mixed, 1, Window::new(0, 2))?, row);
///
/// let bursts = [7; 100 + 3 * 1_272];
/// let row = read_row(Kind::Bursts(100), &bursts, 2, Window::new(4, 4))?;
/// assert_eq!((row.place, row.bytes), (2_648, &[7; 4][..]));
/// # Ok::<(), crestulbino::Refused>(())
/// ```
#[inline]
pub fn read_row(kind: Kind, file: &[u8], row: usize, window: Window) -> Result<Row<'_>, Refused> {
    let (row, first, count) = (row as u64, window.first as u64, window.count as u64);
    shown(file, |shown| match kind {
        Kind::Labelled(versions) => {
            let version_2 = versions.version_2();
            ffi::read_row_labelled(file, version_2, row, first, count, shown)
        }
        Kind::Waveform => ffi::read_row_waveform(file, row, first, count, shown),
        Kind::Bursts(start) => ffi::read_row_bursts(file, start as u64, row, first, count, shown),
    })
}

/// Reads a window of a row of a labelled file by its index: `list` is what
/// [`build_index`](crate::build_index) wrote, or what [`check_index`](crate::check_index)
/// accepts, told the same versions. With such a list the answer is that of [`read_row`] without how
/// the row is nested; with any other it is of no use.
///
/// Refuses: `TooBig`; `NoRow` for a missing entry; `BadIndex` for an entry beyond the file's
/// length; what the walk from the entry meets, which is `Short`, `BadLabel`, `BadLength` or
/// `Overrun` at a label, or `NoRow` at the file's end; `NoPart`.
///
/// ```
/// use crestulbino::{jump_labelled, Versions, Window};
///
/// let file = b"NJPL1I00DEMO00000003abcNJPL1I00DEMO00000002de";
/// let row = jump_labelled(Versions::One, file, &[0], 1, Window::new(1, 1))?;
/// assert_eq!((row.place, row.bytes), (44, &b"e"[..]));
///
/// let mixed = b"NJPL2I00DEMO\0\0\0\0\0\0\0\x03abcNJPL1I00DEMO00000002de";
/// assert_eq!(jump_labelled(Versions::OneAndTwo, mixed, &[0], 1, Window::new(1, 1))?, row);
/// # Ok::<(), crestulbino::Refused>(())
/// ```
#[inline]
pub fn jump_labelled<'a>(
    versions: Versions,
    file: &'a [u8],
    list: &[u32],
    row: usize,
    window: Window,
) -> Result<Row<'a>, Refused> {
    let (row, first, count) = (row as u64, window.first as u64, window.count as u64);
    shown(file, |shown| {
        let version_2 = versions.version_2();
        ffi::jump_labelled(file, version_2, list, row, first, count, shown)
    })
}

/// Reads a window of a row of a waveform file at its computed place. The answer is that of
/// [`read_row`].
///
/// Refuses: `TooBig`, `Ragged`, `NoRow`, `NoPart`.
///
/// ```
/// use crestulbino::{jump_waveform, Window};
///
/// let file = [128; 32 * 2_080];
/// let row = jump_waveform(&file, 31, Window::new(1_024, 4))?;
/// assert_eq!((row.place, row.bytes), (65_536, &[128; 4][..]));
/// # Ok::<(), crestulbino::Refused>(())
/// ```
#[inline]
pub fn jump_waveform(file: &[u8], row: usize, window: Window) -> Result<Row<'_>, Refused> {
    let (row, first, count) = (row as u64, window.first as u64, window.count as u64);
    shown(file, |shown| {
        ffi::jump_waveform(file, row, first, count, shown)
    })
}

/// Reads a window of a row of a burst file at its computed place: `start`, which is that of the
/// first record, and 1,272 for each earlier one. The answer is that of [`read_row`].
///
/// Refuses: `TooBig`, `BadStart`, `Ragged`, `NoRow`, `NoPart`.
///
/// ```
/// use crestulbino::{jump_bursts, Window, BURST_BYTES};
///
/// let file = [7; 100 + 3 * BURST_BYTES];
/// let row = jump_bursts(&file, 100, 2, Window::new(0, BURST_BYTES))?;
/// assert_eq!((row.place, row.bytes), (2_644, &[7; BURST_BYTES][..]));
/// # Ok::<(), crestulbino::Refused>(())
/// ```
#[inline]
pub fn jump_bursts(
    file: &[u8],
    start: usize,
    row: usize,
    window: Window,
) -> Result<Row<'_>, Refused> {
    let (row, first, count) = (row as u64, window.first as u64, window.count as u64);
    shown(file, |shown| {
        ffi::jump_bursts(file, start as u64, row, first, count, shown)
    })
}

/// Gives a whole row from a place on: in a labelled file the first row whose label is met from
/// there, in a waveform file the row that begins there with its prefix, in a burst file the row
/// that begins there. Begin at [`Kind::first_place`] and go on at [`Row::end`] of each row; [`rows`]
/// does so. How a labelled row is nested is absent.
///
/// Refuses, labelled: `TooBig`; `NoRow` for a place beyond the file's length; what the walk from
/// the place meets, which is `Short`, `BadLabel`, `BadLength` or `Overrun` at a label, or `NoRow`
/// at the file's end. Waveform: `TooBig`; `Ragged`; `NoRow` for a place that is no multiple of
/// 2,080, or at or beyond the file's end. Bursts: `TooBig`; `BadStart`; `Ragged`; `NoRow` for a
/// place in front of the first one, not a multiple of 1,272 behind it, or at or beyond the file's
/// end.
///
/// ```
/// use crestulbino::{row_from, Kind, Refusal, Versions};
///
/// let kind = Kind::Labelled(Versions::One);
/// let file = b"CCSD1Z00000100000023NJPL1I00DEMO00000003abc";
/// let row = row_from(kind, file, 0)?;
/// assert_eq!((row.place, row.bytes), (40, &b"abc"[..]));
/// let refused = row_from(kind, file, row.end()).unwrap_err();
/// assert_eq!(refused.refusal, Refusal::NoRow);
///
/// // A label that opens a group is passed whatever length it claims.
/// let both = Kind::Labelled(Versions::OneAndTwo);
/// let mixed = b"CCSD2Z000001\xff\xff\xff\xff\xff\xff\xff\xffNJPL1I00DEMO00000003abc";
/// assert_eq!(row_from(both, mixed, 0)?, row);
///
/// let bursts = [7; 100 + 3 * 1_272];
/// let row = row_from(Kind::Bursts(100), &bursts, 1_372)?;
/// assert_eq!((row.place, row.end()), (1_372, 2_644));
/// # Ok::<(), crestulbino::Refused>(())
/// ```
#[inline]
pub fn row_from(kind: Kind, file: &[u8], from: usize) -> Result<Row<'_>, Refused> {
    let from = from as u64;
    shown(file, |shown| match kind {
        Kind::Labelled(versions) => ffi::row_from_labelled(file, versions.version_2(), from, shown),
        Kind::Waveform => ffi::row_from_waveform(file, from, shown),
        Kind::Bursts(start) => ffi::row_from_bursts(file, start as u64, from, shown),
    })
}

/// Checks a file, then gives its rows one after the other.
///
/// Refuses: as [`check`].
///
/// ```
/// use crestulbino::{rows, Kind, Versions};
///
/// let file = b"CCSD1Z00000100000043NJPL1I00DEMO00000003abcNJPL2I00DEMO\0\0\0\0\0\0\0\0";
/// let mut rows = rows(Kind::Labelled(Versions::OneAndTwo), file)?;
/// assert_eq!(rows.len(), 2);
/// assert_eq!(rows.next().map(|row| (row.place, row.bytes)), Some((40, &b"abc"[..])));
/// assert_eq!(rows.next().map(|row| (row.place, row.bytes)), Some((63, &b""[..])));
/// assert_eq!(rows.next(), None);
///
/// let bursts = [7; 100 + 3 * 1_272];
/// let places = crestulbino::rows(Kind::Bursts(100), &bursts)?.map(|row| row.place);
/// assert_eq!(places.collect::<Vec<_>>(), [100, 1_372, 2_644]);
/// # Ok::<(), crestulbino::Refused>(())
/// ```
#[inline]
pub fn rows(kind: Kind, file: &[u8]) -> Result<Rows<'_>, Refused> {
    Ok(Rows {
        kind,
        file,
        from: kind.first_place(),
        left: check(kind, file)?,
    })
}

/// The rows of a file that was checked. [`rows`] makes it.
#[derive(Clone, Debug)]
pub struct Rows<'a> {
    kind: Kind,
    file: &'a [u8],
    from: usize,
    left: usize,
}

impl<'a> Iterator for Rows<'a> {
    type Item = Row<'a>;

    #[inline]
    fn next(&mut self) -> Option<Row<'a>> {
        self.left = self.left.checked_sub(1)?;
        let row = row_from(self.kind, self.file, self.from);
        let row = row.unwrap_or_else(|_| other_version());
        self.from = row.end();
        Some(row)
    }

    fn size_hint(&self) -> (usize, Option<usize>) {
        (self.left, Some(self.left))
    }
}

impl ExactSizeIterator for Rows<'_> {}

impl FusedIterator for Rows<'_> {}

/// Makes a call that answers a row, and borrows the row's part of the file.
#[inline]
fn shown(file: &[u8], call: impl FnOnce(&mut RowMemory) -> Shown<'_>) -> Result<Row<'_>, Refused> {
    let mut memory = RowMemory::uninit();
    let row = call(&mut memory).map_err(Outcome::refused)?;
    Ok(row_of(file, row))
}

/// A row that a call has answered, with its part of the file.
#[inline]
pub(crate) fn row_of<'a>(file: &'a [u8], row: Written<'_>) -> Row<'a> {
    let nesting = row.nesting().map(|(depth, outermost)| Nesting {
        depth: depth as usize,
        outermost: outermost as usize,
    });
    Row {
        place: row.place() as usize,
        bytes: part(file, row.place(), row.bytes()),
        address: Address {
            label: row.label() as usize,
            nesting,
        },
    }
}

/// The part of a file that a call named.
#[inline]
pub(crate) fn part(file: &[u8], place: u64, count: u64) -> &[u8] {
    let bytes = file.get(place as usize..);
    let bytes = bytes.and_then(|rest| rest.get(..count as usize));
    bytes.unwrap_or_else(|| other_version())
}

#[cfg(test)]
mod tests {
    use super::*;

    const DEMO: &[u8] = b"CCSD1Z00000100000043NJPL1I00DEMO00000003abcNJPL1I00DEMO00000000";

    /// The same with its first two labels in version 2.
    const MIXED: &[u8] = b"CCSD2Z000001\0\0\0\0\0\0\0\x2bNJPL2I00DEMO\0\0\0\0\0\0\0\x03abc\
                           NJPL1I00DEMO00000000";

    const ONE: Kind = Kind::Labelled(Versions::One);
    const BOTH: Kind = Kind::Labelled(Versions::OneAndTwo);

    #[test]
    fn rows_are_borrowed_from_the_file() {
        for (kind, file) in [(ONE, DEMO), (BOTH, DEMO), (BOTH, MIXED)] {
            let row = row_from(kind, file, 0).unwrap();
            assert_eq!(row.bytes.as_ptr(), file[40..].as_ptr());
        }
    }

    #[test]
    fn going_through_a_file_gives_what_reading_gives() {
        let waveform: Vec<u8> = (0..3 * 2_080).map(|place| (place % 251) as u8).collect();
        let labelled = [(ONE, DEMO), (BOTH, DEMO), (BOTH, MIXED)];
        let bursts = &waveform[..100 + 3 * 1_272];
        let others = [
            (Kind::Waveform, &waveform[..]),
            (Kind::Bursts(100), bursts),
            (Kind::Bursts(100 + 2 * 1_272), bursts),
            (Kind::Bursts(bursts.len()), bursts),
        ];
        for (kind, file) in labelled.into_iter().chain(others) {
            let all = rows(kind, file).unwrap();
            assert_eq!(all.size_hint(), (all.len(), Some(all.len())));
            assert_eq!(all.clone().count(), check(kind, file).unwrap());
            for (number, row) in all.enumerate() {
                let window = Window::new(0, row.bytes.len());
                let read = read_row(kind, file, number, window).unwrap();
                assert!(read.address.nesting.is_some());
                let is_labelled = matches!(kind, Kind::Labelled(_));
                assert_eq!(row.address.nesting.is_none(), is_labelled);
                let nesting = read.address.nesting.filter(|_| !is_labelled);
                let address = Address {
                    nesting,
                    ..read.address
                };
                assert_eq!(row, Row { address, ..read });
            }
        }
    }

    #[test]
    fn a_file_is_checked_before_its_first_row() {
        for (kind, file) in [(ONE, DEMO), (BOTH, DEMO), (BOTH, MIXED)] {
            let late = [file, b"x"].concat();
            let refused = rows(kind, &late).unwrap_err();
            assert_eq!(refused.place, 63);
            assert_eq!(check(kind, &late), Err(refused));
            assert!(row_from(kind, &late, 0).is_ok());
        }
    }

    #[test]
    fn empty_files_have_no_rows() {
        for kind in [ONE, BOTH, Kind::Waveform, Kind::Bursts(0)] {
            let mut none = rows(kind, &[]).unwrap();
            assert_eq!((none.len(), none.next(), none.next()), (0, None, None));
        }
    }
}
