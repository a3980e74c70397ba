//! The index of a labelled file and of two of them joined, and its kept forms: kind 1, the list;
//! kind 2, the row count and the list.

use crate::ffi;
use crate::label::Versions;
use crate::refusal::Refused;

/// One entry of an index stands for so many rows: a file of `n` rows has
/// `n.div_ceil(ROWS_PER_ENTRY)` entries.
pub const ROWS_PER_ENTRY: usize = 16;

/// The bytes of a kept index of kind 1 in front of its entries, which have four bytes each.
pub const KEPT_FRONT_BYTES: usize = 6;

/// The same of kind 2, which has the row count there, of four bytes too.
pub const KEPT2_FRONT_BYTES: usize = 10;

/// What [`build_index`] and [`joined_index`] answer.
#[derive(Clone, Copy, Debug, PartialEq, Eq, Hash)]
pub struct Built {
    /// How many entries were written to the front of the list.
    pub entries: usize,
    /// How many rows the file has, or both files together.
    pub rows: usize,
}

/// Writes the index of a labelled file to the front of `list`: the places of the labels of rows
/// 0, 16, 32 and so on.
///
/// Refuses: as [`check`](crate::check) of a labelled file; `Small`.
///
/// ```
/// use crestulbino::{build_index, Built, Versions};
///
/// let mut list = [7; 2];
/// let file = b"CCSD1Z00000100000023NJPL1I00DEMO00000003abc";
/// let built = build_index(Versions::One, file, &mut list)?;
/// assert_eq!(built, Built { entries: 1, rows: 1 });
/// assert_eq!(list, [20, 7]);
///
/// let mixed = b"CCSD2Z000001\0\0\0\0\0\0\0\x17NJPL1I00DEMO00000003abc";
/// assert_eq!(build_index(Versions::OneAndTwo, mixed, &mut list)?, built);
/// # Ok::<(), crestulbino::Refused>(())
/// ```
#[inline]
pub fn build_index(versions: Versions, file: &[u8], list: &mut [u32]) -> Result<Built, Refused> {
    let (mut entries, mut rows) = (0, 0);
    let version_2 = versions.version_2();
    ffi::build_index(file, version_2, list, &mut entries, &mut rows).result()?;
    Ok(Built {
        entries: entries as usize,
        rows: rows as usize,
    })
}

/// Accepts exactly the whole index of a labelled file that the check accepts.
///
/// Refuses: as [`check`](crate::check) of a labelled file; `BadIndex`.
///
/// ```
/// use crestulbino::{check_index, Refusal, Versions};
///
/// let file = b"NJPL1I00DEMO00000003abc";
/// check_index(Versions::One, file, &[0])?;
/// let refused = check_index(Versions::One, file, &[3]).unwrap_err();
/// assert_eq!(refused.refusal, Refusal::BadIndex);
///
/// let binary = b"NJPL2I00DEMO\0\0\0\0\0\0\0\x03abc";
/// check_index(Versions::OneAndTwo, binary, &[0])?;
/// let refused = check_index(Versions::One, binary, &[0]).unwrap_err();
/// assert_eq!(refused.refusal, Refusal::BadLabel);
/// # Ok::<(), crestulbino::Refused>(())
/// ```
#[inline]
pub fn check_index(versions: Versions, file: &[u8], list: &[u32]) -> Result<(), Refused> {
    ffi::check_index(file, versions.version_2(), list).result()
}

/// Writes the index of two labelled files set end to end to the front of `list`, from the files and
/// their indexes. It is what [`build_index`] writes for the joined file, of which no copy is made.
///
/// Its rows are those of `first` and then those of `second`, whose places grow by the length of
/// `first`; where the rows of `first` do not fill their last group of 16, `second` fills it. Each file
/// is gone through twice; where `second` fills a group, the labels of up to 15 in 16 of its rows are
/// passed once more. Nothing is copied.
///
/// Refuses: `TooBig` where the two lengths come to more than 4,294,967,295, whatever the files are; as
/// [`check_index`] for `first` and `first_list`; the same for `second` and `second_list`, with places
/// in `second`; `Small`.
///
/// ```
/// use crestulbino::{build_index, joined_index, Built, Versions};
///
/// let row = b"NJPL1I00DEMO00000003abc";
/// let (first, second) = (row.repeat(15), row.repeat(3));
/// let mut list = [7; 3];
/// let built = joined_index(Versions::One, &first, &[0], &second, &[0], &mut list)?;
/// assert_eq!(built, Built { entries: 2, rows: 18 });
/// // The second entry is that of row 16, which is row 1 of the second file.
/// assert_eq!(list, [0, 345 + 23, 7]);
///
/// let mut again = [7; 3];
/// assert_eq!(build_index(Versions::One, &row.repeat(18), &mut again)?, built);
/// assert_eq!(again, list);
/// # Ok::<(), crestulbino::Refused>(())
/// ```
#[inline]
pub fn joined_index(
    versions: Versions,
    first: &[u8],
    first_list: &[u32],
    second: &[u8],
    second_list: &[u32],
    list: &mut [u32],
) -> Result<Built, Refused> {
    let (mut entries, mut rows) = (0, 0);
    let version_2 = versions.version_2();
    ffi::joined_index(
        first,
        first_list,
        second,
        second_list,
        version_2,
        list,
        &mut entries,
        &mut rows,
    )
    .result()?;
    Ok(Built {
        entries: entries as usize,
        rows: rows as usize,
    })
}

/// Writes an index to the front of `out` as bytes to keep, of kind 1, and answers how many: 6, and
/// 4 for each entry.
///
/// Refuses: `TooBig` for more than 1,073,741,823 entries; `Small`.
///
/// ```
/// use crestulbino::{keep_index, KEPT_FRONT_BYTES};
///
/// let mut out = [0; KEPT_FRONT_BYTES + 4];
/// assert_eq!(keep_index(&[20], &mut out)?, 10);
/// assert_eq!(out, [6, 0, 0, 0, 1, 0, 20, 0, 0, 0]);
/// # Ok::<(), crestulbino::Refused>(())
/// ```
#[inline]
pub fn keep_index(list: &[u32], out: &mut [u8]) -> Result<usize, Refused> {
    let mut written = 0;
    ffi::keep_index(list, out, &mut written).result()?;
    Ok(written as usize)
}

/// Reads a kept index of kind 1 into the front of `list` and answers how many entries it has.
/// Whether it is the index of a file, [`check_index`] says.
///
/// Refuses: `BadKept`, also for kind 2; `Small`.
///
/// ```
/// let mut list = [7; 2];
/// assert_eq!(crestulbino::load_kept(&[6, 0, 0, 0, 1, 0, 20, 0, 0, 0], &mut list)?, 1);
/// assert_eq!(list, [20, 7]);
/// # Ok::<(), crestulbino::Refused>(())
/// ```
#[inline]
pub fn load_kept(bytes: &[u8], list: &mut [u32]) -> Result<usize, Refused> {
    let mut entries = 0;
    ffi::load_kept(bytes, list, &mut entries).result()?;
    Ok(entries as usize)
}

/// What [`load_kept2`] answers.
#[derive(Clone, Copy, Debug, PartialEq, Eq, Hash)]
pub struct Kept2 {
    /// The row count, as it was kept.
    pub rows: usize,
    /// How many entries were written to the front of the list.
    pub entries: usize,
}

/// Reads a kept index of kind 2 into the front of `list`, and answers the row count and how many
/// entries it has. Whether both are those of a file, [`check_kept2`] says.
///
/// Refuses: `BadKept`, also for kind 1; `Small`.
///
/// How many rows a file has, without the file:
///
/// ```
/// use crestulbino::{load_kept2, Kept2, KEPT2_FRONT_BYTES};
///
/// let kept = [14, 0, 0, 0, 2, 0, 17, 0, 0, 0, 20, 0, 0, 0, 84, 1, 0, 0];
/// let mut list = vec![0; (kept.len() - KEPT2_FRONT_BYTES) / 4];
/// let Kept2 { rows, entries } = load_kept2(&kept, &mut list)?;
/// assert_eq!((rows, &list[..entries]), (17, &[20, 340][..]));
/// # Ok::<(), crestulbino::Refused>(())
/// ```
#[inline]
pub fn load_kept2(bytes: &[u8], list: &mut [u32]) -> Result<Kept2, Refused> {
    let (mut rows, mut entries) = (0, 0);
    ffi::load_kept2(bytes, list, &mut rows, &mut entries).result()?;
    Ok(Kept2 {
        rows: rows as usize,
        entries: entries as usize,
    })
}

/// Writes a kept index of kind 1 to the front of `out` as one of kind 2, with the row count of its
/// file, and answers how many bytes: 10, and 4 for each entry.
///
/// Refuses: as [`check`](crate::check) of a labelled file; `BadKept`; `BadIndex` where the list is
/// not the whole index of the file; `Small`.
///
/// The way back, for which [`convert_2_to_1`] needs no file, gives the same bytes:
///
/// ```
/// use crestulbino::{build_index, convert_1_to_2, convert_2_to_1, keep_index, Versions};
///
/// let file = b"CCSD1Z00000100000043NJPL1I00DEMO00000003abcNJPL1I00DEMO00000000";
/// let mut list = [0; 1];
/// let built = build_index(Versions::One, file, &mut list)?;
/// let (mut kept, mut kept2, mut again) = ([0; 10], [0; 14], [0; 10]);
/// keep_index(&list[..built.entries], &mut kept)?;
///
/// assert_eq!(convert_1_to_2(Versions::One, file, &kept, &mut kept2)?, 14);
/// assert_eq!(kept2, [10, 0, 0, 0, 2, 0, 2, 0, 0, 0, 20, 0, 0, 0]);
/// assert_eq!(convert_2_to_1(&kept2, &mut again)?, 10);
/// assert_eq!(again, kept);
/// # Ok::<(), crestulbino::Refused>(())
/// ```
#[inline]
pub fn convert_1_to_2(
    versions: Versions,
    file: &[u8],
    kept: &[u8],
    out: &mut [u8],
) -> Result<usize, Refused> {
    let mut written = 0;
    ffi::convert_1_to_2(file, versions.version_2(), kept, out, &mut written).result()?;
    Ok(written as usize)
}

/// Writes a kept index of kind 2 to the front of `out` as one of kind 1, without the row count, and
/// answers how many bytes: 6, and 4 for each entry.
///
/// Refuses: `BadKept`, `Small`.
///
/// ```
/// use crestulbino::{convert_2_to_1, Refusal};
///
/// let kept2 = [10, 0, 0, 0, 2, 0, 2, 0, 0, 0, 20, 0, 0, 0];
/// let mut kept = [7; 11];
/// assert_eq!(convert_2_to_1(&kept2, &mut kept)?, 10);
/// assert_eq!(kept, [6, 0, 0, 0, 1, 0, 20, 0, 0, 0, 7]);
///
/// let refused = convert_2_to_1(&kept[..10], &mut [0; 10]).unwrap_err();
/// assert_eq!(refused.refusal, Refusal::BadKept);
/// # Ok::<(), crestulbino::Refused>(())
/// ```
#[inline]
pub fn convert_2_to_1(kept: &[u8], out: &mut [u8]) -> Result<usize, Refused> {
    let mut written = 0;
    ffi::convert_2_to_1(kept, out, &mut written).result()?;
    Ok(written as usize)
}

/// Accepts exactly a kept index of kind 2 whose list is the whole index of a labelled file that the
/// check accepts, and whose row count is the file's.
///
/// Refuses: as [`check`](crate::check) of a labelled file; `BadKept`, `BadIndex`.
///
/// ```
/// use crestulbino::{check_kept2, Refusal, Versions};
///
/// let file = b"CCSD1Z00000100000043NJPL1I00DEMO00000003abcNJPL1I00DEMO00000000";
/// let mut kept = [10, 0, 0, 0, 2, 0, 2, 0, 0, 0, 20, 0, 0, 0];
/// check_kept2(Versions::One, file, &kept)?;
/// kept[6] = 3;
/// let refused = check_kept2(Versions::One, file, &kept).unwrap_err();
/// assert_eq!(refused.refusal, Refusal::BadIndex);
/// # Ok::<(), crestulbino::Refused>(())
/// ```
#[inline]
pub fn check_kept2(versions: Versions, file: &[u8], kept: &[u8]) -> Result<(), Refused> {
    ffi::check_kept2(file, versions.version_2(), kept).result()
}
