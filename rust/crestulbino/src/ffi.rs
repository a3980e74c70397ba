//! The boundary. The declarations stand in the order of `include/crestulbino.h`, with its names,
//! and a test compares them with it; nothing compares either with the archive but the tests that
//! call it. Behind them, in the same order, each has a function that is safe to call: it takes the
//! same arguments as slices and references.
//!
//! This is the crate's only unsafe code, and one argument covers every call in it. What the header
//! asks of a caller is that
//!
//! - a pointer with a length is good for that many elements and aligned: it comes from a slice with
//!   its length. That of an empty slice is not null, which is more than is asked;
//! - a pointer without a length is good for what it points to: it comes from a reference;
//! - outputs overlap neither one another nor an input, and nobody writes to an input: outputs are
//!   `&mut`, inputs `&`, and all of them live until the call returns.
//!
//! The library keeps no pointer, and writes whole numbers, bytes and floats, of which every pattern is
//! a value. It reads only inputs, and of a row's memory the two numbers that it writes again where they
//! are absent.

use crate::refusal::other_version;
use std::mem::MaybeUninit;

/// What a call that can refuse returns: 0 and 0 for an answer, or a refusal's number and place.
#[repr(C)]
#[derive(Clone, Copy, Debug, PartialEq, Eq)]
#[must_use]
pub(crate) struct Outcome {
    pub refusal: u64,
    pub place: u64,
}

/// What is shown of a row, as the header's `crest_row`: where the nesting is absent, the last two
/// numbers stay as they were.
#[repr(C)]
#[derive(Clone, Copy, Debug, PartialEq, Eq)]
pub(crate) struct RowNumbers {
    pub place: u64,
    pub bytes: u64,
    pub label: u64,
    pub nesting: u64,
    pub depth: u64,
    pub outermost: u64,
}

/// A dot of a strip and the byte behind it, as the header's `crest_dot`.
#[repr(C)]
#[derive(Clone, Copy, Debug, Default, PartialEq, Eq)]
pub(crate) struct DotNumbers {
    pub place: u64,
    pub byte: u64,
    pub tone: u64,
    pub dot: u64,
}

/// The header's `CREST_ABSENT` and `CREST_KNOWN`.
pub(crate) const ABSENT: u64 = 0;
pub(crate) const KNOWN: u64 = 1;

/// Memory for a row's numbers. Nothing need be in it: to fill it in front of each call took as long
/// as half a jump.
pub(crate) type RowMemory = MaybeUninit<RowNumbers>;

/// What a call that answers a row comes to.
pub(crate) type Shown<'m> = Result<Written<'m>, Outcome>;

/// Memory in which a call has answered a row.
#[derive(Clone, Copy, Debug)]
pub(crate) struct Written<'m>(&'m RowMemory);

impl Written<'_> {
    #[inline]
    pub(crate) fn place(self) -> u64 {
        // SAFETY: a call that answers writes the first four numbers.
        unsafe { (*self.0.as_ptr()).place }
    }

    #[inline]
    pub(crate) fn bytes(self) -> u64 {
        // SAFETY: a call that answers writes the first four numbers.
        unsafe { (*self.0.as_ptr()).bytes }
    }

    #[inline]
    pub(crate) fn label(self) -> u64 {
        // SAFETY: a call that answers writes the first four numbers.
        unsafe { (*self.0.as_ptr()).label }
    }

    /// The depth and the outermost object's place, where they are known.
    #[inline]
    pub(crate) fn nesting(self) -> Option<(u64, u64)> {
        let row = self.0.as_ptr();
        // SAFETY: a call that answers writes the first four numbers, and the other two where the
        // fourth says that they are known.
        unsafe {
            match (*row).nesting {
                ABSENT => None,
                KNOWN => Some(((*row).depth, (*row).outermost)),
                _ => other_version(),
            }
        }
    }
}

/// What a call came to that was lent this memory for a row.
///
/// # Safety
///
/// The call is one of the header that writes a `crest_row`, and returned this.
#[inline]
unsafe fn written(outcome: Outcome, memory: &RowMemory) -> Shown<'_> {
    match outcome.refusal {
        0 => Ok(Written(memory)),
        _ => Err(outcome),
    }
}

#[rustfmt::skip] // A line for a declaration, as in the header.
unsafe extern "C" {
    fn crest_read_label(bytes: *const u8, bytes_len: usize, version_2: bool, agency: *mut [u8; 4], version: *mut u8, class_: *mut u8, description: *mut [u8; 4], length: *mut u64, spaces: *mut u8) -> Outcome;
    fn crest_write_label(version: u8, head: *const u8, head_len: usize, length: u64, out: *mut u8, out_len: usize, written: *mut u64) -> Outcome;
    fn crest_check_labelled(file: *const u8, file_len: usize, version_2: bool, rows: *mut u64) -> Outcome;
    fn crest_check_waveform(file: *const u8, file_len: usize, rows: *mut u64) -> Outcome;
    fn crest_check_bursts(file: *const u8, file_len: usize, start: u64, rows: *mut u64) -> Outcome;
    fn crest_read_row_labelled(file: *const u8, file_len: usize, version_2: bool, row: u64, first: u64, count: u64, shown: *mut RowNumbers) -> Outcome;
    fn crest_read_row_waveform(file: *const u8, file_len: usize, row: u64, first: u64, count: u64, shown: *mut RowNumbers) -> Outcome;
    fn crest_read_row_bursts(file: *const u8, file_len: usize, start: u64, row: u64, first: u64, count: u64, shown: *mut RowNumbers) -> Outcome;
    fn crest_jump_labelled(file: *const u8, file_len: usize, version_2: bool, list: *const u32, list_len: usize, row: u64, first: u64, count: u64, shown: *mut RowNumbers) -> Outcome;
    fn crest_jump_waveform(file: *const u8, file_len: usize, row: u64, first: u64, count: u64, shown: *mut RowNumbers) -> Outcome;
    fn crest_jump_bursts(file: *const u8, file_len: usize, start: u64, row: u64, first: u64, count: u64, shown: *mut RowNumbers) -> Outcome;
    fn crest_row_from_labelled(file: *const u8, file_len: usize, version_2: bool, from: u64, shown: *mut RowNumbers) -> Outcome;
    fn crest_row_from_waveform(file: *const u8, file_len: usize, from: u64, shown: *mut RowNumbers) -> Outcome;
    fn crest_row_from_bursts(file: *const u8, file_len: usize, start: u64, from: u64, shown: *mut RowNumbers) -> Outcome;
    fn crest_substitute_row(original: *const u8, original_len: usize, substitute: *const u8, substitute_len: usize, version_2: bool, row: u64, source: *mut u64, shown: *mut RowNumbers) -> Outcome;
    fn crest_build_index(file: *const u8, file_len: usize, version_2: bool, list: *mut u32, list_len: usize, entries: *mut u64, rows: *mut u64) -> Outcome;
    fn crest_check_index(file: *const u8, file_len: usize, version_2: bool, list: *const u32, list_len: usize) -> Outcome;
    fn crest_joined_index(first: *const u8, first_len: usize, first_list: *const u32, first_list_len: usize, second: *const u8, second_len: usize, second_list: *const u32, second_list_len: usize, version_2: bool, list: *mut u32, list_len: usize, entries: *mut u64, rows: *mut u64) -> Outcome;
    fn crest_keep_index(list: *const u32, list_len: usize, out: *mut u8, out_len: usize, written: *mut u64) -> Outcome;
    fn crest_load_kept(bytes: *const u8, bytes_len: usize, list: *mut u32, list_len: usize, entries: *mut u64) -> Outcome;
    fn crest_load_kept2(bytes: *const u8, bytes_len: usize, list: *mut u32, list_len: usize, rows: *mut u64, entries: *mut u64) -> Outcome;
    fn crest_convert_1_to_2(file: *const u8, file_len: usize, version_2: bool, kept: *const u8, kept_len: usize, out: *mut u8, out_len: usize, written: *mut u64) -> Outcome;
    fn crest_convert_2_to_1(kept: *const u8, kept_len: usize, out: *mut u8, out_len: usize, written: *mut u64) -> Outcome;
    fn crest_check_kept2(file: *const u8, file_len: usize, version_2: bool, kept: *const u8, kept_len: usize) -> Outcome;
    fn crest_tone(sample: u8) -> u8;
    fn crest_strip_labelled(file: *const u8, file_len: usize, version_2: bool, row: u64, rows: u64, first: u64, count: u64, out: *mut u8, out_len: usize, written: *mut u64) -> Outcome;
    fn crest_strip_waveform(file: *const u8, file_len: usize, row: u64, rows: u64, first: u64, count: u64, out: *mut u8, out_len: usize, written: *mut u64) -> Outcome;
    fn crest_strip_bursts(file: *const u8, file_len: usize, start: u64, row: u64, rows: u64, first: u64, count: u64, out: *mut u8, out_len: usize, written: *mut u64) -> Outcome;
    fn crest_behind_labelled(file: *const u8, file_len: usize, version_2: bool, row: u64, first: u64, count: u64, column: u64, line: u64, behind: *mut DotNumbers) -> Outcome;
    fn crest_behind_waveform(file: *const u8, file_len: usize, row: u64, first: u64, count: u64, column: u64, line: u64, behind: *mut DotNumbers) -> Outcome;
    fn crest_behind_bursts(file: *const u8, file_len: usize, start: u64, row: u64, first: u64, count: u64, column: u64, line: u64, behind: *mut DotNumbers) -> Outcome;
    fn crest_sample(sample: u8) -> i64;
    fn crest_vax_f(bytes: *const u8, bytes_len: usize, number: *mut f64) -> Outcome;
    fn crest_vax_d(bytes: *const u8, bytes_len: usize, number: *mut f64) -> Outcome;
    fn crest_vax_d_dropped(bytes: *const u8, bytes_len: usize, number: *mut f64) -> Outcome;
    fn crest_opening(bytes: *const u8, bytes_len: usize, orbit: *mut u64, start: *mut f64, stop: *mut f64) -> Outcome;
    fn crest_verdict(element: u64, value: i64, verdict: *mut u64) -> Outcome;
    fn crest_burst_field(file: *const u8, file_len: usize, start: u64, row: u64, position: u64, r#type: *mut u64, bits: *mut u64, place: *mut u64, shown: *mut u64) -> Outcome;
    fn crest_burst_verdict(file: *const u8, file_len: usize, start: u64, row: u64, position: u64, verdict: *mut u64) -> Outcome;
    fn crest_beams(mask: u64, beams: *mut u64) -> u64;
    fn crest_mode(number: u64) -> u64;
}

#[inline]
#[allow(clippy::too_many_arguments)] // Those of the header.
pub(crate) fn read_label(
    bytes: &[u8],
    version_2: bool,
    agency: &mut [u8; 4],
    version: &mut u8,
    class: &mut u8,
    description: &mut [u8; 4],
    length: &mut u64,
    spaces: &mut u8,
) -> Outcome {
    // SAFETY: `bytes` is a shared slice with its length; `agency`, `version`, `class`, `description`, `length` and `spaces` are lent alone.
    unsafe {
        crest_read_label(
            bytes.as_ptr(),
            bytes.len(),
            version_2,
            agency,
            version,
            class,
            description,
            length,
            spaces,
        )
    }
}

#[inline]
pub(crate) fn write_label(
    version: u8,
    head: &[u8],
    length: u64,
    out: &mut [u8],
    written: &mut u64,
) -> Outcome {
    // SAFETY: `head` is a shared slice with its length; `out` and `written` are lent alone.
    unsafe {
        crest_write_label(
            version,
            head.as_ptr(),
            head.len(),
            length,
            out.as_mut_ptr(),
            out.len(),
            written,
        )
    }
}

#[inline]
pub(crate) fn check_labelled(file: &[u8], version_2: bool, rows: &mut u64) -> Outcome {
    // SAFETY: `file` is a shared slice with its length; `rows` is lent alone.
    unsafe { crest_check_labelled(file.as_ptr(), file.len(), version_2, rows) }
}

#[inline]
pub(crate) fn check_waveform(file: &[u8], rows: &mut u64) -> Outcome {
    // SAFETY: `file` is a shared slice with its length; `rows` is lent alone.
    unsafe { crest_check_waveform(file.as_ptr(), file.len(), rows) }
}

#[inline]
pub(crate) fn check_bursts(file: &[u8], start: u64, rows: &mut u64) -> Outcome {
    // SAFETY: `file` is a shared slice with its length; `rows` is lent alone.
    unsafe { crest_check_bursts(file.as_ptr(), file.len(), start, rows) }
}

#[inline]
pub(crate) fn read_row_labelled<'m>(
    file: &[u8],
    version_2: bool,
    row: u64,
    first: u64,
    count: u64,
    shown: &'m mut RowMemory,
) -> Shown<'m> {
    // SAFETY: `file` is a shared slice with its length; `shown` is lent alone.
    unsafe {
        let outcome = crest_read_row_labelled(
            file.as_ptr(),
            file.len(),
            version_2,
            row,
            first,
            count,
            shown.as_mut_ptr(),
        );
        written(outcome, shown)
    }
}

#[inline]
pub(crate) fn read_row_waveform<'m>(
    file: &[u8],
    row: u64,
    first: u64,
    count: u64,
    shown: &'m mut RowMemory,
) -> Shown<'m> {
    // SAFETY: `file` is a shared slice with its length; `shown` is lent alone.
    unsafe {
        let outcome = crest_read_row_waveform(
            file.as_ptr(),
            file.len(),
            row,
            first,
            count,
            shown.as_mut_ptr(),
        );
        written(outcome, shown)
    }
}

#[inline]
pub(crate) fn read_row_bursts<'m>(
    file: &[u8],
    start: u64,
    row: u64,
    first: u64,
    count: u64,
    shown: &'m mut RowMemory,
) -> Shown<'m> {
    // SAFETY: `file` is a shared slice with its length; `shown` is lent alone.
    unsafe {
        let outcome = crest_read_row_bursts(
            file.as_ptr(),
            file.len(),
            start,
            row,
            first,
            count,
            shown.as_mut_ptr(),
        );
        written(outcome, shown)
    }
}

#[inline]
#[allow(clippy::too_many_arguments)] // Those of the header.
pub(crate) fn jump_labelled<'m>(
    file: &[u8],
    version_2: bool,
    list: &[u32],
    row: u64,
    first: u64,
    count: u64,
    shown: &'m mut RowMemory,
) -> Shown<'m> {
    // SAFETY: `file` and `list` are shared slices with their lengths; `shown` is lent alone.
    unsafe {
        let outcome = crest_jump_labelled(
            file.as_ptr(),
            file.len(),
            version_2,
            list.as_ptr(),
            list.len(),
            row,
            first,
            count,
            shown.as_mut_ptr(),
        );
        written(outcome, shown)
    }
}

#[inline]
pub(crate) fn jump_waveform<'m>(
    file: &[u8],
    row: u64,
    first: u64,
    count: u64,
    shown: &'m mut RowMemory,
) -> Shown<'m> {
    // SAFETY: `file` is a shared slice with its length; `shown` is lent alone.
    unsafe {
        let outcome = crest_jump_waveform(
            file.as_ptr(),
            file.len(),
            row,
            first,
            count,
            shown.as_mut_ptr(),
        );
        written(outcome, shown)
    }
}

#[inline]
pub(crate) fn jump_bursts<'m>(
    file: &[u8],
    start: u64,
    row: u64,
    first: u64,
    count: u64,
    shown: &'m mut RowMemory,
) -> Shown<'m> {
    // SAFETY: `file` is a shared slice with its length; `shown` is lent alone.
    unsafe {
        let outcome = crest_jump_bursts(
            file.as_ptr(),
            file.len(),
            start,
            row,
            first,
            count,
            shown.as_mut_ptr(),
        );
        written(outcome, shown)
    }
}

#[inline]
pub(crate) fn row_from_labelled<'m>(
    file: &[u8],
    version_2: bool,
    from: u64,
    shown: &'m mut RowMemory,
) -> Shown<'m> {
    // SAFETY: `file` is a shared slice with its length; `shown` is lent alone.
    unsafe {
        let outcome = crest_row_from_labelled(
            file.as_ptr(),
            file.len(),
            version_2,
            from,
            shown.as_mut_ptr(),
        );
        written(outcome, shown)
    }
}

#[inline]
pub(crate) fn row_from_waveform<'m>(file: &[u8], from: u64, shown: &'m mut RowMemory) -> Shown<'m> {
    // SAFETY: `file` is a shared slice with its length; `shown` is lent alone.
    unsafe {
        let outcome = crest_row_from_waveform(file.as_ptr(), file.len(), from, shown.as_mut_ptr());
        written(outcome, shown)
    }
}

#[inline]
pub(crate) fn row_from_bursts<'m>(
    file: &[u8],
    start: u64,
    from: u64,
    shown: &'m mut RowMemory,
) -> Shown<'m> {
    // SAFETY: `file` is a shared slice with its length; `shown` is lent alone.
    unsafe {
        let outcome =
            crest_row_from_bursts(file.as_ptr(), file.len(), start, from, shown.as_mut_ptr());
        written(outcome, shown)
    }
}

#[inline]
pub(crate) fn substitute_row<'m>(
    original: &[u8],
    substitute: &[u8],
    version_2: bool,
    row: u64,
    source: &mut u64,
    shown: &'m mut RowMemory,
) -> Shown<'m> {
    // SAFETY: `original` and `substitute` are shared slices with their lengths; `source` and `shown` are lent alone.
    unsafe {
        let outcome = crest_substitute_row(
            original.as_ptr(),
            original.len(),
            substitute.as_ptr(),
            substitute.len(),
            version_2,
            row,
            source,
            shown.as_mut_ptr(),
        );
        written(outcome, shown)
    }
}

#[inline]
pub(crate) fn build_index(
    file: &[u8],
    version_2: bool,
    list: &mut [u32],
    entries: &mut u64,
    rows: &mut u64,
) -> Outcome {
    // SAFETY: `file` is a shared slice with its length; `list`, `entries` and `rows` are lent alone.
    unsafe {
        crest_build_index(
            file.as_ptr(),
            file.len(),
            version_2,
            list.as_mut_ptr(),
            list.len(),
            entries,
            rows,
        )
    }
}

#[inline]
pub(crate) fn check_index(file: &[u8], version_2: bool, list: &[u32]) -> Outcome {
    // SAFETY: `file` and `list` are shared slices with their lengths.
    unsafe {
        crest_check_index(
            file.as_ptr(),
            file.len(),
            version_2,
            list.as_ptr(),
            list.len(),
        )
    }
}

#[allow(clippy::too_many_arguments)] // Those of the header.
#[inline]
pub(crate) fn joined_index(
    first: &[u8],
    first_list: &[u32],
    second: &[u8],
    second_list: &[u32],
    version_2: bool,
    list: &mut [u32],
    entries: &mut u64,
    rows: &mut u64,
) -> Outcome {
    // SAFETY: `first`, `first_list`, `second` and `second_list` are shared slices with their lengths;
    // `list`, `entries` and `rows` are lent alone.
    unsafe {
        crest_joined_index(
            first.as_ptr(),
            first.len(),
            first_list.as_ptr(),
            first_list.len(),
            second.as_ptr(),
            second.len(),
            second_list.as_ptr(),
            second_list.len(),
            version_2,
            list.as_mut_ptr(),
            list.len(),
            entries,
            rows,
        )
    }
}

#[inline]
pub(crate) fn keep_index(list: &[u32], out: &mut [u8], written: &mut u64) -> Outcome {
    // SAFETY: `list` is a shared slice with its length; `out` and `written` are lent alone.
    unsafe {
        crest_keep_index(
            list.as_ptr(),
            list.len(),
            out.as_mut_ptr(),
            out.len(),
            written,
        )
    }
}

#[inline]
pub(crate) fn load_kept(bytes: &[u8], list: &mut [u32], entries: &mut u64) -> Outcome {
    // SAFETY: `bytes` is a shared slice with its length; `list` and `entries` are lent alone.
    unsafe {
        crest_load_kept(
            bytes.as_ptr(),
            bytes.len(),
            list.as_mut_ptr(),
            list.len(),
            entries,
        )
    }
}

#[inline]
pub(crate) fn load_kept2(
    bytes: &[u8],
    list: &mut [u32],
    rows: &mut u64,
    entries: &mut u64,
) -> Outcome {
    // SAFETY: `bytes` is a shared slice with its length; `list`, `rows` and `entries` are lent alone.
    unsafe {
        crest_load_kept2(
            bytes.as_ptr(),
            bytes.len(),
            list.as_mut_ptr(),
            list.len(),
            rows,
            entries,
        )
    }
}

#[inline]
pub(crate) fn convert_1_to_2(
    file: &[u8],
    version_2: bool,
    kept: &[u8],
    out: &mut [u8],
    written: &mut u64,
) -> Outcome {
    // SAFETY: `file` and `kept` are shared slices with their lengths; `out` and `written` are lent alone.
    unsafe {
        crest_convert_1_to_2(
            file.as_ptr(),
            file.len(),
            version_2,
            kept.as_ptr(),
            kept.len(),
            out.as_mut_ptr(),
            out.len(),
            written,
        )
    }
}

#[inline]
pub(crate) fn convert_2_to_1(kept: &[u8], out: &mut [u8], written: &mut u64) -> Outcome {
    // SAFETY: `kept` is a shared slice with its length; `out` and `written` are lent alone.
    unsafe {
        crest_convert_2_to_1(
            kept.as_ptr(),
            kept.len(),
            out.as_mut_ptr(),
            out.len(),
            written,
        )
    }
}

#[inline]
pub(crate) fn check_kept2(file: &[u8], version_2: bool, kept: &[u8]) -> Outcome {
    // SAFETY: `file` and `kept` are shared slices with their lengths.
    unsafe {
        crest_check_kept2(
            file.as_ptr(),
            file.len(),
            version_2,
            kept.as_ptr(),
            kept.len(),
        )
    }
}

#[inline]
pub(crate) fn tone(sample: u8) -> u8 {
    // SAFETY: a number goes in and a number comes back; no memory is lent.
    unsafe { crest_tone(sample) }
}

#[inline]
#[allow(clippy::too_many_arguments)] // Those of the header.
pub(crate) fn strip_labelled(
    file: &[u8],
    version_2: bool,
    row: u64,
    rows: u64,
    first: u64,
    count: u64,
    out: &mut [u8],
    written: &mut u64,
) -> Outcome {
    // SAFETY: `file` is a shared slice with its length; `out` and `written` are lent alone.
    unsafe {
        crest_strip_labelled(
            file.as_ptr(),
            file.len(),
            version_2,
            row,
            rows,
            first,
            count,
            out.as_mut_ptr(),
            out.len(),
            written,
        )
    }
}

#[inline]
#[allow(clippy::too_many_arguments)] // Those of the header.
pub(crate) fn strip_waveform(
    file: &[u8],
    row: u64,
    rows: u64,
    first: u64,
    count: u64,
    out: &mut [u8],
    written: &mut u64,
) -> Outcome {
    // SAFETY: `file` is a shared slice with its length; `out` and `written` are lent alone.
    unsafe {
        crest_strip_waveform(
            file.as_ptr(),
            file.len(),
            row,
            rows,
            first,
            count,
            out.as_mut_ptr(),
            out.len(),
            written,
        )
    }
}

#[inline]
#[allow(clippy::too_many_arguments)] // Those of the header.
pub(crate) fn strip_bursts(
    file: &[u8],
    start: u64,
    row: u64,
    rows: u64,
    first: u64,
    count: u64,
    out: &mut [u8],
    written: &mut u64,
) -> Outcome {
    // SAFETY: `file` is a shared slice with its length; `out` and `written` are lent alone.
    unsafe {
        crest_strip_bursts(
            file.as_ptr(),
            file.len(),
            start,
            row,
            rows,
            first,
            count,
            out.as_mut_ptr(),
            out.len(),
            written,
        )
    }
}

#[inline]
#[allow(clippy::too_many_arguments)] // Those of the header.
pub(crate) fn behind_labelled(
    file: &[u8],
    version_2: bool,
    row: u64,
    first: u64,
    count: u64,
    column: u64,
    line: u64,
    behind: &mut DotNumbers,
) -> Outcome {
    // SAFETY: `file` is a shared slice with its length; `behind` is lent alone.
    unsafe {
        crest_behind_labelled(
            file.as_ptr(),
            file.len(),
            version_2,
            row,
            first,
            count,
            column,
            line,
            behind,
        )
    }
}

#[inline]
pub(crate) fn behind_waveform(
    file: &[u8],
    row: u64,
    first: u64,
    count: u64,
    column: u64,
    line: u64,
    behind: &mut DotNumbers,
) -> Outcome {
    // SAFETY: `file` is a shared slice with its length; `behind` is lent alone.
    unsafe {
        crest_behind_waveform(
            file.as_ptr(),
            file.len(),
            row,
            first,
            count,
            column,
            line,
            behind,
        )
    }
}

#[inline]
#[allow(clippy::too_many_arguments)] // Those of the header.
pub(crate) fn behind_bursts(
    file: &[u8],
    start: u64,
    row: u64,
    first: u64,
    count: u64,
    column: u64,
    line: u64,
    behind: &mut DotNumbers,
) -> Outcome {
    // SAFETY: `file` is a shared slice with its length; `behind` is lent alone.
    unsafe {
        crest_behind_bursts(
            file.as_ptr(),
            file.len(),
            start,
            row,
            first,
            count,
            column,
            line,
            behind,
        )
    }
}

#[inline]
pub(crate) fn sample(sample: u8) -> i64 {
    // SAFETY: a number goes in and a number comes back; no memory is lent.
    unsafe { crest_sample(sample) }
}

#[inline]
pub(crate) fn vax_f(bytes: &[u8], number: &mut f64) -> Outcome {
    // SAFETY: `bytes` is a shared slice with its length; `number` is lent alone.
    unsafe { crest_vax_f(bytes.as_ptr(), bytes.len(), number) }
}

#[inline]
pub(crate) fn vax_d(bytes: &[u8], number: &mut f64) -> Outcome {
    // SAFETY: `bytes` is a shared slice with its length; `number` is lent alone.
    unsafe { crest_vax_d(bytes.as_ptr(), bytes.len(), number) }
}

#[inline]
pub(crate) fn vax_d_dropped(bytes: &[u8], number: &mut f64) -> Outcome {
    // SAFETY: `bytes` is a shared slice with its length; `number` is lent alone.
    unsafe { crest_vax_d_dropped(bytes.as_ptr(), bytes.len(), number) }
}

#[inline]
pub(crate) fn opening(bytes: &[u8], orbit: &mut u64, start: &mut f64, stop: &mut f64) -> Outcome {
    // SAFETY: `bytes` is a shared slice with its length; `orbit`, `start` and `stop` are lent alone.
    unsafe { crest_opening(bytes.as_ptr(), bytes.len(), orbit, start, stop) }
}

#[inline]
pub(crate) fn verdict(element: u64, value: i64, verdict: &mut u64) -> Outcome {
    // SAFETY: `verdict` is lent alone.
    unsafe { crest_verdict(element, value, verdict) }
}

#[inline]
#[allow(clippy::too_many_arguments)] // Those of the header.
pub(crate) fn burst_field(
    file: &[u8],
    start: u64,
    row: u64,
    position: u64,
    r#type: &mut u64,
    bits: &mut u64,
    place: &mut u64,
    shown: &mut u64,
) -> Outcome {
    // SAFETY: `file` is a shared slice with its length; `type`, `bits`, `place` and `shown` are lent alone.
    unsafe {
        crest_burst_field(
            file.as_ptr(),
            file.len(),
            start,
            row,
            position,
            r#type,
            bits,
            place,
            shown,
        )
    }
}

#[inline]
pub(crate) fn burst_verdict(
    file: &[u8],
    start: u64,
    row: u64,
    position: u64,
    verdict: &mut u64,
) -> Outcome {
    // SAFETY: `file` is a shared slice with its length; `verdict` is lent alone.
    unsafe { crest_burst_verdict(file.as_ptr(), file.len(), start, row, position, verdict) }
}

#[inline]
pub(crate) fn beams(mask: u64, beams: &mut u64) -> u64 {
    // SAFETY: `beams` is lent alone.
    unsafe { crest_beams(mask, beams) }
}

#[inline]
pub(crate) fn mode(number: u64) -> u64 {
    // SAFETY: a number goes in and a number comes back; no memory is lent.
    unsafe { crest_mode(number) }
}

/// Memory that is filled, as memory for a row.
#[cfg(test)]
pub(crate) fn lent(memory: &mut RowNumbers) -> &mut RowMemory {
    // SAFETY: both are alike in memory, and what a call leaves there is numbers.
    unsafe { &mut *std::ptr::from_mut(memory).cast() }
}

#[cfg(test)]
mod tests {
    use super::*;
    use std::ptr::{null, null_mut};

    const fn refused(refusal: u64) -> Outcome {
        Outcome { refusal, place: 0 }
    }

    /// Kept indexes of no entries, of both kinds.
    const EMPTY_1: [u8; 6] = [2, 0, 0, 0, 1, 0];
    const EMPTY_2: [u8; 10] = [6, 0, 0, 0, 2, 0, 0, 0, 0, 0];

    /// A labelled file of one row, and its index.
    const ROW: &[u8; 23] = b"NJPL1I00DEMO00000003abc";
    const INDEX: [u32; 1] = [0];

    /// The header allows a null pointer with length 0, which no slice has.
    #[test]
    fn an_empty_slice_may_be_a_null_pointer() {
        const ANSWERED: Outcome = refused(0);
        let (mut one, mut two, mut three, mut four) = (7, 7, 7, 7);
        let (mut agency, mut version, mut class) = ([7; 4], 7, 7);
        let (mut description, mut spaces) = ([7; 4], 7);
        let (mut start, mut stop) = (7.0, 7.0);
        let sevens = RowNumbers {
            place: 7,
            bytes: 7,
            label: 7,
            nesting: 7,
            depth: 7,
            outermost: 7,
        };
        let mut shown = sevens;
        let no_dot = DotNumbers {
            place: 7,
            byte: 7,
            tone: 7,
            dot: 7,
        };
        let mut dot = no_dot;
        let heads = [(1, b"NJPL1I00DEMO"), (2, b"NJPL2I00DEMO")];
        // SAFETY: each pointer with a length is null with length 0, or that of a head, of a kept index,
        // of a list or of a file with its length; the others point to the variables above, no two of a call
        // to the same.
        unsafe {
            for version_2 in [false, true] {
                let label = crest_read_label(
                    null(),
                    0,
                    version_2,
                    &mut agency,
                    &mut version,
                    &mut class,
                    &mut description,
                    &mut one,
                    &mut spaces,
                );
                assert_eq!(label, refused(1));
                let read = crest_read_row_labelled(null(), 0, version_2, 0, 0, 0, &mut shown);
                assert_eq!(read, refused(6));
                let jumped =
                    crest_jump_labelled(null(), 0, version_2, null(), 0, 0, 0, 0, &mut shown);
                assert_eq!(jumped, refused(6));
                let row = crest_row_from_labelled(null(), 0, version_2, 0, &mut shown);
                assert_eq!(row, refused(6));
                let chosen =
                    crest_substitute_row(null(), 0, null(), 0, version_2, 0, &mut one, &mut shown);
                assert_eq!(chosen, refused(6));
                // No file on one side; on the other a row without its list, or with it and without room.
                let none = (null(), 0, null(), 0);
                let unlisted = (ROW.as_ptr(), ROW.len(), null(), 0);
                let listed = (ROW.as_ptr(), ROW.len(), INDEX.as_ptr(), INDEX.len());
                for (first, second, refusal) in [
                    (unlisted, none, 11),
                    (none, unlisted, 11),
                    (listed, none, 8),
                    (none, listed, 8),
                ] {
                    let joined = crest_joined_index(
                        first.0,
                        first.1,
                        first.2,
                        first.3,
                        second.0,
                        second.1,
                        second.2,
                        second.3,
                        version_2,
                        null_mut(),
                        0,
                        &mut one,
                        &mut two,
                    );
                    assert_eq!(joined, refused(refusal));
                }
                // No file and no record; no file, a record of no entries and no room.
                let kept = crest_check_kept2(null(), 0, version_2, null(), 0);
                assert_eq!(kept, refused(13));
                let no_room = null_mut();
                for (kept, length, refusal) in [(null(), 0, 13), (EMPTY_1.as_ptr(), 6, 8)] {
                    let kept = crest_convert_1_to_2(
                        null(),
                        0,
                        version_2,
                        kept,
                        length,
                        no_room,
                        0,
                        &mut one,
                    );
                    assert_eq!(kept, refused(refusal));
                }
                // No file and no room; then a row without room for its dots.
                for (file, count, refusal) in [(none, 0, 6), (listed, 3, 8)] {
                    let drawn = crest_strip_labelled(
                        file.0, file.1, version_2, 0, 1, 0, count, no_room, 0, &mut one,
                    );
                    assert_eq!(drawn, refused(refusal));
                }
                let behind = crest_behind_labelled(null(), 0, version_2, 0, 0, 1, 0, 0, &mut dot);
                assert_eq!(behind, refused(6));
            }
            for (version, head) in heads {
                let written = crest_write_label(version, null(), 0, 0, null_mut(), 0, &mut one);
                assert_eq!(written, refused(2));
                let head = head.as_ptr();
                let written = crest_write_label(version, head, 12, 0, null_mut(), 0, &mut one);
                assert_eq!(written, refused(8));
            }
            for read in [crest_read_row_waveform, crest_jump_waveform] {
                assert_eq!(read(null(), 0, 0, 0, 0, &mut shown), refused(6));
            }
            let row = crest_row_from_waveform(null(), 0, 0, &mut shown);
            assert_eq!(row, refused(6));
            let drawn = crest_strip_waveform(null(), 0, 0, 1, 0, 0, null_mut(), 0, &mut one);
            assert_eq!(drawn, refused(6));
            let behind = crest_behind_waveform(null(), 0, 0, 0, 1, 0, 0, &mut dot);
            assert_eq!(behind, refused(6));
            for (start, refusal) in [(0, 6), (1, 16), (u64::MAX, 16)] {
                for read in [crest_read_row_bursts, crest_jump_bursts] {
                    let row = read(null(), 0, start, 0, 0, 0, &mut shown);
                    assert_eq!(row, refused(refusal));
                }
                let row = crest_row_from_bursts(null(), 0, start, 0, &mut shown);
                assert_eq!(row, refused(refusal));
                let drawn =
                    crest_strip_bursts(null(), 0, start, 0, 1, 0, 0, null_mut(), 0, &mut one);
                assert_eq!(drawn, refused(refusal));
                let behind = crest_behind_bursts(null(), 0, start, 0, 0, 1, 0, 0, &mut dot);
                assert_eq!(behind, refused(refusal));
                let field = crest_burst_field(
                    null(),
                    0,
                    start,
                    0,
                    1,
                    &mut one,
                    &mut two,
                    &mut three,
                    &mut four,
                );
                assert_eq!(field, refused(refusal));
                let verdict = crest_burst_verdict(null(), 0, start, 0, 7, &mut one);
                assert_eq!(verdict, refused(refusal));
            }
            assert_eq!(crest_vax_f(null(), 0, &mut start), refused(1));
            assert_eq!(crest_vax_d(null(), 0, &mut start), refused(1));
            assert_eq!(crest_vax_d_dropped(null(), 0, &mut start), refused(1));
            let opening = crest_opening(null(), 0, &mut one, &mut start, &mut stop);
            assert_eq!(opening, refused(1));
            let kept = crest_keep_index(null(), 0, null_mut(), 0, &mut one);
            assert_eq!(kept, refused(8));
            let loaded = crest_load_kept(null(), 0, null_mut(), 0, &mut one);
            assert_eq!(loaded, refused(13));
            let loaded = crest_load_kept2(null(), 0, null_mut(), 0, &mut one, &mut two);
            assert_eq!(loaded, refused(13));
            for (kept, length, refusal) in [(null(), 0, 13), (EMPTY_2.as_ptr(), 10, 8)] {
                let kept = crest_convert_2_to_1(kept, length, null_mut(), 0, &mut one);
                assert_eq!(kept, refused(refusal));
            }
            assert_eq!((one, two, three, four), (7, 7, 7, 7));
            assert_eq!((shown, dot), (sevens, no_dot));
            assert_eq!((start, stop), (7.0, 7.0));
            assert_eq!((agency, description), ([7; 4], [7; 4]));
            assert_eq!((version, class, spaces), (7, 7, 7));

            for version_2 in [false, true] {
                (one, two) = (7, 7);
                let checked = crest_check_labelled(null(), 0, version_2, &mut one);
                assert_eq!((checked, one), (ANSWERED, 0));
                one = 7;
                let built =
                    crest_build_index(null(), 0, version_2, null_mut(), 0, &mut one, &mut two);
                assert_eq!((built, one, two), (ANSWERED, 0, 0));
                // One file of the two, and in place of the other a null pointer.
                let (row, none) = ((ROW.as_ptr(), ROW.len()), (null(), 0));
                for (original, substitute, source) in [(row, none, 0), (none, row, 1)] {
                    one = 7;
                    let chosen = crest_substitute_row(
                        original.0,
                        original.1,
                        substitute.0,
                        substitute.1,
                        version_2,
                        0,
                        &mut one,
                        &mut shown,
                    );
                    assert_eq!((chosen, one, shown.place), (ANSWERED, source, 20));
                }
                let index = crest_check_index(null(), 0, version_2, null(), 0);
                assert_eq!(index, ANSWERED);
                (one, two) = (7, 7);
                let joined = crest_joined_index(
                    null(),
                    0,
                    null(),
                    0,
                    null(),
                    0,
                    null(),
                    0,
                    version_2,
                    null_mut(),
                    0,
                    &mut one,
                    &mut two,
                );
                assert_eq!((joined, one, two), (ANSWERED, 0, 0));
                let kept = crest_check_kept2(null(), 0, version_2, EMPTY_2.as_ptr(), 10);
                assert_eq!(kept, ANSWERED);
                // No row of no file, and no column of a row.
                for (file, rows) in [(none, 0), (row, 1)] {
                    one = 7;
                    let drawn = crest_strip_labelled(
                        file.0,
                        file.1,
                        version_2,
                        0,
                        rows,
                        3,
                        0,
                        null_mut(),
                        0,
                        &mut one,
                    );
                    assert_eq!((drawn, one), (ANSWERED, 0));
                }
            }
            (one, two) = (7, 7);
            let loaded = crest_load_kept(EMPTY_1.as_ptr(), 6, null_mut(), 0, &mut one);
            assert_eq!((loaded, one), (ANSWERED, 0));
            one = 7;
            let loaded = crest_load_kept2(EMPTY_2.as_ptr(), 10, null_mut(), 0, &mut one, &mut two);
            assert_eq!((loaded, one, two), (ANSWERED, 0, 0));
            one = 7;
            let checked = crest_check_waveform(null(), 0, &mut one);
            assert_eq!((checked, one), (ANSWERED, 0));
            one = 7;
            let checked = crest_check_bursts(null(), 0, 0, &mut one);
            assert_eq!((checked, one), (ANSWERED, 0));
            one = 7;
            let drawn = crest_strip_waveform(null(), 0, 7, 0, 7, 7, null_mut(), 0, &mut one);
            assert_eq!((drawn, one), (ANSWERED, 0));
            one = 7;
            let drawn = crest_strip_bursts(null(), 0, 0, 7, 0, 7, 7, null_mut(), 0, &mut one);
            assert_eq!((drawn, one), (ANSWERED, 0));
        }
    }
}
