//! The two implementations of the calls, each as a table of functions.

mod second;

pub(crate) use second::taken;
pub use second::INDEPENDENT;

use crestulbino::{
    Beams, Built, Chosen, Dot, Field, Kept2, Kind, Label, Mode, Opening, Refused, Row, Verdict,
    Version, Versions, Window,
};

/// What a call comes to.
pub type Answer<T> = Result<T, Refused>;

/// A jump into a labelled file, whose row borrows from the file alone.
pub type JumpLabelled = for<'a> fn(Versions, &'a [u8], &[u32], usize, Window) -> Answer<Row<'a>>;

/// A row of an original file or of its substitute.
pub type SubstituteRow = for<'a> fn(Versions, &'a [u8], &'a [u8], usize) -> Answer<Chosen<'a>>;

/// The index of two files set end to end, each lent with its own.
pub type JoinedIndex = fn(Versions, &[u8], &[u32], &[u8], &[u32], &mut [u32]) -> Answer<Built>;

/// From a file and its kept index of kind 1 to one of kind 2.
pub type Convert1To2 = fn(Versions, &[u8], &[u8], &mut [u8]) -> Answer<usize>;

/// Rows of a file from one on, so many of them, drawn by a window.
pub type Strip = fn(Kind, &[u8], usize, usize, Window, &mut [u8]) -> Answer<usize>;

/// The byte behind a column and a line of a strip from a row on, by its window.
pub type Behind = fn(Kind, &[u8], usize, Window, usize, usize) -> Answer<Dot>;

/// An implementation of the calls, with the types of the crate over the proved library.
#[derive(Clone, Copy, Debug)]
pub struct Library {
    pub read_label: fn(Versions, &[u8]) -> Answer<Label>,
    pub write_label: fn(Version, &[u8], usize, &mut [u8]) -> Answer<usize>,
    pub check: fn(Kind, &[u8]) -> Answer<usize>,
    pub read_row: fn(Kind, &[u8], usize, Window) -> Answer<Row<'_>>,
    pub jump_labelled: JumpLabelled,
    pub jump_waveform: fn(&[u8], usize, Window) -> Answer<Row<'_>>,
    pub jump_bursts: fn(&[u8], usize, usize, Window) -> Answer<Row<'_>>,
    pub row_from: fn(Kind, &[u8], usize) -> Answer<Row<'_>>,
    pub substitute_row: SubstituteRow,
    pub build_index: fn(Versions, &[u8], &mut [u32]) -> Answer<Built>,
    pub check_index: fn(Versions, &[u8], &[u32]) -> Answer<()>,
    pub joined_index: JoinedIndex,
    pub keep_index: fn(&[u32], &mut [u8]) -> Answer<usize>,
    pub load_kept: fn(&[u8], &mut [u32]) -> Answer<usize>,
    pub load_kept2: fn(&[u8], &mut [u32]) -> Answer<Kept2>,
    pub convert_1_to_2: Convert1To2,
    pub convert_2_to_1: fn(&[u8], &mut [u8]) -> Answer<usize>,
    pub check_kept2: fn(Versions, &[u8], &[u8]) -> Answer<()>,
    pub tone: fn(u8) -> u8,
    pub strip: Strip,
    pub behind: Behind,
    pub sample: fn(u8) -> i64,
    pub vax_f: fn(&[u8]) -> Answer<f64>,
    pub vax_d: fn(&[u8]) -> Answer<f64>,
    pub vax_d_dropped: fn(&[u8]) -> Answer<f64>,
    pub opening: fn(&[u8]) -> Answer<Opening>,
    pub verdict: fn(u64, i64) -> Answer<Verdict>,
    pub burst_field: fn(&[u8], usize, usize, u64) -> Answer<Field<'_>>,
    pub burst_verdict: fn(&[u8], usize, usize, u64) -> Answer<Verdict>,
    pub beams: fn(u64) -> Beams,
    pub mode: fn(u64) -> Option<Mode>,
}

/// The proved library, through the C boundary and the crate over it.
pub const PROVED: Library = Library {
    read_label: crestulbino::read_label,
    write_label: crestulbino::write_label,
    check: crestulbino::check,
    read_row: crestulbino::read_row,
    jump_labelled: crestulbino::jump_labelled,
    jump_waveform: crestulbino::jump_waveform,
    jump_bursts: crestulbino::jump_bursts,
    row_from: crestulbino::row_from,
    substitute_row: crestulbino::substitute_row,
    build_index: crestulbino::build_index,
    check_index: crestulbino::check_index,
    joined_index: crestulbino::joined_index,
    keep_index: crestulbino::keep_index,
    load_kept: crestulbino::load_kept,
    load_kept2: crestulbino::load_kept2,
    convert_1_to_2: crestulbino::convert_1_to_2,
    convert_2_to_1: crestulbino::convert_2_to_1,
    check_kept2: crestulbino::check_kept2,
    tone: crestulbino::tone,
    strip: crestulbino::strip,
    behind: crestulbino::behind,
    sample: crestulbino::sample,
    vax_f: crestulbino::vax_f,
    vax_d: crestulbino::vax_d,
    vax_d_dropped: crestulbino::vax_d_dropped,
    opening: crestulbino::opening,
    verdict: crestulbino::verdict,
    burst_field: crestulbino::burst_field,
    burst_verdict: crestulbino::burst_verdict,
    beams: crestulbino::beams,
    mode: crestulbino::mode,
};
