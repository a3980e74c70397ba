//! Labelled radar files (Magellan F-BIDR, TOPEX), waveform files (Cassini RPWS) and short burst
//! files (Cassini SBDR): rows, their places and their bytes.
//!
//! The work is done by a library that is proved in Rattle; this crate makes its C boundary safe to
//! call. A file is a slice of bytes of a [`Kind`] that the caller names. Every call takes any bytes
//! and any numbers, and answers or gives one [`Refused`]: a number and a place. Nothing is copied:
//! a [`Row`] borrows its bytes from the file. A refused call has changed nothing that was lent to
//! it, and a call that writes fills the front of what it is lent and answers how much.
//!
//! ```
//! use crestulbino::{build_index, jump_labelled, read_row, rows, Kind, Nesting, Versions, Window};
//!
//! let file = b"CCSD1Z00000100000043NJPL1I00DEMO00000003abcNJPL1I00DEMO00000000";
//! let kind = Kind::Labelled(Versions::One);
//! for (number, row) in rows(kind, file)?.enumerate() {
//!     println!("row {number}: {} bytes at {}", row.bytes.len(), row.place);
//! }
//!
//! let mut list = [0; 1];
//! let built = build_index(Versions::One, file, &mut list)?;
//! let row = jump_labelled(Versions::One, file, &list[..built.entries], 0, Window::new(1, 2))?;
//! assert_eq!((row.place, row.bytes), (41, &b"bc"[..]));
//!
//! let address = read_row(kind, file, 0, Window::new(1, 2))?.address;
//! assert_eq!(address.label, 20);
//! assert_eq!(address.nesting, Some(Nesting { depth: 2, outermost: 0 }));
//! # Ok::<(), crestulbino::Refused>(())
//! ```
//!
//! A row carries its [`Address`], to be looked up in a hex viewer: where its label stands, and, where it
//! was read from the first byte, how it is nested.
//!
//! A labelled file may have a substitute. A row is shown from that file if it is accepted and has the
//! row, else from the original, and the answer says which.
//!
//! ```
//! use crestulbino::{substitute_row, Source, Versions};
//!
//! let original = b"NJPL1I00DEMO00000003abcNJPL1I00DEMO00000002de";
//! let substitute = b"NJPL1I00DEMO00000003xyz";
//!
//! let first = substitute_row(Versions::One, original, substitute, 0)?;
//! assert_eq!((first.source, first.row.bytes), (Source::Substitute, &b"xyz"[..]));
//! let second = substitute_row(Versions::One, original, substitute, 1)?;
//! assert_eq!((second.source, second.row.bytes), (Source::Original, &b"de"[..]));
//! # Ok::<(), crestulbino::Refused>(())
//! ```
//!
//! Two labelled files can be joined for one roll. Of the joined file the index is had from the two files
//! and their indexes, before it is written anywhere.
//!
//! ```
//! use crestulbino::{joined_index, Versions};
//!
//! let (one, one_index) = (b"NJPL1I00DEMO00000003abc".repeat(16), [0]);
//! let two = b"CCSD1Z00000100000043NJPL1I00DEMO00000003abcNJPL1I00DEMO00000000";
//! let two_index = [20];
//! let mut list = [0; 2];
//! let roll = joined_index(Versions::One, &one, &one_index, two, &two_index, &mut list)?;
//! assert_eq!((roll.rows, list), (18, [0, 368 + 20]));
//! # Ok::<(), crestulbino::Refused>(())
//! ```
//!
//! An index can be kept as bytes. A record of kind 2 has the file's row count too, so that who has the
//! record knows it without the file.
//!
//! ```
//! use crestulbino::{build_index, convert_1_to_2, keep_index, load_kept2, Versions};
//! use crestulbino::{KEPT2_FRONT_BYTES, KEPT_FRONT_BYTES};
//!
//! let file = b"CCSD1Z00000100000043NJPL1I00DEMO00000003abcNJPL1I00DEMO00000000";
//! let mut list = [0; 1];
//! build_index(Versions::One, file, &mut list)?;
//! let mut kept = [0; KEPT_FRONT_BYTES + 4];
//! keep_index(&list, &mut kept)?;
//! let mut kept2 = [0; KEPT2_FRONT_BYTES + 4];
//! convert_1_to_2(Versions::One, file, &kept, &mut kept2)?;
//!
//! let rows = load_kept2(&kept2, &mut list)?.rows;
//! assert_eq!((rows, list), (2, [20]));
//! # Ok::<(), crestulbino::Refused>(())
//! ```
//!
//! Rows can be plotted: a strip of them is drawn as lines of dots, and of each dot it can be told which byte
//! of the file stands behind it.
//!
//! ```
//! use crestulbino::{behind, line_bytes, strip, tone, Kind, Window};
//!
//! let waveform = [64; 40 * 2_080];
//! let window = Window::new(1_000, 20);
//! let mut lines = vec![0; 16 * line_bytes(20)];
//! strip(Kind::Waveform, &waveform, 24, 16, window, &mut lines)?;
//! let dot = behind(Kind::Waveform, &waveform, 24, window, 9, 3)?;
//! assert_eq!((dot.place, dot.byte, dot.tone), (57_201, 64, tone(64)));
//! assert_eq!(dot.is_set, lines[3 * 3 + 1] & 0b0100_0000 != 0);
//! # Ok::<(), crestulbino::Refused>(())
//! ```
//!
//! A label is of one of two [`Version`]s, and a file may mix them. Every call that reads labels is
//! told which [`Versions`] are allowed; all that is asked of one file is to be told the same.
//!
//! The rows of a burst file are records of [`BURST_BYTES`] from a place on that the caller gives. A
//! record has [`BURST_FIELDS`] fields, which [`burst_field`] reads.
//!
//! ```
//! use crestulbino::{beams, burst_field, jump_bursts, Beams, Field, Window, BURST_BYTES};
//!
//! let mut bursts = [0; 49 + 3 * BURST_BYTES];
//! bursts[2_593 + 128] = 0b1_1010;
//!
//! let record = jump_bursts(&bursts, 49, 2, Window::new(0, BURST_BYTES))?;
//! let mask = burst_field(&bursts, 49, 2, 33)?;
//! assert_eq!((record.place, mask), (2_593, Field::Unsigned(26)));
//! assert_eq!(beams(26), Beams::Inside(3));
//! # Ok::<(), crestulbino::Refused>(())
//! ```
//!
//! Places, row numbers and counts are `usize`, which has 64 bits wherever this crate can be built.
//! A place is the number of bytes before it in what was lent.
//!
//! # The archive
//!
//! `tools/archive` proves the library and writes `target/staticlib/libcapi.a`, where the build
//! of this crate looks for it; an absolute path in `CRESTULBINO_LIB_DIR` names another folder. A
//! call panics only where that archive does not behave as its header says, which means that it is
//! of another version.

#![deny(unsafe_code)]
#![warn(missing_docs)]

#[cfg(not(target_pointer_width = "64"))]
compile_error!("the proved library counts in 64 bits");

#[allow(unsafe_code)]
mod ffi;

mod bursts;
mod file;
mod index;
mod label;
#[cfg(test)]
mod lent_memory;
mod numbers;
mod plotter;
mod refusal;
mod substitute;

pub use bursts::{
    beams, burst_field, burst_verdict, mode, Beams, Field, Mode, Text, BURST_BYTES, BURST_FIELDS,
};
pub use file::{
    check, jump_bursts, jump_labelled, jump_waveform, read_row, row_from, rows, Address, Kind,
    Nesting, Row, Rows, Window,
};
pub use index::{
    build_index, check_index, check_kept2, convert_1_to_2, convert_2_to_1, joined_index,
    keep_index, load_kept, load_kept2, Built, Kept2, KEPT2_FRONT_BYTES, KEPT_FRONT_BYTES,
    ROWS_PER_ENTRY,
};
pub use label::{read_label, write_label, Label, Version, Versions, LABEL_BYTES};
pub use numbers::{opening, sample, vax_d, vax_d_dropped, vax_f, verdict, Opening, Verdict};
pub use plotter::{behind, line_bytes, strip, tone, Dot};
pub use refusal::{Refusal, Refused};
pub use substitute::{substitute_row, Chosen, Source};
