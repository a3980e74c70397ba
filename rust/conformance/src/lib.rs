//! The case language of `docs/CONFORMANCE.md`, and the comparison of two implementations by it.
//!
//! A [`Case`] is a call with all that is lent to it; it is read from a line and written as one. A
//! [`Library`] is an implementation of the calls: [`library::PROVED`] or
//! [`library::INDEPENDENT`]. The [`generator`] makes cases from a seed, [`compare`] has both
//! implementations answer them and makes the first case that tells them apart smaller.

#![forbid(unsafe_code)]

mod answer;
mod argument;
mod case;
pub mod compare;
pub mod generator;
pub mod library;
pub mod program;
mod shrink;
mod words;

pub use answer::{answer, answer_line, BAD_LINE};
pub use case::Case;
pub use library::Library;
