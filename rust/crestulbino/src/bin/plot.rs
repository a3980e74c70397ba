//! `plot KIND FILE FIRSTROW ROWS A C`: writes a strip of a file to standard output, as a picture in the form PBM
//! (P4): ROWS rows from number FIRSTROW on, by the window of C bytes from byte A on. KIND is `labelled1`,
//! `labelled2` where version 2 of the label is allowed too, `waveform`, or `bursts:FIRST` with the place of
//! the first record. In PBM a bit of 1 is black and a row is whole bytes, so that the lines are the picture.
//!
//! The exit status is 1 where the strip is refused, and 2 where nothing could be asked or written.

use crestulbino::{line_bytes, strip, Kind, Refusal, Refused, Versions, Window};
use std::fmt::Display;
use std::io::{self, ErrorKind, Write};
use std::process::ExitCode;

const USAGE: &str = "usage: plot KIND FILE FIRSTROW ROWS A C
KIND is labelled1, labelled2, waveform, or bursts:FIRST";

const REFUSED: u8 = 1;
const UNUSABLE: u8 = 2;

fn main() -> ExitCode {
    let arguments: Vec<String> = std::env::args().skip(1).collect();
    let Some(asked) = Asked::of(&arguments) else {
        return failed(UNUSABLE, &USAGE);
    };
    let file = match std::fs::read(asked.path) {
        Ok(file) => file,
        Err(error) => return failed(UNUSABLE, &format!("plot: {}: {error}", asked.path)),
    };
    let lines = match asked.lines(&file) {
        Ok(lines) => lines,
        Err(refused) => return failed(REFUSED, &format!("plot: {refused}")),
    };
    match asked.write(&lines) {
        // Whoever reads the picture may stop early.
        Err(error) if error.kind() != ErrorKind::BrokenPipe => {
            failed(UNUSABLE, &format!("plot: {error}"))
        }
        _ => ExitCode::SUCCESS,
    }
}

fn failed(status: u8, message: &dyn Display) -> ExitCode {
    let _ = writeln!(io::stderr(), "{message}");
    ExitCode::from(status)
}

/// What is asked for.
struct Asked<'a> {
    kind: Kind,
    path: &'a str,
    row: usize,
    rows: usize,
    window: Window,
}

impl<'a> Asked<'a> {
    fn of(arguments: &'a [String]) -> Option<Asked<'a>> {
        let [kind, path, numbers @ ..] = arguments else {
            return None;
        };
        let numbers: Option<Vec<usize>> = numbers.iter().map(|word| number(word)).collect();
        let [row, rows, first, count] = numbers?[..] else {
            return None;
        };
        Some(Asked {
            kind: kind_of(kind)?,
            path,
            row,
            rows,
            window: Window::new(first, count),
        })
    }

    /// The lines of the strip. How much room they take is looked at only where the file has them.
    fn lines(&self, file: &[u8]) -> Result<Vec<u8>, Refused> {
        let draw =
            |lines: &mut [u8]| strip(self.kind, file, self.row, self.rows, self.window, lines);
        let mut lines = Vec::new();
        match draw(&mut lines) {
            Err(refused) if refused.refusal == Refusal::Small => {
                lines.resize(self.rows * line_bytes(self.window.count), 0);
                draw(&mut lines)
            }
            drawn => drawn,
        }?;
        Ok(lines)
    }

    fn write(&self, lines: &[u8]) -> io::Result<()> {
        let mut output = io::stdout().lock();
        write!(output, "P4\n{} {}\n", self.window.count, self.rows)?;
        output.write_all(lines)?;
        output.flush()
    }
}

fn kind_of(word: &str) -> Option<Kind> {
    match word {
        "labelled1" => Some(Kind::Labelled(Versions::One)),
        "labelled2" => Some(Kind::Labelled(Versions::OneAndTwo)),
        "waveform" => Some(Kind::Waveform),
        _ => number(word.strip_prefix("bursts:")?).map(Kind::Bursts),
    }
}

/// Digits, and nothing else.
fn number(word: &str) -> Option<usize> {
    let is_plain = word.bytes().all(|byte| byte.is_ascii_digit());
    is_plain.then(|| word.parse().ok())?
}
