//! `compare SEED COUNT`: the proved library beside the second implementation, on the first COUNT
//! cases of a seed's stream. Ends with 0 if no answer differs, with 1 at the first difference,
//! and with 2 if nothing could be compared.

use conformance::compare::{Difference, Sides};
use conformance::library::{INDEPENDENT, PROVED};
use conformance::program::{seed_and_count, status};
use std::io::{self, IsTerminal, Write};
use std::process::ExitCode;
use std::time::{Duration, Instant};

/// The exit status where the answers differ.
const DIFFERENT: u8 = 1;

fn main() -> ExitCode {
    match seed_and_count("compare") {
        Ok((seed, count)) => status("compare", report(seed, count, compare(seed, count))),
        Err(unusable) => unusable,
    }
}

fn compare(seed: u64, count: usize) -> Option<Difference> {
    let sides = Sides {
        left: ("independent", &INDEPENDENT),
        right: ("proved", &PROVED),
    };
    let mut progress = Progress::of(count);
    let difference = sides.first_difference(seed, count, |done| progress.show(done));
    progress.clear();
    difference
}

fn report(seed: u64, count: usize, difference: Option<Difference>) -> io::Result<ExitCode> {
    let mut output = io::stdout().lock();
    let Some(difference) = difference else {
        writeln!(output, "{count} cases, seed {seed}: no difference")?;
        return Ok(ExitCode::SUCCESS);
    };
    let number = difference.number;
    writeln!(output, "{number} cases, seed {seed}: a difference")?;
    write!(output, "{difference}")?;
    writeln!(output, "as generated: generate {seed} {number} | tail -n 1")?;
    Ok(ExitCode::from(DIFFERENT))
}

/// How many cases were compared, on a terminal, ten times a second.
struct Progress {
    count: usize,
    is_shown: bool,
    next: Instant,
}

impl Progress {
    const PAUSE: Duration = Duration::from_millis(100);

    fn of(count: usize) -> Progress {
        Progress {
            count,
            is_shown: io::stderr().is_terminal(),
            next: Instant::now() + Progress::PAUSE,
        }
    }

    fn show(&mut self, done: usize) {
        if self.is_shown && Instant::now() >= self.next {
            self.next = Instant::now() + Progress::PAUSE;
            write_over(&format!("{done} of {} cases", self.count));
        }
    }

    fn clear(&self) {
        if self.is_shown {
            write_over("");
        }
    }
}

/// Puts a text in place of the terminal's last line. Progress that cannot be shown is no error.
fn write_over(text: &str) {
    let _ = write!(io::stderr(), "\r\x1b[K{text}");
}
