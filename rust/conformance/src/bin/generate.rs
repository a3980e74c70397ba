//! `generate SEED COUNT`: the first COUNT lines of a seed's stream of cases.

use conformance::generator::Generator;
use conformance::program::{seed_and_count, status, unless_reader_left};
use std::io::{self, BufWriter, Write};
use std::process::ExitCode;

fn main() -> ExitCode {
    match seed_and_count("generate") {
        Ok((seed, count)) => status("generate", unless_reader_left(write_cases(seed, count))),
        Err(unusable) => unusable,
    }
}

fn write_cases(seed: u64, count: usize) -> io::Result<()> {
    let mut output = BufWriter::new(io::stdout().lock());
    for line in Generator::new(seed).take(count) {
        writeln!(output, "{line}")?;
    }
    output.flush()
}
