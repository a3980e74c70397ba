//! `proved < CASES`: the proved library's answers.

use conformance::library::PROVED;
use conformance::program::answer_standard_input;
use std::process::ExitCode;

fn main() -> ExitCode {
    answer_standard_input("proved", &PROVED)
}
