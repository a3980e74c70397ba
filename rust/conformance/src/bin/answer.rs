//! `answer < CASES`: the second implementation's answers.

use conformance::library::INDEPENDENT;
use conformance::program::answer_standard_input;
use std::process::ExitCode;

fn main() -> ExitCode {
    answer_standard_input("answer", &INDEPENDENT)
}
