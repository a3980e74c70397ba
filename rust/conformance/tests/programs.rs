//! The programs, run as a user runs them.

use std::io::{BufRead, BufReader, Write};
use std::process::{Command, Output, Stdio};

const ANSWER: &str = env!("CARGO_BIN_EXE_answer");
const PROVED: &str = env!("CARGO_BIN_EXE_proved");
const GENERATE: &str = env!("CARGO_BIN_EXE_generate");
const COMPARE: &str = env!("CARGO_BIN_EXE_compare");

fn run(program: &str, arguments: &[&str]) -> Output {
    Command::new(program).args(arguments).output().unwrap()
}

fn text(bytes: &[u8]) -> String {
    String::from_utf8(bytes.to_vec()).unwrap()
}

fn answers(program: &str, cases: &[u8]) -> String {
    let mut child = Command::new(program)
        .stdin(Stdio::piped())
        .stdout(Stdio::piped())
        .spawn()
        .unwrap();
    child.stdin.take().unwrap().write_all(cases).unwrap();
    let output = child.wait_with_output().unwrap();
    assert!(output.status.success());
    text(&output.stdout)
}

#[test]
fn a_line_for_a_line() {
    for program in [ANSWER, PROVED] {
        assert_eq!(answers(program, b""), "");
        assert_eq!(
            answers(program, b"sample 0\n\nrow_from waveform - 0"),
            "ok -255\nbad line\nref 6 0\n"
        );
    }
}

/// An answer is there before more is asked.
#[test]
fn one_line_at_a_time() {
    for program in [ANSWER, PROVED] {
        let mut child = Command::new(program)
            .stdin(Stdio::piped())
            .stdout(Stdio::piped())
            .spawn()
            .unwrap();
        let mut input = child.stdin.take().unwrap();
        let mut output = BufReader::new(child.stdout.take().unwrap());
        for (case, expected) in [("sample 0\n", "ok -255\n"), ("sample 255\n", "ok 255\n")] {
            input.write_all(case.as_bytes()).unwrap();
            let mut answer = String::new();
            output.read_line(&mut answer).unwrap();
            assert_eq!(answer, expected);
        }
        drop(input);
        assert!(child.wait().unwrap().success());
    }
}

#[test]
fn a_shorter_stream_is_the_front_of_a_longer_one() {
    let short = text(&run(GENERATE, &["9", "40"]).stdout);
    let long = text(&run(GENERATE, &["9", "60"]).stdout);
    assert_eq!(short.lines().count(), 40);
    assert_eq!(long.lines().count(), 60);
    assert!(long.starts_with(&short));
}

#[test]
fn the_two_implementations_do_not_differ() {
    let output = run(COMPARE, &["7", "2000"]);
    assert_eq!(text(&output.stdout), "2000 cases, seed 7: no difference\n");
    assert_eq!(text(&output.stderr), "");
    assert!(output.status.success());
}

#[test]
fn wrong_arguments_are_named() {
    for program in [GENERATE, COMPARE] {
        for arguments in [&["1"][..], &["one", "2"], &["1", "-2"], &["1", "2", "3"]] {
            let output = run(program, arguments);
            assert_eq!(output.status.code(), Some(2));
            assert!(text(&output.stderr).starts_with("usage: "));
        }
    }
}
