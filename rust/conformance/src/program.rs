//! What the programs share: arguments, lines in and out, messages.

use crate::{answer_line, Library};
use std::io::{self, BufRead, BufReader, BufWriter, ErrorKind, Read, Write};
use std::process::ExitCode;

/// Nothing could be done: wrong arguments, or input and output that failed.
pub const UNUSABLE: u8 = 2;

/// Reads the two arguments SEED and COUNT of a program, or says how it is used.
pub fn seed_and_count(program: &str) -> Result<(u64, usize), ExitCode> {
    let arguments: Vec<String> = std::env::args().skip(1).collect();
    parsed(&arguments).ok_or_else(|| {
        say(&format!("usage: {program} SEED COUNT"));
        ExitCode::from(UNUSABLE)
    })
}

fn parsed(arguments: &[String]) -> Option<(u64, usize)> {
    let [seed, count] = arguments else {
        return None;
    };
    Some((seed.parse().ok()?, count.parse().ok()?))
}

/// The exit status of a program: what came of it, or a message about what failed.
pub fn status(program: &str, done: io::Result<ExitCode>) -> ExitCode {
    done.unwrap_or_else(|error| {
        say(&format!("{program}: {error}"));
        ExitCode::from(UNUSABLE)
    })
}

/// Whoever reads a stream may stop early: that is no error.
pub fn unless_reader_left(written: io::Result<()>) -> io::Result<ExitCode> {
    match written {
        Err(error) if error.kind() != ErrorKind::BrokenPipe => Err(error),
        _ => Ok(ExitCode::SUCCESS),
    }
}

/// Writes a message to standard error, if it takes one.
pub fn say(message: &str) {
    let _ = writeln!(io::stderr(), "{message}");
}

/// The program that answers each line of standard input on standard output.
pub fn answer_standard_input(program: &str, library: &Library) -> ExitCode {
    let answered = answer_lines(library, io::stdin().lock(), io::stdout().lock());
    status(program, unless_reader_left(answered))
}

/// Answers each line of the input. What was answered is written before more input is waited for,
/// so that a line can be asked at a time.
pub fn answer_lines(library: &Library, input: impl Read, output: impl Write) -> io::Result<()> {
    let mut input = BufReader::with_capacity(1 << 16, input);
    let mut output = BufWriter::with_capacity(1 << 16, output);
    let mut line = Vec::new();
    loop {
        if !input.buffer().contains(&b'\n') {
            output.flush()?;
        }
        line.clear();
        if input.read_until(b'\n', &mut line)? == 0 {
            return output.flush();
        }
        let case = line.strip_suffix(b"\n").unwrap_or(&line);
        writeln!(output, "{}", answer_line(library, case))?;
    }
}

#[cfg(test)]
mod tests {
    use super::*;
    use crate::library::INDEPENDENT;

    fn answers(input: &[u8]) -> String {
        let mut output = Vec::new();
        answer_lines(&INDEPENDENT, input, &mut output).unwrap();
        String::from_utf8(output).unwrap()
    }

    #[test]
    fn a_line_for_a_line() {
        assert_eq!(answers(b""), "");
        assert_eq!(answers(b"\n"), "bad line\n");
        assert_eq!(answers(b"sample 0\n"), "ok -255\n");
        assert_eq!(
            answers(b"sample 0\n\xff\xfe\nsample 255"),
            "ok -255\nbad line\nok 255\n"
        );
        assert_eq!(answers(b"sample 0\r\nsample 1\n"), "bad line\nok -253\n");
    }

    #[test]
    fn lines_may_be_of_any_length() {
        let zeros = "00".repeat(1_000 * 2_080);
        let case = format!("check_waveform {zeros}\nsample 0\n");
        assert_eq!(answers(case.as_bytes()), "ok 1000\nok -255\n");
    }

    #[test]
    fn two_arguments_are_taken() {
        let of = |words: &[&str]| {
            let words: Vec<String> = words.iter().map(|word| word.to_string()).collect();
            parsed(&words)
        };
        assert_eq!(of(&["7", "400"]), Some((7, 400)));
        for bad in [&["7"][..], &["7", "x"], &["-7", "4"], &["7", "4", "1"]] {
            assert_eq!(of(bad), None);
        }
    }
}
