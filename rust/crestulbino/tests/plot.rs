//! The program that writes a strip as a picture.

#[path = "../examples/sweep/made.rs"]
mod sweep;

use std::path::{Path, PathBuf};
use std::process::{Command, Output};

/// A strip of the made file, of 512 columns and 128 lines.
const PICTURE: &[u8] = include_bytes!("data/sweep.pbm");

/// A file in a folder of the tests' own.
fn stored(name: &str, bytes: &[u8]) -> PathBuf {
    let path = Path::new(env!("CARGO_TARGET_TMPDIR")).join(name);
    std::fs::write(&path, bytes).expect("a file");
    path
}

fn plot(kind: &str, file: &Path, numbers: [&str; 4]) -> Output {
    let mut command = Command::new(env!("CARGO_BIN_EXE_plot"));
    command.arg(kind).arg(file).args(numbers);
    command.output().expect("the program")
}

/// What stands on standard error of a program that ended so, and wrote no picture.
fn failed(output: Output, status: i32) -> String {
    assert_eq!(output.status.code(), Some(status));
    assert_eq!(output.stdout, b"");
    String::from_utf8(output.stderr).expect("words")
}

#[test]
fn a_strip_of_the_made_file_is_the_stored_picture() {
    let file = stored("sweep.dat", &sweep::file());
    let output = plot("waveform", &file, ["0", "128", "0", "512"]);
    assert_eq!(output.status.code(), Some(0));
    assert_eq!(output.stderr, b"");
    assert!(output.stdout == PICTURE, "another picture");
}

/// Each changed sample is one dot of the picture; what is outside of it is none.
#[test]
fn another_sample_is_another_picture() {
    const SAMPLES: usize = 32;
    const HEAD: &[u8] = b"P4\n512 128\n";
    assert!(PICTURE.starts_with(HEAD));
    for (row, column, is_inside) in [
        (0, 0, true),
        (127, 511, true),
        (60, 100, true),
        (0, 512, false),
        (127, 2_047, false),
    ] {
        let mut made = sweep::file();
        let sample = &mut made[row * 2_080 + SAMPLES + column];
        *sample = if *sample < 128 { 255 } else { 0 };
        let file = stored("other.dat", &made);
        let output = plot("waveform", &file, ["0", "128", "0", "512"]);
        let mut expected = PICTURE.to_vec();
        if is_inside {
            expected[HEAD.len() + row * 64 + column / 8] ^= 0x80 >> (column % 8);
        }
        assert!(output.stdout == expected, "row {row}, column {column}");
    }
}

#[test]
fn strips_of_each_kind() {
    let labelled = stored(
        "rows.dat",
        b"NJPL1I00DEMO00000010\0\x01\x04\x10\x24@d\x90\xc4\xff",
    );
    let binary = b"NJPL2I00DEMO\0\0\0\0\0\0\0\x03\0\0\0";
    let binary = stored("binary.dat", binary);
    let bursts = stored("bursts.dat", &[0; 5 + 1_272]);
    for (kind, file, numbers, picture) in [
        (
            "labelled1",
            &labelled,
            ["0", "1", "0", "10"],
            &b"P4\n10 1\n\xf4\0"[..],
        ),
        ("labelled2", &labelled, ["0", "1", "9", "1"], b"P4\n1 1\n\0"),
        ("labelled2", &binary, ["0", "1", "0", "3"], b"P4\n3 1\n\xe0"),
        (
            "bursts:5",
            &bursts,
            ["0", "1", "1264", "8"],
            b"P4\n8 1\n\xff",
        ),
        ("bursts:1277", &bursts, ["7", "0", "0", "8"], b"P4\n8 0\n"),
    ] {
        let output = plot(kind, file, numbers);
        assert_eq!(output.status.code(), Some(0));
        assert_eq!(output.stdout, picture);
    }
}

#[test]
fn refusals_are_told() {
    const MOST: &str = "18446744073709551615";
    let waveform = stored("white.dat", &[255; 2 * 2_080]);
    let ragged = stored("ragged.dat", &[255; 2_079]);
    for (kind, file, numbers, words) in [
        (
            "waveform",
            &waveform,
            ["0", "3", "0", "8"],
            "refusal 6 NOROW",
        ),
        (
            "waveform",
            &waveform,
            ["0", MOST, "0", MOST],
            "refusal 6 NOROW",
        ),
        (
            "waveform",
            &waveform,
            ["0", "2", "0", MOST],
            "refusal 7 NOPART",
        ),
        (
            "waveform",
            &ragged,
            ["0", "0", "0", "0"],
            "refusal 12 RAGGED",
        ),
        (
            "labelled1",
            &waveform,
            ["0", "0", "0", "0"],
            "refusal 2 BADLABEL",
        ),
        (
            "bursts:9999",
            &waveform,
            ["0", "0", "0", "0"],
            "refusal 16 BADSTART",
        ),
    ] {
        let told = failed(plot(kind, file, numbers), 1);
        assert!(told.starts_with(&format!("plot: {words}")), "{told}");
    }
}

#[test]
fn what_cannot_be_asked() {
    let file = stored("one.dat", &[255; 2_080]);
    for (kind, numbers) in [
        ("waves", ["0", "1", "0", "8"]),
        ("labelled", ["0", "1", "0", "8"]),
        ("bursts:", ["0", "1", "0", "8"]),
        ("bursts:-1", ["0", "1", "0", "8"]),
        ("waveform", ["0", "1", "0", ""]),
        ("waveform", ["+0", "1", "0", "8"]),
        ("waveform", ["0", "1", "0", "18446744073709551616"]),
    ] {
        let told = failed(plot(kind, &file, numbers), 2);
        assert!(told.starts_with("usage: plot KIND FILE"), "{told}");
    }
    let no_arguments = Command::new(env!("CARGO_BIN_EXE_plot")).output();
    let told = failed(no_arguments.expect("the program"), 2);
    assert!(told.starts_with("usage: plot KIND FILE"), "{told}");
    let missing = file.with_file_name("no such file");
    let told = failed(plot("waveform", &missing, ["0", "1", "0", "8"]), 2);
    assert!(told.starts_with("plot: "), "{told}");
}
