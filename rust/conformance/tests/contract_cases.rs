//! The twelve cases at the end of the contract, as lines of the case language and their answers,
//! by both implementations.

use conformance::answer_line;
use conformance::library::{INDEPENDENT, PROVED};

const DEMO: &str = "CCSD1Z00000100000043NJPL1I00DEMO00000003abcNJPL1I00DEMO00000000";

fn hex(bytes: impl AsRef<[u8]>) -> String {
    let bytes = bytes.as_ref();
    if bytes.is_empty() {
        return "-".to_string();
    }
    bytes.iter().map(|byte| format!("{byte:02x}")).collect()
}

fn expect(case: &str, answer: &str) {
    for library in [INDEPENDENT, PROVED] {
        assert_eq!(answer_line(&library, case.as_bytes()), answer, "{case}");
    }
}

/// The same answer whether version 2 is allowed or not: no label here is of version 2.
fn told(case: &str, answer: &str) {
    for versions in [1, 2] {
        expect(&format!("{case} {versions}"), answer);
    }
}

/// A strip of a labelled file, with the same answer whatever is allowed.
fn of_each(strip: &str, answer: &str) {
    for versions in [1, 2] {
        expect(&format!("strip labelled{versions} {strip}"), answer);
    }
}

/// Groups nested so deep, with `inside` in the innermost.
fn nested(depth: usize, inside: &str) -> String {
    (0..depth).fold(inside.to_string(), |value, _| {
        format!("CCSD1Z000001{:08}{value}", value.len())
    })
}

#[test]
fn case_1_the_empty_file() {
    told("check_labelled -", "ok 0");
    told("read_row_labelled - 0 0 0", "ref 6 0");
    told("build_index - -", "ok 0 0 -");
    told("check_index - -", "ok");
    told("jump_labelled - - 0 0 0", "ref 6 0");
    told("substitute_row - - 0", "ref 6 0");
    told("joined_index - - - - -", "ok 0 0 -");
    of_each("- 0 0 0 0 -", "ok 0 -");
    of_each("- 0 1 0 0 aabb", "ref 6 0 aabb");
}

#[test]
fn case_2_nineteen_zero_bytes() {
    let file = hex([0; 19]);
    told(&format!("check_labelled {file}"), "ref 1 0");
    told(&format!("read_row_labelled {file} 0 0 0"), "ref 1 0");
    told(&format!("substitute_row {file} - 0"), "ref 1 0");
    told(&format!("substitute_row - {file} 0"), "ref 6 0");
    told(&format!("joined_index {file} - - - -"), "ref 1 0 -");
    told(&format!("joined_index - - {file} - -"), "ref 1 0 -");
    of_each(&format!("{file} 0 0 0 0 -"), "ref 1 0 -");
}

#[test]
fn case_3_the_demonstration_file() {
    let file = hex(DEMO);
    told(&format!("check_labelled {file}"), "ok 2");
    told(
        &format!("read_row_labelled {file} 0 0 3"),
        "ok 40 616263 20 2 0",
    );
    told(&format!("read_row_labelled {file} 1 0 0"), "ok 63 - 43 2 0");
    told(
        &format!("jump_labelled {file} 20 0 0 3"),
        "ok 40 616263 20 absent absent",
    );
    told(
        &format!("jump_labelled {file} 20 1 0 0"),
        "ok 63 - 43 absent absent",
    );
    told(
        &format!("substitute_row - {file} 0"),
        "ok substitute 40 616263 20 2 0",
    );
    told(
        &format!("substitute_row {file} - 1"),
        "ok original 63 - 43 2 0",
    );
    told(&format!("build_index {file} 7,8"), "ok 1 2 20,8");
    told(&format!("check_index {file} 20"), "ok");
    told(
        &format!("joined_index {file} 20 {file} 20 7,8"),
        "ok 1 4 20,8",
    );
    told(&format!("joined_index {file} 20 - - 7"), "ok 1 2 20");
    told(&format!("joined_index - - {file} 20 7"), "ok 1 2 20");
    told(&format!("joined_index {file} 20 {file} 83 7"), "ref 11 0 7");
    // As light as these letters are, the first line has no dots.
    of_each(&format!("{file} 0 1 0 3 aabb"), "ok 1 00bb");
    of_each(&format!("{file} 0 2 0 0 aabb"), "ok 0 aabb");
    of_each(&format!("{file} 0 2 0 1 aabb"), "ref 7 0 aabb");
    for versions in [1, 2] {
        let behind = format!("behind labelled{versions} {file} 0 0 3");
        expect(&format!("{behind} 2 0"), "ok 42 99 158 0");
        expect(&format!("{behind} 3 0"), "ref 7 0");
        expect(&format!("{behind} 0 1"), "ref 7 0");
        expect(&format!("{behind} 0 2"), "ref 6 0");
    }
    let label = hex(&DEMO[20..40]);
    told(
        &format!("read_label {label}"),
        "ok 4e4a504c 1 49 44454d4f 3 0",
    );
}

#[test]
fn case_4_the_outer_length_one_less() {
    let file = hex(DEMO.replace("00000043", "00000042"));
    told(&format!("check_labelled {file}"), "ref 1 43");
    let good = hex(DEMO);
    let joined = format!("joined_index {good} 20 {file} 20 7");
    told(&joined, "ref 1 43 7");
    of_each(&format!("{file} 0 1 0 3 aabb"), "ref 1 43 aabb");
}

#[test]
fn case_5_an_inner_length_too_long() {
    let file = hex(DEMO.replacen("00000003", "00000024", 1));
    told(&format!("check_labelled {file}"), "ref 4 20");
}

#[test]
fn case_6_depth_eight_and_nine() {
    let eight = nested(8, "");
    assert_eq!(eight.len(), 160);
    told(&format!("check_labelled {}", hex(eight)), "ok 0");
    let nine = nested(8, "NJPL1I00DEMO00000000");
    told(&format!("check_labelled {}", hex(nine)), "ref 5 160");
    let leaf_at_eight = nested(7, "NJPL1I00DEMO00000000");
    told(&format!("check_labelled {}", hex(leaf_at_eight)), "ok 1");
}

#[test]
fn case_7_sizes_of_waveform_files() {
    expect(&format!("check_waveform {}", hex([0; 2_079])), "ref 12 0");
    expect("check_waveform -", "ok 0");
}

#[test]
fn case_8_row_31() {
    let mut file = vec![0; 32 * 2_080];
    file[64_512..64_516].copy_from_slice(b"row.");
    file[65_536..65_540].copy_from_slice(b"turn");
    let file = hex(file);
    for call in ["read_row_waveform", "jump_waveform"] {
        expect(
            &format!("{call} {file} 31 0 4"),
            "ok 64512 726f772e 64512 0 64512",
        );
        expect(
            &format!("{call} {file} 31 1024 4"),
            "ok 65536 7475726e 64512 0 64512",
        );
        expect(&format!("{call} {file} 32 1024 4"), "ref 6 0");
    }
    // The first of these four bytes is a t, of which the tone is 171.
    let behind = format!("behind waveform {file} 24 1024 4");
    expect(&format!("{behind} 0 7"), "ok 65536 116 171 1");
    expect(&format!("{behind} 0 8"), "ref 6 0");
    let strip = format!("strip waveform {file} 24 8 1024 4");
    expect(
        &format!("{strip} 0102030405060708"),
        "ok 8 f0f0f0f0f0f0f0a0",
    );
}

#[test]
fn case_9_the_end_of_a_waveform_row() {
    let file = hex([0; 2_080]);
    for call in ["read_row_waveform", "jump_waveform"] {
        expect(&format!("{call} {file} 0 2048 0"), "ok 2080 - 32 0 32");
        expect(&format!("{call} {file} 0 2048 1"), "ref 7 0");
        expect(&format!("{call} {file} 0 2049 0"), "ref 7 0");
    }
    expect(&format!("strip waveform {file} 0 1 2048 0 aa"), "ok 0 aa");
    expect(
        &format!("strip waveform {file} 0 1 2048 1 aa"),
        "ref 7 0 aa",
    );
    expect(
        &format!("strip waveform {file} 0 1 2049 0 aa"),
        "ref 7 0 aa",
    );
}

#[test]
fn case_10_samples() {
    for (sample, amplitude) in [(0, -255), (127, -1), (128, 1), (255, 255)] {
        expect(&format!("sample {sample}"), &format!("ok {amplitude}"));
    }
}

/// The two that the request gives, and the ends of the curve.
#[test]
fn tones() {
    for (sample, tone) in [(0, 0), (1, 15), (64, 127), (255, 255)] {
        expect(&format!("tone {sample}"), &format!("ok {tone}"));
    }
}

#[test]
fn case_11_vax_f_numbers() {
    expect("vax_f 80400000", "ok 3ff0000000000000");
    expect("vax_f 80c00000", "ok bff0000000000000");
    expect("vax_f 7f00ffff", "ok 0000000000000000");
    expect("vax_f 00800000", "ref 9 0");
}

#[test]
fn case_12_limits_of_element_141() {
    expect("verdict 141 -2001", "ok below");
    expect("verdict 141 -2000", "ok inside");
    expect("verdict 141 2000", "ok inside");
    expect("verdict 141 2001", "ok above");
}

#[test]
fn lent_memory_is_shown_on_refusals_too() {
    for version in [1, 2] {
        expect(&format!("write_label {version} - 0 00"), "ref 2 0 00");
        let eleven = format!(
            "write_label {version} 4e4a504c{:02x}493030444500 0 -",
            0x30 + version
        );
        expect(&eleven, "ref 2 0 -");
    }
    expect("keep_index 20 aabb", "ref 8 0 aabb");
    expect("load_kept 02000000010000 5,6", "ref 13 0 5,6");
    expect("load_kept 06000000010014000000 5,6", "ok 1 20,6");
    expect("load_kept2 06000000010014000000 5,6", "ref 13 0 5,6");
    expect("load_kept2 0a00000002000200000014000000 5,6", "ok 2 1 20,6");
    expect(
        "convert_2_to_1 0a00000002000200000014000000 aabb",
        "ref 8 0 aabb",
    );
    told("convert_1_to_2 00 020000000100 aabb", "ref 1 0 aabb");
    told(
        "convert_1_to_2 - 06000000020000000000 aabb",
        "ref 13 0 aabb",
    );
    told(
        "convert_1_to_2 - 06000000010014000000 aabb",
        "ref 11 0 aabb",
    );
    told("convert_1_to_2 - 020000000100 aabb", "ref 8 0 aabb");
    told("build_index 00 5,6", "ref 1 0 5,6");
    expect("opening 00", "ref 1 0");
    expect("verdict 4 0", "ref 10 0");
    expect("no_such_call 0", "bad line");
}
