//! The C header beside the declarations and the words of this crate.

use crestulbino::{
    Mode, Refusal, BURST_BYTES, BURST_FIELDS, KEPT2_FRONT_BYTES, KEPT_FRONT_BYTES, LABEL_BYTES,
    ROWS_PER_ENTRY,
};

const HEADER: &str = include_str!("../../../include/crestulbino.h");
const DECLARATIONS: &str = include_str!("../src/ffi.rs");

/// A function as either language declares it, with its types in Rust's words.
#[derive(Debug, PartialEq)]
struct Function {
    name: String,
    parameters: Vec<(String, String)>,
    result: String,
}

/// The header without comments and preprocessor lines.
fn header_code() -> String {
    let mut code = String::new();
    let mut rest = HEADER;
    while let Some((before, comment)) = rest.split_once("/*") {
        code.push_str(before);
        rest = comment.split_once("*/").expect("an ended comment").1;
    }
    code.push_str(rest);
    let kept = code.lines().filter(|line| !line.starts_with('#'));
    kept.collect::<Vec<_>>().join(" ")
}

/// The functions that the header declares and does not define.
fn header_functions() -> Vec<Function> {
    header_code()
        .split(';')
        .filter_map(|statement| {
            let statement = statement.rsplit(['{', '}']).next()?.trim();
            let (front, parameters) = statement.strip_suffix(')')?.split_once('(')?;
            let (result, name) = front.split_once(' ')?;
            name.starts_with("crest_").then(|| Function {
                name: name.to_string(),
                parameters: parameters.split(',').map(c_parameter).collect(),
                result: rust_type(result),
            })
        })
        .collect()
}

/// `const uint8_t *file`, `uint64_t *rows`, `uint8_t agency[4]` or `uint64_t row`.
fn c_parameter(text: &str) -> (String, String) {
    let (of, name) = text.trim().rsplit_once(' ').expect("a type and a name");
    let element = rust_type(of.trim_start_matches("const "));
    if let Some(name) = name.strip_prefix('*') {
        let pointer = if of.starts_with("const ") {
            "const"
        } else {
            "mut"
        };
        return (name.to_string(), format!("*{pointer} {element}"));
    }
    if let Some((name, size)) = name.split_once('[') {
        let size = size.trim_end_matches(']');
        return (name.to_string(), format!("*mut [{element}; {size}]"));
    }
    (name.to_string(), element)
}

fn rust_type(c: &str) -> String {
    let rust = match c {
        "uint8_t" => "u8",
        "uint32_t" => "u32",
        "uint64_t" => "u64",
        "int64_t" => "i64",
        "size_t" => "usize",
        "bool" => "bool",
        "double" => "f64",
        "crest_result" => "Outcome",
        "crest_row" => "RowNumbers",
        "crest_dot" => "DotNumbers",
        other => panic!("no type for {other}"),
    };
    rust.to_string()
}

fn declared_functions() -> Vec<Function> {
    DECLARATIONS
        .lines()
        .filter_map(|line| line.trim().strip_prefix("fn ")?.strip_suffix(';'))
        .map(|line| {
            let (name, rest) = line.split_once('(').expect("parameters");
            let (parameters, result) = rest.split_once(") -> ").expect("a result");
            let parameters = parameters.split(", ").map(|parameter| {
                let (name, of) = parameter.split_once(": ").expect("a name and a type");
                // A word that Rust keeps for itself is a name only with this in front.
                let name = name.trim_start_matches("r#");
                (name.to_string(), of.to_string())
            });
            Function {
                name: name.to_string(),
                parameters: parameters.collect(),
                result: result.to_string(),
            }
        })
        .collect()
}

#[test]
fn declarations_are_those_of_the_header_in_its_order() {
    let header = header_functions();
    assert_eq!(header.len(), 41);
    assert_eq!(declared_functions(), header);
}

/// The fields of a struct of the header, with their types in Rust's words.
fn header_fields(name: &str) -> Vec<(String, String)> {
    let code = header_code();
    let (_, rest) = code.split_once(&format!("struct {name} {{")).expect(name);
    let (fields, _) = rest.split_once('}').expect("the end of a struct");
    let fields = fields.split(';').map(str::trim);
    fields
        .filter(|field| !field.is_empty())
        .map(c_parameter)
        .collect()
}

/// The fields of a struct of the declarations.
fn declared_fields(name: &str) -> Vec<(String, String)> {
    let start = format!("pub(crate) struct {name} {{");
    let (_, rest) = DECLARATIONS.split_once(&start).expect(name);
    let (fields, _) = rest.split_once('}').expect("the end of a struct");
    let fields = fields.lines().filter_map(|line| {
        let (name, of) = line.trim().strip_prefix("pub ")?.split_once(": ")?;
        Some((name.to_string(), of.trim_end_matches(',').to_string()))
    });
    fields.collect()
}

#[test]
fn structs_are_those_of_the_header() {
    for (header, declared, fields) in [
        ("crest_result", "Outcome", 2),
        ("crest_row", "RowNumbers", 6),
        ("crest_dot", "DotNumbers", 4),
    ] {
        assert_eq!(header_fields(header).len(), fields);
        assert_eq!(declared_fields(declared), header_fields(header));
    }
    for (number, name) in [(0, "ABSENT"), (1, "KNOWN")] {
        assert!(HEADER.contains(&format!("    CREST_{name} = {number}")));
        assert!(DECLARATIONS.contains(&format!("const {name}: u64 = {number};")));
    }
}

#[test]
fn refusals_have_the_header_s_numbers_names_and_words() {
    for refusal in Refusal::ALL {
        let (number, name, text) = (refusal.number(), refusal.name(), refusal.text());
        for line in [
            format!("    CREST_{name} = {number}"),
            format!("        {{\"{name}\", \"{text}\"}},"),
        ] {
            assert!(HEADER.contains(&line), "{line}");
        }
    }
    let names: Vec<&str> = HEADER
        .lines()
        .filter_map(|line| line.trim().strip_prefix("{\"")?.split('"').next())
        .collect();
    let expected: Vec<&str> = Refusal::ALL.into_iter().map(Refusal::name).collect();
    assert_eq!(names.first(), Some(&"ANSWERED"));
    assert_eq!(names.last(), Some(&"NUMBER"));
    assert_eq!(names[1..names.len() - 1], expected);
}

#[test]
fn sizes_are_the_header_s() {
    for (name, number) in [
        ("LABEL_BYTES", LABEL_BYTES),
        ("ROWS_PER_ENTRY", ROWS_PER_ENTRY),
        ("KEPT_FRONT_BYTES", KEPT_FRONT_BYTES),
        ("KEPT2_FRONT_BYTES", KEPT2_FRONT_BYTES),
        ("BURST_BYTES", BURST_BYTES),
        ("BURST_FIELDS", BURST_FIELDS as usize),
    ] {
        assert!(
            HEADER.contains(&format!("#define CREST_{name} {number}u\n")),
            "{name}"
        );
    }
}

/// The names of an enum of the header, with their numbers.
fn enum_of(name: &str) -> Vec<(String, u64)> {
    let code = header_code();
    let opening = format!("enum {name} {{");
    let (_, rest) = code.split_once(&opening).expect("the enum");
    let (names, _) = rest.split_once('}').expect("its end");
    let pair = |text: &str| {
        let (name, number) = text.split_once('=').expect("a name and a number");
        (name.trim().to_string(), number.trim().parse().unwrap())
    };
    names.split(',').map(pair).collect()
}

/// `Baq8To2` as `BAQ_8_TO_2`, and `Bits8To0`, which no name in C begins with, as `8_TO_0`.
fn c_name(mode: Mode) -> String {
    let mut name = String::new();
    let mut before = ' ';
    for letter in format!("{mode:?}").chars() {
        let begins = letter.is_uppercase() || letter.is_numeric() && !before.is_numeric();
        if begins && before != ' ' {
            name.push('_');
        }
        name.push(letter.to_ascii_uppercase());
        before = letter;
    }
    name.trim_start_matches("BITS_").to_string()
}

#[test]
fn modes_have_the_header_s_numbers_and_names() {
    let mut names = enum_of("crest_mode_number");
    let unnamed = ("CREST_MODE_UNNAMED".to_string(), Mode::ALL.len() as u64);
    assert_eq!(names.pop(), Some(unnamed));
    let expected = Mode::ALL.map(|mode| (format!("CREST_MODE_{}", c_name(mode)), mode.number()));
    assert_eq!(names, expected);
}

/// Each with the number that the crate takes it for.
#[test]
fn types_verdicts_and_sources_have_their_numbers() {
    let of = |name, words: &[&str]| {
        let expected: Vec<(String, u64)> = words
            .iter()
            .zip(0..)
            .map(|(word, number)| (format!("CREST_{word}"), number))
            .collect();
        assert_eq!(enum_of(name), expected);
    };
    of("crest_verdict_number", &["BELOW", "INSIDE", "ABOVE"]);
    of("crest_source", &["ORIGINAL", "SUBSTITUTE"]);
    of(
        "crest_field_type",
        &["UNSIGNED", "SIGNED", "FLOAT4", "FLOAT8", "TEXT"],
    );
}
