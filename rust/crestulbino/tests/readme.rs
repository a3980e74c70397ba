//! The examples of the repository's front page are lines of examples that are compiled: of the C
//! program and of this crate's documentation.

use std::path::Path;

fn read(name: &str) -> String {
    let path = Path::new(env!("CARGO_MANIFEST_DIR"))
        .join("../..")
        .join(name);
    std::fs::read_to_string(&path).unwrap_or_else(|error| panic!("{}: {error}", path.display()))
}

/// The lines of the page's one block in this language, without the blanks around them.
fn block<'a>(page: &'a str, language: &str) -> Vec<&'a str> {
    let opening = format!("```{language}");
    let mut blocks = page.lines().skip_while(|line| *line != opening);
    assert!(blocks.next().is_some(), "no block in {language}");
    let lines: Vec<&str> = blocks
        .take_while(|line| *line != "```")
        .map(str::trim)
        .collect();
    assert!(!lines.is_empty(), "an empty block in {language}");
    lines
}

/// Whether the lines stand in the source in this order, others between them.
fn stand_in(lines: &[&str], source: &str) -> Result<(), String> {
    let mut rest = source
        .lines()
        .map(|line| line.trim_start_matches("//!").trim());
    for line in lines {
        if !rest.any(|other| other == *line) {
            return Err(line.to_string());
        }
    }
    Ok(())
}

#[test]
fn the_c_lines_are_the_examples() {
    let page = read("README.md");
    let example = read("examples/c/list_and_jump.c");
    assert_eq!(stand_in(&block(&page, "c"), &example), Ok(()));
}

#[test]
fn the_rust_lines_are_the_crates() {
    let page = read("README.md");
    let front = read("rust/crestulbino/src/lib.rs");
    assert_eq!(stand_in(&block(&page, "rust"), &front), Ok(()));
}
