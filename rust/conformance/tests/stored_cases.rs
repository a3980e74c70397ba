//! The stored cases: both implementations give the stored answers.

use conformance::library::{INDEPENDENT, PROVED};
use conformance::program::answer_lines;

fn same(cases: &str, answers: &str) {
    assert_eq!(cases.lines().count(), answers.lines().count());
    for (name, library) in [("independent", INDEPENDENT), ("proved", PROVED)] {
        let mut given = Vec::new();
        answer_lines(&library, cases.as_bytes(), &mut given).unwrap();
        let given = String::from_utf8(given).unwrap();
        for ((case, answer), given) in cases.lines().zip(answers.lines()).zip(given.lines()) {
            let shown: String = case.chars().take(400).collect();
            assert_eq!(given, answer, "{name}: {shown}");
        }
        assert_eq!(given.len(), answers.len(), "{name}");
    }
}

#[test]
fn stored_answers() {
    same(
        include_str!("data/stored.cases"),
        include_str!("data/stored.answers"),
    );
}

#[test]
fn stored_answers_of_row_from() {
    same(
        include_str!("data/row_from.cases"),
        include_str!("data/row_from.answers"),
    );
}

#[test]
fn stored_answers_of_lengths_behind_spaces() {
    same(
        include_str!("data/spaces.cases"),
        include_str!("data/spaces.answers"),
    );
}

#[test]
fn stored_answers_of_classes() {
    same(
        include_str!("data/classes.cases"),
        include_str!("data/classes.answers"),
    );
}

#[test]
fn stored_answers_of_versions() {
    same(
        include_str!("data/versions.cases"),
        include_str!("data/versions.answers"),
    );
}

#[test]
fn stored_answers_of_bursts() {
    same(
        include_str!("data/bursts.cases"),
        include_str!("data/bursts.answers"),
    );
}

#[test]
fn stored_answers_of_addresses() {
    same(
        include_str!("data/address.cases"),
        include_str!("data/address.answers"),
    );
}

#[test]
fn stored_answers_of_d_numbers_to_the_nearest() {
    same(
        include_str!("data/nearest.cases"),
        include_str!("data/nearest.answers"),
    );
}

#[test]
fn stored_answers_of_kept_indexes_of_kind_2() {
    same(
        include_str!("data/kept2.cases"),
        include_str!("data/kept2.answers"),
    );
}

#[test]
fn stored_answers_of_originals_and_substitutes() {
    same(
        include_str!("data/substitute.cases"),
        include_str!("data/substitute.answers"),
    );
}

#[test]
fn stored_answers_of_joined_indexes() {
    same(
        include_str!("data/joined.cases"),
        include_str!("data/joined.answers"),
    );
}

#[test]
fn stored_answers_of_plotter_lines() {
    same(
        include_str!("data/plotter.cases"),
        include_str!("data/plotter.answers"),
    );
}
