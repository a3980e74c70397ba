//! The two versions of the label, tried with both implementations: each version at each depth, with
//! lengths at the edges; files in which labels are written in the other version; and what it means
//! that version 2 is not allowed.

use conformance::generator::files::{self, Binary, Mix};
use conformance::generator::kept::record;
use conformance::generator::random::Random;
use conformance::library::{Library, INDEPENDENT, PROVED};
use crestulbino::{Kind, Refusal, Refused, Version, Versions, Window};
use independent::label;
use std::fmt::Debug;

const LIBRARIES: [Library; 2] = [INDEPENDENT, PROVED];

const ONE: Kind = Kind::Labelled(Versions::One);
const BOTH: Kind = Kind::Labelled(Versions::OneAndTwo);

const LABEL: usize = 20;

fn object(version: Version, class: u8, value: &[u8]) -> Vec<u8> {
    let length = value.len();
    let (byte, field) = match version {
        Version::One => (b'1', format!("{length:08}").into_bytes()),
        Version::Two => (b'2', (length as u64).to_be_bytes().to_vec()),
    };
    [b"CCSD", &[byte, class][..], b"00DEMO", &field, value].concat()
}

/// An object inside of so many groups, of both versions in turn or of version 1 only.
fn enclosed(mut inside: Vec<u8>, groups: usize, is_mixed: bool) -> Vec<u8> {
    for number in 0..groups {
        let version = match is_mixed && number % 2 == 0 {
            true => Version::Two,
            false => Version::One,
        };
        inside = object(version, b"ZUF"[number % 3], &inside);
    }
    inside
}

fn refused<T>(refusal: Refusal, place: usize) -> Result<T, Refused> {
    Err(Refused { refusal, place })
}

/// Where the first row from the front stands.
fn first_row(library: &Library, kind: Kind, file: &[u8]) -> Result<(usize, usize), Refused> {
    let row = (library.row_from)(kind, file, 0);
    row.map(|row| (row.place, row.bytes.len()))
}

#[test]
fn each_version_at_each_depth() {
    for (library, depth) in LIBRARIES.iter().flat_map(|l| (1..=8).map(move |d| (l, d))) {
        let value = depth * LABEL;
        for version in [Version::One, Version::Two] {
            let leaf = object(version, b'I', b"abc");
            let group = object(version, b'U', b"");
            for is_mixed in [false, true] {
                let file = enclosed(leaf.clone(), depth - 1, is_mixed);
                assert_eq!((library.check)(BOTH, &file), Ok(1));
                assert_eq!(first_row(library, BOTH, &file), Ok((value, 3)));
                let file = enclosed(group.clone(), depth - 1, is_mixed);
                assert_eq!((library.check)(BOTH, &file), Ok(0));
                assert_eq!(first_row(library, BOTH, &file), refused(Refusal::NoRow, 0));
            }
            // Version 1 only, with no label of version 2 around.
            for (object, rows, row) in [
                (&leaf, 1, Ok((value, 3))),
                (&group, 0, refused(Refusal::NoRow, 0)),
            ] {
                let file = enclosed(object.clone(), depth - 1, false);
                let is_allowed = version == Version::One;
                let expected = if is_allowed {
                    (Ok(rows), row)
                } else {
                    let place = (depth - 1) * LABEL;
                    (
                        refused(Refusal::BadLabel, place),
                        refused(Refusal::BadLabel, place),
                    )
                };
                let rows = (library.check)(ONE, &file);
                assert_eq!((rows, first_row(library, ONE, &file)), expected);
            }
        }
        // A ninth label, of either version, is too deep.
        for version in [Version::One, Version::Two] {
            let file = enclosed(object(version, b'I', b""), 8, depth % 2 == 0);
            assert_eq!((library.check)(BOTH, &file), refused(Refusal::Deep, 160));
        }
    }
}

/// A file with an object of version 2 inside of so many groups, with this length; and the length.
fn with_length(object: Vec<u8>, groups: usize, binary: Binary) -> (Vec<u8>, u64) {
    let (place, value) = (groups * LABEL, (groups + 1) * LABEL);
    let length = binary.of(object.len() - LABEL, value);
    let mut file = enclosed(object, groups, true);
    file[place + 12..value].copy_from_slice(&length.to_be_bytes());
    (file, length)
}

#[test]
fn each_length_of_a_leaf_at_each_depth() {
    for (library, groups) in LIBRARIES.iter().flat_map(|l| (0..8).map(move |g| (l, g))) {
        let (place, value) = (groups * LABEL, (groups + 1) * LABEL);
        for binary in files::binaries() {
            let leaf = object(Version::Two, b'I', b"abc");
            let (file, length) = with_length(leaf, groups, binary);
            let expected = match length {
                3 => Ok((value, 3)),
                _ => refused(Refusal::Overrun, place),
            };
            assert_eq!(first_row(library, BOTH, &file), expected, "{binary:?}");
            let rows = expected.map(|_| 1);
            assert_eq!((library.check)(BOTH, &file), rows, "{binary:?}");
        }
    }
}

/// The check measures a group; the walk passes its label, whatever the length.
#[test]
fn each_length_of_a_group_at_each_depth() {
    for (library, groups) in LIBRARIES.iter().flat_map(|l| (0..7).map(move |g| (l, g))) {
        let (place, value) = (groups * LABEL, (groups + 1) * LABEL);
        for binary in files::binaries() {
            let row = object(Version::One, b'I', b"abc");
            let group = object(Version::Two, b'Z', &row);
            let (file, length) = with_length(group, groups, binary);
            let rows = match length == row.len() as u64 {
                true => Ok(1),
                false => refused(Refusal::Overrun, place),
            };
            assert_eq!((library.check)(BOTH, &file), rows, "{binary:?}");
            let row = first_row(library, BOTH, &file);
            assert_eq!(row, Ok((value + LABEL, 3)), "{binary:?}");
        }
    }
}

/// Where labels of version 1 stand, in values too, and their lengths.
fn labels_of_version_1(file: &[u8]) -> Vec<(usize, u64)> {
    let read = |place: usize| {
        let label = label::read(label::Versions::First, &file[place..]).ok()?;
        Some((place, label.length))
    };
    (0..file.len()).filter_map(read).collect()
}

/// The same file with some of its labels of version 1 written in version 2, of the same lengths.
fn rewritten(file: &[u8], random: &mut Random) -> Vec<u8> {
    let mut file = file.to_vec();
    let percent = random.pick(&[10, 50, 50, 100]);
    for (place, length) in labels_of_version_1(&file) {
        if random.chance(percent) {
            file[place + 4] = b'2';
            file[place + 12..place + LABEL].copy_from_slice(&length.to_be_bytes());
        }
    }
    file
}

/// A file of one row with its index, to be joined with another.
const OTHER: (&[u8], &[u32]) = (b"NJPL1I00DEMO00000003abc", &[0]);

/// What a library says of a file: an answer for each call, with every refusal and every place, but
/// without the bytes themselves.
fn all_answers(library: &Library, versions: Versions, file: &[u8], list: &[u32]) -> Vec<Answer> {
    let kind = Kind::Labelled(versions);
    let mut built = [7; 8];
    let index = (library.build_index)(versions, file, &mut built);
    let checked = (library.check)(kind, file);
    let mut buffer = [7; 40];
    let converted = (library.convert_1_to_2)(versions, file, &record(1, list), &mut buffer);
    let kept = record(2, &[&[checked.unwrap_or(2) as u32], list].concat());
    let mut answers = vec![
        answer(checked),
        answer(index.map(|index| (index, built))),
        answer((library.check_index)(versions, file, list)),
        answer(converted.map(|written| (written, buffer))),
        answer((library.check_kept2)(versions, file, &kept)),
    ];
    for (first, second) in [((file, list), OTHER), (OTHER, (file, list))] {
        let mut joined = [7; 8];
        let built =
            (library.joined_index)(versions, first.0, first.1, second.0, second.1, &mut joined);
        answers.push(answer(built.map(|built| (built, joined))));
    }
    // As many whatever is told, so that the answers can be set side by side.
    for row in (0..20).chain([31, 32, 33]) {
        let window = Window::new(0, row % 3);
        let read = (library.read_row)(kind, file, row, window);
        let jumped = (library.jump_labelled)(versions, file, list, row, window);
        let shown = (library.substitute_row)(versions, file, &[], row).map(|chosen| chosen.row);
        answers.extend([read, jumped, shown].map(|row| answer(row.map(|row| row.place))));
        let drawn = (library.strip)(kind, file, row / 2, row, window, &mut [7; 8]);
        let dot = (library.behind)(kind, file, row / 2, window, 0, row - row / 2);
        answers.extend([answer(drawn), answer(dot.map(|dot| dot.place))]);
    }
    for from in 0..=file.len().min(200) {
        let row = (library.row_from)(kind, file, from);
        answers.push(answer(row.map(|row| (row.place, row.bytes.len()))));
    }
    answers
}

/// An answer in words, or a refusal.
type Answer = Result<String, Refused>;

fn answer(given: Result<impl Debug, Refused>) -> Answer {
    given.map(|parts| format!("{parts:?}"))
}

/// Told that both are allowed, a label of version 2 is the same as one of version 1 with its length.
#[test]
fn the_two_versions_are_the_same_to_every_call() {
    let mut random = Random::new(31);
    let (mut accepted, mut changed) = (0, 0);
    for _ in 0..1_000 {
        let mix = random.pick(&[Mix::None, Mix::None, Mix::Half]);
        let mut file = files::labelled_with(mix, &mut random);
        if random.chance(50) {
            files::damage(&mut file, &mut random);
        }
        let list = file.index();
        let other = rewritten(&file.bytes, &mut random);
        changed += u32::from(other != file.bytes);
        for library in &LIBRARIES {
            let answers = all_answers(library, Versions::OneAndTwo, &file.bytes, &list);
            let others = all_answers(library, Versions::OneAndTwo, &other, &list);
            assert_eq!(answers, others);
            accepted += u32::from(answers[0].is_ok());
        }
    }
    assert!((400..1_800).contains(&accepted), "{accepted} accepted");
    assert!(changed > 600, "{changed} changed");
}

/// Whether a call told version 1 only has met a label of version 2, and nothing else is wrong with
/// the label's type.
fn met_version_2(file: &[u8], answer: &Answer) -> bool {
    let Err(refused) = answer else {
        return false;
    };
    let label = label::read(label::Versions::Both, &file[refused.place..]);
    refused.refusal == Refusal::BadLabel
        && label.is_ok_and(|label| label.version == label::Version::Two)
}

/// Version 1 only: refusal 2 at the first label of version 2 that is met, and where none is met the
/// answer is the same.
#[test]
fn what_is_not_allowed_is_no_label() {
    let mut random = Random::new(32);
    let (mut met, mut others) = (0, 0);
    for _ in 0..1_000 {
        let mut file = files::labelled(&mut random);
        if random.chance(40) {
            files::damage(&mut file, &mut random);
        }
        let list = file.index();
        for library in &LIBRARIES {
            let told = [Versions::One, Versions::OneAndTwo];
            let [one, both] = told.map(|told| all_answers(library, told, &file.bytes, &list));
            for (one, both) in one.iter().zip(&both) {
                if met_version_2(&file.bytes, one) {
                    assert_ne!(one, both);
                    met += 1;
                } else {
                    assert_eq!(one, both);
                    others += 1;
                }
            }
        }
    }
    assert!(met > 20_000 && others > 100_000, "{met} {others}");
}

/// A file whose labels are all of version 1 is the same whatever is told.
#[test]
fn every_old_answer_stands() {
    let mut random = Random::new(33);
    for _ in 0..500 {
        let mut file = files::labelled_with(Mix::None, &mut random);
        if random.chance(50) {
            files::damage(&mut file, &mut random);
        }
        // Damage may bring in a 2.
        let is_two = |five: &[u8]| matches!(five, b"NJPL2" | b"CCSD2");
        if file.bytes.windows(5).any(is_two) {
            continue;
        }
        let list = file.index();
        for library in &LIBRARIES {
            let told = [Versions::One, Versions::OneAndTwo];
            let [one, both] = told.map(|told| all_answers(library, told, &file.bytes, &list));
            assert_eq!(one, both);
        }
    }
}

/// What the writer writes, the reader reads, told that its version is allowed.
#[test]
fn labels_are_read_as_they_were_written() {
    let lengths = files::TURNS.into_iter().chain(files::LOOK_LIKE_TEXT);
    let lengths = lengths.chain([0, 1, 3, 99_999_998, 99_999_999, 100_000_000]);
    for (length, library) in lengths.flat_map(|length| LIBRARIES.map(|library| (length, library))) {
        for (version, head) in [
            (Version::One, b"NJPL1I00DEMO"),
            (Version::Two, b"NJPL2I00DEMO"),
        ] {
            let mut label = *b"......................";
            let written = (library.write_label)(version, head, length as usize, &mut label);
            if version == Version::One && length > 99_999_999 {
                assert_eq!(written, refused(Refusal::TooLong, 0));
                assert_eq!(&label, b"......................");
                continue;
            }
            assert_eq!((written, &label[LABEL..]), (Ok(LABEL), &b".."[..]));
            let read = (library.read_label)(Versions::OneAndTwo, &label).unwrap();
            assert_eq!((read.version, read.spaces), (version, 0));
            assert_eq!(read.length as u64, length);
            assert_eq!(&label[..12], head);
            let only_one = (library.read_label)(Versions::One, &label);
            assert_eq!(only_one.is_ok(), version == Version::One);
        }
    }
}
