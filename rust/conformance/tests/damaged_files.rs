//! Every single-byte damage of nested files with groups of all classes, with and without spaces in
//! their lengths, with labels of version 1, of version 2 and of both: both implementations, told each
//! choice, say the same of the check, of each row read, also beside another file, of the index, kept,
//! joined or not, of each jump, of going on from each label, and of strips and dots.

use conformance::generator::kept::record;
use conformance::library::{INDEPENDENT, PROVED};
use crestulbino::{Kind, Versions, Window};
use std::sync::LazyLock;

fn leaf(value: &str) -> String {
    format!("NJPL1I00DEMO{:08}{value}", value.len())
}

fn group(class: char, inside: &[String]) -> String {
    let inside = inside.concat();
    format!("CCSD1{class}000001{:08}{inside}", inside.len())
}

/// Six rows, three deep, with an empty group and a value that looks like a label.
fn small_file() -> Vec<u8> {
    let innermost = group('F', &[leaf("")]);
    let inner = group('U', &[leaf("x"), innermost, leaf(&leaf("y"))]);
    let outer = group('Z', &[inner, group('U', &[]), leaf("c")]);
    let file = [leaf("ab"), outer, leaf("")];
    file.concat().into_bytes()
}

/// Eighteen rows, so that the index has two entries, in two groups.
fn two_entries_file() -> Vec<u8> {
    let rows = |count| vec![leaf("z"); count];
    let second = group('F', &[group('Z', &rows(8)), leaf("last")]);
    let file = [group('U', &rows(9)), second];
    file.concat().into_bytes()
}

/// A file of two rows, to stand in place of another one or to be replaced by it.
const OTHER: &[u8] = b"NJPL1I00DEMO00000003abcNJPL1I00DEMO00000000";

/// A file of fifteen rows, which do not fill their group of 16, to be joined with another one.
static FIFTEEN: LazyLock<String> = LazyLock::new(|| group('Z', &vec![leaf(""); 15]));

/// Where labels begin, in values too.
fn labels(file: &[u8]) -> Vec<usize> {
    let begins = |place: &usize| matches!(&file[*place..].get(..4), Some(b"NJPL" | b"CCSD"));
    (0..file.len()).filter(begins).collect()
}

/// The same file with spaces for the zeros in front of its lengths.
fn padded(file: &[u8]) -> Vec<u8> {
    let mut padded = file.to_vec();
    for place in labels(file) {
        let front = &mut padded[place + 12..place + 19];
        let zeros = front.iter().take_while(|&&byte| byte == b'0').count();
        front[..zeros].fill(b' ');
    }
    padded
}

/// The same file with its labels in version 2.
fn version_2(file: &[u8]) -> Vec<u8> {
    let mut file = file.to_vec();
    for place in labels(&file) {
        let label = &mut file[place..place + 20];
        let digits = std::str::from_utf8(&label[12..]).unwrap();
        let length: u64 = digits.parse().unwrap();
        label[4] = b'2';
        label[12..].copy_from_slice(&length.to_be_bytes());
    }
    file
}

/// The answers of both implementations to the same calls are the same.
fn assert_same(versions: Versions, file: &[u8], rows: usize, index: &[u32], places: &[usize]) {
    let (one, other) = (INDEPENDENT, PROVED);
    let kind = Kind::Labelled(versions);
    let checked = (one.check)(kind, file);
    assert_eq!(checked, (other.check)(kind, file));
    let mut lists = [[7; 3]; 2];
    let built = (one.build_index)(versions, file, &mut lists[0]);
    assert_eq!(built, (other.build_index)(versions, file, &mut lists[1]));
    assert_eq!(lists[0], lists[1]);
    let own = &lists[0][..built.map_or(0, |built| built.entries)];
    for list in [index, own] {
        assert_eq!(
            (one.check_index)(versions, file, list),
            (other.check_index)(versions, file, list)
        );
        let kept = record(1, list);
        let mut buffers = [[7; 24]; 2];
        let [buffer, other_buffer] = &mut buffers;
        assert_eq!(
            (one.convert_1_to_2)(versions, file, &kept, buffer),
            (other.convert_1_to_2)(versions, file, &kept, other_buffer)
        );
        assert_eq!(buffers[0], buffers[1]);
        let kept = record(2, &[&[rows as u32], list].concat());
        assert_eq!(
            (one.check_kept2)(versions, file, &kept),
            (other.check_kept2)(versions, file, &kept)
        );
    }
    let fifteen = (FIFTEEN.as_bytes(), &[20][..]);
    let (with, with_own) = ((file, index), (file, own));
    for (first, second) in [
        (with, fifteen),
        (fifteen, with),
        (with_own, fifteen),
        (fifteen, with_own),
        (with_own, with_own),
    ] {
        let mut lists = [[7; 5]; 2];
        let [joined, other_joined] = &mut lists;
        assert_eq!(
            (one.joined_index)(versions, first.0, first.1, second.0, second.1, joined),
            (other.joined_index)(versions, first.0, first.1, second.0, second.1, other_joined)
        );
        assert_eq!(lists[0], lists[1]);
    }
    for row in 0..=rows {
        let window = Window::new(0, row % 3);
        assert_eq!(
            (one.read_row)(kind, file, row, window),
            (other.read_row)(kind, file, row, window)
        );
        for (original, substitute) in [(OTHER, file), (file, OTHER)] {
            assert_eq!(
                (one.substitute_row)(versions, original, substitute, row),
                (other.substitute_row)(versions, original, substitute, row)
            );
        }
        for list in [index, own] {
            assert_eq!(
                (one.jump_labelled)(versions, file, list, row, window),
                (other.jump_labelled)(versions, file, list, row, window)
            );
        }
    }
    let (middle, window) = (rows / 2, Window::new(0, 1));
    let mut drawn = [[7; 3]; 2];
    let [of_one, of_other] = &mut drawn;
    assert_eq!(
        (one.strip)(kind, file, middle, 2, window, of_one),
        (other.strip)(kind, file, middle, 2, window, of_other)
    );
    assert_eq!(drawn[0], drawn[1]);
    assert_eq!(
        (one.behind)(kind, file, 1, window, 0, middle),
        (other.behind)(kind, file, 1, window, 0, middle)
    );
    for &from in places {
        assert_eq!(
            (one.row_from)(kind, file, from),
            (other.row_from)(kind, file, from)
        );
    }
}

/// Damages each byte of a file with each value, and counts the files that are still accepted.
fn damage(
    versions: Versions,
    file: &[u8],
    rows: usize,
    values: impl Iterator<Item = u8> + Clone,
) -> usize {
    let mut list = [0; 3];
    let built = (INDEPENDENT.build_index)(Versions::OneAndTwo, file, &mut list).unwrap();
    assert_eq!(built.rows, rows);
    let index = &list[..built.entries];
    let mut places = labels(file);
    places.push(file.len());
    let mut accepted = 0;
    let mut damaged = file.to_vec();
    for (place, &good) in file.iter().enumerate() {
        for value in values.clone() {
            damaged[place] = value;
            assert_same(versions, &damaged, rows, index, &places);
            let checked = (PROVED.check)(Kind::Labelled(versions), &damaged);
            accepted += usize::from(checked.is_ok());
        }
        damaged[place] = good;
    }
    accepted
}

/// The file in every form, with the choices for it: in version 1, in version 2, and in version 1 with
/// version 2 behind its first half. With version 2 in front, version 1 only would be the same refusal
/// over and over.
fn forms(file: &[u8]) -> [(Versions, Vec<u8>); 5] {
    let places = labels(file);
    let (front, back) = file.split_at(places[places.len() / 2]);
    let late = [padded(front), version_2(back)].concat();
    [
        (Versions::One, file.to_vec()),
        (Versions::One, padded(file)),
        (Versions::One, late.clone()),
        (Versions::OneAndTwo, late),
        (Versions::OneAndTwo, version_2(file)),
    ]
}

/// At least so many damaged files are accepted: none if the file itself is not.
fn least(versions: Versions, file: &[u8], accepted: usize) -> usize {
    let checked = (INDEPENDENT.check)(Kind::Labelled(versions), file);
    checked.map_or(0, |_| accepted)
}

#[test]
fn every_value_in_every_byte_of_a_small_file() {
    for (versions, file) in forms(&small_file()) {
        let accepted = damage(versions, &file, 6, 0..=255);
        let tried = 256 * file.len();
        let least = least(versions, &file, file.len());
        assert!((least..tried).contains(&accepted), "{accepted} of {tried}");
    }
}

#[test]
fn telling_values_in_every_byte_of_a_file_with_two_entries() {
    let values = b"\0\x01\x02\x03\t /01289:@ACFNPUYZ[afuz\x7f\x80\xb0\xff";
    for (versions, file) in forms(&two_entries_file()) {
        let accepted = damage(versions, &file, 18, values.iter().copied());
        let tried = values.len() * file.len();
        let least = least(versions, &file, 1);
        assert!((least..tried).contains(&accepted), "{accepted} of {tried}");
    }
}
