//! Which classes hold objects, tried with both implementations: each class at each depth, and files
//! in which the letters Z, U and F are exchanged.

use conformance::generator::{files, kept::record, random::Random};
use conformance::library::{Library, INDEPENDENT, PROVED};
use crestulbino::{Kind, Refusal, Refused, Versions, Window};

const LIBRARIES: [Library; 2] = [INDEPENDENT, PROVED];

const LABEL: usize = 20;

fn object(class: char, value: &str) -> String {
    format!("CCSD1{class}00DEMO{:08}{value}", value.len())
}

/// An object inside of so many groups, of all three classes in turn.
fn enclosed(mut object_inside: String, groups: usize) -> String {
    for class in ['U', 'F', 'Z'].into_iter().cycle().take(groups) {
        object_inside = object(class, &object_inside);
    }
    object_inside
}

fn refused<T>(refusal: Refusal, place: usize) -> Result<T, Refused> {
    Err(Refused { refusal, place })
}

#[test]
fn each_class_at_each_depth() {
    let row = object('I', "abc");
    for library in LIBRARIES {
        for (class, depth) in ('A'..='Z').flat_map(|class| (1..=8).map(move |d| (class, d))) {
            let value = depth * LABEL;
            let check = |inside: &str| {
                let file = enclosed(object(class, inside), depth - 1);
                let kind = Kind::Labelled(Versions::One);
                let rows = (library.check)(kind, file.as_bytes());
                let first = (library.row_from)(kind, file.as_bytes(), 0);
                (rows, first.map(|row| row.place))
            };
            let is_opened = ['F', 'U', 'Z'].contains(&class);
            let (rows, first) = check(&row);
            match (is_opened, depth) {
                (true, 8) => assert_eq!(rows, refused(Refusal::Deep, value)),
                _ => assert_eq!(rows, Ok(1)),
            }
            assert_eq!(first, Ok(value + if is_opened { LABEL } else { 0 }));
            let (rows, first) = check("abc");
            match (is_opened, depth) {
                (true, 8) => assert_eq!(rows, refused(Refusal::Deep, value)),
                (true, _) => assert_eq!(rows, refused(Refusal::Short, value)),
                _ => assert_eq!(rows, Ok(1)),
            }
            match is_opened {
                true => assert_eq!(first, refused(Refusal::Short, value)),
                false => assert_eq!(first, Ok(value)),
            }
            let (rows, first) = check("");
            assert_eq!(rows, Ok(usize::from(!is_opened)));
            match is_opened {
                true => assert_eq!(first, refused(Refusal::NoRow, 0)),
                false => assert_eq!(first, Ok(value)),
            }
        }
    }
}

/// The same bytes with other ones of the three letters, in labels and values alike, but for binary
/// lengths, in which they are numbers.
fn exchanged(file: &[u8], random: &mut Random) -> Vec<u8> {
    let mut other = file.to_vec();
    for (place, byte) in other.iter_mut().enumerate() {
        let is_letter = matches!(byte, b'F' | b'U' | b'Z');
        if is_letter && !is_in_binary_length(file, place) {
            *byte = random.pick(b"FUZ");
        }
    }
    other
}

/// Whether a byte is in the last eight of what has an agency and a 2 in front.
fn is_in_binary_length(file: &[u8], place: usize) -> bool {
    let fronts = (12..LABEL).filter_map(|before| place.checked_sub(before));
    let mut fronts = fronts.map(|front| &file[front..front + 5]);
    fronts.any(|front| matches!(front, b"NJPL2" | b"CCSD2"))
}

/// A file of one row, in place of which another one is lent, or which is lent in its place or joined with it.
const OTHER: &[u8] = b"NJPL1I00DEMO00000003abc";
const INDEX: &[u32] = &[0];

/// What a library says of a file: its rows, its index, alone and joined, each row read, jumped to, shown beside
/// another file and drawn, and the first row from each place, with every refusal and every place, but
/// without the bytes themselves and their dots.
fn all_answers(library: &Library, versions: Versions, file: &[u8], list: &[u32]) -> String {
    let kind = Kind::Labelled(versions);
    let mut built = [7; 8];
    let index = (library.build_index)(versions, file, &mut built);
    let checked = (library.check)(kind, file);
    let accepted = (library.check_index)(versions, file, list);
    let mut answers = format!("{checked:?} {index:?} {built:?} {accepted:?}");
    let mut buffer = [7; 40];
    let converted = (library.convert_1_to_2)(versions, file, &record(1, list), &mut buffer);
    let kept = record(2, &[&[checked.unwrap_or(2) as u32], list].concat());
    let accepted = (library.check_kept2)(versions, file, &kept);
    answers += &format!(" {converted:?} {buffer:?} {accepted:?}");
    for (first, second) in [
        ((file, list), (OTHER, INDEX)),
        ((OTHER, INDEX), (file, list)),
    ] {
        let mut joined = [7; 8];
        let built =
            (library.joined_index)(versions, first.0, first.1, second.0, second.1, &mut joined);
        answers += &format!(" {built:?} {joined:?}");
    }
    for row in 0..=checked.unwrap_or(2) {
        let window = Window::new(0, row % 3);
        let read = (library.read_row)(kind, file, row, window);
        let jumped = (library.jump_labelled)(versions, file, list, row, window);
        let places = [read, jumped].map(|row| row.map(|row| row.place));
        answers += &format!(" {places:?}");
        for (original, substitute) in [(file, OTHER), (OTHER, file)] {
            let chosen = (library.substitute_row)(versions, original, substitute, row);
            let chosen = chosen.map(|chosen| (chosen.source, chosen.row.place));
            answers += &format!(" {chosen:?}");
        }
        let drawn = (library.strip)(kind, file, row / 2, row, window, &mut [7; 8]);
        let dot = (library.behind)(kind, file, row / 2, window, 0, row - row / 2);
        answers += &format!(" {drawn:?} {:?}", dot.map(|dot| dot.place));
    }
    for from in 0..=file.len().min(200) {
        let row = (library.row_from)(kind, file, from);
        let part = row.map(|row| (row.place, row.bytes.len()));
        answers += &format!(" {part:?}");
    }
    answers
}

/// A value of class U or F is divided, or refused, as one of class Z is; and where a letter stands
/// for something else, all three do.
#[test]
fn the_three_letters_are_the_same_to_every_call() {
    let mut random = Random::new(21);
    let (mut accepted, mut changed) = (0, 0);
    for _ in 0..1_500 {
        let mut file = files::labelled(&mut random);
        if random.chance(50) {
            files::damage(&mut file, &mut random);
        }
        let list = file.index();
        let other = exchanged(&file.bytes, &mut random);
        changed += u32::from(other != file.bytes);
        let versions = random.pick(&[Versions::One, Versions::OneAndTwo, Versions::OneAndTwo]);
        for library in &LIBRARIES {
            let answers = all_answers(library, versions, &file.bytes, &list);
            assert_eq!(answers, all_answers(library, versions, &other, &list));
            accepted += u32::from(answers.starts_with("Ok"));
        }
    }
    assert!((600..2_400).contains(&accepted), "{accepted} accepted");
    assert!(changed > 1_000, "{changed} changed");
}
