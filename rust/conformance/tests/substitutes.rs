//! Originals and substitutes, tried with both implementations on generated files: each row beside the
//! check and reading of each file alone, and to the address in memory.

use conformance::generator::files::{self, LabelledFile};
use conformance::generator::random::Random;
use conformance::library::{Answer, Library, INDEPENDENT, PROVED};
use crestulbino::{Chosen, Kind, Refusal, Row, Source, Versions, Window};

const LIBRARIES: [Library; 2] = [INDEPENDENT, PROVED];

/// Each implementation with each choice.
fn told() -> impl Iterator<Item = (Library, Versions)> {
    let with = |library| [Versions::One, Versions::OneAndTwo].map(|versions| (library, versions));
    LIBRARIES.into_iter().flat_map(with)
}

/// A whole row by reading: as many bytes as going on from its label shows. No longer window fits.
fn read_whole<'a>(
    library: &Library,
    versions: Versions,
    file: &'a [u8],
    row: usize,
) -> Answer<Row<'a>> {
    let kind = Kind::Labelled(versions);
    let read = |count| (library.read_row)(kind, file, row, Window::new(0, count));
    let empty = read(0)?;
    let from = (library.row_from)(kind, file, empty.address.label)?;
    let length = from.bytes.len();
    assert!(read(length + 1).is_err_and(|refused| refused.refusal == Refusal::NoPart));
    read(length)
}

/// What is to be shown, by the check and reading of each file alone.
fn expected<'a>(
    library: &Library,
    versions: Versions,
    original: &'a [u8],
    substitute: &'a [u8],
    row: usize,
) -> Answer<Chosen<'a>> {
    let rows = (library.check)(Kind::Labelled(versions), substitute);
    let (source, file) = match rows {
        Ok(rows) if row < rows => (Source::Substitute, substitute),
        _ => (Source::Original, original),
    };
    let row = read_whole(library, versions, file, row)?;
    Ok(Chosen { source, row })
}

/// Whether the row's bytes are those of the file in memory, from the row's place on.
fn is_part(row: Row<'_>, file: &[u8]) -> bool {
    let (bytes, file) = (row.bytes.as_ptr_range(), file.as_ptr_range());
    bytes.start == file.start.wrapping_add(row.place) && bytes.end <= file.end
}

/// Two files: of their own, or the one damaged or with rows behind.
fn two_files(random: &mut Random) -> [LabelledFile; 2] {
    let mut one = files::labelled(random);
    let mut other = match random.between(0, 3) {
        0 => files::labelled(random),
        _ => one.clone(),
    };
    if random.chance(40) {
        files::damage(&mut one, random);
    }
    if random.chance(40) {
        files::damage(&mut other, random);
    }
    if random.chance(30) {
        let rows = random.between(1, 3);
        other.bytes.extend(b"NJPL1I00DEMO00000000".repeat(rows));
    }
    match random.chance(50) {
        true => [one, other],
        false => [other, one],
    }
}

#[test]
fn a_row_is_that_of_the_first_file_that_serves() {
    let mut random = Random::new(71);
    let (mut of_original, mut of_substitute, mut refused) = (0, 0, 0);
    for _ in 0..1_000 {
        let [original, substitute] = two_files(&mut random).map(|file| file.bytes);
        for (library, versions) in told() {
            for row in (0..20).chain([31, 32, 33, 48, 49, 1 << 32, usize::MAX]) {
                let chosen = (library.substitute_row)(versions, &original, &substitute, row);
                let expected = expected(&library, versions, &original, &substitute, row);
                assert_eq!(chosen, expected);
                match chosen {
                    Ok(chosen) if chosen.source == Source::Substitute => {
                        assert!(is_part(chosen.row, &substitute));
                        of_substitute += 1;
                    }
                    Ok(chosen) => {
                        assert!(is_part(chosen.row, &original));
                        of_original += 1;
                    }
                    Err(_) => refused += 1,
                }
            }
        }
    }
    let least = of_original.min(of_substitute).min(refused);
    assert!(least > 5_000, "{of_original} {of_substitute} {refused}");
}

/// A substitute that serves is shown whatever the original is; and one that does not serve is as good as
/// any other that does not.
#[test]
fn no_more_is_asked_of_the_other_file() {
    let mut random = Random::new(72);
    for _ in 0..500 {
        let [original, substitute] = two_files(&mut random).map(|file| file.bytes);
        let noise = random.between(0, 60);
        // No label begins so.
        let noise = [&b"^"[..], &random.bytes(noise)].concat();
        let others = [&noise[..], b"CCSD1Z00000100000000", b""];
        for (library, versions) in told() {
            for row in [0, 1, 2, 15, 16, 17] {
                let shown = |original, substitute| {
                    (library.substitute_row)(versions, original, substitute, row)
                };
                let chosen = shown(&original, &substitute);
                let is_served = chosen.is_ok_and(|chosen| chosen.source == Source::Substitute);
                for other in others {
                    let again = match is_served {
                        true => shown(other, &substitute),
                        false => shown(&original, other),
                    };
                    assert_eq!(again, chosen);
                }
            }
        }
    }
}

/// Both files in one piece of memory, as parts of one another, and the same.
#[test]
fn files_may_lie_in_one_another() {
    let inner = b"NJPL1I00DEMO00000003abcNJPL1I00DEMO00000000";
    let outer = [
        &b"CCSD1Z00000100000043"[..],
        inner,
        b"NJPL1I00DEMO00000001x",
    ]
    .concat();
    let inner = &outer[20..63];
    for (library, versions) in told() {
        for (original, substitute) in [
            (&outer[..], inner),
            (inner, &outer),
            (&outer, &outer),
            (inner, inner),
        ] {
            for row in 0..4 {
                let chosen = (library.substitute_row)(versions, original, substitute, row);
                let expected = expected(&library, versions, original, substitute, row);
                assert_eq!(chosen, expected);
                if let Ok(chosen) = chosen {
                    let file = match chosen.source {
                        Source::Original => original,
                        Source::Substitute => substitute,
                    };
                    assert!(is_part(chosen.row, file));
                }
            }
        }
    }
}
