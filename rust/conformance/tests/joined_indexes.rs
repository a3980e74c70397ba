//! Joined indexes, tried with both implementations on generated files: beside the index of the joined copy,
//! beside the rows of the two files, joined in another order, and put together again from parts.

use conformance::generator::files::{self, LabelledFile, Mix};
use conformance::generator::random::Random;
use conformance::library::{Answer, Library, INDEPENDENT, PROVED};
use crestulbino::{Built, Kind, Refused, Versions, Window};

const LIBRARIES: [Library; 2] = [INDEPENDENT, PROVED];

const CHOICES: [Versions; 2] = [Versions::One, Versions::OneAndTwo];

/// Each implementation with each choice.
fn told() -> impl Iterator<Item = (Library, Versions)> {
    let with = |library| CHOICES.map(|versions| (library, versions));
    LIBRARIES.into_iter().flat_map(with)
}

/// An index, and the number of rows.
type Index = (Vec<u32>, usize);

fn index(library: &Library, versions: Versions, file: &[u8]) -> Answer<Index> {
    // A row has a label of 20 bytes.
    let mut list = vec![7; file.len() / 20];
    let built = (library.build_index)(versions, file, &mut list)?;
    list.truncate(built.entries);
    Ok((list, built.rows))
}

/// The joined index of two files that are accepted, with room for some entries more.
fn joined(library: &Library, versions: Versions, first: &[u8], second: &[u8]) -> Index {
    let (one, rows) = index(library, versions, first).unwrap();
    let (two, more) = index(library, versions, second).unwrap();
    let rows = rows + more;
    let entries = rows.div_ceil(16);
    let mut list = vec![7; entries + 3];
    let built = (library.joined_index)(versions, first, &one, second, &two, &mut list);
    assert_eq!(built, Ok(Built { entries, rows }));
    assert_eq!(list.split_off(entries), [7; 3]);
    (list, rows)
}

/// A file of many kinds, at times damaged.
fn any_file(random: &mut Random) -> LabelledFile {
    let mut file = match random.chance(70) {
        true => files::labelled(random),
        false => {
            let rows = random.between(0, 50);
            files::with_rows(rows, true, Mix::Half, random)
        }
    };
    if random.chance(15) {
        files::damage(&mut file, random);
    }
    file
}

/// A file that is accepted, told this choice.
fn accepted(versions: Versions, random: &mut Random) -> Vec<u8> {
    loop {
        let file = any_file(random).bytes;
        if (INDEPENDENT.check)(Kind::Labelled(versions), &file).is_ok() {
            return file;
        }
    }
}

/// Where both files are good, it is the index of the copy. Else it is refused as the copy is, but for the
/// place of a fault in the second file, which is counted there.
#[test]
fn it_is_the_index_of_the_joined_copy() {
    let mut random = Random::new(91);
    let (mut answered, mut refused) = (0, 0);
    for _ in 0..2_000 {
        let (one, other) = (any_file(&mut random), any_file(&mut random));
        let (first, second) = (&one.bytes[..], &other.bytes[..]);
        let copy = [first, second].concat();
        for (library, versions) in told() {
            let indexes = [first, second].map(|file| index(&library, versions, file));
            if let [Ok(_), Ok(_)] = indexes {
                let of_copy = index(&library, versions, &copy);
                assert_eq!(Ok(joined(&library, versions, first, second)), of_copy);
                answered += 1;
                continue;
            }
            // The lists that they had before they were damaged, and no room.
            let lists = [one.index(), other.index()];
            let built =
                (library.joined_index)(versions, first, &lists[0], second, &lists[1], &mut []);
            match indexes {
                [Err(fault), _] => assert_eq!(built, Err(fault)),
                [Ok((list, _)), Err(fault)] if list == lists[0] => {
                    assert_eq!(built, Err(fault));
                    let place = first.len() + fault.place;
                    let checked = (library.check)(Kind::Labelled(versions), &copy);
                    assert_eq!(checked, Err(Refused { place, ..fault }));
                }
                _ => assert!(built.is_err()),
            }
            refused += 1;
        }
    }
    assert!(answered > 2_000 && refused > 2_000, "{answered} {refused}");
}

/// A jump in the copy by the joined index shows the row of the file that it comes from, so much further on.
#[test]
fn jumps_by_it_show_the_rows_of_both_files() {
    let mut random = Random::new(92);
    let mut shown = 0;
    for _ in 0..250 {
        for (library, versions) in told() {
            let [first, second] = [0; 2].map(|_| accepted(versions, &mut random));
            let copy = [&first[..], &second].concat();
            let (list, rows) = joined(&library, versions, &first, &second);
            let kind = Kind::Labelled(versions);
            let own = (library.check)(kind, &first).unwrap();
            for row in 0..rows {
                let (file, number, length) = match row < own {
                    true => (&first, row, 0),
                    false => (&second, row - own, first.len()),
                };
                let read = (library.read_row)(kind, file, number, Window::new(0, 0)).unwrap();
                let whole = (library.row_from)(kind, file, read.address.label).unwrap();
                let window = Window::new(0, whole.bytes.len());
                let jumped = (library.jump_labelled)(versions, &copy, &list, row, window).unwrap();
                assert_eq!(jumped.bytes, whole.bytes);
                assert_eq!(jumped.place, whole.place + length);
                assert_eq!(jumped.address.label, whole.address.label + length);
                shown += 1;
            }
        }
    }
    assert!(shown > 5_000, "{shown} rows");
}

#[test]
fn joining_is_associative() {
    let mut random = Random::new(93);
    for _ in 0..300 {
        for (library, versions) in told() {
            let [a, b, c] = [0; 3].map(|_| accepted(versions, &mut random));
            let (ab, bc) = ([&a[..], &b].concat(), [&b[..], &c].concat());
            let one = joined(&library, versions, &ab, &c);
            assert_eq!(joined(&library, versions, &a, &bc), one);
            // By the joined indexes themselves, with none built of a joined file.
            let list_of = |first: &[u8], second: &[u8]| joined(&library, versions, first, second).0;
            let own = |file: &[u8]| index(&library, versions, file).unwrap().0;
            let mut list = vec![0; one.0.len()];
            let join = library.joined_index;
            for (first, one_list, second, other_list) in [
                (&ab, list_of(&a, &b), &c, own(&c)),
                (&a, own(&a), &bc, list_of(&b, &c)),
            ] {
                list.fill(7);
                let built = join(versions, first, &one_list, second, &other_list, &mut list);
                let (entries, rows) = (one.0.len(), one.1);
                assert_eq!((built, &list), (Ok(Built { entries, rows }), &one.0));
            }
        }
    }
}

#[test]
fn the_empty_file_changes_nothing() {
    let mut random = Random::new(94);
    for _ in 0..500 {
        for (library, versions) in told() {
            let file = accepted(versions, &mut random);
            let alone = index(&library, versions, &file).unwrap();
            assert_eq!(joined(&library, versions, &file, &[]), alone);
            assert_eq!(joined(&library, versions, &[], &file), alone);
        }
    }
}

/// Where the outermost objects of an accepted file begin, and its end.
fn outermost(file: &LabelledFile) -> Vec<usize> {
    let mut places = vec![0];
    for spot in &file.spots {
        if Some(&spot.place) == places.last() {
            places.push(spot.place + 20 + spot.length);
        }
    }
    places
}

/// An accepted file, cut between any two of its outermost objects and joined again, has its own index.
#[test]
fn parts_that_are_joined_again() {
    let mut random = Random::new(95);
    let mut cuts = 0;
    for _ in 0..400 {
        let file = files::labelled(&mut random);
        for (library, versions) in told() {
            let Ok(whole) = index(&library, versions, &file.bytes) else {
                continue;
            };
            let places = outermost(&file);
            assert_eq!(places.last(), Some(&file.bytes.len()));
            for place in places {
                let (first, second) = file.bytes.split_at(place);
                assert_eq!(joined(&library, versions, first, second), whole);
                cuts += 1;
            }
        }
    }
    assert!(cuts > 5_000, "{cuts} cuts");
}

/// A row more in the first file, a row less in the second: entries stay where they are.
#[test]
fn every_cut_of_a_hundred_rows() {
    let rows = b"NJPL1I00DEMO00000002xyNJPL1I00DEMO00000000".repeat(50);
    let expected: Vec<u32> = (0..7).map(|group| group * 8 * 42).collect();
    for (library, versions) in told() {
        for cut in 0..=100 {
            let place = cut / 2 * 42 + cut % 2 * 22;
            let (first, second) = rows.split_at(place);
            let (list, count) = joined(&library, versions, first, second);
            assert_eq!((list, count), (expected.clone(), 100));
        }
    }
}

/// Both files in one piece of memory, the same, and one in the other.
#[test]
fn files_may_lie_in_one_another() {
    let inner = b"NJPL1I00DEMO00000003abcNJPL1I00DEMO00000000";
    let outer = [
        &b"CCSD1Z00000100000043"[..],
        inner,
        b"NJPL1I00DEMO00000001x",
    ]
    .concat();
    let inner = &outer[20..63];
    for (library, versions) in told() {
        for (first, second, list, rows) in [
            (&outer[..], inner, [20], 5),
            (inner, &outer, [0], 5),
            (&outer, &outer, [20], 6),
            (inner, inner, [0], 4),
        ] {
            let expected = (list.to_vec(), rows);
            assert_eq!(joined(&library, versions, first, second), expected);
        }
    }
}
