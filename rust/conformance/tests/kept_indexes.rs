//! Kept indexes of both kinds, tried with both implementations: from one kind to the other and back on
//! generated files, and records with each byte changed.

use conformance::generator::files::{self, Mix};
use conformance::generator::kept::record;
use conformance::generator::random::Random;
use conformance::library::{Library, INDEPENDENT, PROVED};
use crestulbino::{Kept2, Kind, Refusal, Refused, Versions};

const LIBRARIES: [Library; 2] = [INDEPENDENT, PROVED];

fn refused<T>(refusal: Refusal) -> Result<T, Refused> {
    Err(Refused { refusal, place: 0 })
}

/// The index of a file in both kinds, as a library keeps and converts it, each in as much room as it
/// needs.
fn both_kinds(library: &Library, versions: Versions, file: &[u8]) -> (Vec<u8>, Vec<u8>) {
    let rows = (library.check)(Kind::Labelled(versions), file).unwrap();
    let mut list = vec![0; rows.div_ceil(16)];
    let built = (library.build_index)(versions, file, &mut list).unwrap();
    assert_eq!((built.entries, built.rows), (list.len(), rows));
    let mut kept = vec![0; 6 + 4 * list.len()];
    let mut kept_2 = vec![0; 10 + 4 * list.len()];
    assert_eq!((library.keep_index)(&list, &mut kept), Ok(kept.len()));
    let written = (library.convert_1_to_2)(versions, file, &kept, &mut kept_2);
    assert_eq!(written, Ok(kept_2.len()));
    (kept, kept_2)
}

/// From kind 1 to kind 2 and back, and once more: the same bytes each way. The check accepts them, and
/// the reader of kind 2 answers what the check of the file and the reader of kind 1 answer.
fn there_and_back(library: &Library, versions: Versions, file: &[u8]) -> (Vec<u8>, Vec<u8>) {
    let (kept, kept_2) = both_kinds(library, versions, file);
    let mut again = vec![0; kept.len()];
    let written = (library.convert_2_to_1)(&kept_2, &mut again);
    assert_eq!((written, &again), (Ok(kept.len()), &kept));
    let mut again_2 = vec![0; kept_2.len()];
    let written = (library.convert_1_to_2)(versions, file, &again, &mut again_2);
    assert_eq!((written, &again_2), (Ok(kept_2.len()), &kept_2));
    assert_eq!((library.check_kept2)(versions, file, &kept_2), Ok(()));

    let rows = (library.check)(Kind::Labelled(versions), file).unwrap();
    let entries = (kept.len() - 6) / 4;
    let (mut list, mut list_2) = (vec![0; entries], vec![0; entries]);
    assert_eq!((library.load_kept)(&kept, &mut list), Ok(entries));
    let loaded = (library.load_kept2)(&kept_2, &mut list_2);
    assert_eq!((loaded, list_2), (Ok(Kept2 { rows, entries }), list));
    (kept, kept_2)
}

#[test]
fn there_and_back_gives_the_same_bytes() {
    let mut random = Random::new(61);
    let mut accepted = 0;
    for _ in 0..2_000 {
        let file = files::labelled(&mut random);
        for versions in [Versions::One, Versions::OneAndTwo] {
            if (INDEPENDENT.check)(Kind::Labelled(versions), &file.bytes).is_err() {
                continue;
            }
            let [one, other] = LIBRARIES.map(|of| there_and_back(&of, versions, &file.bytes));
            assert_eq!(one, other);
            accepted += 1;
        }
    }
    assert!(accepted > 2_000, "{accepted} accepted");
}

/// Each number of rows up to some groups, and more than 16 bits hold.
#[test]
fn each_number_of_rows() {
    let row = b"NJPL1I00DEMO00000000";
    for rows in (0..=70).chain([255, 256, 257, 4_095, 4_096, 65_535, 65_536, 65_537, 70_000]) {
        let file = row.repeat(rows);
        for library in &LIBRARIES {
            let (kept, kept_2) = there_and_back(library, Versions::One, &file);
            assert_eq!(
                kept_2[..4],
                (6 + 4 * rows.div_ceil(16) as u32).to_le_bytes()
            );
            assert_eq!(kept_2[4..6], [2, 0]);
            assert_eq!(kept_2[6..10], (rows as u32).to_le_bytes());
            assert_eq!(kept_2[10..], kept[6..]);
        }
    }
}

/// A file of 17 rows in groups, with labels of both versions.
fn two_entries_file() -> Vec<u8> {
    let mut random = Random::new(62);
    files::with_rows(17, true, Mix::Half, &mut random).bytes
}

/// The check accepts a record and no other that differs from it in a byte, or that is cut or longer.
#[test]
fn every_value_in_every_byte_of_a_record() {
    let file = two_entries_file();
    let versions = Versions::OneAndTwo;
    for library in &LIBRARIES {
        let (kept, kept_2) = both_kinds(library, versions, &file);
        for (place, value) in (0..kept_2.len()).flat_map(|p| (0..=255).map(move |v| (p, v))) {
            let mut changed = kept_2.clone();
            changed[place] = value;
            let expected = match place {
                _ if changed == kept_2 => Ok(()),
                0..=5 => refused(Refusal::BadKept),
                _ => refused(Refusal::BadIndex),
            };
            assert_eq!((library.check_kept2)(versions, &file, &changed), expected);
            let (mut list, mut buffer) = ([0; 2], [0; 14]);
            let loaded = (library.load_kept2)(&changed, &mut list);
            let converted = (library.convert_2_to_1)(&changed, &mut buffer);
            let is_record = place > 5 || changed == kept_2;
            assert_eq!((loaded.is_ok(), converted.is_ok()), (is_record, is_record));
            assert_eq!(
                buffer == kept[..],
                is_record && (place < 10 || changed == kept_2)
            );
        }
        for (place, value) in (0..kept.len()).flat_map(|p| (0..=255).map(move |v| (p, v))) {
            let mut changed = kept.clone();
            changed[place] = value;
            let expected = match place {
                _ if changed == kept => Ok(kept_2.len()),
                0..=5 => refused(Refusal::BadKept),
                _ => refused(Refusal::BadIndex),
            };
            let mut buffer = [7; 18];
            let written = (library.convert_1_to_2)(versions, &file, &changed, &mut buffer);
            assert_eq!(written, expected);
            assert_eq!(buffer != [7; 18], written.is_ok());
        }
        for size in 0..kept_2.len() {
            let cut = &kept_2[..size];
            assert_eq!(
                (library.check_kept2)(versions, &file, cut),
                refused(Refusal::BadKept)
            );
        }
        let longer = [&kept_2[..], &[0; 4]].concat();
        assert_eq!(
            (library.check_kept2)(versions, &file, &longer),
            refused(Refusal::BadKept)
        );
    }
}

/// What the check of a kept index says is what the other calls say: the index check of its list, and
/// its count beside that of the file.
#[test]
fn the_check_is_that_of_the_list_and_of_the_count() {
    let mut random = Random::new(63);
    let (mut accepted, mut bad) = (0, 0);
    for _ in 0..2_000 {
        let mut file = files::labelled(&mut random);
        if random.chance(30) {
            files::damage(&mut file, &mut random);
        }
        let versions = random.pick(&[Versions::One, Versions::OneAndTwo]);
        let list = match random.between(0, 2) {
            0 => file.old_index(),
            _ => file.index(),
        };
        let rows = file.leaves().len() as u32;
        let count = random.pick(&[rows, rows, rows, rows + 1, rows ^ 0x0100]);
        let kept_2 = record(2, &[&[count], &list[..]].concat());
        for library in &LIBRARIES {
            let kind = Kind::Labelled(versions);
            let expected = (library.check_index)(versions, &file.bytes, &list).and_then(|()| {
                match (library.check)(kind, &file.bytes)? == count as usize {
                    true => Ok(()),
                    false => refused(Refusal::BadIndex),
                }
            });
            assert_eq!(
                (library.check_kept2)(versions, &file.bytes, &kept_2),
                expected
            );
            accepted += u32::from(expected.is_ok());
            bad += u32::from(expected == refused(Refusal::BadIndex));
        }
    }
    assert!(accepted > 800 && bad > 500, "{accepted} {bad}");
}
