//! Two labelled files set end to end, and the index that the joined file has.

use crate::check_size;
use crate::label::Versions;
use crate::labelled::leaves;
use crate::refusal::{Reason, Refusal};
use crate::row_index::{self, Built, GROUP_ROWS};

/// Writes the index of the joined file to the front of `list`. Each file is lent
/// with its own index; the joined file is not made.
pub fn index(
    versions: Versions,
    first: &[u8],
    first_list: &[u32],
    second: &[u8],
    second_list: &[u32],
    list: &mut [u32],
) -> Result<Built, Refusal> {
    let before = first.len() as u64;
    // Two slices have less than 2^64 bytes together.
    check_size(before + second.len() as u64)?;
    row_index::check(versions, first, first_list)?;
    row_index::check(versions, second, second_list)?;
    let mut labels = labels_of(versions, first, 0)?;
    labels.extend(labels_of(versions, second, before)?);
    let index: Vec<u32> = labels
        .iter()
        .step_by(GROUP_ROWS as usize)
        .copied()
        .collect();
    let front = list
        .get_mut(..index.len())
        .ok_or(Reason::Small.at_start())?;
    front.copy_from_slice(&index);
    Ok(Built {
        entries: index.len() as u64,
        rows: labels.len() as u64,
    })
}

/// The places of the labels of all rows of a file that so many bytes stand in
/// front of. They fit 32 bits because the size of the joined file does.
fn labels_of(versions: Versions, file: &[u8], before: u64) -> Result<Vec<u32>, Refusal> {
    leaves(versions, file)?
        .map(|leaf| leaf.map(|leaf| (before + leaf.row.address.label) as u32))
        .collect()
}

#[cfg(test)]
mod tests {
    use super::*;

    const FIRST: Versions = Versions::First;
    const BOTH: Versions = Versions::Both;

    const COUNTS: [usize; 8] = [0, 1, 15, 16, 17, 31, 32, 33];

    const ROW: &[u8] = b"NJPL1I00DEMO00000001x";

    /// The index of a file as it is built.
    fn built(versions: Versions, file: &[u8]) -> (Vec<u32>, u64) {
        let mut list = vec![0; file.len()];
        let built = row_index::build(versions, file, &mut list).unwrap();
        list.truncate(built.entries as usize);
        (list, built.rows)
    }

    /// The joined index by this call, with just enough room.
    fn joined(versions: Versions, first: &[u8], second: &[u8]) -> (Vec<u32>, u64) {
        let (one, rows) = built(versions, first);
        let (two, more) = built(versions, second);
        let entries = (rows + more).div_ceil(GROUP_ROWS);
        let mut list = vec![7; entries as usize];
        let built = index(versions, first, &one, second, &two, &mut list).unwrap();
        assert_eq!(built.entries, entries);
        (list, built.rows)
    }

    fn group(inside: &[u8]) -> Vec<u8> {
        [
            format!("CCSD1U000001{:08}", inside.len()).as_bytes(),
            inside,
        ]
        .concat()
    }

    fn group_2(inside: &[u8]) -> Vec<u8> {
        let length = (inside.len() as u64).to_be_bytes();
        [b"CCSD2F000001", &length[..], inside].concat()
    }

    /// So many rows side by side; in one group; in groups of at most seven, some
    /// of them empty; and each one a depth further in than the one before, up
    /// to eight.
    fn shapes(rows: usize) -> [Vec<u8>; 4] {
        let flat = ROW.repeat(rows);
        let sevens = flat.chunks(7 * ROW.len());
        let sevens = sevens.flat_map(|seven| [group(b""), group(&group(seven))].concat());
        let mut stairs = Vec::new();
        for eight in flat.chunks(8 * ROW.len()) {
            let mut deeper = Vec::new();
            for row in eight.chunks(ROW.len()).rev() {
                deeper = match deeper.is_empty() {
                    true => row.to_vec(),
                    false => [row, &group(&deeper)].concat(),
                };
            }
            stairs.extend(deeper);
        }
        [group(&flat), sevens.collect(), stairs, flat]
    }

    fn all_files() -> Vec<Vec<u8>> {
        COUNTS.into_iter().flat_map(shapes).collect()
    }

    #[test]
    fn it_is_the_index_of_the_joined_copy() {
        let files = all_files();
        for first in &files {
            for second in &files {
                let copy = [&first[..], second].concat();
                assert_eq!(joined(FIRST, first, second), built(FIRST, &copy));
            }
        }
    }

    #[test]
    fn some_joined_indexes_by_hand() {
        let entries = |first: usize, second: usize| {
            let (list, rows) = joined(FIRST, &ROW.repeat(first), &ROW.repeat(second));
            assert_eq!(rows, (first + second) as u64);
            list
        };
        assert_eq!(entries(0, 0), []);
        assert_eq!(entries(15, 1), [0]);
        assert_eq!(entries(15, 2), [0, 336]);
        assert_eq!(entries(16, 16), [0, 336]);
        assert_eq!(entries(17, 15), [0, 336]);
        assert_eq!(entries(17, 16), [0, 336, 672]);
        // The row that gets an entry is the second one in the group.
        let second = group(&ROW.repeat(2));
        assert_eq!(
            joined(FIRST, &ROW.repeat(15), &second),
            (vec![0, 15 * 21 + 20 + 21], 17)
        );
        // Entries of one row each, in front of which a group stands.
        let file = group(ROW);
        assert_eq!(joined(FIRST, &file, &file), (vec![20], 2));
        assert_eq!(
            joined(FIRST, &ROW.repeat(16), &file),
            (vec![0, 336 + 20], 17)
        );
    }

    #[test]
    fn joining_is_associative() {
        let files: Vec<Vec<u8>> = all_files().into_iter().step_by(3).collect();
        for a in &files {
            for b in &files {
                for c in files.iter().rev().step_by(2) {
                    let ab = [&a[..], b].concat();
                    let bc = [&b[..], c].concat();
                    assert_eq!(joined(FIRST, &ab, c), joined(FIRST, a, &bc));
                }
            }
        }
    }

    #[test]
    fn the_empty_file_changes_nothing() {
        for file in all_files() {
            let alone = built(FIRST, &file);
            assert_eq!(joined(FIRST, &file, b""), alone);
            assert_eq!(joined(FIRST, b"", &file), alone);
        }
    }

    #[test]
    fn groups_without_rows_move_what_follows() {
        let empty = group(&group(b""));
        assert_eq!(joined(FIRST, &empty, &empty), (vec![], 0));
        assert_eq!(joined(FIRST, &empty, ROW), (vec![40], 1));
        assert_eq!(joined(FIRST, ROW, &empty), (vec![0], 1));
    }

    #[test]
    fn the_rest_of_the_list_is_left_alone() {
        let (first, second) = (ROW.repeat(17), ROW.repeat(15));
        let mut list = [7; 4];
        let built = index(FIRST, &first, &[0, 336], &second, &[0], &mut list);
        let (entries, rows) = (2, 32);
        assert_eq!(built, Ok(Built { entries, rows }));
        assert_eq!(list, [0, 336, 7, 7]);
    }

    /// The refusal, of a call that has written nothing.
    fn refused(
        versions: Versions,
        (first, first_list): (&[u8], &[u32]),
        (second, second_list): (&[u8], &[u32]),
        room: usize,
    ) -> Refusal {
        let mut list = vec![7; room];
        let given = index(versions, first, first_list, second, second_list, &mut list);
        assert_eq!(list, vec![7; room]);
        given.unwrap_err()
    }

    #[test]
    fn which_refusal_comes_first() {
        let good = (ROW, &[0][..]);
        let wrong = (ROW, &[1][..]);
        let late = [ROW, b"x"].concat();
        let late = (&late[..], &[0][..]);
        let deep = (0..9).fold(Vec::new(), |inside, _| group(&inside));
        let deep = (&deep[..], &[][..]);
        let (short, too_deep) = (Reason::Short.at(21), Reason::Deep.at(160));
        let (bad, small) = (Reason::BadIndex.at_start(), Reason::Small.at_start());
        for (first, second, expected) in [
            (late, deep, short),
            (deep, late, too_deep),
            (late, wrong, short),
            (wrong, late, bad),
            (good, late, short),
            (good, deep, too_deep),
            (good, wrong, bad),
            (wrong, good, bad),
            (wrong, wrong, bad),
        ] {
            for room in [0, 1, 3] {
                assert_eq!(refused(FIRST, first, second, room), expected);
            }
        }
        assert_eq!(refused(FIRST, good, good, 0), small);
        let many = ROW.repeat(16);
        let many = (&many[..], &[0][..]);
        assert_eq!(refused(FIRST, many, good, 1), small);
        assert_eq!(refused(FIRST, good, many, 1), small);
    }

    /// Each list is that of its own file, and whole.
    #[test]
    fn lists_that_are_no_index_of_their_file() {
        let (first, second) = (ROW.repeat(17), group(&ROW.repeat(17)));
        let (one, two) = (&[0, 336][..], &[20, 356][..]);
        let bad = Reason::BadIndex.at_start();
        for wrong in [&[][..], &[0], &[336], &[0, 336, 357], &[336, 0], two] {
            assert_eq!(refused(FIRST, (&first, wrong), (&second, two), 4), bad);
        }
        for wrong in [&[][..], &[20], &[377, 713], &[20, 356, 356], one] {
            assert_eq!(refused(FIRST, (&first, one), (&second, wrong), 4), bad);
        }
    }

    #[test]
    fn one_choice_holds_for_both_files() {
        let old = (ROW, &[0][..]);
        let new = group_2(ROW);
        let new = (&new[..], &[20][..]);
        let bad_label = Reason::BadLabel.at_start();
        assert_eq!(refused(FIRST, old, new, 2), bad_label);
        assert_eq!(refused(FIRST, new, old, 2), bad_label);
        assert_eq!(joined(BOTH, old.0, new.0), (vec![0], 2));
        assert_eq!(joined(BOTH, new.0, old.0), (vec![20], 2));
        let many = group_2(&ROW.repeat(15));
        assert_eq!(
            joined(BOTH, &many, &[new.0, new.0].concat()),
            (vec![20, 20 + 315 + 41 + 20], 17)
        );
    }
}
