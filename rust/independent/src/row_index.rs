//! The index of a labelled file, and the jump that uses one.

use crate::check_size;
use crate::label::Versions;
use crate::labelled::{self, leaves, walk};
use crate::refusal::{Reason, Refusal};
use crate::window::{Part, Window};

/// One entry stands for this many rows.
pub const GROUP_ROWS: u64 = 16;

/// What the builder answers.
#[derive(Clone, Copy, Debug, PartialEq, Eq)]
pub struct Built {
    pub entries: u64,
    pub rows: u64,
}

/// Writes the index of a file to the front of `list`.
pub fn build(versions: Versions, file: &[u8], list: &mut [u32]) -> Result<Built, Refusal> {
    let rows = labelled::check(versions, file)?;
    let entries = rows.div_ceil(GROUP_ROWS);
    if (list.len() as u64) < entries {
        return Err(Reason::Small.at_start());
    }
    for (slot, entry) in list.iter_mut().zip(entries_of(versions, file)?) {
        *slot = entry?;
    }
    Ok(Built { entries, rows })
}

/// Accepts a list that is exactly the index of an accepted file.
pub fn check(versions: Versions, file: &[u8], list: &[u32]) -> Result<(), Refusal> {
    labelled::check(versions, file)?;
    if entries_of(versions, file)?.eq(list.iter().map(|&entry| Ok(entry))) {
        Ok(())
    } else {
        Err(Reason::BadIndex.at_start())
    }
}

/// Reads a window of row `number` by walking on from the entry of its group. Of
/// the address it fills what the walk fills.
pub fn jump<'a>(
    versions: Versions,
    file: &'a [u8],
    list: &[u32],
    number: u64,
    window: Window,
) -> Result<Part<'a>, Refusal> {
    let end = file.len() as u64;
    check_size(end)?;
    let entry = usize::try_from(number / GROUP_ROWS)
        .ok()
        .and_then(|group| list.get(group))
        .ok_or(Reason::NoRow.at_start())?;
    let place = u64::from(*entry);
    if place > end {
        return Err(Reason::BadIndex.at_start());
    }
    let row = walk(versions, file, place, number % GROUP_ROWS)?;
    window.show(file, row)
}

/// The label places of rows 0, 16, 32 and so on. They fit 32 bits because the
/// size of the file does.
fn entries_of(
    versions: Versions,
    file: &[u8],
) -> Result<impl Iterator<Item = Result<u32, Refusal>> + '_, Refusal> {
    Ok(leaves(versions, file)?
        .step_by(GROUP_ROWS as usize)
        .map(|leaf| leaf.map(|leaf| leaf.row.address.label as u32)))
}

#[cfg(test)]
mod tests {
    use super::*;
    use crate::window::Address;

    const FIRST: Versions = Versions::First;
    const BOTH: Versions = Versions::Both;

    const ALL: Window = Window { first: 0, count: 0 };

    /// `rows` leaves of one byte each, 21 bytes apart.
    fn flat(rows: u8) -> Vec<u8> {
        (0..rows)
            .flat_map(|row| [b"NJPL1I00DEMO00000001".as_slice(), &[row]].concat())
            .collect()
    }

    #[test]
    fn an_entry_for_each_started_group() {
        for (rows, entries) in [(0, 0), (1, 1), (15, 1), (16, 1), (17, 2), (32, 2), (33, 3)] {
            let file = flat(rows);
            let mut list = [7; 4];
            let built = Built {
                entries,
                rows: rows.into(),
            };
            assert_eq!(build(FIRST, &file, &mut list), Ok(built));
            let used = entries as usize;
            assert_eq!(list[..used], [0, 336, 672][..used]);
            assert!(list[used..].iter().all(|&entry| entry == 7));
            assert_eq!(check(FIRST, &file, &list[..used]), Ok(()));
            assert_eq!(check(FIRST, &file, &list), Err(Reason::BadIndex.at_start()));
            if used > 0 {
                let shorter = &list[..used - 1];
                assert_eq!(
                    check(FIRST, &file, shorter),
                    Err(Reason::BadIndex.at_start())
                );
            }
        }
    }

    #[test]
    fn a_short_list_is_left_alone() {
        let file = flat(17);
        let mut list = [7; 1];
        assert_eq!(
            build(FIRST, &file, &mut list),
            Err(Reason::Small.at_start())
        );
        assert_eq!(list, [7]);
    }

    #[test]
    fn faults_come_before_the_list() {
        let file = [0; 19];
        let mut list = [7; 1];
        assert_eq!(build(FIRST, &file, &mut []), Err(Reason::Short.at(0)));
        assert_eq!(build(FIRST, &file, &mut list), Err(Reason::Short.at(0)));
        assert_eq!(check(FIRST, &file, &list), Err(Reason::Short.at(0)));
        assert_eq!(list, [7]);
    }

    #[test]
    fn a_missing_entry_hides_every_fault() {
        assert_eq!(
            jump(FIRST, &[0; 30], &[], 0, ALL),
            Err(Reason::NoRow.at_start())
        );
        assert_eq!(
            jump(FIRST, &[0; 30], &[0], 16, ALL),
            Err(Reason::NoRow.at_start())
        );
        assert_eq!(
            jump(FIRST, &[0; 30], &[0], u64::MAX, ALL),
            Err(Reason::NoRow.at_start())
        );
        assert_eq!(
            jump(FIRST, &flat(1), &[0], 1 << 36, ALL),
            Err(Reason::NoRow.at_start())
        );
    }

    #[test]
    fn entries_at_and_beyond_the_end() {
        let file = flat(1);
        assert_eq!(
            jump(FIRST, &file, &[21], 0, ALL),
            Err(Reason::NoRow.at_start())
        );
        assert_eq!(
            jump(FIRST, &file, &[22], 0, ALL),
            Err(Reason::BadIndex.at_start())
        );
        assert_eq!(
            jump(FIRST, &file, &[u32::MAX], 0, ALL),
            Err(Reason::BadIndex.at_start())
        );
        assert_eq!(jump(FIRST, &file, &[20], 0, ALL), Err(Reason::Short.at(20)));
    }

    #[test]
    fn the_walk_enters_groups_whatever_their_length() {
        let file = b"CCSD1Z00000199999999CCSD1Z00000100000000NJPL1I00DEMO00000003abc";
        let part = jump(FIRST, file, &[0], 0, Window::new(0, 3)).unwrap();
        assert_eq!((part.place, part.bytes), (60, &b"abc"[..]));
        let bad = b"CCSD1Z0000010000x000NJPL1I00DEMO00000003abc";
        assert_eq!(jump(FIRST, bad, &[0], 0, ALL), Err(Reason::BadLength.at(0)));
        let deep = b"CCSD1Z00000100000000".repeat(12);
        assert_eq!(
            jump(FIRST, &deep, &[0], 0, ALL),
            Err(Reason::NoRow.at_start())
        );
    }

    #[test]
    fn the_walk_reads_lengths_behind_spaces() {
        let file = b"CCSD1Z000001 9999999NJPL1I00DEMO       2xyNJPL1I00DEMO  000003abc";
        let part = jump(FIRST, file, &[0], 1, Window::new(0, 3)).unwrap();
        assert_eq!((part.place, part.bytes), (62, &b"abc"[..]));
        let bad = b"CCSD1Z000001        NJPL1I00DEMO       3abc";
        assert_eq!(jump(FIRST, bad, &[0], 0, ALL), Err(Reason::BadLength.at(0)));
        let bad = b"CCSD1Z000001       0NJPL1I00DEMO0000003 abc";
        assert_eq!(
            jump(FIRST, bad, &[0], 0, ALL),
            Err(Reason::BadLength.at(20))
        );
    }

    #[test]
    fn a_leaf_is_measured_against_the_file() {
        // The group claims to be empty, and the leaf runs past it.
        let file = b"CCSD1Z00000100000000NJPL1I00DEMO00000003abc";
        let part = jump(FIRST, file, &[0], 0, Window::new(2, 1)).unwrap();
        assert_eq!((part.place, part.bytes), (42, &b"c"[..]));
        let long = b"CCSD1Z00000100000000NJPL1I00DEMO00000004abc";
        assert_eq!(
            jump(FIRST, long, &[0], 0, Window::new(9, 9)),
            Err(Reason::Overrun.at(20))
        );
    }

    #[test]
    fn an_entry_into_a_value_is_followed() {
        let file = b"NJPL1I00DEMO00000023NJPL1I00DEMO00000003abc";
        let part = jump(FIRST, file, &[20], 0, Window::new(0, 3)).unwrap();
        assert_eq!((part.place, part.bytes), (40, &b"abc"[..]));
        assert_eq!(part.address.label, 20);
        assert_eq!(jump(FIRST, file, &[1], 0, ALL), Err(Reason::BadLabel.at(1)));
    }

    #[test]
    fn what_the_walk_does_not_meet_is_no_fault() {
        let mut file = flat(2);
        file.extend([0; 5]);
        assert!(jump(FIRST, &file, &[0], 1, ALL).is_ok());
        assert_eq!(jump(FIRST, &file, &[0], 2, ALL), Err(Reason::Short.at(42)));
    }

    /// So many empty leaves, of both versions in turn, in a group of version 2.
    fn mixed(rows: usize) -> Vec<u8> {
        let mut file = b"CCSD2Z000001".to_vec();
        file.extend((20 * rows as u64).to_be_bytes());
        let labels = [b"NJPL1I00DEMO00000000", b"NJPL2I00DEMO\0\0\0\0\0\0\0\0"];
        file.extend(labels.into_iter().cycle().take(rows).flatten());
        file
    }

    #[test]
    fn an_index_over_both_versions() {
        let file = mixed(33);
        let mut list = [7; 4];
        let built = build(BOTH, &file, &mut list).unwrap();
        assert_eq!((built.entries, built.rows), (3, 33));
        assert_eq!(list, [20, 340, 660, 7]);
        assert_eq!(check(BOTH, &file, &list[..3]), Ok(()));
        for row in 0..33 {
            let part = jump(BOTH, &file, &list[..3], row, ALL).unwrap();
            assert_eq!(part.place, 40 + 20 * row);
        }
        let refused = Reason::BadLabel.at(0);
        assert_eq!(build(FIRST, &file, &mut list), Err(refused));
        assert_eq!(check(FIRST, &file, &list[..3]), Err(refused));
        assert_eq!(list, [20, 340, 660, 7]);
    }

    /// Version 1 only: what the walk does not meet is no fault to it.
    #[test]
    fn the_walk_is_told_the_versions_too() {
        let file = mixed(3);
        let part = jump(FIRST, &file, &[20], 0, ALL).unwrap();
        assert_eq!(part.place, 40);
        let refused = jump(FIRST, &file, &[20], 1, ALL);
        assert_eq!(refused, Err(Reason::BadLabel.at(40)));
        let refused = jump(FIRST, &file, &[0], 0, ALL);
        assert_eq!(refused, Err(Reason::BadLabel.at(0)));
    }

    #[test]
    fn the_walk_enters_groups_whatever_their_binary_length() {
        for length in [0, 1, 63, 64, 1 << 32, 1 << 63, u64::MAX - 19, u64::MAX] {
            let mut file = mixed(3);
            file[12..20].copy_from_slice(&u64::to_be_bytes(length));
            for row in 0..3 {
                let part = jump(BOTH, &file, &[0], row, ALL).unwrap();
                assert_eq!(part.place, 40 + 20 * row);
            }
            assert_eq!(
                jump(BOTH, &file, &[0], 3, ALL),
                Err(Reason::NoRow.at_start())
            );
        }
    }

    #[test]
    fn the_jump_fills_the_place_of_the_label_only() {
        let file = [flat(1), mixed(18)].concat();
        let mut list = [0; 2];
        assert_eq!(build(BOTH, &file, &mut list).unwrap().rows, 19);
        assert_eq!(list, [0, 341]);
        for row in 0..19 {
            let part = jump(BOTH, &file, &list, row, ALL).unwrap();
            let label = if row == 0 { 0 } else { 21 + 20 * row };
            let nesting = None;
            assert_eq!(part.address, Address { label, nesting });
            let read = labelled::read_row(BOTH, &file, row, ALL).unwrap();
            assert_eq!((part.place, label), (read.place, read.address.label));
            assert!(read.address.nesting.is_some());
        }
    }

    #[test]
    fn a_window_does_not_move_the_address_of_a_jump() {
        let file = b"CCSD1Z00000100000023NJPL1I00DEMO00000003abc";
        for (first, count) in [(0, 3), (0, 0), (1, 1), (2, 1), (3, 0)] {
            let part = jump(FIRST, file, &[20], 0, Window::new(first, count)).unwrap();
            let (label, nesting) = (20, None);
            assert_eq!(part.place, 40 + first);
            assert_eq!(part.address, Address { label, nesting });
        }
    }
}
