//! Labelled files: the pass over their labels, the check, reading a row without
//! an index, and going on from a place.

use crate::check_size;
use crate::label::{Label, Versions, LABEL_BYTES};
use crate::refusal::{Reason, Refusal};
use crate::window::{Address, Nesting, Part, Row, Window};

/// Labels may stand this deep; the outermost ones are at depth 1.
pub const DEEPEST: usize = 8;

/// A leaf as the pass meets it.
#[derive(Clone, Copy, Debug, PartialEq, Eq)]
pub struct Leaf {
    pub label: Label,
    /// Where its value stands, and its address with nothing absent.
    pub row: Row,
}

/// A group that is open during the pass, or the file.
struct Open {
    /// Where it ends.
    end: u64,
    /// Where the outermost object begins that the group is or lies in; nothing
    /// for the file, as each label right inside it is an outermost one.
    outermost: Option<u64>,
}

/// Passes through a file in order and gives its leaves, up to the first fault.
///
/// Open groups are kept as a pile. The file itself lies at the bottom of the
/// pile, so the size of the pile is the depth at which the next label would
/// stand.
pub struct Leaves<'a> {
    versions: Versions,
    file: &'a [u8],
    place: u64,
    pile: Vec<Open>,
}

/// Begins a pass at the first byte of a file.
pub fn leaves(versions: Versions, file: &[u8]) -> Result<Leaves<'_>, Refusal> {
    let length = file.len() as u64;
    check_size(length)?;
    let whole = Open {
        end: length,
        outermost: None,
    };
    Ok(Leaves {
        versions,
        file,
        place: 0,
        pile: vec![whole],
    })
}

impl Leaves<'_> {
    /// Goes on to the next leaf; gives nothing once the whole file is passed.
    fn advance(&mut self) -> Result<Option<Leaf>, Refusal> {
        loop {
            let place = self.place;
            while self.pile.last().is_some_and(|open| open.end == place) {
                self.pile.pop();
            }
            let Some(&Open { end, outermost }) = self.pile.last() else {
                return Ok(None);
            };
            if self.pile.len() > DEEPEST {
                return Err(Reason::Deep.at(place));
            }
            let label = Label::read_at(self.versions, self.file, place, end)?;
            let start = place + LABEL_BYTES;
            if label.length > end - start {
                return Err(Reason::Overrun.at(place));
            }
            let value_end = start + label.length;
            let outermost = outermost.unwrap_or(place);
            if label.is_group() {
                self.pile.push(Open {
                    end: value_end,
                    outermost: Some(outermost),
                });
                self.place = start;
                continue;
            }
            self.place = value_end;
            let nesting = Nesting {
                depth: self.pile.len() as u64,
                outermost,
            };
            let row = Row {
                start,
                length: label.length,
                address: Address {
                    label: place,
                    nesting: Some(nesting),
                },
            };
            return Ok(Some(Leaf { label, row }));
        }
    }
}

impl Iterator for Leaves<'_> {
    type Item = Result<Leaf, Refusal>;

    fn next(&mut self) -> Option<Self::Item> {
        let step = self.advance();
        if step.is_err() {
            // Nothing follows a fault.
            self.pile.clear();
        }
        step.transpose()
    }
}

/// Checks a whole file and answers how many rows it has.
pub fn check(versions: Versions, file: &[u8]) -> Result<u64, Refusal> {
    leaves(versions, file)?.try_fold(0, |rows, leaf| leaf.map(|_| rows + 1))
}

/// Reads a window of row `number` by passing through the file from its first
/// byte. The rest of the file is passed too, as a fault anywhere refuses it.
pub fn read_row(
    versions: Versions,
    file: &[u8],
    number: u64,
    window: Window,
) -> Result<Part<'_>, Refusal> {
    let mut wanted = None;
    for (count, leaf) in (0u64..).zip(leaves(versions, file)?) {
        let leaf = leaf?;
        if count == number {
            wanted = Some(leaf.row);
        }
    }
    let row = wanted.ok_or(Reason::NoRow.at_start())?;
    window.show(file, row)
}

/// Gives the first row from a place on, whole. A place beyond the file has no
/// row; what else stands in the way is what the walk meets. Of the address it
/// fills what the walk fills.
pub fn row_from(versions: Versions, file: &[u8], from: u64) -> Result<Part<'_>, Refusal> {
    let end = file.len() as u64;
    check_size(end)?;
    if from > end {
        return Err(Reason::NoRow.at_start());
    }
    let row = walk(versions, file, from, 0)?;
    Window::new(0, row.length).show(file, row)
}

/// Walks on from a place inside the file, or from its end, past so many leaves
/// to the next one.
///
/// The walk knows nothing of depth: it enters each group it meets, ignores how
/// long the group says it is, and measures leaves against the end of the file.
/// So the address that it gives has the label's place only.
pub(crate) fn walk(
    versions: Versions,
    file: &[u8],
    from: u64,
    leaves_before: u64,
) -> Result<Row, Refusal> {
    let end = file.len() as u64;
    let mut place = from;
    let mut leaves_before = leaves_before;
    while place < end {
        let label = Label::read_at(versions, file, place, end)?;
        let start = place + LABEL_BYTES;
        if label.is_group() {
            place = start;
            continue;
        }
        if label.length > end - start {
            return Err(Reason::Overrun.at(place));
        }
        if leaves_before == 0 {
            return Ok(Row {
                start,
                length: label.length,
                address: Address {
                    label: place,
                    nesting: None,
                },
            });
        }
        leaves_before -= 1;
        place = start + label.length;
    }
    Err(Reason::NoRow.at_start())
}

#[cfg(test)]
mod tests {
    use super::*;

    const FIRST: Versions = Versions::First;
    const BOTH: Versions = Versions::Both;

    #[test]
    fn an_empty_file_has_no_row() {
        assert_eq!(check(FIRST, b""), Ok(0));
        assert_eq!(
            read_row(FIRST, b"", 0, Window::new(0, 0)),
            Err(Reason::NoRow.at_start())
        );
    }

    #[test]
    fn a_late_fault_refuses_an_early_row() {
        let file = b"NJPL1I00DEMO00000003abcNJPL1I00DEMO0000000x";
        let refusal = Err(Reason::BadLength.at(23));
        assert_eq!(read_row(FIRST, file, 0, Window::new(0, 1)), refusal);
        assert_eq!(read_row(FIRST, file, 9, Window::new(9, 9)), refusal);
    }

    #[test]
    fn rows_are_numbered_across_groups() {
        let file = b"CCSD1Z00000100000043NJPL1I00DEMO00000003abcNJPL1I00DEMO00000000\
                     CCSD1Z00000100000000NJPL1K00LAST00000002xy";
        assert_eq!(check(FIRST, file), Ok(3));
        let part = read_row(FIRST, file, 2, Window::new(1, 1)).unwrap();
        assert_eq!((part.place, part.bytes), (104, &b"y"[..]));
        let empty = read_row(FIRST, file, 1, Window::new(0, 0)).unwrap();
        assert_eq!((empty.place, empty.bytes), (63, &b""[..]));
        assert_eq!(
            read_row(FIRST, file, 1, Window::new(0, 1)),
            Err(Reason::NoPart.at_start())
        );
        assert_eq!(
            read_row(FIRST, file, 3, Window::new(0, 0)),
            Err(Reason::NoRow.at_start())
        );
    }

    #[test]
    fn fill_after_the_last_object_is_no_part_of_a_file() {
        let mut file = b"NJPL1I00DEMO00000000".to_vec();
        file.extend([b'^'; 19]);
        assert_eq!(check(FIRST, &file), Err(Reason::Short.at(20)));
        file.push(b'^');
        assert_eq!(check(FIRST, &file), Err(Reason::BadLabel.at(20)));
    }

    #[test]
    fn a_label_inside_a_leaf_is_only_bytes() {
        let file = b"NJPL1I00DEMO00000020NJPL1I00DEMO00000000";
        assert_eq!(check(FIRST, file), Ok(1));
    }

    #[test]
    fn one_byte_inside_the_deepest_group_is_too_deep() {
        let mut file = Vec::new();
        for left in (0..8).rev() {
            file.extend(format!("CCSD1Z000001{:08}", left * 20 + 1).bytes());
        }
        file.push(b'x');
        assert_eq!(check(FIRST, &file), Err(Reason::Deep.at(160)));
    }

    #[test]
    fn a_set_inside_a_group_of_any_class_is_its_rows() {
        for class in ['Z', 'U', 'F'] {
            let set = format!("CCSD1{class}00000100000043");
            let file = set + "NJPL1I00DEMO00000003abcNJPL1E00DEMO00000000";
            assert_eq!(check(FIRST, file.as_bytes()), Ok(2));
            let part = read_row(FIRST, file.as_bytes(), 0, Window::new(0, 3)).unwrap();
            assert_eq!((part.place, part.bytes), (40, &b"abc"[..]));
            assert_eq!(from(file.as_bytes(), 43), Ok((63, &b""[..])));
        }
    }

    #[test]
    fn groups_of_all_classes_are_refused_alike() {
        for class in ['Z', 'U', 'F'] {
            for (value, reason) in [
                ("x", Reason::Short),
                ("NJPL1I00DEMO0000000", Reason::Short),
                ("NJPL1i00DEMO00000000", Reason::BadLabel),
                ("NJPL1I00DEMO0000000 ", Reason::BadLength),
                ("NJPL1I00DEMO00000001", Reason::Overrun),
            ] {
                let file = format!("CCSD1{class}000001{:08}{value}y", value.len());
                assert_eq!(check(FIRST, file.as_bytes()), Err(reason.at(20)), "{file}");
            }
        }
    }

    #[test]
    fn lengths_behind_spaces() {
        let file = b"CCSD1Z000001      43NJPL1I00DEMO       3abcNJPL1I00DEMO   00000";
        assert_eq!(check(FIRST, file), Ok(2));
        let part = read_row(FIRST, file, 0, Window::new(1, 2)).unwrap();
        assert_eq!((part.place, part.bytes), (41, &b"bc"[..]));
        let spaces: Vec<u8> = leaves(FIRST, file)
            .unwrap()
            .map(|leaf| leaf.unwrap().label.spaces)
            .collect();
        assert_eq!(spaces, [7, 3]);
    }

    #[test]
    fn faults_of_lengths_behind_spaces() {
        for (file, refusal) in [
            (&b"NJPL1I00DEMO       4abc"[..], Reason::Overrun.at(0)),
            (b"CCSD1Z000001       1", Reason::Overrun.at(0)),
            (b"CCSD1Z000001        ", Reason::BadLength.at(0)),
            (
                b"CCSD1Z000001      20NJPL1I00DEMO       1x",
                Reason::Overrun.at(20),
            ),
            (
                b"CCSD1Z000001      20NJPL1I00DEMO      0 ",
                Reason::BadLength.at(20),
            ),
        ] {
            assert_eq!(check(FIRST, file), Err(refusal));
        }
    }

    fn from(file: &[u8], place: u64) -> Result<(u64, &[u8]), Refusal> {
        row_from(FIRST, file, place).map(|part| (part.place, part.bytes))
    }

    #[test]
    fn going_on_at_the_end_of_each_row_gives_all_rows() {
        let file = b"CCSD1Z00000100000043NJPL1I00DEMO00000003abcNJPL1I00DEMO00000000\
                     CCSD1Z00000100000000NJPL1K00LAST00000002xy";
        assert_eq!(from(file, 0), Ok((40, &b"abc"[..])));
        assert_eq!(from(file, 43), Ok((63, &b""[..])));
        assert_eq!(from(file, 63), Ok((103, &b"xy"[..])));
        assert_eq!(from(file, 105), Err(Reason::NoRow.at_start()));
    }

    #[test]
    fn a_place_beyond_the_file_has_no_row() {
        for place in [1, 2, 1 << 32, u64::MAX - 19, u64::MAX] {
            assert_eq!(from(b"", place), Err(Reason::NoRow.at_start()));
        }
        assert_eq!(from(b"", 0), Err(Reason::NoRow.at_start()));
        assert_eq!(from(&[0; 30], 31), Err(Reason::NoRow.at_start()));
    }

    #[test]
    fn going_on_meets_faults_where_it_comes_by() {
        let file = b"NJPL1I00DEMO00000003abcCCSD1Z0000010000x000NJPL1I00DEMO00000009abc";
        assert_eq!(from(file, 0), Ok((20, &b"abc"[..])));
        assert_eq!(from(file, 1), Err(Reason::BadLabel.at(1)));
        assert_eq!(from(file, 23), Err(Reason::BadLength.at(23)));
        assert_eq!(from(file, 43), Err(Reason::Overrun.at(43)));
        assert_eq!(from(file, 60), Err(Reason::Short.at(60)));
    }

    #[test]
    fn going_on_enters_groups_whatever_their_length() {
        let file = b"CCSD1Z00000199999999CCSD1Z00000100000000NJPL1I00DEMO00000003abc";
        assert_eq!(from(file, 0), Ok((60, &b"abc"[..])));
        let deep = b"CCSD1Z00000100000000".repeat(12);
        assert_eq!(from(&deep, 0), Err(Reason::NoRow.at_start()));
    }

    #[test]
    fn going_on_reads_lengths_behind_spaces() {
        let file = b"CCSD1Z000001 9999999NJPL1I00DEMO       3abcCCSD1Z000001        ";
        assert_eq!(from(file, 0), Ok((40, &b"abc"[..])));
        assert_eq!(from(file, 43), Err(Reason::BadLength.at(43)));
        let long = b"CCSD1Z000001       0NJPL1I00DEMO       4abc";
        assert_eq!(from(long, 0), Err(Reason::Overrun.at(20)));
    }

    #[test]
    fn going_on_inside_a_value_takes_its_bytes_for_labels() {
        let file = b"NJPL1I00DEMO00000023NJPL1I00DEMO00000003abc";
        assert_eq!(from(file, 20), Ok((40, &b"abc"[..])));
    }

    /// A label of version 2.
    fn label_2(head: &[u8; 12], length: u64) -> Vec<u8> {
        [&head[..], &length.to_be_bytes()].concat()
    }

    fn group_2(inside: &[u8]) -> Vec<u8> {
        [
            label_2(b"CCSD2Z000001", inside.len() as u64),
            inside.to_vec(),
        ]
        .concat()
    }

    fn leaf_2(value: &[u8]) -> Vec<u8> {
        [label_2(b"NJPL2I00DEMO", value.len() as u64), value.to_vec()].concat()
    }

    #[test]
    fn both_versions_in_one_another() {
        let old = b"NJPL1I00DEMO00000003abc";
        let rows = [leaf_2(b"xy"), old.to_vec(), leaf_2(b"")].concat();
        let outer = format!("CCSD1U000001{:08}", rows.len()).into_bytes();
        for file in [rows.clone(), group_2(&rows), [outer, rows].concat()] {
            let front = file.len() - 65;
            assert_eq!(check(BOTH, &file), Ok(3));
            let part = read_row(BOTH, &file, 1, Window::new(1, 2)).unwrap();
            assert_eq!((part.place, part.bytes), (front as u64 + 43, &b"bc"[..]));
            let part = row_from(BOTH, &file, part.place + 2).unwrap();
            assert_eq!((part.place, part.bytes), (file.len() as u64, &b""[..]));
            let refused = Reason::BadLabel.at(if file[4] == b'1' { 20 } else { 0 });
            assert_eq!(check(FIRST, &file), Err(refused));
            assert_eq!(read_row(FIRST, &file, 0, Window::new(0, 0)), Err(refused));
            assert_eq!(row_from(FIRST, &file, 0), Err(refused));
        }
    }

    /// Lengths that would come out right, or small, if they were cut or if a place were added to
    /// them. The value has 3 bytes, or 23 in the group.
    #[test]
    fn binary_lengths_do_not_turn() {
        let cut = [31, 32, 63].map(|bit| 1u64 << bit);
        let cut = cut.into_iter().flat_map(|n| [n - 1, n, n + 3, n + 23]);
        let turned = [1, 2, 17, 20, 23, 37, 40, 43].map(|n| 0u64.wrapping_sub(n));
        for length in cut.chain(turned).chain([24, 24 << 8, 3 << 56, 23 << 56]) {
            let leaf = [label_2(b"NJPL2I00DEMO", length), b"abc".to_vec()].concat();
            for (file, place) in [(group_2(&leaf), 20), (leaf, 0)] {
                let overrun = Reason::Overrun.at(place);
                assert_eq!(check(BOTH, &file), Err(overrun));
                assert_eq!(row_from(BOTH, &file, 0), Err(overrun));
            }
            let row = b"NJPL1I00DEMO00000003abc".to_vec();
            let group = [label_2(b"CCSD2Z000001", length), row].concat();
            assert_eq!(check(BOTH, &group), Err(Reason::Overrun.at(0)));
            let row = row_from(BOTH, &group, 0).unwrap();
            assert_eq!((row.place, row.bytes), (40, &b"abc"[..]));
        }
    }

    #[test]
    fn a_late_label_of_version_2_is_a_late_fault() {
        let file = [b"NJPL1I00DEMO00000003abc".to_vec(), leaf_2(b"xy")].concat();
        assert_eq!(check(BOTH, &file), Ok(2));
        assert_eq!(check(FIRST, &file), Err(Reason::BadLabel.at(23)));
        assert_eq!(from(&file, 0), Ok((20, &b"abc"[..])));
        assert_eq!(from(&file, 23), Err(Reason::BadLabel.at(23)));
        assert_eq!(row_from(BOTH, &file, 23).unwrap().bytes, b"xy");
    }

    #[test]
    fn the_version_says_which_length_it_is() {
        // Digits behind a 2 are a large number; a binary number behind a 1 is none.
        let digits = b"NJPL2I00DEMO00000003abc";
        assert_eq!(check(BOTH, digits), Err(Reason::Overrun.at(0)));
        let mut binary = leaf_2(b"abc");
        binary[4] = b'1';
        assert_eq!(check(BOTH, &binary), Err(Reason::BadLength.at(0)));
        let mut group = group_2(b"");
        group[4] = b'1';
        assert_eq!(row_from(BOTH, &group, 0), Err(Reason::BadLength.at(0)));
    }

    #[test]
    fn depth_does_not_depend_on_the_version() {
        let mut file = Vec::new();
        for depth in 0..8 {
            file = match depth % 2 {
                0 => group_2(&file),
                _ => [format!("CCSD1F000001{:08}", file.len()).as_bytes(), &file].concat(),
            };
        }
        assert_eq!(check(BOTH, &file), Ok(0));
        assert_eq!(check(BOTH, &group_2(&file)), Err(Reason::Deep.at(160)));
    }

    /// A group of version 1.
    fn group_1(class: char, inside: &[u8]) -> Vec<u8> {
        let label = format!("CCSD1{class}000001{:08}", inside.len());
        [label.as_bytes(), inside].concat()
    }

    /// Label's place, depth and outermost place of each row, as read.
    fn addresses(versions: Versions, file: &[u8]) -> Vec<(u64, u64, u64)> {
        let rows = check(versions, file).unwrap();
        let address = |row| {
            let part = read_row(versions, file, row, Window::new(0, 0)).unwrap();
            let nesting = part.address.nesting.unwrap();
            (part.address.label, nesting.depth, nesting.outermost)
        };
        (0..rows).map(address).collect()
    }

    const ROW: &[u8] = b"NJPL1I00DEMO00000001x";

    #[test]
    fn addresses_at_all_depths() {
        // At each depth a row, the next group and a row behind it.
        let mut file = [ROW, ROW].concat();
        for _ in 1..8 {
            file = [ROW, &group_1('Z', &file), ROW].concat();
        }
        let expected = [
            (0, 1, 0),
            (41, 2, 21),
            (82, 3, 21),
            (123, 4, 21),
            (164, 5, 21),
            (205, 6, 21),
            (246, 7, 21),
            (287, 8, 21),
            (308, 8, 21),
            (329, 7, 21),
            (350, 6, 21),
            (371, 5, 21),
            (392, 4, 21),
            (413, 3, 21),
            (434, 2, 21),
            (455, 1, 455),
        ];
        assert_eq!(addresses(FIRST, &file), expected);
        assert_eq!(addresses(BOTH, &file), expected);
        // The same again behind it: all places grow, the depths stay.
        let length = file.len() as u64;
        let again =
            expected.map(|(label, depth, outermost)| (label + length, depth, outermost + length));
        let twice = file.repeat(2);
        assert_eq!(addresses(FIRST, &twice), [expected, again].concat());
    }

    #[test]
    fn each_outermost_object_has_its_own_place() {
        for (one, other) in [('Z', 'Z'), ('U', 'F'), ('F', 'U')] {
            let file = [
                group_1(one, &[ROW, ROW].concat()),
                group_1(other, &group_1(one, ROW)),
                ROW.to_vec(),
                group_1(other, ROW),
            ]
            .concat();
            let expected = [
                (20, 2, 0),
                (41, 2, 0),
                (102, 3, 62),
                (123, 1, 123),
                (164, 2, 144),
            ];
            assert_eq!(addresses(FIRST, &file), expected);
        }
    }

    #[test]
    fn empty_groups_leave_no_trace_in_an_address() {
        let empty = group_1('Z', b"");
        let nested = group_1('Z', &group_1('U', &empty));
        // In front of rows and behind them, also in a group.
        let inside = [&empty[..], ROW, &nested, ROW].concat();
        let group = group_1('F', &inside);
        let file = [&empty[..], ROW, &nested, ROW, &group, ROW, &empty].concat();
        let expected = [
            (20, 1, 20),
            (101, 1, 101),
            (162, 2, 122),
            (243, 2, 122),
            (264, 1, 264),
        ];
        assert_eq!(addresses(FIRST, &file), expected);
    }

    #[test]
    fn empty_rows_have_their_own_labels() {
        let empty = b"NJPL1I00DEMO00000000";
        let file = [group_1('Z', &empty.repeat(2)), empty.repeat(2)].concat();
        let expected = [(20, 2, 0), (40, 2, 0), (60, 1, 60), (80, 1, 80)];
        assert_eq!(addresses(FIRST, &file), expected);
    }

    #[test]
    fn addresses_do_not_depend_on_the_version() {
        let inside = [&leaf_2(b"xy")[..], ROW, &group_2(ROW)].concat();
        let expected = [
            (0, 1, 0),
            (62, 3, 22),
            (84, 3, 22),
            (125, 4, 22),
            (146, 1, 146),
        ];
        for group in [
            group_1('Z', &group_2(&inside)),
            group_2(&group_1('Z', &inside)),
            group_2(&group_2(&inside)),
        ] {
            let file = [&leaf_2(b"xy")[..], &group, ROW].concat();
            assert_eq!(addresses(BOTH, &file), expected);
        }
    }

    #[test]
    fn a_window_does_not_move_an_address() {
        let file = [ROW, &group_1('Z', b"NJPL1I00DEMO00000003abc")].concat();
        let nesting = Some(Nesting {
            depth: 2,
            outermost: 21,
        });
        let address = Address { label: 41, nesting };
        for (first, count) in [(0, 3), (0, 0), (1, 1), (2, 1), (3, 0)] {
            let part = read_row(FIRST, &file, 1, Window::new(first, count)).unwrap();
            assert_eq!((part.place, part.address), (61 + first, address));
        }
    }

    #[test]
    fn going_on_fills_the_place_of_the_label_only() {
        let file = [
            group_1('Z', &[ROW, &group_2(&leaf_2(b""))].concat()),
            ROW.to_vec(),
        ]
        .concat();
        let read = [(20, 2, 0), (61, 3, 0), (81, 1, 81)];
        assert_eq!(addresses(BOTH, &file), read);
        // From the label itself, and from each group in front of it.
        for (from, label) in [(0, 20), (20, 20), (41, 61), (61, 61), (81, 81)] {
            let part = row_from(BOTH, &file, from).unwrap();
            let nesting = None;
            assert_eq!(part.address, Address { label, nesting });
        }
    }
}
