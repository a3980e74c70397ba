//! Sizes that no line of text reaches: files, lists and buffers of 4 GiB and around it, lent for
//! real to both implementations. Zeroed memory takes no room until it is written to, and no call
//! here reads or writes much of it: a labelled file has 43 labels, the others refuse early or
//! look at the front only.

use conformance::generator::kept::record;
use conformance::library::{INDEPENDENT, PROVED};
use conformance::Library;
use crestulbino::{
    Built, Chosen, Dot, Field, Kept2, Kind, Refusal, Refused, Row, Source, Text, Verdict, Version,
    Versions, Window,
};

const BOTH: [Library; 2] = [INDEPENDENT, PROVED];

const CHOICES: [Versions; 2] = [Versions::One, Versions::OneAndTwo];

/// Each implementation with each choice.
fn told() -> impl Iterator<Item = (Library, Versions)> {
    let with = |library| CHOICES.map(|versions| (library, versions));
    BOTH.into_iter().flat_map(with)
}

/// The most bytes that a file may have.
const MOST: usize = 4_294_967_295;

const LONGEST_VALUE: usize = 99_999_999;

/// The label, and the length, of the last row of the largest labelled file.
const LAST_LABEL: usize = 42 * (20 + LONGEST_VALUE);
const LAST_LENGTH: usize = MOST - LAST_LABEL - 20;

const EMPTY: Window = Window::new(0, 0);

fn refused<T>(refusal: Refusal) -> Result<T, Refused> {
    refused_at(refusal, 0)
}

fn refused_at<T>(refusal: Refusal, place: usize) -> Result<T, Refused> {
    Err(Refused { refusal, place })
}

/// Where a row stands, without its bytes.
fn stands(row: Result<Row<'_>, Refused>) -> Result<(usize, usize), Refused> {
    row.map(|row| (row.place, row.bytes.len()))
}

/// A file of so many bytes, with 43 rows in the largest one that is allowed.
fn labelled(size: usize) -> Vec<u8> {
    let mut file = vec![0; size];
    let mut place = 0;
    while place + 20 <= size {
        let length = (size - place - 20).min(LONGEST_VALUE);
        let label = format!("NJPL1I00DEMO{length:08}");
        file[place..place + 20].copy_from_slice(label.as_bytes());
        place += 20 + length;
    }
    file
}

#[test]
fn the_largest_labelled_file() {
    let file = labelled(MOST);
    let index = [0, 1_600_000_304, 3_200_000_608];
    for (library, versions) in told() {
        let kind = Kind::Labelled(versions);
        assert_eq!((library.check)(kind, &file), Ok(43));
        let mut list = [7; 4];
        let built = (library.build_index)(versions, &file, &mut list).unwrap();
        assert_eq!((built.entries, built.rows), (3, 43));
        assert_eq!(list, [index[0], index[1], index[2], 7]);
        assert_eq!((library.check_index)(versions, &file, &index), Ok(()));
        assert_eq!(
            (library.check_index)(versions, &file, &list),
            refused(Refusal::BadIndex)
        );
        let (mut kept, mut counted) = (record(1, &index), [7; 23]);
        let written = (library.convert_1_to_2)(versions, &file, &kept, &mut counted);
        assert_eq!((written, counted[22]), (Ok(22), 7));
        assert_eq!(counted[..22], record(2, &[&[43], &index[..]].concat()));
        let checked = (library.check_kept2)(versions, &file, &counted[..22]);
        assert_eq!(checked, Ok(()));
        counted[6] = 42;
        let checked = (library.check_kept2)(versions, &file, &counted[..22]);
        assert_eq!(checked, refused(Refusal::BadIndex));
        kept[17] ^= 0x80;
        let written = (library.convert_1_to_2)(versions, &file, &kept, &mut counted);
        assert_eq!(written, refused(Refusal::BadIndex));
        for (first, count, expected) in [
            (LAST_LENGTH - 1, 1, Ok((MOST - 1, 1))),
            (LAST_LENGTH, 0, Ok((MOST, 0))),
            (LAST_LENGTH, 1, refused(Refusal::NoPart)),
            (0, LAST_LENGTH, Ok((LAST_LABEL + 20, LAST_LENGTH))),
        ] {
            let window = Window::new(first, count);
            let read = (library.read_row)(kind, &file, 42, window);
            assert_eq!(stands(read), expected);
            let jumped = (library.jump_labelled)(versions, &file, &index, 42, window);
            assert_eq!(stands(jumped), expected);
        }
        for (from, expected) in [
            (LAST_LABEL, Ok((LAST_LABEL + 20, LAST_LENGTH))),
            (MOST - 19, refused_at(Refusal::Short, MOST - 19)),
            (MOST - 20, refused_at(Refusal::BadLabel, MOST - 20)),
            (MOST, refused(Refusal::NoRow)),
            (MOST + 1, refused(Refusal::NoRow)),
        ] {
            let row = (library.row_from)(kind, &file, from);
            assert_eq!(stands(row), expected);
        }
        draws_last(&library, kind, &file, (42, LAST_LENGTH), MOST);
        let entry = |place: usize| [u32::try_from(place).unwrap()];
        let jumped = (library.jump_labelled)(versions, &file, &entry(MOST), 0, EMPTY);
        assert_eq!(stands(jumped), refused(Refusal::NoRow));
        let jumped = (library.jump_labelled)(versions, &file[1..], &entry(MOST), 0, EMPTY);
        assert_eq!(stands(jumped), refused(Refusal::BadIndex));
    }
}

/// Dots and strips at the end of a file's last row, which has this number and so many bytes of 0 and ends at this
/// place.
fn draws_last(
    library: &Library,
    kind: Kind,
    file: &[u8],
    (last, length): (usize, usize),
    end: usize,
) {
    for (row, window, expected) in [
        (last, Window::new(length - 1, 1), Ok((1, [0x80, 7, 7]))),
        (last, Window::new(length - 9, 9), Ok((2, [0xff, 0x80, 7]))),
        (last, Window::new(length, 0), Ok((0, [7; 3]))),
        (last, Window::new(length, 1), refused(Refusal::NoPart)),
        // More dots than there is room for, in whole bytes as many as 2^32, and as many as 2^64 with a sum.
        (last, Window::new(0, length), refused(Refusal::Small)),
        (last, Window::new(0, 1 << 35), refused(Refusal::NoPart)),
        (last, Window::new(1, usize::MAX), refused(Refusal::NoPart)),
        (last + 1, Window::new(0, 1), refused(Refusal::NoRow)),
        (last + (1 << 32), Window::new(0, 1), refused(Refusal::NoRow)),
    ] {
        let mut lines = [7; 3];
        let drawn = (library.strip)(kind, file, row, 1, window, &mut lines);
        assert_eq!(drawn.map(|written| (written, lines)), expected);
        let column = window.count.wrapping_sub(1);
        let dot = (library.behind)(kind, file, row, window, column, 0);
        match expected {
            Ok((1.., _)) => {
                let black = Dot {
                    place: end - 1,
                    byte: 0,
                    tone: 0,
                    is_set: true,
                };
                assert_eq!(dot, Ok(black));
            }
            Err(fault) if fault.refusal == Refusal::Small => assert!(dot.is_ok()),
            Err(fault) => assert_eq!(dot, Err(fault)),
            Ok(_) => assert_eq!(dot, refused(Refusal::NoPart)),
        }
        if expected.is_err() {
            assert_eq!(lines, [7; 3]);
        }
    }
}

/// A file of so many bytes, all of it one row of version 2, inside of so many groups of it.
fn one_row(size: usize, groups: usize) -> Vec<u8> {
    let mut file = vec![0; size];
    for number in 0..=groups {
        let head = if number < groups {
            b"CCSD2Z000001"
        } else {
            b"NJPL2I00DEMO"
        };
        let label = &mut file[20 * number..20 * (number + 1)];
        label[..12].copy_from_slice(head);
        let length = (size - 20 * (number + 1)) as u64;
        label[12..].copy_from_slice(&length.to_be_bytes());
    }
    file
}

/// Lengths of more than eight digits, which just fit or are a byte too long, and the same in more
/// bits than a place has.
#[test]
fn the_largest_file_in_version_2() {
    let kind = Kind::Labelled(Versions::OneAndTwo);
    for groups in 0..8 {
        let mut file = one_row(MOST, groups);
        let (label, value) = (20 * groups, 20 * (groups + 1));
        let length = MOST - value;
        let index = [label as u32];
        for library in BOTH {
            assert_eq!((library.check)(kind, &file), Ok(1));
            let mut list = [7; 2];
            let built = (library.build_index)(Versions::OneAndTwo, &file, &mut list).unwrap();
            assert_eq!((built.entries, built.rows, list), (1, 1, [index[0], 7]));
            let kept = record(2, &[1, index[0]]);
            let checked = (library.check_kept2)(Versions::OneAndTwo, &file, &kept);
            assert_eq!(checked, Ok(()));
            for (first, count, expected) in [
                (length - 1, 1, Ok((MOST - 1, 1))),
                (length, 0, Ok((MOST, 0))),
                (0, length, Ok((value, length))),
                (1, length, refused(Refusal::NoPart)),
            ] {
                let window = Window::new(first, count);
                let read = (library.read_row)(kind, &file, 0, window);
                assert_eq!(stands(read), expected);
                let jumped = (library.jump_labelled)(Versions::OneAndTwo, &file, &index, 0, window);
                assert_eq!(stands(jumped), expected);
            }
            let row = (library.row_from)(kind, &file, 0);
            assert_eq!(stands(row), Ok((value, length)));
            draws_last(&library, kind, &file, (0, length), MOST);
            let one = Kind::Labelled(Versions::One);
            assert_eq!((library.check)(one, &file), refused(Refusal::BadLabel));
        }
        // The row, then the group around it: each wrong in turn.
        for number in [groups, groups.saturating_sub(1)] {
            let place = 20 * number;
            let right = (MOST - place - 20) as u64;
            for wrong in [right + 1, right | 1 << 32, right | 1 << 63, u64::MAX] {
                file[place + 12..place + 20].copy_from_slice(&wrong.to_be_bytes());
                let walked = match number == groups {
                    true => refused_at(Refusal::Overrun, place),
                    false => Ok((value, length)),
                };
                for library in BOTH {
                    let rows = (library.check)(kind, &file);
                    assert_eq!(rows, refused_at(Refusal::Overrun, place));
                    let row = (library.row_from)(kind, &file, 0);
                    assert_eq!(stands(row), walked);
                }
            }
            file[place + 12..place + 20].copy_from_slice(&right.to_be_bytes());
        }
    }
}

#[test]
fn zeros_of_the_largest_size_are_no_labelled_file() {
    let file = vec![0; MOST];
    for (library, versions) in told() {
        let rows = (library.check)(Kind::Labelled(versions), &file);
        assert_eq!(rows, refused(Refusal::BadLabel));
    }
}

#[test]
fn one_byte_more_than_a_file_may_have() {
    let file = labelled(MOST + 1);
    for (library, versions) in told() {
        for kind in [Kind::Labelled(versions), Kind::Waveform] {
            assert_eq!((library.check)(kind, &file), refused(Refusal::TooBig));
            let read = (library.read_row)(kind, &file, 0, EMPTY);
            assert_eq!(stands(read), refused(Refusal::TooBig));
            let row = (library.row_from)(kind, &file, 0);
            assert_eq!(stands(row), refused(Refusal::TooBig));
            draws_nothing(&library, kind, &file, Refusal::TooBig);
        }
        let jumped = (library.jump_labelled)(versions, &file, &[], 0, EMPTY);
        assert_eq!(stands(jumped), refused(Refusal::TooBig));
        let jumped = (library.jump_waveform)(&file, 0, EMPTY);
        assert_eq!(stands(jumped), refused(Refusal::TooBig));
        // Whatever the first place, the row and the field.
        for start in [0, 64, MOST + 1, MOST + 2, usize::MAX] {
            let kind = Kind::Bursts(start);
            assert_eq!((library.check)(kind, &file), refused(Refusal::TooBig));
            let row = (library.row_from)(kind, &file, start);
            assert_eq!(stands(row), refused(Refusal::TooBig));
            draws_nothing(&library, kind, &file, Refusal::TooBig);
            for (row, position) in [(0, 1), (usize::MAX, u64::MAX)] {
                let read = (library.read_row)(kind, &file, row, EMPTY);
                assert_eq!(stands(read), refused(Refusal::TooBig));
                let jumped = (library.jump_bursts)(&file, start, row, EMPTY);
                assert_eq!(stands(jumped), refused(Refusal::TooBig));
                let field = (library.burst_field)(&file, start, row, position);
                assert_eq!(field, refused(Refusal::TooBig));
                let verdict = (library.burst_verdict)(&file, start, row, position);
                assert_eq!(verdict, refused(Refusal::TooBig));
            }
        }
        let mut list = [7; 4];
        let built = (library.build_index)(versions, &file, &mut list);
        assert_eq!(built, refused(Refusal::TooBig));
        assert_eq!(list, [7; 4]);
        let checked = (library.check_index)(versions, &file, &[0]);
        assert_eq!(checked, refused(Refusal::TooBig));
        for (first, second) in [(&file[..], &[][..]), (&[], &file)] {
            let joined = (library.joined_index)(versions, first, &[], second, &[], &mut list);
            assert_eq!((joined, list), (refused(Refusal::TooBig), [7; 4]));
        }
        // Whatever the kept index and the room.
        for kept in [record(1, &[0]), record(2, &[1, 0]), record(1, &[]), vec![]] {
            for size in [14, 10, 0] {
                let mut buffer = vec![7; size];
                let written = (library.convert_1_to_2)(versions, &file, &kept, &mut buffer);
                assert_eq!((written, buffer), (refused(Refusal::TooBig), vec![7; size]));
            }
            let checked = (library.check_kept2)(versions, &file, &kept);
            assert_eq!(checked, refused(Refusal::TooBig));
        }
    }
}

/// Whatever the rows, the window and the room, and whatever the place of a dot.
fn draws_nothing(library: &Library, kind: Kind, file: &[u8], refusal: Refusal) {
    for (row, window) in [
        (0, Window::new(0, 1)),
        (usize::MAX, Window::new(1, usize::MAX)),
    ] {
        for rows in [0, 1, usize::MAX] {
            let mut lines = [7; 3];
            let drawn = (library.strip)(kind, file, row, rows, window, &mut lines);
            assert_eq!((drawn, lines), (refused(refusal), [7; 3]));
            let drawn = (library.strip)(kind, file, row, rows, window, &mut []);
            assert_eq!(drawn, refused(refusal));
            let dot = (library.behind)(kind, file, row, window, rows, rows);
            assert_eq!(dot, refused(refusal));
        }
    }
}

/// Which file a row is shown from, and where it stands there, without its bytes.
fn chosen(answer: Result<Chosen<'_>, Refused>) -> Result<(Source, usize, usize), Refused> {
    answer.map(|chosen| (chosen.source, chosen.row.place, chosen.row.bytes.len()))
}

const SMALL: &[u8] = b"NJPL1I00DEMO00000003abc";

/// A row at the end of the largest file, where the other file has it too, lacks it or is small.
#[test]
fn the_largest_originals_and_substitutes() {
    let (most, less) = (labelled(MOST), labelled(LAST_LABEL));
    let last = |source| Ok((source, LAST_LABEL + 20, LAST_LENGTH));
    for (library, versions) in told() {
        let row = |original, substitute, row| {
            let answer = (library.substitute_row)(versions, original, substitute, row);
            chosen(answer)
        };
        for original in [&most[..], &less, SMALL, &[]] {
            assert_eq!(row(original, &most, 42), last(Source::Substitute));
        }
        for substitute in [&less[..], SMALL, &[]] {
            assert_eq!(row(&most, substitute, 42), last(Source::Original));
        }
        for number in [43, 42 + (1 << 32), usize::MAX] {
            assert_eq!(row(&most, &less, number), refused(Refusal::NoRow));
            assert_eq!(row(&most, &most, number), refused(Refusal::NoRow));
        }
    }
    let in_version_2 = one_row(MOST, 1);
    for library in BOTH {
        let row = |versions, original, substitute| {
            let answer = (library.substitute_row)(versions, original, substitute, 0);
            chosen(answer)
        };
        let shown = Ok((Source::Substitute, 40, MOST - 40));
        assert_eq!(row(Versions::OneAndTwo, SMALL, &in_version_2), shown);
        let shown = Ok((Source::Original, 20, 3));
        assert_eq!(row(Versions::One, SMALL, &in_version_2), shown);
        let refused = refused(Refusal::BadLabel);
        assert_eq!(row(Versions::One, &in_version_2, &[]), refused);
    }
}

/// A file that is too big does not serve, whatever stands in it. It is refused as the original only, and
/// where the substitute does not serve.
#[test]
fn one_byte_more_than_an_original_or_a_substitute_may_have() {
    let (rows, zeros) = (labelled(MOST + 1), vec![0; MOST + 1]);
    let faulty = &b"NJPL1I00DEMO00000004abc"[..];
    for (library, versions) in told() {
        let row = |original, substitute, row| {
            let answer = (library.substitute_row)(versions, original, substitute, row);
            chosen(answer)
        };
        for big in [&rows, &zeros] {
            assert_eq!(row(big, SMALL, 0), Ok((Source::Substitute, 20, 3)));
            assert_eq!(row(SMALL, big, 0), Ok((Source::Original, 20, 3)));
            for number in [1, 42, usize::MAX] {
                assert_eq!(row(big, SMALL, number), refused(Refusal::TooBig));
                assert_eq!(row(SMALL, big, number), refused(Refusal::NoRow));
            }
            for number in [0, 1, 42, usize::MAX] {
                for substitute in [&rows[..], &zeros, faulty, &[]] {
                    let refused = refused(Refusal::TooBig);
                    assert_eq!(row(big, substitute, number), refused);
                }
                assert_eq!(row(faulty, big, number), refused(Refusal::Overrun));
                assert_eq!(row(&[], big, number), refused(Refusal::NoRow));
            }
        }
    }
}

/// What a call of the joined index comes to, with the list that was lent, of which the last is left alone.
fn join(
    library: &Library,
    versions: Versions,
    first: (&[u8], &[u32]),
    second: (&[u8], &[u32]),
) -> Result<(Built, Vec<u32>), Refused> {
    let mut list = vec![7; 8];
    let built = (library.joined_index)(versions, first.0, first.1, second.0, second.1, &mut list);
    let written = built.map_or(0, |built| built.entries);
    assert_eq!(list.split_off(written), vec![7; 8 - written]);
    built.map(|built| (built, list))
}

/// The largest joined file: the one file nearly all of it, either way round, and both half of it.
#[test]
fn the_largest_joined_files() {
    let most = labelled(MOST);
    let index = [0, 1_600_000_304, 3_200_000_608];
    let small = (SMALL, &[0][..]);
    let least = MOST - SMALL.len();
    let less = labelled(least);
    let half = labelled(MOST / 2);
    assert_eq!(half.len() + half.len() + 1, MOST);
    // Of 22 rows, the last one short.
    let half_index = [0, 1_600_000_304];
    for (library, versions) in told() {
        let kind = Kind::Labelled(versions);
        let rows = 43;
        let whole = Ok((Built { entries: 3, rows }, index.to_vec()));
        let none = (&[][..], &[][..]);
        assert_eq!(join(&library, versions, (&most, &index), none), whole);
        assert_eq!(join(&library, versions, none, (&most, &index)), whole);

        assert_eq!((library.check)(kind, &less), Ok(43));
        let rows = 44;
        let joined = join(&library, versions, (&less, &index), small);
        assert_eq!(joined, Ok((Built { entries: 3, rows }, index.to_vec())));
        // Behind the small one, 15 rows of the large one fill the group.
        let joined = join(&library, versions, small, (&less, &index));
        let before = [15, 31].map(|row| (23 + row * (20 + LONGEST_VALUE)) as u32);
        let list = vec![0, before[0], before[1]];
        assert_eq!(joined, Ok((Built { entries: 3, rows }, list)));

        assert_eq!((library.check)(kind, &half), Ok(22));
        let both = (&half[..], &half_index[..]);
        let joined = join(&library, versions, both, both);
        let second = (half.len() + 10 * (20 + LONGEST_VALUE)) as u32;
        let list = vec![0, 1_600_000_304, second];
        let rows = 44;
        assert_eq!(joined, Ok((Built { entries: 3, rows }, list)));
        let wrong = (&half[..], &half_index[..1]);
        let joined = join(&library, versions, both, wrong);
        assert_eq!(joined, refused(Refusal::BadIndex));
    }
    // A row that ends where the largest joined file ends, whose length needs more than eight digits.
    let in_version_2 = one_row(least, 0);
    for library in BOTH {
        let large = (&in_version_2[..], &[0][..]);
        let joined = join(&library, Versions::OneAndTwo, small, large);
        let (entries, rows) = (1, 2);
        assert_eq!(joined, Ok((Built { entries, rows }, vec![0])));
        let many = SMALL.repeat(16);
        let less = &one_row(MOST - many.len(), 1);
        let joined = join(&library, Versions::OneAndTwo, (&many, &[0]), (less, &[20]));
        let (entries, rows) = (2, 17);
        let list = vec![0, many.len() as u32 + 20];
        assert_eq!(joined, Ok((Built { entries, rows }, list)));
        let joined = join(&library, Versions::One, (&many, &[0]), (less, &[20]));
        assert_eq!(joined, refused(Refusal::BadLabel));
    }
}

/// Sizes of two files, around those that just fit together, and such that their sum turns in 32 or 33 bits.
const SIZES: [(usize, usize); 18] = [
    (0, MOST),
    (MOST, 0),
    (1, MOST - 1),
    (MOST - 1, 1),
    (1 << 31, (1 << 31) - 1),
    ((1 << 31) - 1, 1 << 31),
    (1, MOST),
    (MOST, 1),
    (1 << 31, 1 << 31),
    ((1 << 31) - 1, (1 << 31) + 1),
    (0, MOST + 1),
    (MOST + 1, 0),
    (20, MOST + 1),
    (MOST + 1, 20),
    (MOST, MOST),
    (MOST + 1, MOST + 1),
    (0, 2 * (MOST + 1)),
    (2 * (MOST + 1), 20),
];

fn is_too_long(first: usize, second: usize) -> bool {
    first + second > MOST
}

/// Whether two sizes are too much together.
type IsTooLong = fn(usize, usize) -> bool;

/// Ways to compare the sizes wrongly.
const WRONG_SUMS: [(&str, IsTooLong); 8] = [
    ("the first alone", |first, _| first > MOST),
    ("the second alone", |_, second| second > MOST),
    ("each alone", |first, second| first > MOST || second > MOST),
    ("both at once", |first, second| {
        first > MOST && second > MOST
    }),
    ("the sum in 33 bits", |first, second| {
        (first + second) % (1 << 33) > MOST
    }),
    ("one too early", |first, second| first + second >= MOST),
    ("one too late", |first, second| first + second > MOST + 1),
    ("the half of it for each", |first, second| {
        first > 1 << 31 || second > 1 << 31
    }),
];

/// Files of zeros: all that is right with them is their sizes.
#[test]
fn only_the_sum_of_two_sizes_is_compared() {
    let zeros = vec![0; 2 * (MOST + 1)];
    for (first, second) in SIZES {
        // The first file that has bytes is refused next.
        let next = if first > 0 { first } else { second };
        let refusal = match (is_too_long(first, second), next) {
            (true, _) => Refusal::TooBig,
            (false, ..=19) => Refusal::Short,
            (false, _) => Refusal::BadLabel,
        };
        for (library, versions) in told() {
            let listed = |size: usize| (&zeros[..size], &[][..]);
            let joined = join(&library, versions, listed(first), listed(second));
            assert_eq!(joined, refused(refusal), "{first} {second}");
        }
    }
    for (fault, wrong) in WRONG_SUMS {
        let differ =
            |&(first, second): &(usize, usize)| wrong(first, second) != is_too_long(first, second);
        assert!(SIZES.iter().any(differ), "{fault}");
    }
}

/// The sum of the two sizes is compared before all else.
#[test]
fn more_bytes_than_a_joined_file_may_have() {
    let (most, big) = (labelled(MOST), vec![0; MOST + 1]);
    let index = [0, 1_600_000_304, 3_200_000_608];
    let small = (SMALL, &[0][..]);
    let faulty = (&b"NJPL1I00DEMO00000004abc"[..], &[0][..]);
    let most = (&most[..], &index[..]);
    let zeros = |size: usize| (&big[..size], &[][..]);
    for (library, versions) in told() {
        for (first, second) in [
            // Either file is one that is accepted, with its index.
            (most, small),
            (small, most),
            (most, most),
            // By a byte, which no label has.
            (most, zeros(1)),
            (zeros(1), most),
            // Before a fault of the first file, and before its list.
            (faulty, most),
            (faulty, zeros(MOST + 1)),
            ((SMALL, &[]), most),
            ((SMALL, &[1]), zeros(MOST)),
        ] {
            let joined = join(&library, versions, first, second);
            assert_eq!(joined, refused(Refusal::TooBig));
            // Before there is no room.
            let joined =
                (library.joined_index)(versions, first.0, first.1, second.0, second.1, &mut []);
            assert_eq!(joined, refused(Refusal::TooBig));
        }
        // As much as there may be: what is next is the first file's fault, then the second's.
        for (first, second, refusal) in [
            (small, zeros(MOST - SMALL.len()), Refusal::BadLabel),
            (faulty, zeros(MOST - SMALL.len()), Refusal::Overrun),
            ((SMALL, &[]), zeros(MOST - SMALL.len()), Refusal::BadIndex),
        ] {
            let joined = join(&library, versions, first, second);
            assert_eq!(joined, refused(refusal));
        }
    }
}

#[test]
fn the_largest_waveform_files() {
    let rows = MOST / 2_080;
    let file = vec![0; rows * 2_080];
    let last = (rows - 1) * 2_080 + 32;
    for library in BOTH {
        assert_eq!((library.check)(Kind::Waveform, &file), Ok(2_064_888));
        for (row, window, expected) in [
            (rows - 1, Window::new(0, 2_048), Ok((last, 2_048))),
            (rows - 1, Window::new(2_047, 1), Ok((4_294_967_039, 1))),
            (rows - 1, Window::new(2_048, 1), refused(Refusal::NoPart)),
            (rows, EMPTY, refused(Refusal::NoRow)),
        ] {
            let read = (library.read_row)(Kind::Waveform, &file, row, window);
            assert_eq!(stands(read), expected);
            let jumped = (library.jump_waveform)(&file, row, window);
            assert_eq!(stands(jumped), expected);
        }
        for (from, expected) in [
            (last - 32, Ok((last, 2_048))),
            (last, refused(Refusal::NoRow)),
            (rows * 2_080, refused(Refusal::NoRow)),
        ] {
            let row = (library.row_from)(Kind::Waveform, &file, from);
            assert_eq!(stands(row), expected);
        }
        draws_last(
            &library,
            Kind::Waveform,
            &file,
            (rows - 1, 2_048),
            file.len(),
        );
    }
}

/// Strips of all rows, of which the proved library alone finds each from the one before.
#[test]
fn strips_of_all_rows_of_the_largest_waveform_file() {
    let file = vec![0; MOST / 2_080 * 2_080];
    let rows = 2_064_888;
    let mut lines = vec![7; rows];
    let mut draw = |row, rows, window, room| {
        let drawn = (PROVED.strip)(Kind::Waveform, &file, row, rows, window, &mut lines[..room]);
        (drawn, lines.iter().all(|&byte| byte == 7))
    };
    let nothing = Window::new(2_048, 0);
    assert_eq!(draw(0, rows, nothing, 0), (Ok(0), true));
    assert_eq!(
        draw(0, rows + 1, nothing, 9),
        (refused(Refusal::NoRow), true)
    );
    assert_eq!(draw(1, rows, nothing, 9), (refused(Refusal::NoRow), true));
    let misfit = Window::new(2_048, 1);
    assert_eq!(draw(0, rows, misfit, 0), (refused(Refusal::NoPart), true));
    let one = Window::new(2_040, 8);
    assert_eq!(
        draw(0, rows, one, rows - 1),
        (refused(Refusal::Small), true)
    );
    assert_eq!(draw(rows - 1, 1, one, rows), (Ok(1), false));
    // Each line of 256 bytes: 2^32 bytes are more than these.
    let whole = Window::new(0, 2_048);
    assert_eq!(draw(0, rows, whole, rows).0, refused(Refusal::Small));
}

/// No waveform file has a row that this one has not, and where a row stands depends on its number
/// alone: these are all places that a jump can come to.
#[test]
fn every_row_of_the_largest_waveform_file() {
    let file = vec![0; MOST / 2_080 * 2_080];
    for library in BOTH {
        for (row, start) in (0..file.len()).step_by(2_080).enumerate() {
            let jumped = (library.jump_waveform)(&file, row, Window::new(0, 2_048));
            assert_eq!(stands(jumped), Ok((start + 32, 2_048)));
        }
    }
}

#[test]
fn a_ragged_waveform_file_of_the_largest_size() {
    let file = vec![0; MOST];
    for library in BOTH {
        let rows = (library.check)(Kind::Waveform, &file);
        assert_eq!(rows, refused(Refusal::Ragged));
        let read = (library.read_row)(Kind::Waveform, &file, 0, EMPTY);
        assert_eq!(stands(read), refused(Refusal::Ragged));
        let jumped = (library.jump_waveform)(&file, 0, EMPTY);
        assert_eq!(stands(jumped), refused(Refusal::Ragged));
        let row = (library.row_from)(Kind::Waveform, &file, 0);
        assert_eq!(stands(row), refused(Refusal::Ragged));
        draws_nothing(&library, Kind::Waveform, &file, Refusal::Ragged);
    }
}

/// The first place for which the largest file is whole bursts: 3,376,546 of them.
const BURSTS_START: usize = MOST % 1_272;

#[test]
fn the_largest_burst_file() {
    let rows = 3_376_546;
    let mut file = vec![0; MOST];
    let last = BURSTS_START + (rows - 1) * 1_272;
    assert_eq!(last + 1_272, MOST);
    // Of the last record its beam mask, its target and its last field.
    file[last + 128] = 31;
    file[last + 672..last + 688].copy_from_slice(b"TITAN           ");
    file[MOST - 4..].copy_from_slice(&[1, 2, 3, 4]);
    let kind = Kind::Bursts(BURSTS_START);
    for library in BOTH {
        assert_eq!((library.check)(kind, &file), Ok(rows));
        assert_eq!((library.check)(Kind::Bursts(MOST), &file), Ok(0));
        for (row, window, expected) in [
            (rows - 1, Window::new(0, 1_272), Ok((last, 1_272))),
            (rows - 1, Window::new(1_271, 1), Ok((MOST - 1, 1))),
            (rows - 1, Window::new(1_272, 0), Ok((MOST, 0))),
            (rows - 1, Window::new(1_272, 1), refused(Refusal::NoPart)),
            (rows, EMPTY, refused(Refusal::NoRow)),
        ] {
            let read = (library.read_row)(kind, &file, row, window);
            assert_eq!(stands(read), expected);
            let jumped = (library.jump_bursts)(&file, BURSTS_START, row, window);
            assert_eq!(stands(jumped), expected);
        }
        for (from, expected) in [
            (last, Ok((last, 1_272))),
            (last + 1, refused(Refusal::NoRow)),
            (MOST, refused(Refusal::NoRow)),
            (MOST + 1, refused(Refusal::NoRow)),
            (BURSTS_START, Ok((BURSTS_START, 1_272))),
            (BURSTS_START + (1 << 32), refused(Refusal::NoRow)),
        ] {
            let row = (library.row_from)(kind, &file, from);
            assert_eq!(stands(row), expected);
        }
        // The last byte is 4, of which the tone is 31.
        let last_byte = Dot {
            place: MOST - 1,
            byte: 4,
            tone: 31,
            is_set: false,
        };
        let window = Window::new(1_263, 9);
        let dot = (library.behind)(kind, &file, rows - 1, window, 8, 0);
        assert_eq!(dot, Ok(last_byte));
        let mut lines = [7; 3];
        let drawn = (library.strip)(kind, &file, rows - 1, 1, window, &mut lines);
        assert_eq!((drawn, lines), (Ok(2), [0xff, 0, 7]));
        let of = |position| (library.burst_field)(&file, BURSTS_START, rows - 1, position);
        assert_eq!(of(33), Ok(Field::Unsigned(31)));
        let target = Text {
            place: last + 672,
            bytes: b"TITAN           ",
        };
        assert_eq!(of(154), Ok(Field::Text(target)));
        assert_eq!(of(255), Ok(Field::Float4(0x0403_0201)));
        let verdict = (library.burst_verdict)(&file, BURSTS_START, rows - 1, 33);
        assert_eq!(verdict, Ok(Verdict::Inside));
    }
}

/// Refusal 16 comes before 12 and behind 14.
#[test]
fn first_places_around_the_largest_size() {
    let file = vec![0; MOST];
    for library in BOTH {
        for (start, refusal) in [
            (0, Refusal::Ragged),
            (BURSTS_START + 1, Refusal::Ragged),
            (MOST - 1, Refusal::Ragged),
            (MOST + 1, Refusal::BadStart),
            (BURSTS_START + (1 << 32), Refusal::BadStart),
            (usize::MAX, Refusal::BadStart),
        ] {
            let kind = Kind::Bursts(start);
            assert_eq!((library.check)(kind, &file), refused(refusal));
            let read = (library.read_row)(kind, &file, 0, EMPTY);
            assert_eq!(stands(read), refused(refusal));
            let jumped = (library.jump_bursts)(&file, start, 0, EMPTY);
            assert_eq!(stands(jumped), refused(refusal));
            let row = (library.row_from)(kind, &file, start);
            assert_eq!(stands(row), refused(refusal));
            draws_nothing(&library, kind, &file, refusal);
            let field = (library.burst_field)(&file, start, 0, 1);
            assert_eq!(field, refused(refusal));
            let verdict = (library.burst_verdict)(&file, start, 0, 7);
            assert_eq!(verdict, refused(refusal));
        }
    }
}

/// The most entries that can be kept.
const MOST_ENTRIES: usize = 1_073_741_823;

#[test]
fn the_most_entries_to_be_kept() {
    let list = vec![0; MOST_ENTRIES + 1];
    let needed = 6 + 4 * MOST_ENTRIES;
    let mut buffer = vec![0; needed - 1];
    for library in BOTH {
        let kept = (library.keep_index)(&list, &mut buffer);
        assert_eq!(kept, refused(Refusal::TooBig));
        let kept = (library.keep_index)(&list[1..], &mut buffer);
        assert_eq!(kept, refused(Refusal::Small));
    }
}

/// A record of this size, kind and length, of zeros behind them.
fn zeros_kept(size: usize, kind: u8, length: u32) -> Vec<u8> {
    let mut bytes = vec![0; size];
    bytes[..4].copy_from_slice(&length.to_le_bytes());
    bytes[4] = kind;
    bytes
}

#[test]
fn kept_indexes_around_the_largest() {
    let most = zeros_kept(6 + 4 * MOST_ENTRIES, 1, 2 + 4 * MOST_ENTRIES as u32);
    // One entry more: its length has turned to that of no entries.
    let turned = zeros_kept(6 + 4 * (MOST_ENTRIES + 1), 1, 2);
    let part_of_an_entry = zeros_kept(MOST + 4, 1, u32::MAX);
    let mut short = vec![0; MOST_ENTRIES - 1];
    for library in BOTH {
        let loaded = (library.load_kept)(&most, &mut short);
        assert_eq!(loaded, refused(Refusal::Small));
        for bytes in [&turned, &part_of_an_entry, &most[..MOST]] {
            let loaded = (library.load_kept)(bytes, &mut short);
            assert_eq!(loaded, refused(Refusal::BadKept));
            let written = (library.convert_1_to_2)(Versions::One, &[], bytes, &mut []);
            assert_eq!(written, refused(Refusal::BadKept));
        }
    }
}

/// Kind 2 has an entry less, and the row count in its place. A record is no file: however large it
/// is, it is never too big.
#[test]
fn kept_indexes_of_kind_2_around_the_largest() {
    let most = zeros_kept(6 + 4 * MOST_ENTRIES, 2, 2 + 4 * MOST_ENTRIES as u32);
    // One entry more: its length has turned to one that has no room for the row count.
    let turned = zeros_kept(6 + 4 * (MOST_ENTRIES + 1), 2, 2);
    let two_more = zeros_kept(6 + 4 * (MOST_ENTRIES + 2), 2, 6);
    let part_of_an_entry = zeros_kept(MOST + 4, 2, u32::MAX);
    let mut short = vec![0; MOST_ENTRIES - 2];
    // As much as kind 1 needs for as many entries, but a byte.
    let mut short_buffer = vec![0; 6 + 4 * (MOST_ENTRIES - 1) - 1];
    for library in BOTH {
        let loaded = (library.load_kept2)(&most, &mut short);
        assert_eq!(loaded, refused(Refusal::Small));
        let written = (library.convert_2_to_1)(&most, &mut short_buffer);
        assert_eq!(written, refused(Refusal::Small));
        for bytes in [&turned, &two_more, &part_of_an_entry, &most[..MOST]] {
            let loaded = (library.load_kept2)(bytes, &mut short);
            assert_eq!(loaded, refused(Refusal::BadKept));
            let written = (library.convert_2_to_1)(bytes, &mut short_buffer);
            assert_eq!(written, refused(Refusal::BadKept));
            let checked = (library.check_kept2)(Versions::One, &[], bytes);
            assert_eq!(checked, refused(Refusal::BadKept));
        }
    }
}

/// The front of what is lent is written, however much it is.
#[test]
fn more_room_than_a_kept_index_can_need() {
    let (mut buffer, mut list) = (vec![0; (1 << 32) + 5], vec![0; (1 << 30) + 1]);
    let file = b"NJPL1I00DEMO00000003abc";
    let (one, two) = (record(1, &[0]), record(2, &[1, 0]));
    for library in BOTH {
        buffer[..24].fill(7);
        let written = (library.convert_1_to_2)(Versions::One, file, &one, &mut buffer);
        assert_eq!(written, Ok(14));
        assert_eq!(buffer[..24], [&two[..], &[7; 10]].concat());
        let written = (library.convert_2_to_1)(&two, &mut buffer);
        assert_eq!(written, Ok(10));
        assert_eq!(buffer[..24], [&one[..], &two[10..], &[7; 10]].concat());
        list[..2].fill(7);
        let loaded = (library.load_kept2)(&two, &mut list);
        let (rows, entries) = (1, 1);
        assert_eq!(
            (loaded, &list[..2]),
            (Ok(Kept2 { rows, entries }), &[0, 7][..])
        );
    }
}

/// Bytes that are no file have no limit; in 32 bits these sizes would be too small.
#[test]
fn more_bytes_than_a_file_may_have_where_none_is_lent() {
    const TURN: usize = 1 << 32;
    let mut label = vec![0; TURN + 19];
    label[..20].copy_from_slice(b"NJPL1I00DEMO00000003");
    let mut head = vec![0; TURN + 12];
    head[..12].copy_from_slice(b"NJPL1I00DEMO");
    let zeros = vec![0; TURN + 19];
    for (library, versions) in told() {
        assert_eq!(
            (library.read_label)(versions, &label).map(|label| label.length),
            Ok(3)
        );
    }
    for library in BOTH {
        let mut buffer = vec![0; TURN + 19];
        let written = (library.write_label)(Version::One, b"NJPL1I00DEMO", 3, &mut buffer);
        assert_eq!(written, Ok(20));
        assert_eq!(buffer[..24], *b"NJPL1I00DEMO00000003\0\0\0\0");
        let written = (library.write_label)(Version::Two, b"NJPL2I00DEMO", TURN, &mut buffer);
        assert_eq!(written, Ok(20));
        assert_eq!(buffer[..24], *b"NJPL2I00DEMO\0\0\0\x01\0\0\0\0\0\0\0\0");
        let written = (library.write_label)(Version::One, &head, 3, &mut buffer);
        assert_eq!(written, refused(Refusal::BadLabel));
        assert_eq!((library.vax_f)(&zeros[..TURN + 3]), Ok(0.0));
        assert_eq!((library.vax_d)(&zeros[..TURN + 7]), Ok(0.0));
        assert_eq!((library.vax_d_dropped)(&zeros[..TURN + 7]), Ok(0.0));
        assert_eq!(
            (library.opening)(&zeros).map(|opening| opening.orbit),
            Ok(0)
        );
    }
}
