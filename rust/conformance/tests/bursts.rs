//! Short burst files, tried with both implementations: their fields beside a list of the types in
//! the order of the record, the limits beside a list by limits; each byte of a record in one field;
//! rows by reading, by the jump and by going on, wherever the first record stands.

use conformance::generator::random::Random;
use conformance::library::{Library, INDEPENDENT, PROVED};
use crestulbino::{
    Address, Beams, Field, Kind, Mode, Nesting, Refusal, Refused, Row, Text, Verdict, Window,
};

const LIBRARIES: [Library; 2] = [INDEPENDENT, PROVED];

const BURST: usize = 1_272;

#[derive(Clone, Copy, Debug, PartialEq, Eq)]
enum Of {
    Unsigned,
    Signed,
    Float4,
    Float8,
    Text(usize),
}

/// The types of the fields in the order of the record, each with how many fields follow one another
/// with it.
const RUNS: [(usize, Of); 29] = [
    (3, Of::Unsigned),
    (3, Of::Float4),
    (28, Of::Unsigned),
    (6, Of::Float4),
    (3, Of::Unsigned),
    (2, Of::Float4),
    (2, Of::Unsigned),
    (3, Of::Float4),
    (4, Of::Unsigned),
    (4, Of::Float4),
    (12, Of::Unsigned),
    (72, Of::Float4),
    (2, Of::Unsigned),
    (1, Of::Float4),
    (1, Of::Unsigned),
    (2, Of::Float8),
    (2, Of::Text(24)),
    (3, Of::Float8),
    (1, Of::Text(16)),
    (1, Of::Text(24)),
    (4, Of::Float8),
    (3, Of::Float4),
    (1, Of::Unsigned),
    (36, Of::Float8),
    (3, Of::Float4),
    (1, Of::Signed),
    (47, Of::Float4),
    (1, Of::Unsigned),
    (4, Of::Float4),
];

/// Minimum and maximum, and the fields that have them.
const LIMITS: [(u32, u32, &[u64]); 14] = [
    (0, 7, &[34, 68]),
    (0, 15, &[30, 31, 69]),
    (0, 31, &[33]),
    (0, 255, &[7, 19, 20, 21, 22, 28, 32, 51, 53, 54]),
    (0, 2_047, &[23]),
    (0, 4_095, &[41, 42, 43, 65, 67, 70]),
    (0, 32_000, &[144, 251]),
    (0, 64_094, &[25]),
    (0, 65_535, &[9, 10, 11, 13, 14, 16, 17, 18, 27, 59, 60, 61]),
    (1, 12, &[62]),
    (1, 31, &[63]),
    (1, 255, &[46]),
    (216, 749, &[47]),
    (1_990, 2_010, &[64]),
];

/// Each field's position, type and place in the record.
fn fields() -> Vec<(u64, Of, usize)> {
    let types = RUNS.iter().flat_map(|&(count, of)| vec![of; count]);
    let mut place = 0;
    let fields = types.zip(1..).map(|(of, position)| {
        let field = (position, of, place);
        place += size(of);
        field
    });
    let fields: Vec<_> = fields.collect();
    assert_eq!((fields.len(), place), (255, BURST));
    fields
}

fn size(of: Of) -> usize {
    match of {
        Of::Unsigned | Of::Signed | Of::Float4 => 4,
        Of::Float8 => 8,
        Of::Text(size) => size,
    }
}

/// What stands at a place of a file.
fn read(of: Of, file: &[u8], place: usize) -> Field<'_> {
    let four = || u32::from_le_bytes(file[place..place + 4].try_into().unwrap());
    match of {
        Of::Unsigned => Field::Unsigned(four().into()),
        Of::Signed => Field::Signed((four() as i32).into()),
        Of::Float4 => Field::Float4(four()),
        Of::Float8 => {
            let eight = file[place..place + 8].try_into().unwrap();
            Field::Float8(u64::from_le_bytes(eight))
        }
        Of::Text(size) => Field::Text(Text {
            place,
            bytes: &file[place..place + size],
        }),
    }
}

/// A window of the record at a place.
fn record(file: &[u8], place: usize, first: usize, count: usize) -> Row<'_> {
    let nesting = Nesting {
        depth: 0,
        outermost: place,
    };
    Row {
        place: place + first,
        bytes: &file[place + first..place + first + count],
        address: Address {
            label: place,
            nesting: Some(nesting),
        },
    }
}

fn limits(position: u64) -> Option<(u32, u32)> {
    let has = |(_, _, positions): &&(u32, u32, &[u64])| positions.contains(&position);
    let found = LIMITS.iter().find(has);
    found.map(|&(minimum, maximum, _)| (minimum, maximum))
}

fn refused<T>(refusal: Refusal) -> Result<T, Refused> {
    Err(Refused { refusal, place: 0 })
}

#[test]
fn fields_of_any_records() {
    let mut random = Random::new(51);
    for _ in 0..60 {
        let start = random.between(0, 40);
        let rows = random.between(1, 4);
        let file = random.bytes(start + rows * BURST);
        for (library, row) in LIBRARIES
            .iter()
            .flat_map(|l| (0..rows).map(move |r| (l, r)))
        {
            for (position, of, place) in fields() {
                let field = (library.burst_field)(&file, start, row, position);
                let place = start + row * BURST + place;
                assert_eq!(field, Ok(read(of, &file, place)), "field {position}");
            }
        }
    }
}

/// Each byte of the file belongs to one field of one row, or to none if it stands in front.
#[test]
fn a_changed_byte_changes_one_field() {
    let (start, rows) = (13, 2);
    let file = Random::new(52).bytes(start + rows * BURST);
    let fields_of = |row| fields().into_iter().map(move |field| (row, field));
    let mut owners = vec![None; start];
    for (row, (position, of, _)) in (0..rows).flat_map(fields_of) {
        owners.extend(vec![Some((row, position)); size(of)]);
    }
    assert_eq!(owners.len(), file.len());
    for (library, place) in LIBRARIES
        .iter()
        .flat_map(|l| (0..owners.len()).map(move |p| (l, p)))
    {
        let mut other = file.clone();
        other[place] ^= 1 << (place % 8);
        let differs = |&(row, position): &(usize, u64)| {
            let [before, after] =
                [&file, &other].map(|file| (library.burst_field)(file, start, row, position));
            before != after
        };
        let all = (0..rows).flat_map(|row| (1..=255).map(move |position| (row, position)));
        let changed: Vec<(usize, u64)> = all.filter(differs).collect();
        assert_eq!(changed, Vec::from_iter(owners[place]), "byte {place}");
    }
}

#[test]
fn verdicts_on_each_field() {
    for library in LIBRARIES {
        for (position, _, place) in fields() {
            let judge = |value: u32| {
                let mut file = vec![0; 9 + BURST];
                file[9 + place..9 + place + 4].copy_from_slice(&value.to_le_bytes());
                (library.burst_verdict)(&file, 9, 0, position)
            };
            let Some((minimum, maximum)) = limits(position) else {
                for value in [0, 1, 7, u32::MAX] {
                    assert_eq!(judge(value), refused(Refusal::Unknown), "field {position}");
                }
                continue;
            };
            let around = [minimum, maximum].map(|limit| limit.saturating_sub(2)..=limit + 2);
            let large = [256, 65_536, 1 << 24, 1 << 31, u32::MAX - 1, u32::MAX];
            let swapped = [minimum, maximum].map(u32::swap_bytes);
            for value in around.into_iter().flatten().chain(large).chain(swapped) {
                let expected = if value < minimum {
                    Verdict::Below
                } else if value > maximum {
                    Verdict::Above
                } else {
                    Verdict::Inside
                };
                assert_eq!(judge(value), Ok(expected), "field {position}, {value}");
            }
        }
        for position in [0, 256, 257, 1 << 32, (1 << 32) + 7, 1 << 63, u64::MAX] {
            let file = [0; BURST];
            let verdict = (library.burst_verdict)(&file, 0, 0, position);
            assert_eq!(verdict, refused(Refusal::Unknown));
            let field = (library.burst_field)(&file, 0, 0, position);
            assert_eq!(field, refused(Refusal::Unknown));
        }
    }
}

/// What the mask of a burst comes to agrees with the verdict on it, and so does the mode.
#[test]
fn beams_and_modes_of_a_burst() {
    let numbers = (0..300)
        .chain((8..32).map(|bit| 1 << bit))
        .chain([u32::MAX]);
    for (library, number) in numbers.flat_map(|number| LIBRARIES.map(|library| (library, number))) {
        let mut file = vec![0; 9 + BURST];
        for place in [9 + 128, 9 + 132] {
            file[place..place + 4].copy_from_slice(&number.to_le_bytes());
        }
        let number = u64::from(number);
        for position in [33, 34] {
            let field = (library.burst_field)(&file, 9, 0, position);
            assert_eq!(field, Ok(Field::Unsigned(number)));
        }
        let bits = |mask: u64| (0..64).filter(|bit| (mask >> bit) & 1 == 1).count() as u64;
        let beams = match (library.burst_verdict)(&file, 9, 0, 33) {
            Ok(Verdict::Inside) => Beams::Inside(bits(number)),
            verdict => {
                assert_eq!(verdict, Ok(Verdict::Above));
                Beams::Above
            }
        };
        assert_eq!((library.beams)(number), beams, "{number}");
        assert_eq!(beams == Beams::Above, number > 31);
        let mode = (library.mode)(number);
        let verdict = (library.burst_verdict)(&file, 9, 0, 34);
        assert_eq!(mode.is_some(), verdict == Ok(Verdict::Inside));
        assert_eq!(mode.map(Mode::number), (number < 8).then_some(number));
        // More than a field holds.
        for larger in [1 << 32, 1 << 63].map(|high| number + high) {
            assert_eq!((library.beams)(larger), Beams::Above);
            assert_eq!((library.mode)(larger), None);
        }
    }
}

/// What is asked of a row, by each call that finds it.
fn found<'a>(library: &Library, file: &'a [u8], start: usize, row: usize) -> [Found<'a>; 3] {
    let whole = Window::new(0, BURST);
    let kind = Kind::Bursts(start);
    let from = row
        .checked_mul(BURST)
        .and_then(|before| before.checked_add(start));
    [
        (library.read_row)(kind, file, row, whole),
        (library.jump_bursts)(file, start, row, whole),
        (library.row_from)(kind, file, from.unwrap_or(usize::MAX)),
    ]
}

type Found<'a> = Result<Row<'a>, Refused>;

#[test]
fn every_first_place_of_a_file() {
    let file = Random::new(53).bytes(2 * BURST + 3);
    let end = file.len();
    for (library, start) in LIBRARIES
        .iter()
        .flat_map(|l| (0..end + 9).map(move |s| (l, s)))
    {
        let rows = match end.checked_sub(start) {
            None => refused(Refusal::BadStart),
            Some(rest) if rest % BURST != 0 => refused(Refusal::Ragged),
            Some(rest) => Ok(rest / BURST),
        };
        assert_eq!((library.check)(Kind::Bursts(start), &file), rows);
        for row in [0, 1, 2, 1 << 61, usize::MAX] {
            let place = start.wrapping_add(row.wrapping_mul(BURST));
            let expected = match rows {
                Err(refused) => Err(refused),
                Ok(rows) if row < rows => Ok(record(&file, place, 0, BURST)),
                Ok(_) => refused(Refusal::NoRow),
            };
            assert_eq!(found(library, &file, start, row), [expected; 3]);
            let field = (library.burst_field)(&file, start, row, 1);
            let first = expected.map(|row| read(Of::Unsigned, &file, row.place));
            assert_eq!(field, first);
        }
    }
}

/// A row goes on from where it begins, and from no other place.
#[test]
fn every_place_of_a_file() {
    let (start, rows) = (700, 3);
    let file = Random::new(54).bytes(start + rows * BURST);
    let begins = [700, 700 + BURST, 700 + 2 * BURST];
    for (library, from) in LIBRARIES
        .iter()
        .flat_map(|l| (0..file.len() + BURST + 1).map(move |f| (l, f)))
    {
        let row = (library.row_from)(Kind::Bursts(start), &file, from);
        let expected = match begins.contains(&from) {
            true => Ok(record(&file, from, 0, BURST)),
            false => refused(Refusal::NoRow),
        };
        assert_eq!(row, expected);
    }
}

/// What stands in front of the first place does not matter, nor how much it is.
#[test]
fn files_with_something_in_front() {
    let mut random = Random::new(55);
    for _ in 0..40 {
        let rows = random.between(0, 3);
        let records = random.bytes(rows * BURST);
        let size = random.between(0, 3_000);
        let front = random.bytes(size);
        let moved = [&front[..], &records].concat();
        for (library, row) in LIBRARIES.iter().flat_map(|l| (0..4).map(move |r| (l, r))) {
            let (there, here) = (
                found(library, &moved, size, row),
                found(library, &records, 0, row),
            );
            for (there, here) in there.into_iter().zip(here) {
                let moved_back = there.map(|row| (row.place - size, row.bytes));
                assert_eq!(moved_back, here.map(|row| (row.place, row.bytes)));
            }
            for position in [0, 1, 4, 33, 147, 203, 255, 256] {
                let there = (library.burst_field)(&moved, size, row, position);
                let here = (library.burst_field)(&records, 0, row, position);
                assert_eq!(there, here);
                let there = (library.burst_verdict)(&moved, size, row, position);
                let here = (library.burst_verdict)(&records, 0, row, position);
                assert_eq!(there, here);
            }
        }
    }
}

/// Each window by its own rule, and by both ways to the row.
#[test]
fn every_window_around_the_end_of_a_row() {
    let file = Random::new(56).bytes(5 + 2 * BURST);
    let edges = [0, 1, 2, 635, 1_270, 1_271, 1_272, 1_273, 1_274, 1 << 32];
    let edges = edges
        .into_iter()
        .chain([1 << 63, usize::MAX - 1_271, usize::MAX]);
    let edges: Vec<usize> = edges.collect();
    for (library, &first) in LIBRARIES
        .iter()
        .flat_map(|l| edges.iter().map(move |f| (l, f)))
    {
        for &count in &edges {
            let fits = first as u128 + count as u128 <= BURST as u128;
            let expected = match fits {
                true => Ok(record(&file, 5 + BURST, first, count)),
                false => refused(Refusal::NoPart),
            };
            let window = Window::new(first, count);
            let kind = Kind::Bursts(5);
            assert_eq!((library.read_row)(kind, &file, 1, window), expected);
            assert_eq!((library.jump_bursts)(&file, 5, 1, window), expected);
        }
    }
}
