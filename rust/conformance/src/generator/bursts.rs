//! Short burst files to ask about, with edges of first places, sizes, rows, fields and limits.

use super::edges;
use super::random::Random;
use crate::Case;
use crestulbino::{Kind, Window};
use independent::bursts::{Field, FIELDS, RECORD_BYTES};

/// The bytes of a record, which is a row.
pub const BURST: usize = RECORD_BYTES as usize;

const MOST: usize = usize::MAX;

/// A call on a burst file.
#[derive(Clone, Copy, Debug, PartialEq, Eq)]
pub enum Call {
    Check,
    Read,
    Jump,
    RowFrom,
    Field,
    Verdict,
}

const CALLS: [Call; 6] = [
    Call::Check,
    Call::Read,
    Call::Jump,
    Call::RowFrom,
    Call::Field,
    Call::Verdict,
];

/// The calls that are told a row.
const ROW_CALLS: [Call; 4] = [Call::Read, Call::Jump, Call::Field, Call::Verdict];

/// A file with all that a call on it may be told, of which each call takes a part.
#[derive(Clone, Debug)]
pub struct Asked {
    file: Vec<u8>,
    start: usize,
    row: usize,
    from: usize,
    window: Window,
    position: u64,
}

impl Asked {
    /// A row of a file of so many records of any bytes, with so many bytes in front; a place from
    /// which it begins; a window that mostly fits; and any field.
    fn new(front: usize, records: usize, random: &mut Random) -> Asked {
        let row = random.between(0, records.saturating_sub(1));
        let window = if random.chance(60) {
            Window::new(0, BURST)
        } else {
            edges::window(random, BURST)
        };
        Asked {
            file: random.bytes(front + records * BURST),
            start: front,
            row,
            from: front + row * BURST,
            window,
            position: random.pick(&FIELDS).position,
        }
    }

    /// The same of a file of few records, mostly of one.
    fn of_any(random: &mut Random) -> Asked {
        let records = random.weighted(&[(20, 0), (56, 1), (14, 2), (6, 3), (4, 4)]);
        let few = random.between(2, 100);
        let front = random.weighted(&[
            (30, 0),
            (15, 1),
            (35, few),
            (4, BURST - 1),
            (6, BURST),
            (6, BURST + few),
            (4, 2 * BURST),
        ]);
        Asked::new(front, records, random)
    }

    /// The same of a file with at least one record, mostly one, behind few bytes.
    fn of_record(random: &mut Random) -> Asked {
        let records = random.weighted(&[(84, 1), (10, 2), (4, 3), (2, 4)]);
        let few = random.between(2, 40);
        let front = random.weighted(&[(50, 0), (20, 1), (30, few)]);
        Asked::new(front, records, random)
    }

    pub fn case(self, call: Call) -> Case {
        let Asked {
            file,
            start,
            row,
            from,
            window,
            position,
        } = self;
        match call {
            Call::Check => Case::CheckBursts { file, start },
            Call::Read => Case::ReadRowBursts {
                file,
                start,
                row,
                window,
            },
            Call::Jump => Case::JumpBursts {
                file,
                start,
                row,
                window,
            },
            Call::RowFrom => Case::RowFrom {
                kind: Kind::Bursts(start),
                file,
                from,
            },
            Call::Field => Case::BurstField {
                file,
                start,
                row,
                position,
            },
            Call::Verdict => Case::BurstVerdict {
                file,
                start,
                row,
                position,
            },
        }
    }

    /// How many records the file was made of.
    fn records(&self) -> usize {
        (self.file.len() - self.start) / BURST
    }

    /// Makes the file have so many bytes behind the first place for each of its records, or at
    /// least once.
    fn resize(&mut self, each: usize) {
        let rest = self.records().max(1) * each;
        self.file.resize(self.start + rest, 9);
    }

    /// Meets one edge after the other.
    fn meet(&mut self, edges: &[Edge]) {
        edges.iter().for_each(|edge| edge(self));
    }

    /// Puts as many bytes as a record has in front of the file, and gives the place that is so
    /// many before the first record.
    fn behind_a_record(&mut self) -> usize {
        self.file.splice(..0, [7; BURST]);
        self.start += BURST;
        self.start - BURST
    }

    /// The bytes of a field of the row.
    fn field_mut(&mut self, field: Field) -> &mut [u8] {
        let record = self.start + self.row * BURST;
        let from = record + field.start_byte as usize - 1;
        &mut self.file[from..from + field.length as usize]
    }
}

/// Puts something at an edge, in what is right otherwise.
pub type Edge = fn(&mut Asked);

/// First places: in the file, at its end and beyond, and such that what is behind them would be
/// whole records in narrow numbers or without a sign.
const STARTS: [Edge; 15] = [
    |asked| asked.start = 0,
    |asked| asked.start = 1,
    |asked| asked.start = asked.start.saturating_sub(1),
    |asked| asked.start += 1,
    |asked| asked.start += BURST,
    |asked| asked.start = asked.start.wrapping_sub(BURST),
    |asked| asked.start = asked.file.len().saturating_sub(BURST),
    |asked| asked.start = asked.file.len(),
    |asked| asked.start = asked.file.len() + 1,
    |asked| asked.start = asked.file.len() + BURST,
    // 2^64 less this is a multiple of a record.
    |asked| asked.start = asked.file.len() + ((1_u128 << 64) % BURST as u128) as usize,
    |asked| asked.start += 1 << 32,
    |asked| asked.start += 1 << 63,
    |asked| asked.start = MOST - BURST + 1,
    |asked| asked.start = MOST,
];

/// Sizes of files that are not whole records.
const SIZES: [Edge; 6] = [
    |asked| asked.resize(BURST - 1),
    |asked| asked.resize(BURST + 1),
    |asked| asked.file.resize(asked.start + BURST / 2, 9),
    |asked| asked.resize(1),
    |asked| asked.file.push(7),
    |asked| asked.file.truncate(asked.file.len().saturating_sub(1)),
];

/// Rows around the last one, and rows whose computed place would turn to one in the file.
const ROWS: [Edge; 14] = [
    |asked| asked.row = 0,
    |asked| asked.row = asked.records().saturating_sub(1),
    |asked| asked.row = asked.records(),
    |asked| asked.row = asked.records() + 1,
    |asked| asked.row += 1 << 16,
    |asked| asked.row = 1 << 29,
    |asked| asked.row += 1 << 29,
    |asked| asked.row += 1 << 32,
    |asked| asked.row = 1 << 61,
    |asked| asked.row += 1 << 61,
    |asked| asked.row = 1 << 63,
    |asked| asked.row = MOST / BURST + 1,
    |asked| asked.row = (MOST - asked.start) / BURST + 1,
    |asked| asked.row = MOST,
];

/// Places to go on from: where records begin, beside and between them, in front of the first one,
/// at the end and beyond.
const FROMS: [Edge; 19] = [
    |asked| asked.from = asked.start,
    |asked| asked.from = asked.start.wrapping_sub(1),
    |asked| asked.from = asked.start + 1,
    |asked| asked.from = asked.behind_a_record(),
    |asked| asked.from = asked.start + BURST,
    |asked| asked.from -= usize::from(asked.from > 0),
    |asked| asked.from += 1,
    |asked| asked.from += BURST / 2,
    |asked| asked.from = asked.row * BURST,
    |asked| asked.from = 0,
    |asked| asked.from = asked.file.len().saturating_sub(BURST),
    |asked| asked.from = asked.file.len() - usize::from(!asked.file.is_empty()),
    |asked| asked.from = asked.file.len(),
    |asked| asked.from = asked.file.len() + 1,
    |asked| asked.from = asked.file.len() + BURST,
    |asked| asked.from = asked.start + (MOST - asked.start) / BURST * BURST,
    |asked| asked.from += 1 << 32,
    |asked| asked.from += 1 << 63,
    |asked| asked.from = MOST,
];

const BEYOND: Edge = |asked| asked.start = asked.file.len() + 1;
const RAGGED: Edge = |asked| asked.file.push(7);
const MISSING: Edge = |asked| {
    asked.row = asked.records() + 1;
    asked.from = asked.file.len() + BURST;
};
const OUTSIDE_THE_ROW: Edge = |asked| {
    asked.window = Window::new(BURST, 1);
    asked.position = 256;
};

/// Two faults at once, of which the right one must be told.
const TWO_FAULTS: [Edge; 6] = [
    |asked| asked.meet(&[MISSING, BEYOND]),
    |asked| asked.meet(&[MISSING, RAGGED]),
    |asked| asked.meet(&[MISSING, OUTSIDE_THE_ROW]),
    |asked| asked.meet(&[OUTSIDE_THE_ROW, BEYOND]),
    |asked| asked.meet(&[OUTSIDE_THE_ROW, RAGGED]),
    |asked| asked.meet(&[RAGGED, BEYOND]),
];

/// Each call with each edge that it can meet.
pub fn asked_at_edges() -> Vec<(Call, Edge)> {
    let of = |calls: &[Call], edges: &[Edge]| -> Vec<(Call, Edge)> {
        let with = |&call: &Call| edges.iter().map(move |&edge| (call, edge));
        calls.iter().flat_map(with).collect()
    };
    [
        of(&CALLS, &STARTS),
        of(&CALLS, &SIZES),
        of(&ROW_CALLS, &ROWS),
        of(&[Call::RowFrom], &FROMS),
        of(&ROW_CALLS, &TWO_FAULTS),
        of(&[Call::RowFrom], &TWO_FAULTS),
    ]
    .concat()
}

/// A call at an edge, in any file.
pub fn at_edge((call, edge): (Call, Edge), random: &mut Random) -> Case {
    let mut asked = Asked::of_any(random);
    edge(&mut asked);
    asked.case(call)
}

/// A call on any file, on one of its rows or on one that is missing.
pub fn row(random: &mut Random) -> Case {
    let mut asked = Asked::of_any(random);
    asked.row = edges::row(random, asked.records());
    asked.window = edges::window(random, BURST);
    let starts: Vec<usize> = (asked.start..asked.file.len()).step_by(BURST).collect();
    asked.from = edges::place(random, &starts, asked.file.len());
    let call = random.pick(&[
        Call::Check,
        Call::Read,
        Call::Read,
        Call::Jump,
        Call::Jump,
        Call::RowFrom,
    ]);
    asked.case(call)
}

/// What the bytes of a field are.
#[derive(Clone, Copy, Debug, PartialEq, Eq)]
pub enum Filling {
    /// All 0, in a record of 255.
    Zeros,
    /// All 255, in a record of 0.
    Ones,
    /// No two are equal, so that their order shows.
    Distinct,
    /// All 0 but the first.
    First,
    /// All 0 but the last.
    Last,
}

/// Each field with each filling.
pub fn filled_fields() -> Vec<(Field, Filling)> {
    let fillings = [
        Filling::Zeros,
        Filling::Ones,
        Filling::Distinct,
        Filling::First,
        Filling::Last,
    ];
    let with = |&field: &Field| fillings.map(|filling| (field, filling));
    FIELDS.iter().flat_map(with).collect()
}

pub fn filled_field((field, filling): (Field, Filling), random: &mut Random) -> Case {
    let mut asked = Asked::of_record(random);
    asked.position = field.position;
    let around = match filling {
        Filling::Zeros => Some(0xff),
        Filling::Ones => Some(0),
        _ => None,
    };
    if let Some(byte) = around {
        asked.file.fill(byte);
    }
    let (first, step) = (random.byte(), random.byte() | 1);
    let alone = random.pick(&[1, 0x7f, 0x80, 0xff]);
    let bytes = asked.field_mut(field);
    let last = bytes.len() - 1;
    match filling {
        Filling::Zeros => bytes.fill(0),
        Filling::Ones => bytes.fill(0xff),
        Filling::Distinct => {
            for (at, byte) in (0..).zip(bytes) {
                *byte = first.wrapping_add(step.wrapping_mul(at));
            }
        }
        Filling::First => {
            bytes.fill(0);
            bytes[0] = alone;
        }
        Filling::Last => {
            bytes.fill(0);
            bytes[last] = alone;
        }
    }
    asked.case(Call::Field)
}

/// Each field with limits, with each value at their edges.
pub fn limit_values() -> Vec<(Field, u32)> {
    let mut values = Vec::new();
    for field in FIELDS {
        let Some((minimum, maximum)) = field.limits else {
            continue;
        };
        let (minimum, maximum) = (minimum as u32, maximum as u32);
        // The last one is the maximum where bytes are read in the other order.
        let mut of_field = vec![
            minimum.saturating_sub(1),
            minimum,
            maximum,
            maximum + 1,
            0,
            u32::MAX,
            maximum.swap_bytes(),
        ];
        of_field.sort();
        of_field.dedup();
        values.extend(of_field.into_iter().map(|value| (field, value)));
    }
    values
}

pub fn limit_value((field, value): (Field, u32), random: &mut Random) -> Case {
    let mut asked = Asked::of_record(random);
    asked.position = field.position;
    asked.field_mut(field).copy_from_slice(&value.to_le_bytes());
    asked.case(Call::Verdict)
}

/// Positions outside of the table, some of which would turn to one inside in narrow numbers.
const OUTSIDE: [u64; 13] = [
    0,
    256,
    257,
    256 + 33,
    65_536 + 1,
    65_536 + 33,
    1 << 32,
    (1 << 32) + 33,
    (1 << 32) + 255,
    1 << 63,
    (1 << 63) + 7,
    u64::MAX - 1,
    u64::MAX,
];

/// Each position outside of the table, and for verdicts each field without limits.
pub fn unknown_positions() -> Vec<(Call, u64)> {
    let outside = OUTSIDE
        .into_iter()
        .flat_map(|position| [(Call::Field, position), (Call::Verdict, position)]);
    let unlimited = FIELDS.iter().filter(|field| field.limits.is_none());
    let unlimited = unlimited.map(|field| (Call::Verdict, field.position));
    outside.chain(unlimited).collect()
}

pub fn unknown_position((call, position): (Call, u64), random: &mut Random) -> Case {
    let mut asked = Asked::of_record(random);
    asked.position = position;
    asked.case(call)
}

/// Beam masks with all that can be set, and larger ones.
pub fn masks() -> Vec<u64> {
    let large = [63, 64, 127, 128, 255, 256, 256 + 31, 1 << 16, (1 << 32) - 1];
    let larger = [1 << 32, (1 << 32) + 31, 1 << 63, (1 << 63) + 1, u64::MAX];
    (0..=40).chain(large).chain(larger).collect()
}

/// Compression modes with names and without.
pub fn modes() -> Vec<u64> {
    let large = [15, 16, 255, 256, 256 + 5, 65_536, (1 << 32) - 1];
    let larger = [1 << 32, (1 << 32) + 3, 1 << 63, (1 << 63) + 7, u64::MAX];
    (0..=10).chain(large).chain(larger).collect()
}

#[cfg(test)]
mod tests {
    use super::*;
    use independent::bursts::{check, value, Value};

    #[test]
    fn what_is_asked_is_right_before_it_is_put_at_an_edge() {
        let mut random = Random::new(41);
        for _ in 0..500 {
            let asked = Asked::of_any(&mut random);
            let rows = check(&asked.file, asked.start as u64).unwrap() as usize;
            assert_eq!(rows, asked.records());
            assert!(asked.row < rows.max(1));
            assert_eq!(asked.from, asked.start + asked.row * BURST);
        }
    }

    /// Two that give the same in one file do so in others.
    #[test]
    fn no_two_edges_are_the_same() {
        let mut random = Random::new(42);
        for edges in [&STARTS[..], &SIZES, &ROWS, &FROMS, &TWO_FAULTS] {
            let files: Vec<Asked> = (0..50).map(|_| Asked::of_any(&mut random)).collect();
            let put = |edge: Edge| {
                let at_edge = |asked: &Asked| {
                    let mut asked = asked.clone();
                    edge(&mut asked);
                    let told = (asked.start, asked.row, asked.from, asked.position);
                    (asked.file, told)
                };
                files.iter().map(at_edge).collect::<Vec<_>>()
            };
            let mut all: Vec<_> = edges.iter().map(|&edge| put(edge)).collect();
            all.sort();
            all.dedup();
            assert_eq!(all.len(), edges.len());
        }
    }

    #[test]
    fn sizes_at_edges_are_not_whole_records() {
        let mut random = Random::new(43);
        for edge in SIZES {
            let mut asked = Asked::new(7, 2, &mut random);
            edge(&mut asked);
            assert!(check(&asked.file, 7).is_err());
        }
    }

    #[test]
    fn fields_are_filled_where_they_stand() {
        let mut random = Random::new(44);
        for (field, filling) in filled_fields() {
            let case = filled_field((field, filling), &mut random);
            let Case::BurstField {
                file,
                start,
                row,
                position,
            } = case
            else {
                panic!("{case}");
            };
            let bytes = match value(&file, start as u64, row as u64, position).unwrap() {
                Value::Unsigned(bits) | Value::Float4(bits) => bits.to_le_bytes().to_vec(),
                Value::Signed(number) => number.to_le_bytes().to_vec(),
                Value::Float8(bits) => bits.to_le_bytes().to_vec(),
                Value::Text(part) => part.bytes.to_vec(),
            };
            let set = bytes.iter().filter(|&&byte| byte != 0).count();
            let mut distinct = bytes.clone();
            distinct.sort();
            distinct.dedup();
            match filling {
                Filling::Zeros => assert_eq!(set, 0),
                Filling::Ones => assert!(bytes.iter().all(|&byte| byte == 0xff)),
                Filling::Distinct => assert_eq!(distinct.len(), bytes.len()),
                Filling::First => assert!(set == 1 && bytes[0] != 0),
                Filling::Last => assert!(set == 1 && bytes[bytes.len() - 1] != 0),
            }
        }
    }

    #[test]
    fn files_stay_small() {
        let mut random = Random::new(45);
        let sizes = (0..1_000).map(|_| Asked::of_any(&mut random).file.len());
        let sizes: Vec<usize> = sizes.collect();
        assert!(sizes.iter().all(|&size| size <= 6 * BURST + 100));
        assert!(sizes.iter().sum::<usize>() < 1_000 * 2 * BURST);
    }
}
