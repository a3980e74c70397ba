//! `cargo run --release -p bench`: the proved library, through its crate, beside plain Rust. Both
//! run in this process on the same buffers, in turn; each figure is the best of all rounds.

mod inputs;
mod plain;

use crestulbino::{
    Beams, Field, Kind, Row, Source, Verdict, Versions, Window, KEPT2_FRONT_BYTES, KEPT_FRONT_BYTES,
};
use inputs::{
    Numbers, BINARY, BURST_ROWS, BURST_START, DIGITS, ROWS, SPACES_AND_DIGITS, WAVEFORM_ROWS,
};
use plain::Draw;
use std::hint::black_box;
use std::time::{Duration, Instant};

/// How often each side is measured.
const ROUNDS: usize = 30;

/// How many random rows are jumped to.
const JUMPS: usize = 20_000;

/// How many numbers are read, and how often in a round.
const NUMBERS: usize = 4_096;
const REPEATS: usize = 50;

/// How many entries kept indexes have, in words too, and how often each is read or written in a round.
const KEPT_SIZES: [(&str, usize, usize); 3] = [
    ("1 entry", 1, 100_000),
    ("12,500 entries", 12_500, 50),
    ("1,000,000 entries", 1_000_000, 1),
];

const EMPTY: Window = Window::new(0, 0);

const ONE: Versions = Versions::One;
const BOTH: Versions = Versions::OneAndTwo;

/// What plain Rust is told.
fn version_2(versions: Versions) -> bool {
    versions == BOTH
}

fn main() {
    let mut numbers = Numbers::new();
    let file = inputs::labelled(&mut numbers, DIGITS);
    let waveform = inputs::waveform(&mut numbers);
    let bursts = inputs::bursts(&mut Numbers::new());
    let times = inputs::vax_numbers(&mut numbers, NUMBERS);
    let [padded, binary] =
        [SPACES_AND_DIGITS, BINARY].map(|form| inputs::labelled(&mut Numbers::new(), form));
    let [labels, padded_labels, binary_labels] = [DIGITS, SPACES_AND_DIGITS, BINARY]
        .map(|form| inputs::labels(&mut Numbers::new(), NUMBERS, form));
    let rows = |of: usize| -> Vec<usize> {
        let mut numbers = Numbers::new();
        (0..JUMPS).map(|_| numbers.below(of)).collect()
    };
    println!(
        "{ROWS} rows of 0 to 63 bytes two deep, {} bytes; {WAVEFORM_ROWS} waveform rows; {BURST_ROWS} bursts; best of {ROUNDS}\n",
        file.len()
    );
    println!("| Call | Proved | Plain Rust | Ratio |");
    println!("|---|---|---|---|");
    labelled_calls("", ONE, &file, &rows(ROWS));
    waveform_calls(&waveform, &rows(WAVEFORM_ROWS));
    number_calls(&times, &waveform[..NUMBERS]);
    strips(&waveform);
    read_labels("read_label, a label", ONE, &labels);
    read_labels("read_label padded, a label", ONE, &padded_labels);
    check_labelled("check padded, a row", ONE, &padded);
    row_after_row("row_from padded row after row, a row", ONE, &padded);
    check_labelled("check labelled, both versions allowed, a row", BOTH, &file);
    labelled_calls(" version 2", BOTH, &binary, &rows(ROWS));
    read_labels("read_label version 2, a label", BOTH, &binary_labels);
    for (of, entries, times) in KEPT_SIZES {
        kept_records(of, entries, times);
    }
    burst_rows(&bursts, &rows(BURST_ROWS));
    burst_fields(&bursts);
    burst_numbers();
}

/// The calls on a labelled file, with these words behind their names.
fn labelled_calls(of: &str, versions: Versions, file: &[u8], rows: &[usize]) {
    let version_2 = version_2(versions);
    check_labelled(&format!("check labelled{of}, a row"), versions, file);
    read_labelled(
        &format!("read_row labelled{of}, a row of the file"),
        versions,
        file,
    );
    substitutes(of, versions, file);
    let (mut one, mut other) = (vec![1; ROWS], vec![1; ROWS]);
    compare(
        &format!("build_index{of}, a row"),
        ROWS,
        || {
            let built = crestulbino::build_index(versions, black_box(file), &mut one);
            built.map_or(0, |built| built.entries)
        },
        || plain::build_index(black_box(file), version_2, &mut other).map_or(0, |built| built.0),
    );
    assert_eq!(one, other, "the two indexes");
    let list = &one[..ROWS.div_ceil(crestulbino::ROWS_PER_ENTRY)];
    compare(
        &format!("check_index{of}, a row"),
        ROWS,
        || usize::from(crestulbino::check_index(versions, black_box(file), list).is_ok()),
        || usize::from(plain::check_index(black_box(file), version_2, list).is_ok()),
    );
    kept_with_file(of, versions, file, list);
    joined_files(of, versions, file, list);
    compare(
        &format!("jump_labelled{of}, a jump"),
        rows.len(),
        || {
            sum(rows, |row| {
                let row = crestulbino::jump_labelled(versions, file, list, row, EMPTY);
                row.map_or(0, told)
            })
        },
        || {
            sum(rows, |row| {
                let row = plain::jump_labelled(file, version_2, list, row, 0, 0);
                row.map_or(0, plainly_told)
            })
        },
    );
    row_after_row(
        &format!("row_from{of} row after row, a row"),
        versions,
        file,
    );
}

/// Two files joined, of which the rows of the first fill their last entry, or go 1 or 15 rows into another;
/// and the index of a joined copy, without the copying and with it.
fn joined_files(of: &str, versions: Versions, file: &[u8], list: &[u32]) {
    let version_2 = version_2(versions);
    let (mut one, mut other) = (vec![1; ROWS], vec![1; ROWS]);
    for (how, over) in [
        ("15 rows into an entry, ", 15),
        ("1 row into an entry, ", 1),
        ("", 0),
    ] {
        let first = [file, &b"NJPL1I00DEMO00000000".repeat(over)].concat();
        let mut first_list = list.to_vec();
        if over > 0 {
            first_list.push(file.len() as u32);
        }
        compare(
            &format!("joined_index{of}, {how}a row of both"),
            2 * ROWS + over,
            || {
                let (first, second) = (black_box(&first), black_box(file));
                let built =
                    crestulbino::joined_index(versions, first, &first_list, second, list, &mut one);
                built.map_or(0, |built| built.entries + built.rows)
            },
            || {
                let first = (black_box(&first[..]), &first_list[..]);
                let second = (black_box(file), list);
                let built = plain::joined_index(first, second, version_2, &mut other);
                built.map_or(0, |(entries, rows)| entries + rows)
            },
        );
        assert_eq!(one, other, "the two joined indexes");
    }
    let (joined, copy) = (one.clone(), file.repeat(2));
    compare(
        &format!("build_index{of} of a joined copy, a row of both"),
        2 * ROWS,
        || {
            let built = crestulbino::build_index(versions, black_box(&copy), &mut one);
            built.map_or(0, |built| built.entries + built.rows)
        },
        || {
            let built = plain::build_index(black_box(&copy), version_2, &mut other);
            built.map_or(0, |(entries, rows)| entries + rows)
        },
    );
    compare(
        &format!("build_index{of} of a joined copy, with the copying, a row of both"),
        2 * ROWS,
        || {
            let copy = [black_box(file), black_box(file)].concat();
            let built = crestulbino::build_index(versions, &copy, &mut one);
            built.map_or(0, |built| built.entries + built.rows)
        },
        || {
            let copy = [black_box(file), black_box(file)].concat();
            let built = plain::build_index(&copy, version_2, &mut other);
            built.map_or(0, |(entries, rows)| entries + rows)
        },
    );
    assert_eq!([&one, &other], [&joined; 2], "the indexes of the copy");
}

/// The calls on a file and its kept index, beside plain Rust in the same two passes and in one.
fn kept_with_file(of: &str, versions: Versions, file: &[u8], list: &[u32]) {
    kept_beside(of, plain::in_two_passes, versions, file, list);
    let of = format!("{of} beside one pass");
    kept_beside(&of, plain::in_one_pass, versions, file, list);
}

/// The same, beside plain Rust that goes through the file in this way.
fn kept_beside(
    of: &str,
    through: plain::RowsAndIndex,
    versions: Versions,
    file: &[u8],
    list: &[u32],
) {
    let version_2 = version_2(versions);
    let mut kept = vec![0; KEPT_FRONT_BYTES + 4 * list.len()];
    crestulbino::keep_index(list, &mut kept).expect("a kept index");
    let size = KEPT2_FRONT_BYTES + 4 * list.len();
    let (mut one, mut other) = (vec![1; size], vec![1; size]);
    compare(
        &format!("convert_1_to_2{of}, a row"),
        ROWS,
        || crestulbino::convert_1_to_2(versions, black_box(file), &kept, &mut one).unwrap_or(0),
        || {
            let file = black_box(file);
            plain::convert_1_to_2(through, file, version_2, &kept, &mut other).unwrap_or(0)
        },
    );
    assert_eq!(one, other, "the two kept indexes");
    compare(
        &format!("check_kept2{of}, a row"),
        ROWS,
        || usize::from(crestulbino::check_kept2(versions, black_box(file), &one).is_ok()),
        || usize::from(plain::check_kept2(through, black_box(file), version_2, &other).is_ok()),
    );
}

/// The calls on a kept index of so many entries, made so often in a round.
fn kept_records(of: &str, entries: usize, times: usize) {
    let mut numbers = Numbers::new();
    let list: Vec<u32> = (0..entries)
        .map(|_| numbers.below(1 << 32) as u32)
        .collect();
    let mut kept = vec![0; KEPT_FRONT_BYTES + 4 * entries];
    crestulbino::keep_index(&list, &mut kept).expect("a kept index");
    let mut kept2 = [&[0; 4], &kept[..]].concat();
    kept2[..4].copy_from_slice(&(kept.len() as u32).to_le_bytes());
    kept2[4..KEPT2_FRONT_BYTES].copy_from_slice(&[2, 0, 1, 2, 3, 4]);
    let (mut one, mut other) = (vec![1; kept.len()], vec![1; kept.len()]);
    compare(
        &format!("keep_index, {of}"),
        times,
        || {
            many(times, || {
                crestulbino::keep_index(black_box(&list), &mut one).unwrap_or(0)
            })
        },
        || {
            many(times, || {
                plain::keep_index(black_box(&list), &mut other).unwrap_or(0)
            })
        },
    );
    assert_eq!(one, other, "the two kept indexes");
    compare(
        &format!("convert_2_to_1, {of}"),
        times,
        || {
            many(times, || {
                crestulbino::convert_2_to_1(black_box(&kept2), &mut one).unwrap_or(0)
            })
        },
        || {
            many(times, || {
                plain::convert_2_to_1(black_box(&kept2), &mut other).unwrap_or(0)
            })
        },
    );
    assert_eq!(one, other, "the two kept indexes");
    let (mut one, mut other) = (vec![1; entries], vec![1; entries]);
    compare(
        &format!("load_kept, {of}"),
        times,
        || {
            many(times, || {
                crestulbino::load_kept(black_box(&kept), &mut one).unwrap_or(0)
            })
        },
        || {
            many(times, || {
                plain::load_kept(black_box(&kept), &mut other).unwrap_or(0)
            })
        },
    );
    assert_eq!(one, other, "the two lists");
    compare(
        &format!("load_kept2, {of}"),
        times,
        || {
            many(times, || {
                let loaded = crestulbino::load_kept2(black_box(&kept2), &mut one);
                loaded.map_or(0, |loaded| loaded.rows + loaded.entries)
            })
        },
        || {
            many(times, || {
                let loaded = plain::load_kept2(black_box(&kept2), &mut other);
                loaded.map_or(0, |(rows, entries)| rows + entries)
            })
        },
    );
    assert_eq!(one, other, "the two lists");
}

/// The place and all parts of the address of a row.
fn told(row: Row<'_>) -> usize {
    let nesting = row.address.nesting;
    let nesting = nesting.map_or(9, |nesting| nesting.depth + nesting.outermost);
    row.place + row.address.label + nesting
}

fn plainly_told(row: plain::Row<'_>) -> usize {
    let nesting = row
        .nesting
        .map_or(9, |(depth, outermost)| depth + outermost);
    row.place + row.label + nesting
}

/// A row in the middle of the file; whichever it is, all of the file is passed.
fn read_labelled(name: &str, versions: Versions, file: &[u8]) {
    let version_2 = version_2(versions);
    compare(
        name,
        ROWS,
        || {
            let row = black_box(ROWS / 2);
            crestulbino::read_row(Kind::Labelled(versions), file, row, EMPTY).map_or(0, told)
        },
        || {
            let row = black_box(ROWS / 2);
            plain::read_row_labelled(file, version_2, row, 0, 0).map_or(0, plainly_told)
        },
    );
}

/// A row in the middle of a substitute that serves; the last row of an original whose substitute ends
/// in front of it; and a row in the middle of an original whose substitute ends in a byte too many.
fn substitutes(of: &str, versions: Versions, file: &[u8]) {
    let version_2 = version_2(versions);
    let last = crestulbino::read_row(Kind::Labelled(versions), file, ROWS - 1, EMPTY);
    let nesting = last.ok().and_then(|row| row.address.nesting);
    let shorter = nesting.expect("a last row").outermost;
    for (how, substitute, row, units) in [
        (", a row", file.to_vec(), ROWS / 2, ROWS),
        (
            ", row not in the substitute, a row of both",
            file[..shorter].to_vec(),
            ROWS - 1,
            2 * ROWS,
        ),
        (
            ", fault at the substitute's end, a row of both",
            [file, b"x"].concat(),
            ROWS / 2,
            2 * ROWS,
        ),
    ] {
        compare(
            &format!("substitute_row{of}{how}"),
            units,
            || {
                let row = black_box(row);
                let chosen = crestulbino::substitute_row(versions, file, &substitute, row);
                chosen.map_or(0, |chosen| {
                    let is_substitute = chosen.source == Source::Substitute;
                    usize::from(is_substitute) + chosen.row.bytes.len() + told(chosen.row)
                })
            },
            || {
                let row = black_box(row);
                let chosen = plain::substitute_row(file, &substitute, version_2, row);
                chosen.map_or(0, |(is_substitute, row)| {
                    usize::from(is_substitute) + row.bytes.len() + plainly_told(row)
                })
            },
        );
    }
}

fn check_labelled(name: &str, versions: Versions, file: &[u8]) {
    let version_2 = version_2(versions);
    compare(
        name,
        ROWS,
        || crestulbino::check(Kind::Labelled(versions), black_box(file)).unwrap_or(0),
        || plain::check(black_box(file), version_2).unwrap_or(0),
    );
}

fn row_after_row(name: &str, versions: Versions, file: &[u8]) {
    let version_2 = version_2(versions);
    compare(
        name,
        ROWS,
        || {
            let (mut from, mut rows) = (0, 0);
            let kind = Kind::Labelled(versions);
            while let Ok(row) = crestulbino::row_from(kind, black_box(file), from) {
                from = row.end();
                rows += 1;
            }
            rows
        },
        || {
            let (mut from, mut rows) = (0, 0);
            while let Ok(row) = plain::row_from(black_box(file), version_2, from) {
                from = row.place + row.bytes.len();
                rows += 1;
            }
            rows
        },
    );
}

/// All parts of each label go into its answer.
fn read_labels(name: &str, versions: Versions, labels: &[[u8; 20]]) {
    let version_2 = version_2(versions);
    let word = |four: [u8; 4]| u32::from_le_bytes(four) as usize;
    compare(
        name,
        REPEATS * labels.len(),
        || {
            repeated(labels, |label| {
                crestulbino::read_label(versions, label).map_or(0, |label| {
                    let head = word(label.agency) + word(label.description);
                    let small = [label.version.number(), label.class, label.spaces];
                    head + label.length + small.map(usize::from).iter().sum::<usize>()
                })
            })
        },
        || {
            repeated(labels, |label| {
                plain::read_label(label, version_2).map_or(0, |label| {
                    let head = word(label.agency) + word(label.description);
                    let small = [label.version, label.class].map(usize::from);
                    head + label.length + label.spaces + small.iter().sum::<usize>()
                })
            })
        },
    );
}

fn waveform_calls(file: &[u8], rows: &[usize]) {
    let last = WAVEFORM_ROWS - 1;
    compare(
        "read_row waveform, row 9,999",
        REPEATS,
        || {
            sum(&[last; REPEATS], |row| {
                crestulbino::read_row(Kind::Waveform, file, row, EMPTY).map_or(0, told)
            })
        },
        || {
            sum(&[last; REPEATS], |row| {
                plain::read_row_waveform(file, row, 0, 0).map_or(0, plainly_told)
            })
        },
    );
    compare(
        "jump_waveform, a jump",
        rows.len(),
        || {
            sum(rows, |row| {
                crestulbino::jump_waveform(file, row, EMPTY).map_or(0, told)
            })
        },
        || {
            sum(rows, |row| {
                plain::jump_waveform(file, row, 0, 0).map_or(0, plainly_told)
            })
        },
    );
}

fn burst_rows(file: &[u8], rows: &[usize]) {
    let last = BURST_ROWS - 1;
    let kind = Kind::Bursts(BURST_START);
    compare(
        "read_row bursts, row 9,999",
        REPEATS,
        || {
            sum(&[last; REPEATS], |row| {
                crestulbino::read_row(kind, file, row, EMPTY).map_or(0, told)
            })
        },
        || {
            sum(&[last; REPEATS], |row| {
                plain::read_row_bursts(file, BURST_START, row, 0, 0).map_or(0, plainly_told)
            })
        },
    );
    compare(
        "jump_bursts, a jump",
        rows.len(),
        || {
            sum(rows, |row| {
                crestulbino::jump_bursts(file, BURST_START, row, EMPTY).map_or(0, told)
            })
        },
        || {
            sum(rows, |row| {
                plain::jump_bursts(file, BURST_START, row, 0, 0).map_or(0, plainly_told)
            })
        },
    );
    compare(
        "row_from bursts row after row, a row",
        BURST_ROWS,
        || {
            let (mut from, mut rows) = (BURST_START, 0);
            while let Ok(row) = crestulbino::row_from(kind, black_box(file), from) {
                from = row.end();
                rows += 1;
            }
            rows
        },
        || {
            let (mut from, mut rows) = (BURST_START, 0);
            let next = |from| plain::row_from_bursts(black_box(file), BURST_START, from);
            while let Ok(row) = next(from) {
                from = row.place + row.bytes.len();
                rows += 1;
            }
            rows
        },
    );
}

/// Fields row after row, as a listing reads them, and rows and fields at random.
fn burst_fields(file: &[u8]) {
    const LIMITED: [usize; 8] = [7, 9, 33, 34, 47, 64, 144, 251];
    let mut numbers = Numbers::new();
    let mut asked = |position: &mut dyn FnMut(&mut Numbers) -> usize| -> Vec<(usize, usize)> {
        let mut one = || (numbers.below(BURST_ROWS), position(&mut numbers));
        (0..NUMBERS).map(|_| one()).collect()
    };
    let any = asked(&mut |numbers| 1 + numbers.below(255));
    let limited = asked(&mut |numbers| LIMITED[numbers.below(LIMITED.len())]);
    let in_order = |fields: &[usize]| -> Vec<(usize, usize)> {
        let one = |i| (i / fields.len(), fields[i % fields.len()]);
        (0..NUMBERS).map(one).collect()
    };
    let all: Vec<usize> = (1..=255).collect();
    burst_values("burst_field, in order", file, &in_order(&all));
    burst_values("burst_field, at random", file, &any);
    burst_verdicts("burst_verdict, in order", file, &in_order(&LIMITED));
    burst_verdicts("burst_verdict, at random", file, &limited);
}

fn burst_values(call: &str, file: &[u8], asked: &[(usize, usize)]) {
    compare(
        call,
        REPEATS * asked.len(),
        || {
            repeated(asked, |&(row, position)| {
                let field = crestulbino::burst_field(file, BURST_START, row, position as u64);
                field.map_or(0, |field| match field {
                    Field::Unsigned(number) => number as usize,
                    Field::Signed(number) => number as usize,
                    Field::Float4(bits) => bits as usize,
                    Field::Float8(bits) => bits as usize,
                    Field::Text(text) => text.place + text.bytes.len(),
                })
            })
        },
        || {
            repeated(asked, |&(row, position)| {
                let field = plain::burst_field(file, BURST_START, row, position);
                field.map_or(0, |field| match field {
                    plain::Field::Unsigned(number) => number as usize,
                    plain::Field::Signed(number) => number as usize,
                    plain::Field::Float4(bits) => bits as usize,
                    plain::Field::Float8(bits) => bits as usize,
                    plain::Field::Text(place, bytes) => place + bytes.len(),
                })
            })
        },
    );
}

fn burst_verdicts(call: &str, file: &[u8], asked: &[(usize, usize)]) {
    compare(
        call,
        REPEATS * asked.len(),
        || {
            repeated(asked, |&(row, position)| {
                let verdict = crestulbino::burst_verdict(file, BURST_START, row, position as u64);
                verdict.map_or(9, |verdict| match verdict {
                    Verdict::Below => 0,
                    Verdict::Inside => 1,
                    Verdict::Above => 2,
                })
            })
        },
        || {
            repeated(asked, |&(row, position)| {
                plain::burst_verdict(file, BURST_START, row, position).unwrap_or(9)
            })
        },
    );
}

/// Masks and modes of which half are too large.
fn burst_numbers() {
    let mut numbers = Numbers::new();
    let mut below =
        |limit| -> Vec<u64> { (0..NUMBERS).map(|_| numbers.below(limit) as u64).collect() };
    let (masks, modes) = (below(64), below(16));
    compare(
        "beams, a mask",
        REPEATS * masks.len(),
        || {
            repeated(&masks, |&mask| match crestulbino::beams(mask) {
                Beams::Inside(beams) => beams as usize,
                Beams::Above => 9,
            })
        },
        || {
            repeated(&masks, |&mask| {
                plain::beams(mask).map_or(9, |beams| beams as usize)
            })
        },
    );
    compare(
        "mode, a number",
        REPEATS * modes.len(),
        || {
            repeated(&modes, |&number| {
                crestulbino::mode(number).map_or(8, |mode| mode.number() as usize)
            })
        },
        || repeated(&modes, |&number| plain::mode(number) as usize),
    );
}

/// A labelled or a waveform file to be drawn.
#[derive(Clone, Copy)]
struct Drawn<'a> {
    kind: Kind,
    file: &'a [u8],
    rows: usize,
    columns: usize,
}

impl Drawn<'_> {
    fn plainly<D: Draw>(self, out: &mut [u8]) -> usize {
        let strip = self.strip();
        let drawn = match self.kind {
            Kind::Labelled(_) => {
                plain::strip_labelled::<D>(black_box(self.file), false, strip, out)
            }
            _ => plain::strip_waveform::<D>(black_box(self.file), strip, out),
        };
        drawn.unwrap_or(0)
    }

    fn plainly_behind(self, column: usize, line: usize) -> usize {
        let strip = self.strip();
        let dot = match self.kind {
            Kind::Labelled(_) => plain::behind_labelled(self.file, false, strip, column, line),
            _ => plain::behind_waveform(self.file, strip, column, line),
        };
        dot.map_or(0, |(place, byte, tone, is_set)| {
            place + usize::from(byte) + usize::from(tone) + usize::from(is_set)
        })
    }

    /// All rows, whole.
    fn strip(self) -> plain::Strip {
        plain::Strip {
            row: 0,
            rows: self.rows,
            first: 0,
            count: self.columns,
        }
    }
}

/// Strips of whole files, of which the longer ones have ten times as many rows, and dots of them.
fn strips(waveform: &[u8]) {
    let mut numbers = Numbers::new();
    let long = inputs::rows_of_size(&mut numbers, 10_000, 2_048);
    let short = inputs::rows_of_size(&mut numbers, 200_000, 64);
    for rows in [1_000, 10_000] {
        let drawn = Drawn {
            kind: Kind::Waveform,
            file: &waveform[..2_080 * rows],
            rows,
            columns: 2_048,
        };
        let name = format!("waveform, {rows} rows of 2048");
        strip(&name, drawn);
        let lines: Vec<usize> = (0..JUMPS).map(|_| numbers.below(rows)).collect();
        behind(&format!("behind {name}, a dot"), drawn, &lines, JUMPS);
    }
    for (file, all, columns) in [(&long, 10_000, 2_048), (&short, 200_000, 64)] {
        for rows in [all / 10, all] {
            let drawn = Drawn {
                kind: Kind::Labelled(ONE),
                file: &file[..file.len() / all * rows],
                rows,
                columns,
            };
            let name = format!("labelled, {rows} rows of {columns}");
            strip(&name, drawn);
            // All labels are passed for one dot.
            let name = format!("behind {name}, a row of the file");
            behind(&name, drawn, &[rows / 2], rows);
        }
    }
}

/// Dots of these lines of a whole file.
fn behind(name: &str, drawn: Drawn<'_>, lines: &[usize], units: usize) {
    let (window, column) = (Window::new(0, drawn.columns), drawn.columns / 2);
    compare(
        name,
        units,
        || {
            sum(lines, |line| {
                let dot = crestulbino::behind(drawn.kind, drawn.file, 0, window, column, line);
                dot.map_or(0, |dot| {
                    let small = [dot.byte, dot.tone, u8::from(dot.is_set)].map(usize::from);
                    dot.place + small.iter().sum::<usize>()
                })
            })
        },
        || sum(lines, |line| drawn.plainly_behind(column, line)),
    );
}

/// A strip of a whole file, beside plain Rust that draws dot by dot, and eight dots at once.
fn strip(name: &str, drawn: Drawn<'_>) {
    strip_beside::<plain::DotByDot>(&format!("strip {name}, a dot"), drawn);
    let name = format!("strip {name}, beside eight at once, a dot");
    strip_beside::<plain::EightAtOnce>(&name, drawn);
}

fn strip_beside<D: Draw>(name: &str, drawn: Drawn<'_>) {
    let Drawn {
        kind,
        file,
        rows,
        columns,
    } = drawn;
    let size = rows * columns.div_ceil(8);
    let (mut one, mut other) = (vec![1; size], vec![1; size]);
    let window = Window::new(0, columns);
    compare(
        name,
        rows * columns,
        || crestulbino::strip(kind, black_box(file), 0, rows, window, &mut one).unwrap_or(0),
        || drawn.plainly::<D>(&mut other),
    );
    assert!(one == other, "the two strips");
}

fn number_calls(times: &[[u8; 8]], samples: &[u8]) {
    compare(
        "vax_d, a number",
        REPEATS * times.len(),
        || repeated(times, |time| crestulbino::vax_d(time).map_or(0, bits)),
        || repeated(times, |time| plain::vax_d(time).map_or(0, bits)),
    );
    compare(
        "vax_d, beside a conversion",
        REPEATS * times.len(),
        || repeated(times, |time| crestulbino::vax_d(time).map_or(0, bits)),
        || {
            repeated(times, |time| {
                plain::vax_d_by_conversion(time).map_or(0, bits)
            })
        },
    );
    compare(
        "vax_d_dropped, a number",
        REPEATS * times.len(),
        || {
            repeated(times, |time| {
                crestulbino::vax_d_dropped(time).map_or(0, bits)
            })
        },
        || repeated(times, |time| plain::vax_d_dropped(time).map_or(0, bits)),
    );
    compare(
        "tone, a sample",
        REPEATS * samples.len(),
        || repeated(samples, |&sample| crestulbino::tone(sample).into()),
        || repeated(samples, |&sample| plain::tone(sample).into()),
    );
    compare(
        "sample, a sample",
        REPEATS * samples.len(),
        || repeated(samples, |&sample| crestulbino::sample(sample) as usize),
        || repeated(samples, |&sample| plain::sample(sample) as usize),
    );
}

fn bits(number: f64) -> usize {
    number.to_bits() as usize
}

/// The answers for all rows, added up so that none can be left out.
fn sum(rows: &[usize], answer: impl Fn(usize) -> usize) -> usize {
    let answers = rows.iter().map(|&row| answer(black_box(row)));
    answers.fold(0, usize::wrapping_add)
}

fn repeated<T>(items: &[T], answer: impl Fn(&T) -> usize) -> usize {
    let once = |_| {
        let answers = black_box(items).iter().map(&answer);
        answers.fold(0, usize::wrapping_add)
    };
    (0..REPEATS).map(once).fold(0, usize::wrapping_add)
}

/// The answers of a call that is made so often.
fn many(times: usize, mut answer: impl FnMut() -> usize) -> usize {
    (0..times).map(|_| answer()).fold(0, usize::wrapping_add)
}

/// Measures both sides in turn and prints a line of the table.
fn compare(
    name: &str,
    units: usize,
    mut proved: impl FnMut() -> usize,
    mut plain: impl FnMut() -> usize,
) {
    assert_eq!(proved(), plain(), "{name}");
    let (mut of_proved, mut of_plain) = (Duration::MAX, Duration::MAX);
    for _ in 0..ROUNDS {
        of_proved = of_proved.min(timed(&mut proved));
        of_plain = of_plain.min(timed(&mut plain));
    }
    let each = |time: Duration| time.as_secs_f64() * 1e9 / units as f64;
    let (proved, plain) = (each(of_proved), each(of_plain));
    // Dots take less than a nanosecond.
    let decimals = if proved.min(plain) < 1.0 { 3 } else { 1 };
    println!(
        "| {name} | {proved:.decimals$} ns | {plain:.decimals$} ns | {:.2} |",
        proved / plain
    );
}

fn timed(call: &mut impl FnMut() -> usize) -> Duration {
    let begun = Instant::now();
    black_box(call());
    begun.elapsed()
}
