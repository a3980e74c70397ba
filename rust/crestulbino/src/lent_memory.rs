//! Tests of the boundary to the byte: each call with each refusal that it can give, its outputs
//! lent with other memory on both sides. A refused call changes nothing; a call that answers
//! changes the front of its outputs.

use crate::ffi::{self, DotNumbers, Outcome, RowMemory, RowNumbers, ABSENT, KNOWN};
use std::fmt::Debug;

const DEMO: &[u8] = b"CCSD1Z00000100000043NJPL1I00DEMO00000003abcNJPL1I00DEMO00000000";

/// The same in version 2, and with both versions.
const DEMO_2: &[u8] = b"CCSD2Z000001\0\0\0\0\0\0\0\x2bNJPL2I00DEMO\0\0\0\0\0\0\0\x03abc\
                        NJPL2I00DEMO\0\0\0\0\0\0\0\0";
const MIXED: &[u8] = b"CCSD1Z00000100000043NJPL1I00DEMO00000003abcNJPL2I00DEMO\0\0\0\0\0\0\0\0";

/// Each file with a choice that it is accepted with: whether version 2 is allowed.
const ACCEPTED: [(&[u8], bool); 4] = [(DEMO, false), (DEMO, true), (DEMO_2, true), (MIXED, true)];

const ANSWERED: Outcome = refused(0, 0);

const fn refused(refusal: u64, place: u64) -> Outcome {
    Outcome { refusal, place }
}

/// Something that memory can be filled with before it is lent.
trait Filling: Copy + Debug + PartialEq {
    fn of(number: u64) -> Self;
}

impl Filling for u8 {
    fn of(number: u64) -> u8 {
        number as u8
    }
}

impl Filling for u32 {
    fn of(number: u64) -> u32 {
        number as u32
    }
}

impl Filling for u64 {
    fn of(number: u64) -> u64 {
        number
    }
}

impl Filling for f64 {
    fn of(number: u64) -> f64 {
        (number as i64) as f64
    }
}

impl Filling for RowNumbers {
    fn of(number: u64) -> RowNumbers {
        RowNumbers {
            place: number,
            bytes: number.rotate_left(8),
            label: number.rotate_left(16),
            nesting: number.rotate_left(24),
            depth: number.rotate_left(32),
            outermost: number.rotate_left(40),
        }
    }
}

impl Filling for DotNumbers {
    fn of(number: u64) -> DotNumbers {
        DotNumbers {
            place: number,
            byte: number.rotate_left(8),
            tone: number.rotate_left(16),
            dot: number.rotate_left(24),
        }
    }
}

/// Memory with an output in its middle.
struct Lent<T> {
    memory: Vec<T>,
    size: usize,
    salt: u64,
}

/// How many elements stand on each side of an output.
const MARGIN: usize = 48;

/// No element is filled alike under both, so that writing what was there shows in one of them.
const SALTS: [u64; 2] = [0x1234_5678_9abc_def1, !0x1234_5678_9abc_def1];

impl<T: Filling> Lent<T> {
    fn new(size: usize, salt: u64) -> Lent<T> {
        let memory = (0..size + 2 * MARGIN).map(|at| filling(at, salt)).collect();
        Lent { memory, size, salt }
    }

    fn output(&mut self) -> &mut [T] {
        &mut self.memory[MARGIN..MARGIN + self.size]
    }

    fn number(&mut self) -> &mut T {
        &mut self.memory[MARGIN]
    }

    fn four(&mut self) -> &mut [T; 4] {
        self.output().try_into().unwrap()
    }

    /// Only the front of the output was changed, and to this.
    #[track_caller]
    fn assert_front(&self, front: &[T]) {
        for (at, &element) in self.memory.iter().enumerate() {
            let written = at.checked_sub(MARGIN).and_then(|at| front.get(at));
            let expected = written.copied().unwrap_or(filling(at, self.salt));
            assert_eq!(element, expected, "element {at}, the output at {MARGIN}");
        }
    }
}

fn filling<T: Filling>(at: usize, salt: u64) -> T {
    T::of(salt.rotate_left(8 * (at as u32 % 8)))
}

/// A call with one number for an answer.
fn answers_number<T: Filling>(
    name: &str,
    expected: Result<T, Outcome>,
    call: impl Fn(&mut T) -> Outcome,
) {
    for salt in SALTS {
        let mut number = Lent::new(1, salt);
        let outcome = call(number.number());
        assert_eq!(outcome, expected.err().unwrap_or(ANSWERED), "{name}");
        number.assert_front(expected.ok().as_slice());
    }
}

/// What is shown of a row: its place, how many bytes, its label's place, and its depth and its
/// outermost object's place where they are known.
type Shown = (u64, u64, u64, Option<(u64, u64)>);

/// A call with a row for an answer. Where its depth is absent, the numbers for it stay as they were.
fn shows(
    name: &str,
    expected: Result<Shown, Outcome>,
    call: impl Fn(&mut RowMemory) -> ffi::Shown<'_>,
) {
    for salt in SALTS {
        let mut shown = Lent::new(1, salt);
        let before: RowNumbers = *shown.number();
        let given = call(ffi::lent(shown.number()));
        assert_eq!(parts(given), expected, "{name}");
        let answer = expected.ok().map(|row| numbers(row, before));
        shown.assert_front(answer.as_slice());
    }
}

/// What a call that answers a row came to.
fn parts(given: ffi::Shown<'_>) -> Result<Shown, Outcome> {
    given.map(|row| (row.place(), row.bytes(), row.label(), row.nesting()))
}

/// What stands in a row's memory when the row is answered, by what stood there before.
fn numbers((place, bytes, label, nesting): Shown, before: RowNumbers) -> RowNumbers {
    let (depth, outermost) = nesting.unwrap_or((before.depth, before.outermost));
    RowNumbers {
        place,
        bytes,
        label,
        nesting: if nesting.is_some() { KNOWN } else { ABSENT },
        depth,
        outermost,
    }
}

/// A call with memory lent to write to, and two numbers for an answer.
fn answers_with<T: Filling>(
    name: &str,
    size: usize,
    expected: Result<(Vec<T>, (u64, u64)), Outcome>,
    call: impl Fn(&mut [T], &mut u64, &mut u64) -> Outcome,
) {
    for salt in SALTS {
        let mut memory = Lent::new(size, salt);
        let (mut first, mut second) = (Lent::new(1, salt), Lent::new(1, salt));
        let outcome = call(memory.output(), first.number(), second.number());
        assert_eq!(
            outcome,
            expected.as_ref().err().copied().unwrap_or(ANSWERED),
            "{name}"
        );
        let answer = expected.as_ref().ok();
        memory.assert_front(answer.map_or(&[], |(front, _)| front));
        first.assert_front(answer.map(|(_, two)| two.0).as_slice());
        second.assert_front(answer.map(|(_, two)| two.1).as_slice());
    }
}

/// A call with memory lent to write to, and how much it wrote for an answer.
fn fills<T: Filling>(
    name: &str,
    size: usize,
    expected: Result<Vec<T>, Outcome>,
    call: impl Fn(&mut [T], &mut u64) -> Outcome,
) {
    for salt in SALTS {
        let (mut memory, mut count) = (Lent::new(size, salt), Lent::new(1, salt));
        let outcome = call(memory.output(), count.number());
        assert_eq!(
            outcome,
            expected.as_ref().err().copied().unwrap_or(ANSWERED),
            "{name}"
        );
        let answer = expected.as_ref().ok();
        memory.assert_front(answer.map_or(&[], |front| front));
        count.assert_front(answer.map(|front| front.len() as u64).as_slice());
    }
}

/// One byte more than a file may have. Nothing is written to it, so it takes no memory.
fn too_big() -> Vec<u8> {
    vec![0; 1 << 32]
}

/// Nine labels nested, but for most of the last.
fn too_deep(label: impl Fn(usize) -> Vec<u8>) -> Vec<u8> {
    let groups = (0..8).rev().flat_map(|left| label(left * 20 + 1));
    groups.chain(*b"x").collect()
}

/// A label of version 2.
fn label_2(head: &[u8; 12], length: u64) -> Vec<u8> {
    [&head[..], &length.to_be_bytes()].concat()
}

/// A file for each refusal of the check of labelled files, with the choice.
fn refused_files() -> Vec<(Vec<u8>, bool, Outcome)> {
    let mut files = walk_faults();
    let deep = too_deep(|length| format!("CCSD1Z000001{length:08}").into_bytes());
    let deep_2 = too_deep(|length| label_2(b"CCSD2Z000001", length as u64));
    files.push((deep_2, true, refused(5, 160)));
    for version_2 in [false, true] {
        files.push((deep.clone(), version_2, refused(5, 160)));
    }
    files.extend(too_big_files());
    files
}

fn too_big_files() -> [(Vec<u8>, bool, Outcome); 2] {
    [false, true].map(|version_2| (too_big(), version_2, refused(14, 0)))
}

/// A file for each refusal that a walk from its first byte meets, with the choice.
fn walk_faults() -> Vec<(Vec<u8>, bool, Outcome)> {
    let mut files = Vec::new();
    for (file, outcome) in [
        (&b"CCSD1Z00000100000001x"[..], refused(1, 20)),
        (b"CCSD1Z00000100000020NJPL3I00DEMO00000000", refused(2, 20)),
        (b"CCSD1Z00000100000020NJPL1I00DEMO0000000x", refused(3, 20)),
        (b"CCSD1Z000001      20NJPL1I00DEMO        ", refused(3, 20)),
        (b"CCSD1Z00000100000020NJPL1I00DEMO00000001", refused(4, 20)),
        (b"CCSD1Z000001      20NJPL1I00DEMO       1", refused(4, 20)),
    ] {
        // The same inside a group of version 2.
        let inside = &file[20..];
        let group = label_2(b"CCSD2Z000001", inside.len() as u64);
        files.push(([&group, inside].concat(), true, outcome));
        files.push((group, false, refused(2, 0)));
        for version_2 in [false, true] {
            files.push((file.to_vec(), version_2, outcome));
        }
    }
    for length in [1, 1 << 31, 1 << 32, 1 << 63, u64::MAX - 39, u64::MAX] {
        let leaf = label_2(b"NJPL2I00DEMO", length);
        let file = [&b"CCSD1Z00000100000020"[..], &leaf].concat();
        files.push((file.clone(), false, refused(2, 20)));
        files.push((file, true, refused(4, 20)));
    }
    files
}

#[test]
fn read_label() {
    const ONE: [bool; 1] = [false];
    const TWO: [bool; 1] = [true];
    const EITHER: [bool; 2] = [false, true];
    for (bytes, choices, expected) in [
        (&b"NJPL1I00DEMO00000003abc"[..], &EITHER[..], Ok((1, 3, 0))),
        (b"NJPL1I00DEMO   00003", &EITHER, Ok((1, 3, 3))),
        (b"NJPL1I00DEMO       3abc", &EITHER, Ok((1, 3, 7))),
        (b"NJPL1I00DEMO0000000", &EITHER, Err(refused(1, 0))),
        (b"NJPL1i00DEMO00000003", &EITHER, Err(refused(2, 0))),
        (b"NJPL3I00DEMO00000003", &EITHER, Err(refused(2, 0))),
        (b"NJPL1I00DEMO0000000x", &EITHER, Err(refused(3, 0))),
        (b"NJPL1I00DEMO        ", &EITHER, Err(refused(3, 0))),
        (b"NJPL1I00DEMO  00003 ", &EITHER, Err(refused(3, 0))),
        (b"NJPL2I00DEMO\0\0\0\0\0\0\0\x03", &TWO, Ok((2, 3, 0))),
        (b"NJPL2I00DEMO\0\0\0\0\0\0\0\x03", &ONE, Err(refused(2, 0))),
        (
            b"NJPL2I00DEMO\xff\xff\xff\xff\xff\xff\xff\xff",
            &TWO,
            Ok((2, u64::MAX, 0)),
        ),
        (
            b"NJPL2I00DEMO        ",
            &TWO,
            Ok((2, 0x2020_2020_2020_2020, 0)),
        ),
        (b"NJPL2I00DEMO        ", &ONE, Err(refused(2, 0))),
        (
            b"NJPL2i00DEMO\0\0\0\0\0\0\0\x03",
            &EITHER,
            Err(refused(2, 0)),
        ),
        (b"NJPL2I00DEMO\0\0\0\0\0\0\0", &EITHER, Err(refused(1, 0))),
    ] {
        for (salt, &version_2) in SALTS
            .iter()
            .flat_map(|s| choices.iter().map(move |c| (*s, c)))
        {
            let (mut agency, mut version) = (Lent::new(4, salt), Lent::new(1, salt));
            let (mut class, mut description) = (Lent::new(1, salt), Lent::new(4, salt));
            let (mut length, mut spaces) = (Lent::new(1, salt), Lent::new(1, salt));
            let outcome = ffi::read_label(
                bytes,
                version_2,
                agency.four(),
                version.number(),
                class.number(),
                description.four(),
                length.number(),
                spaces.number(),
            );
            assert_eq!(outcome, expected.err().unwrap_or(ANSWERED));
            let answered = usize::from(expected.is_ok());
            agency.assert_front(&b"NJPL"[..4 * answered]);
            version.assert_front(expected.ok().map(|parts| parts.0).as_slice());
            class.assert_front(&b"I"[..answered]);
            description.assert_front(&b"DEMO"[..4 * answered]);
            length.assert_front(expected.ok().map(|parts| parts.1).as_slice());
            spaces.assert_front(expected.ok().map(|parts| parts.2).as_slice());
        }
    }
}

#[test]
fn write_label() {
    let (one, two) = (&b"NJPL1I00DEMO"[..], &b"NJPL2I00DEMO"[..]);
    let label = || Ok(b"NJPL1I00DEMO00000003".to_vec());
    let of_2 = |length| Ok(label_2(b"NJPL2I00DEMO", length));
    for (version, head, length, size, expected) in [
        (1, one, 3, 20, label()),
        (1, one, 3, 23, label()),
        (1, b"NJPL1I00DEM", 3, 23, Err(refused(2, 0))),
        (1, b"NJPL1I00DEMo", 3, 23, Err(refused(2, 0))),
        (1, two, 3, 23, Err(refused(2, 0))),
        (1, two, 100_000_000, 0, Err(refused(2, 0))),
        (1, one, 100_000_000, 23, Err(refused(15, 0))),
        (1, one, u64::MAX, 23, Err(refused(15, 0))),
        (1, one, u64::MAX, 0, Err(refused(15, 0))),
        (1, one, 3, 19, Err(refused(8, 0))),
        (1, one, 3, 0, Err(refused(8, 0))),
        (2, two, 3, 20, of_2(3)),
        (2, two, 100_000_000, 23, of_2(100_000_000)),
        (2, two, 1 << 32, 21, of_2(1 << 32)),
        (2, two, 1 << 63, 20, of_2(1 << 63)),
        (2, two, u64::MAX, 20, of_2(u64::MAX)),
        (2, b"NJPL2I00DEM", 3, 23, Err(refused(2, 0))),
        (2, b"NJPL2I00DEMo", u64::MAX, 23, Err(refused(2, 0))),
        (2, one, 3, 23, Err(refused(2, 0))),
        (2, two, u64::MAX, 19, Err(refused(8, 0))),
        (2, two, 3, 0, Err(refused(8, 0))),
    ] {
        fills("write_label", size, expected, |out, written| {
            ffi::write_label(version, head, length, out, written)
        });
    }
    // Other numbers are no versions, whatever byte 4 is; not even as characters.
    for version in [0, 3, b'1', b'2', 255] {
        for byte in [b'1', b'2', b'0', b'3', 0, 1, 2, 3, 255, version] {
            let mut head = *b"NJPL1I00DEMO";
            head[4] = byte;
            for (length, size) in [(3, 23), (u64::MAX, 23), (3, 0)] {
                fills(
                    "write_label",
                    size,
                    Err(refused(2, 0)),
                    |out: &mut [u8], written| {
                        ffi::write_label(version, &head, length, out, written)
                    },
                );
            }
        }
    }
    // Nor does byte 4 agree as a number.
    for (version, byte) in [(1, 1), (2, 2)] {
        let mut head = *b"NJPL1I00DEMO";
        head[4] = byte;
        fills(
            "write_label",
            23,
            Err(refused(2, 0)),
            |out: &mut [u8], written| ffi::write_label(version, &head, 3, out, written),
        );
    }
}

#[test]
fn check() {
    for (file, version_2) in ACCEPTED {
        answers_number("labelled", Ok(2), |rows| {
            ffi::check_labelled(file, version_2, rows)
        });
        answers_number("labelled", Ok(0), |rows| {
            ffi::check_labelled(&[], version_2, rows)
        });
    }
    for (file, version_2, outcome) in refused_files() {
        answers_number("labelled", Err(outcome), |rows| {
            ffi::check_labelled(&file, version_2, rows)
        });
    }
    for (file, expected) in [
        (vec![0; 2 * 2_080], Ok(2)),
        (vec![0; 2_079], Err(refused(12, 0))),
        (too_big(), Err(refused(14, 0))),
    ] {
        answers_number("waveform", expected, |rows| {
            ffi::check_waveform(&file, rows)
        });
    }
    let (two, too_big) = (bursts(2), too_big());
    for (file, start, expected) in [
        (&two[..], FRONT, Ok(2)),
        (&two, FRONT + 1_272, Ok(1)),
        (&two, FRONT + 2 * 1_272, Ok(0)),
        (&[], 0, Ok(0)),
    ]
    .into_iter()
    .chain(refused_bursts(&two, &too_big).map(|(file, start, outcome)| (file, start, Err(outcome))))
    {
        answers_number("bursts", expected, |rows| {
            ffi::check_bursts(file, start, rows)
        });
    }
}

/// Where the first record of a burst file stands.
const FRONT: u64 = 100;

/// A burst file of so many records, each byte of which tells its place.
fn bursts(records: usize) -> Vec<u8> {
    let bytes = 0..FRONT as usize + records * 1_272;
    bytes.map(|place| (place % 251) as u8).collect()
}

/// A file and a first place for each refusal of the check of burst files, and for those that come
/// before others.
fn refused_bursts<'a>(file: &'a [u8], too_big: &'a [u8]) -> [(&'a [u8], u64, Outcome); 8] {
    let end = file.len() as u64;
    [
        (file, FRONT - 1, refused(12, 0)),
        (file, FRONT + 1, refused(12, 0)),
        (&file[1..], FRONT, refused(12, 0)),
        (file, end + 1, refused(16, 0)),
        (file, u64::MAX, refused(16, 0)),
        (&[], 1, refused(16, 0)),
        (too_big, 0, refused(14, 0)),
        (too_big, u64::MAX, refused(14, 0)),
    ]
}

#[test]
fn read_row_labelled() {
    for (row, first, count, expected) in [
        (0, 1, 2, Ok((41, 2, 20, Some((2, 0))))),
        (1, 0, 0, Ok((63, 0, 43, Some((2, 0))))),
        (2, 0, 0, Err(refused(6, 0))),
        (u64::MAX, u64::MAX, 1, Err(refused(6, 0))),
        (0, 1, 3, Err(refused(7, 0))),
        (1, u64::MAX, 1, Err(refused(7, 0))),
    ] {
        for (file, version_2) in ACCEPTED {
            shows("read_row_labelled", expected, |shown| {
                ffi::read_row_labelled(file, version_2, row, first, count, shown)
            });
        }
    }
    for (file, version_2, outcome) in refused_files() {
        shows("read_row_labelled", Err(outcome), |shown| {
            ffi::read_row_labelled(&file, version_2, 0, 0, 0, shown)
        });
    }
}

#[test]
fn waveform_rows() {
    let file = vec![0; 2 * 2_080];
    let (ragged, too_big) = (vec![0; 2_081], too_big());
    for (file, row, first, count, expected) in [
        (&file, 1, 2_040, 8, Ok((4_152, 8, 2_112, Some((0, 2_112))))),
        (&file, 1, 2_048, 0, Ok((4_160, 0, 2_112, Some((0, 2_112))))),
        (&file, 2, 0, 0, Err(refused(6, 0))),
        (&file, 1 << 59, 0, 0, Err(refused(6, 0))),
        (&file, 1, 2_041, 8, Err(refused(7, 0))),
        (&ragged, 0, 0, 0, Err(refused(12, 0))),
        (&too_big, 0, 0, 0, Err(refused(14, 0))),
    ] {
        shows("read_row_waveform", expected, |shown| {
            ffi::read_row_waveform(file, row, first, count, shown)
        });
        shows("jump_waveform", expected, |shown| {
            ffi::jump_waveform(file, row, first, count, shown)
        });
    }
    for (file, from, expected) in [
        (&file, 2_080, Ok((2_112, 2_048, 2_112, Some((0, 2_112))))),
        (&file, 2_081, Err(refused(6, 0))),
        (&file, 4_160, Err(refused(6, 0))),
        (&ragged, 0, Err(refused(12, 0))),
        (&too_big, 0, Err(refused(14, 0))),
    ] {
        shows("row_from_waveform", expected, |shown| {
            ffi::row_from_waveform(file, from, shown)
        });
    }
}

#[test]
fn burst_rows() {
    let (two, too_big) = (bursts(2), too_big());
    for (row, first, count, expected) in [
        (0, 0, 1_272, Ok((100, 1_272, 100, Some((0, 100))))),
        (1, 1_264, 8, Ok((2_636, 8, 1_372, Some((0, 1_372))))),
        (1, 1_272, 0, Ok((2_644, 0, 1_372, Some((0, 1_372))))),
        (2, 0, 0, Err(refused(6, 0))),
        (1 << 61, 0, 0, Err(refused(6, 0))),
        (u64::MAX, u64::MAX, 1, Err(refused(6, 0))),
        (1, 1_265, 8, Err(refused(7, 0))),
        (1, u64::MAX, 1, Err(refused(7, 0))),
    ] {
        shows("read_row_bursts", expected, |shown| {
            ffi::read_row_bursts(&two, FRONT, row, first, count, shown)
        });
        shows("jump_bursts", expected, |shown| {
            ffi::jump_bursts(&two, FRONT, row, first, count, shown)
        });
    }
    for (from, expected) in [
        (100, Ok((100, 1_272, 100, Some((0, 100))))),
        (1_372, Ok((1_372, 1_272, 1_372, Some((0, 1_372))))),
        (0, Err(refused(6, 0))),
        (99, Err(refused(6, 0))),
        (101, Err(refused(6, 0))),
        (1_272, Err(refused(6, 0))),
        (2_644, Err(refused(6, 0))),
        (u64::MAX, Err(refused(6, 0))),
    ] {
        shows("row_from_bursts", expected, |shown| {
            ffi::row_from_bursts(&two, FRONT, from, shown)
        });
    }
    for (file, start, outcome) in refused_bursts(&two, &too_big) {
        for (row, first) in [(0, 0), (u64::MAX, u64::MAX)] {
            shows("read_row_bursts", Err(outcome), |shown| {
                ffi::read_row_bursts(file, start, row, first, 0, shown)
            });
            shows("jump_bursts", Err(outcome), |shown| {
                ffi::jump_bursts(file, start, row, first, 0, shown)
            });
        }
        shows("row_from_bursts", Err(outcome), |shown| {
            ffi::row_from_bursts(file, start, start, shown)
        });
    }
}

#[test]
fn jump_labelled() {
    for (list, row, first, count, expected) in [
        (&[20][..], 0, 1, 2, Ok((41, 2, 20, None))),
        (&[20], 1, 0, 0, Ok((63, 0, 43, None))),
        (&[], 0, 0, 0, Err(refused(6, 0))),
        (&[20], 16, 0, 0, Err(refused(6, 0))),
        (&[20], 2, 0, 0, Err(refused(6, 0))),
        (&[64], 0, 0, 0, Err(refused(11, 0))),
        (&[20], 0, 1, 3, Err(refused(7, 0))),
    ] {
        for (file, version_2) in ACCEPTED {
            shows("jump_labelled", expected, |shown| {
                ffi::jump_labelled(file, version_2, list, row, first, count, shown)
            });
        }
    }
    for (file, version_2, outcome) in walk_faults().into_iter().chain(too_big_files()) {
        shows("jump_labelled", Err(outcome), |shown| {
            ffi::jump_labelled(&file, version_2, &[0], 0, 0, 0, shown)
        });
    }
    // Version 1 only, the walk does not meet the last label.
    for (row, expected) in [(0, Ok((40, 0, 20, None))), (1, Err(refused(2, 43)))] {
        shows("jump_labelled", expected, |shown| {
            ffi::jump_labelled(MIXED, false, &[20], row, 0, 0, shown)
        });
    }
}

#[test]
fn row_from_labelled() {
    for (from, expected) in [
        (0, Ok((40, 3, 20, None))),
        (43, Ok((63, 0, 43, None))),
        (63, Err(refused(6, 0))),
        (64, Err(refused(6, 0))),
        (u64::MAX, Err(refused(6, 0))),
    ] {
        for (file, version_2) in ACCEPTED {
            shows("row_from_labelled", expected, |shown| {
                ffi::row_from_labelled(file, version_2, from, shown)
            });
        }
    }
    for (file, version_2, outcome) in walk_faults().into_iter().chain(too_big_files()) {
        shows("row_from_labelled", Err(outcome), |shown| {
            ffi::row_from_labelled(&file, version_2, 0, shown)
        });
    }
    for (from, expected) in [(0, Ok((40, 3, 20, None))), (43, Err(refused(2, 43)))] {
        shows("row_from_labelled", expected, |shown| {
            ffi::row_from_labelled(MIXED, false, from, shown)
        });
    }
}

/// The call on two files, with the file that the row is shown from and the row for an answer.
fn chooses(
    original: &[u8],
    substitute: &[u8],
    version_2: bool,
    row: u64,
    expected: Result<(u64, Shown), Outcome>,
) {
    for salt in SALTS {
        let (mut source, mut shown) = (Lent::new(1, salt), Lent::new(1, salt));
        let before: RowNumbers = *shown.number();
        let given = ffi::substitute_row(
            original,
            substitute,
            version_2,
            row,
            source.number(),
            ffi::lent(shown.number()),
        );
        assert_eq!(parts(given), expected.map(|(_, row)| row), "row {row}");
        source.assert_front(expected.ok().map(|(source, _)| source).as_slice());
        let answer = expected.ok().map(|(_, row)| numbers(row, before));
        shown.assert_front(answer.as_slice());
    }
}

#[test]
fn substitute_row() {
    const ORIGINAL: u64 = 0;
    const SUBSTITUTE: u64 = 1;
    const ROWS: [Shown; 2] = [(40, 3, 20, Some((2, 0))), (63, 0, 43, Some((2, 0)))];
    // At other places and another depth, of other lengths, with a row more or a row less.
    let more = b"NJPL1I00DEMO00000000NJPL1I00DEMO00000002xyNJPL1I00DEMO00000001z";
    let (more, less) = (&more[..], &more[..20]);
    let rows_of_more = [
        (20, 0, 0, Some((1, 0))),
        (40, 2, 20, Some((1, 20))),
        (62, 1, 42, Some((1, 42))),
    ];
    let of_original = |row: Shown| Ok((ORIGINAL, row));
    let of_substitute = |row: Shown| Ok((SUBSTITUTE, row));
    let missing = [3, 1 << 32, 1 << 63, u64::MAX];
    for (file, version_2) in ACCEPTED {
        for (number, row) in (0..).zip(ROWS) {
            for original in [more, less, file, &[]] {
                chooses(original, file, version_2, number, of_substitute(row));
            }
            chooses(file, &[], version_2, number, of_original(row));
        }
        for (number, row) in (0..).zip(rows_of_more) {
            chooses(file, more, version_2, number, of_substitute(row));
        }
        chooses(more, file, version_2, 2, of_original(rows_of_more[2]));
        chooses(file, less, version_2, 0, of_substitute(rows_of_more[0]));
        chooses(file, less, version_2, 1, of_original(ROWS[1]));
        for number in missing {
            for (one, other) in [(file, more), (more, file), (file, file), (file, &[])] {
                chooses(one, other, version_2, number, Err(refused(6, 0)));
            }
        }
    }
    for (faulty, version_2, outcome) in refused_files() {
        for (number, row) in (0..).zip(ROWS) {
            chooses(&faulty, DEMO, version_2, number, of_substitute(row));
            chooses(DEMO, &faulty, version_2, number, of_original(row));
        }
        for number in missing {
            for other in [DEMO, less, &[]] {
                chooses(&faulty, other, version_2, number, Err(outcome));
                chooses(other, &faulty, version_2, number, Err(refused(6, 0)));
            }
        }
        let short = (&b"CCSD1Z00000100000001x"[..], refused(1, 20));
        let long = (&b"NJPL1I00DEMO00000001"[..], refused(4, 0));
        for ((other, of_other), number) in [(short, 0), (short, u64::MAX), (long, 0)] {
            chooses(&faulty, other, version_2, number, Err(outcome));
            chooses(other, &faulty, version_2, number, Err(of_other));
        }
    }
    // Version 1 only: a label of version 2, in front of a row or behind it, keeps a file from serving.
    for file in [DEMO_2, MIXED] {
        chooses(DEMO, file, false, 0, of_original(ROWS[0]));
        chooses(file, DEMO, false, 0, of_substitute(ROWS[0]));
    }
    chooses(DEMO_2, MIXED, false, 0, Err(refused(2, 0)));
    chooses(MIXED, DEMO_2, false, 0, Err(refused(2, 43)));
}

#[test]
fn build_index() {
    let one = b"NJPL1I00DEMO00000001x".repeat(33);
    let two = b"NJPL2I00DEMO\0\0\0\0\0\0\0\x01x".repeat(33);
    let mixed = [&one[..20 * 21], &two[20 * 21..]].concat();
    for (size, expected) in [
        (3, Ok((vec![0, 336, 672], (3, 33)))),
        (5, Ok((vec![0, 336, 672], (3, 33)))),
        (2, Err(refused(8, 0))),
        (0, Err(refused(8, 0))),
    ] {
        for (file, version_2) in [(&one, false), (&one, true), (&two, true), (&mixed, true)] {
            let expected = expected.clone();
            answers_with("build_index", size, expected, |list, entries, rows| {
                ffi::build_index(file, version_2, list, entries, rows)
            });
        }
    }
    let late = (mixed, false, refused(2, 420));
    for (file, version_2, outcome) in refused_files().into_iter().chain([late]) {
        answers_with("build_index", 2, Err(outcome), |list, entries, rows| {
            ffi::build_index(&file, version_2, list, entries, rows)
        });
    }
}

#[test]
fn check_index() {
    for (file, version_2) in ACCEPTED {
        assert_eq!(ffi::check_index(file, version_2, &[20]), ANSWERED);
        for list in [&[][..], &[21], &[20, 20]] {
            assert_eq!(ffi::check_index(file, version_2, list), refused(11, 0));
        }
    }
    for (file, version_2, outcome) in refused_files() {
        assert_eq!(ffi::check_index(&file, version_2, &[20]), outcome);
    }
    for list in [&[][..], &[20]] {
        assert_eq!(ffi::check_index(DEMO_2, false, list), refused(2, 0));
        assert_eq!(ffi::check_index(MIXED, false, list), refused(2, 43));
    }
}

/// The call on two files, each with its list, and room for so many entries.
fn joins(
    first: (&[u8], &[u32]),
    second: (&[u8], &[u32]),
    version_2: bool,
    size: usize,
    expected: Result<(Vec<u32>, (u64, u64)), Outcome>,
) {
    answers_with("joined_index", size, expected, |list, entries, rows| {
        ffi::joined_index(
            first.0, first.1, second.0, second.1, version_2, list, entries, rows,
        )
    });
}

#[test]
fn joined_index() {
    const NONE: (&[u8], &[u32]) = (&[], &[]);
    let one = b"NJPL1I00DEMO00000001x".repeat(33);
    let two = b"NJPL2I00DEMO\0\0\0\0\0\0\0\x01x".repeat(33);
    let mixed = [&one[..20 * 21], &two[20 * 21..]].concat();
    fn rows_of(rows: usize, file: &[u8]) -> (&[u8], &[u32]) {
        let places = &[0, 336, 672];
        (&file[..21 * rows], &places[..rows.div_ceil(16)])
    }
    for (demo, version_2) in ACCEPTED {
        let demo = (demo, &[20][..]);
        let mut flat = vec![&one];
        if version_2 {
            flat.extend([&two, &mixed]);
        }
        joins(NONE, NONE, version_2, 2, Ok((vec![], (0, 0))));
        joins(NONE, NONE, version_2, 0, Ok((vec![], (0, 0))));
        for (first, second, rows) in [(demo, NONE, 2), (NONE, demo, 2), (demo, demo, 4)] {
            joins(first, second, version_2, 1, Ok((vec![20], (1, rows))));
            joins(first, second, version_2, 3, Ok((vec![20], (1, rows))));
            joins(first, second, version_2, 0, Err(refused(8, 0)));
        }
        for file in flat {
            for (first, second, list, rows) in [
                (rows_of(14, file), demo, vec![0], 16),
                (rows_of(15, file), demo, vec![0, 315 + 43], 17),
                (rows_of(16, file), demo, vec![0, 336 + 20], 18),
                (rows_of(17, file), demo, vec![0, 336], 19),
                (rows_of(31, file), demo, vec![0, 336, 651 + 43], 33),
                (rows_of(33, file), NONE, vec![0, 336, 672], 33),
                (NONE, rows_of(33, file), vec![0, 336, 672], 33),
                (demo, rows_of(14, file), vec![20], 16),
                (demo, rows_of(15, file), vec![20, 63 + 294], 17),
                (demo, rows_of(31, file), vec![20, 63 + 294, 63 + 630], 33),
            ] {
                let need = list.len();
                for room in [need, need + 2] {
                    let expected = Ok((list.clone(), (need as u64, rows)));
                    joins(first, second, version_2, room, expected);
                }
                for room in [need - 1, 0] {
                    joins(first, second, version_2, room, Err(refused(8, 0)));
                }
            }
        }
        // The list of either file comes before the room.
        for list in [&[][..], &[21], &[20, 20], &[83]] {
            let wrong = (demo.0, list);
            for size in [3, 0] {
                for (first, second) in [(wrong, demo), (demo, wrong), (wrong, wrong), (wrong, NONE)]
                {
                    joins(first, second, version_2, size, Err(refused(11, 0)));
                }
            }
        }
    }
    // A fault of either file comes before its list, and all of the first file before the second.
    let late = (MIXED.to_vec(), false, refused(2, 43));
    for (faulty, version_2, outcome) in refused_files().into_iter().chain([late]) {
        let demo = (DEMO, &[20][..]);
        let short = (&b"CCSD1Z00000100000001x"[..], &[20][..]);
        // The sum is compared before all else.
        let is_14 = outcome == refused(14, 0);
        let unless_14 = |other| if is_14 { outcome } else { other };
        for (list, size) in [(&[][..], 3), (&[20], 3), (&[0], 0)] {
            let faulty = (&faulty[..], list);
            joins(faulty, demo, version_2, size, Err(outcome));
            joins(demo, faulty, version_2, size, Err(outcome));
            joins(NONE, faulty, version_2, size, Err(outcome));
            joins(faulty, short, version_2, size, Err(outcome));
            let of_short = unless_14(refused(1, 20));
            joins(short, faulty, version_2, size, Err(of_short));
            let of_list = unless_14(refused(11, 0));
            joins((DEMO, &[21]), faulty, version_2, size, Err(of_list));
        }
    }
    // Each of the two is small enough.
    let half = vec![0; 1 << 31];
    for version_2 in [false, true] {
        let (whole, less) = ((&half[..], &[][..]), (&half[1..], &[][..]));
        joins(whole, whole, version_2, 1, Err(refused(14, 0)));
        joins(whole, less, version_2, 1, Err(refused(2, 0)));
        joins(less, whole, version_2, 1, Err(refused(2, 0)));
    }
}

#[test]
fn keep_index() {
    let kept = || Ok(vec![6, 0, 0, 0, 1, 0, 20, 0, 0, 0]);
    for (size, expected) in [
        (10, kept()),
        (13, kept()),
        (9, Err(refused(8, 0))),
        (0, Err(refused(8, 0))),
    ] {
        fills("keep_index", size, expected, |out, written| {
            ffi::keep_index(&[20], out, written)
        });
    }
    let too_many = vec![0; 1 << 30];
    fills("keep_index", 9, Err(refused(14, 0)), |out, written| {
        ffi::keep_index(&too_many, out, written)
    });
}

#[test]
fn load_kept() {
    let kept: &[u8] = &[10, 0, 0, 0, 1, 0, 20, 0, 0, 0, 1, 2, 3, 4];
    for (bytes, size, expected) in [
        (kept, 2, Ok(vec![20, 0x0403_0201])),
        (kept, 4, Ok(vec![20, 0x0403_0201])),
        (kept, 1, Err(refused(8, 0))),
        (&kept[..13], 4, Err(refused(13, 0))),
        (&kept[..5], 4, Err(refused(13, 0))),
        (&[2, 0, 0, 0, 2, 0], 4, Err(refused(13, 0))),
    ] {
        fills("load_kept", size, expected, |list, entries| {
            ffi::load_kept(bytes, list, entries)
        });
    }
}

/// A kept index of kind 1, of these entries.
fn kept_1(entries: &[u32]) -> Vec<u8> {
    let length = 2 + 4 * entries.len() as u32;
    let entries = entries.iter().flat_map(|entry| entry.to_le_bytes());
    let front = length.to_le_bytes().into_iter().chain([1, 0]);
    front.chain(entries).collect()
}

/// A kept index of kind 2, of this row count and these entries.
fn kept_2(rows: u32, entries: &[u32]) -> Vec<u8> {
    let length = 6 + 4 * entries.len() as u32;
    let numbers = [&[rows], entries].concat();
    let numbers = numbers.iter().flat_map(|number| number.to_le_bytes());
    let front = length.to_le_bytes().into_iter().chain([2, 0]);
    front.chain(numbers).collect()
}

/// Bytes that are no kept index of kind 2, among them all that are too short and one of kind 1.
fn no_kept_2() -> Vec<Vec<u8>> {
    let right = kept_2(17, &[20, 340]);
    let mut wrong: Vec<Vec<u8>> = (0..right.len())
        .map(|size| right[..size].to_vec())
        .collect();
    for (place, byte) in [
        (0, 13),
        (0, 15),
        (0, 18),
        (1, 1),
        (3, 128),
        (4, 0),
        (4, 1),
        (4, 3),
        (5, 1),
    ] {
        let mut other = right.clone();
        other[place] = byte;
        wrong.push(other);
    }
    for behind in 1..=4 {
        wrong.push([&right[..], &[0; 4][..behind]].concat());
    }
    // A part of an entry, or of the row count, that is counted in.
    for length in [2, 3, 4, 5, 15, 16, 17] {
        let mut other = [&right[..], &[0; 3]].concat();
        other[0] = length;
        other.truncate(4 + usize::from(length));
        wrong.push(other);
    }
    wrong.push(kept_1(&[20, 340]));
    wrong
}

#[test]
fn load_kept2() {
    let kept = kept_2(17, &[20, 0x0403_0201]);
    let most = kept_2(u32::MAX, &[]);
    for (bytes, size, expected) in [
        (&kept, 2, Ok((vec![20, 0x0403_0201], (17, 2)))),
        (&kept, 4, Ok((vec![20, 0x0403_0201], (17, 2)))),
        (&kept, 1, Err(refused(8, 0))),
        (&kept, 0, Err(refused(8, 0))),
        (&most, 0, Ok((vec![], (0xffff_ffff, 0)))),
        (&most, 3, Ok((vec![], (0xffff_ffff, 0)))),
    ] {
        answers_with("load_kept2", size, expected, |list, rows, entries| {
            ffi::load_kept2(bytes, list, rows, entries)
        });
    }
    for (bytes, size) in no_kept_2()
        .iter()
        .flat_map(|bytes| [(bytes, 0), (bytes, 4)])
    {
        let expected = Err(refused(13, 0));
        answers_with("load_kept2", size, expected, |list, rows, entries| {
            ffi::load_kept2(bytes, list, rows, entries)
        });
    }
    fills("load_kept", 4, Err(refused(13, 0)), |list, entries| {
        ffi::load_kept(&kept, list, entries)
    });
}

#[test]
fn convert_1_to_2() {
    let (right, wrong) = (kept_1(&[20]), kept_1(&[21]));
    let (none, kind_2) = (kept_1(&[]), kept_2(2, &[20]));
    let kept = || Ok(kept_2(2, &[20]));
    for (bytes, size, expected) in [
        (&right, 14, kept()),
        (&right, 17, kept()),
        (&right, 13, Err(refused(8, 0))),
        (&right, 0, Err(refused(8, 0))),
        (&wrong, 14, Err(refused(11, 0))),
        (&wrong, 0, Err(refused(11, 0))),
        (&none, 14, Err(refused(11, 0))),
        (&kept_1(&[20, 20]), 20, Err(refused(11, 0))),
        (&kind_2, 14, Err(refused(13, 0))),
        (&right[..9].to_vec(), 14, Err(refused(13, 0))),
        (&wrong[..9].to_vec(), 0, Err(refused(13, 0))),
        (&vec![], 0, Err(refused(13, 0))),
    ] {
        for (file, version_2) in ACCEPTED {
            let expected = expected.clone();
            fills("convert_1_to_2", size, expected, |out, written| {
                ffi::convert_1_to_2(file, version_2, bytes, out, written)
            });
        }
    }
    for version_2 in [false, true] {
        fills("convert_1_to_2", 12, Ok(kept_2(0, &[])), |out, written| {
            ffi::convert_1_to_2(&[], version_2, &none, out, written)
        });
    }
    // A fault of the file comes before all that is wrong with the rest.
    let late = (MIXED.to_vec(), false, refused(2, 43));
    for (file, version_2, outcome) in refused_files().into_iter().chain([late]) {
        for (bytes, size) in [(&right, 14), (&wrong, 14), (&kind_2, 14), (&vec![], 0)] {
            fills("convert_1_to_2", size, Err(outcome), |out, written| {
                ffi::convert_1_to_2(&file, version_2, bytes, out, written)
            });
        }
    }
}

#[test]
fn convert_2_to_1() {
    let kept = kept_2(17, &[20, 0x0403_0201]);
    let converted = || Ok(kept_1(&[20, 0x0403_0201]));
    for (bytes, size, expected) in [
        (&kept, 14, converted()),
        (&kept, 18, converted()),
        (&kept, 13, Err(refused(8, 0))),
        (&kept, 0, Err(refused(8, 0))),
        (&kept_2(u32::MAX, &[]), 7, Ok(kept_1(&[]))),
        (&kept_2(0, &[u32::MAX]), 10, Ok(kept_1(&[u32::MAX]))),
    ] {
        fills("convert_2_to_1", size, expected, |out, written| {
            ffi::convert_2_to_1(bytes, out, written)
        });
    }
    for (bytes, size) in no_kept_2()
        .iter()
        .flat_map(|bytes| [(bytes, 0), (bytes, 40)])
    {
        fills(
            "convert_2_to_1",
            size,
            Err(refused(13, 0)),
            |out: &mut [u8], written| ffi::convert_2_to_1(bytes, out, written),
        );
    }
}

#[test]
fn check_kept2() {
    let right = kept_2(2, &[20]);
    for (file, version_2) in ACCEPTED {
        assert_eq!(ffi::check_kept2(file, version_2, &right), ANSWERED);
        for rows in [0, 1, 3, 16, 0x0200_0000, 0x0102, u32::MAX] {
            let kept = kept_2(rows, &[20]);
            assert_eq!(ffi::check_kept2(file, version_2, &kept), refused(11, 0));
        }
        for list in [&[][..], &[21], &[20, 20], &[20 << 24]] {
            let kept = kept_2(2, list);
            assert_eq!(ffi::check_kept2(file, version_2, &kept), refused(11, 0));
        }
        for kept in no_kept_2().iter().chain([&kept_1(&[20])]) {
            assert_eq!(ffi::check_kept2(file, version_2, kept), refused(13, 0));
        }
        let empty = kept_2(0, &[]);
        assert_eq!(ffi::check_kept2(&[], version_2, &empty), ANSWERED);
    }
    for (file, version_2, outcome) in refused_files() {
        for kept in [&right, &kept_2(3, &[21]), &vec![]] {
            assert_eq!(ffi::check_kept2(&file, version_2, kept), outcome);
        }
    }
    assert_eq!(ffi::check_kept2(DEMO_2, false, &right), refused(2, 0));
    assert_eq!(ffi::check_kept2(MIXED, false, &right), refused(2, 43));
}

/// Two rows of ten samples in a group and one of four behind it, in labels of this version.
fn samples(version_2: bool) -> Vec<u8> {
    let label = |head: &[u8; 12], length: usize| match version_2 {
        true => {
            let mut head = *head;
            head[4] = b'2';
            label_2(&head, length as u64)
        }
        false => [head, format!("{length:08}").as_bytes()].concat(),
    };
    let row = |samples: &[u8]| [&label(b"NJPL1I00DEMO", samples.len()), samples].concat();
    let up = [0, 1, 4, 16, 36, 64, 100, 144, 196, 255];
    let down = [255, 196, 144, 100, 64, 36, 16, 4, 1, 0];
    let group = label(b"CCSD1Z000001", 60);
    [group, row(&up), row(&down), row(&[16; 4])].concat()
}

/// The file of samples with the choices that it is accepted with.
fn accepted_samples() -> [(Vec<u8>, bool); 3] {
    let one = samples(false);
    [(one.clone(), false), (one, true), (samples(true), true)]
}

const MOST: u64 = u64::MAX;

/// A strip: the first row, how many rows, and the window.
type Strip = (u64, u64, u64, u64);

/// Strips that are refused whatever the room, of a file with three rows of which the last has `last` bytes and
/// none has more than `most`; with the refusal.
fn refused_strips(last: u64, most: u64) -> Vec<(Strip, u64)> {
    vec![
        ((0, 4, 0, 1), 6),
        ((3, 1, 0, 0), 6),
        ((2, 2, 0, 0), 6),
        ((0, 1 << 32, 0, 0), 6),
        ((1 << 32, 1, 0, 1), 6),
        ((0, (1 << 32) + 1, 0, 1), 6),
        ((MOST, 1, 0, 1), 6),
        ((MOST, 2, 0, 1), 6),
        ((MOST - 1, 4, 0, 0), 6),
        ((1, MOST, 0, 0), 6),
        ((0, MOST, 0, 0), 6),
        ((1 << 63, 1 << 63, 0, 1), 6),
        ((0, 1 << 61, 0, 64), 6),
        // With a window that does not fit, too.
        ((0, 4, 0, most + 1), 6),
        ((2, 2, 0, MOST), 6),
        ((3, 1, MOST, MOST), 6),
        ((0, 3, 0, last + 1), 7),
        ((0, 3, last, 1), 7),
        ((0, 3, last + 1, 0), 7),
        ((2, 1, 0, last + 1), 7),
        ((0, 1, 0, most + 1), 7),
        ((0, 1, most + 1, 0), 7),
        ((0, 1, 1, MOST), 7),
        ((0, 1, 0, MOST), 7),
        ((0, 3, 0, MOST - 6), 7),
        ((0, 3, 0, MOST - 7), 7),
        ((0, 1, MOST, 1), 7),
        ((0, 1, MOST, 0), 7),
        ((0, 1, 0, 1 << 32), 7),
    ]
}

/// Strips of no bytes, of such a file.
fn empty_strips(last: u64) -> Vec<Strip> {
    vec![
        (0, 0, 0, 0),
        (3, 0, 0, 1),
        (4, 0, 0, 1),
        (MOST, 0, 0, 1),
        (1 << 32, 0, 0, 1),
        (0, 0, MOST, MOST),
        (0, 0, 0, MOST),
        (MOST, 0, MOST, MOST),
        (0, 3, 0, 0),
        (0, 3, last, 0),
        (2, 1, 1, 0),
    ]
}

/// The call on a strip, with room for so many bytes.
fn draws(
    (row, rows, first, count): Strip,
    size: usize,
    expected: Result<&[u8], Outcome>,
    call: impl Fn(u64, u64, u64, u64, &mut [u8], &mut u64) -> Outcome,
) {
    let expected = expected.map(<[u8]>::to_vec);
    fills("strip", size, expected, |out: &mut [u8], written| {
        call(row, rows, first, count, out, written)
    });
}

/// The call on these strips with room as it is needed, with more, and with too little; on strips that
/// are refused with room and without; and on empty ones.
fn draws_all(
    drawn: &[(Strip, &[u8])],
    last: u64,
    most: u64,
    call: impl Fn(u64, u64, u64, u64, &mut [u8], &mut u64) -> Outcome,
) {
    for &(strip, lines) in drawn {
        for size in [lines.len(), lines.len() + 1, lines.len() + 9] {
            draws(strip, size, Ok(lines), &call);
        }
        for size in [lines.len() - 1, 0] {
            draws(strip, size, Err(refused(8, 0)), &call);
        }
    }
    for (strip, refusal) in refused_strips(last, most) {
        for size in [40, 0] {
            draws(strip, size, Err(refused(refusal, 0)), &call);
        }
    }
    for strip in empty_strips(last) {
        for size in [9, 0] {
            draws(strip, size, Ok(&[]), &call);
        }
    }
}

/// Strips that a file with a fault is asked for: one that is right, of no rows, with a row too many, with
/// a window that does not fit; with room and without.
const ASKED_OF_FAULTY: [(Strip, usize); 7] = [
    ((0, 1, 0, 1), 9),
    ((0, 1, 0, 1), 0),
    ((0, 0, 0, 0), 9),
    ((0, 0, MOST, MOST), 0),
    ((MOST, 2, 0, 1), 9),
    ((0, 1, MOST, MOST), 9),
    ((MOST, MOST, MOST, MOST), 0),
];

#[test]
fn strip_labelled() {
    let drawn: [(Strip, &[u8]); 6] = [
        ((0, 2, 0, 10), &[0xf4, 0, 0x2b, 0xc0]),
        ((1, 1, 0, 10), &[0x15, 0x40]),
        ((0, 1, 0, 8), &[0xf4]),
        ((0, 2, 3, 1), &[0, 0x80]),
        ((0, 3, 0, 4), &[0xf0, 0x20, 0x50]),
        ((2, 1, 3, 1), &[0]),
    ];
    for (file, version_2) in accepted_samples() {
        draws_all(&drawn, 4, 10, |row, rows, first, count, out, written| {
            ffi::strip_labelled(&file, version_2, row, rows, first, count, out, written)
        });
    }
    let late = (MIXED.to_vec(), false, refused(2, 43));
    for (file, version_2, outcome) in refused_files().into_iter().chain([late]) {
        for (strip, size) in ASKED_OF_FAULTY {
            draws(
                strip,
                size,
                Err(outcome),
                |row, rows, first, count, out, written| {
                    ffi::strip_labelled(&file, version_2, row, rows, first, count, out, written)
                },
            );
        }
    }
}

/// Three rows of black samples, but white at the row's byte 1,000, and grey at byte 1,001 of the second row.
fn waveform_samples() -> Vec<u8> {
    let mut file = vec![0; 3 * 2_080];
    for row in 0..3 {
        file[row * 2_080 + 32 + 1_000] = 255;
    }
    file[2_080 + 32 + 1_001] = 64;
    file
}

#[test]
fn strip_waveform() {
    let drawn: [(Strip, &[u8]); 4] = [
        ((0, 3, 999, 9), &[0xbf, 0x80, 0xbf, 0x80, 0xbf, 0x80]),
        ((0, 2, 1_001, 3), &[0xe0, 0xe0]),
        ((1, 2, 1_001, 3), &[0x60, 0xe0]),
        ((2, 1, 2_040, 8), &[0xff]),
    ];
    let (file, too_big) = (waveform_samples(), too_big());
    draws_all(
        &drawn,
        2_048,
        2_048,
        |row, rows, first, count, out, written| {
            ffi::strip_waveform(&file, row, rows, first, count, out, written)
        },
    );
    for (file, refusal) in [(&file[1..], 12), (&too_big, 14)] {
        for (strip, size) in ASKED_OF_FAULTY {
            draws(
                strip,
                size,
                Err(refused(refusal, 0)),
                |row, rows, first, count, out, written| {
                    ffi::strip_waveform(file, row, rows, first, count, out, written)
                },
            );
        }
    }
}

/// Three records, behind some bytes, that are black but for their byte 3.
fn burst_samples() -> Vec<u8> {
    let mut file = vec![0; FRONT as usize + 3 * 1_272];
    for row in 0..3 {
        file[FRONT as usize + row * 1_272 + 3] = 255;
    }
    file
}

#[test]
fn strip_bursts() {
    let drawn: [(Strip, &[u8]); 3] = [
        ((0, 3, 0, 9), &[0xef, 0x80, 0xef, 0x80, 0xef, 0x80]),
        ((1, 2, 3, 7), &[0x7e, 0x7e]),
        ((2, 1, 1_264, 8), &[0xff]),
    ];
    let (file, too_big) = (burst_samples(), too_big());
    draws_all(
        &drawn,
        1_272,
        1_272,
        |row, rows, first, count, out, written| {
            ffi::strip_bursts(&file, FRONT, row, rows, first, count, out, written)
        },
    );
    for (file, start, outcome) in refused_bursts(&file, &too_big) {
        for (strip, size) in ASKED_OF_FAULTY {
            draws(
                strip,
                size,
                Err(outcome),
                |row, rows, first, count, out, written| {
                    ffi::strip_bursts(file, start, row, rows, first, count, out, written)
                },
            );
        }
    }
}

/// A place of a strip: the first row, the window, the column and the line.
type Asked = (u64, (u64, u64), u64, u64);

/// The call that says what stands behind a dot: the place of the byte, the byte, its tone, and the dot.
fn tells(
    (row, (first, count), column, line): Asked,
    expected: Result<[u64; 4], Outcome>,
    call: impl Fn(u64, u64, u64, u64, u64, &mut DotNumbers) -> Outcome,
) {
    let numbers = |[place, byte, tone, dot]: [u64; 4]| DotNumbers {
        place,
        byte,
        tone,
        dot,
    };
    answers_number("behind", expected.map(numbers), |behind| {
        call(row, first, count, column, line, behind)
    });
}

/// What is refused of a file with three rows of which the last has `last` bytes and none has more than `most`.
fn refused_dots(last: u64, most: u64) -> Vec<(Asked, u64)> {
    vec![
        ((0, (0, 1), 0, 3), 6),
        ((3, (0, 1), 0, 0), 6),
        ((2, (0, 1), 0, 1), 6),
        ((1, (0, 1), 0, MOST), 6),
        ((MOST, (0, 1), 0, 1), 6),
        ((MOST, (0, 1), 0, MOST), 6),
        ((1 << 63, (0, 1), 0, 1 << 63), 6),
        ((1 << 32, (0, 1), 0, 0), 6),
        ((0, (0, 1), 0, 1 << 32), 6),
        ((0, (0, 1), MOST, 3), 6),
        ((3, (MOST, MOST), MOST, 0), 6),
        ((2, (0, last + 1), 0, 0), 7),
        ((0, (0, last + 1), 0, 2), 7),
        ((0, (0, most + 1), 0, 0), 7),
        ((0, (most + 1, 0), 0, 0), 7),
        ((0, (MOST, 1), 0, 0), 7),
        ((0, (1, MOST), 0, 0), 7),
        ((0, (0, 0), 0, 0), 7),
        ((0, (most, 0), 0, 0), 7),
        ((0, (0, 3), 3, 0), 7),
        ((0, (0, 3), MOST, 0), 7),
        ((0, (0, 3), 1 << 32, 1), 7),
        ((1, (1, 3), MOST - 1, 0), 7),
    ]
}

/// What a file with a fault is asked for.
const DOTS_OF_FAULTY: [Asked; 4] = [
    (0, (0, 1), 0, 0),
    (0, (0, 0), 9, 0),
    (MOST, (0, 1), 0, 1),
    (MOST, (MOST, MOST), MOST, MOST),
];

#[test]
fn behind_labelled() {
    for (file, version_2) in accepted_samples() {
        let call = |row, first, count, column, line, behind: &mut DotNumbers| {
            ffi::behind_labelled(&file, version_2, row, first, count, column, line, behind)
        };
        for (asked, expected) in [
            ((0, (0, 10), 0, 0), [40, 0, 0, 1]),
            ((0, (0, 10), 9, 0), [49, 255, 255, 0]),
            ((0, (0, 10), 2, 1), [72, 144, 191, 1]),
            ((0, (2, 8), 0, 1), [72, 144, 191, 1]),
            ((1, (2, 8), 0, 0), [72, 144, 191, 0]),
            ((0, (0, 10), 8, 1), [78, 1, 15, 1]),
            // The window fits this row, though not the last one.
            ((0, (3, 7), 3, 0), [46, 100, 159, 1]),
            ((0, (0, 4), 3, 2), [103, 16, 63, 1]),
            ((2, (3, 1), 0, 0), [103, 16, 63, 0]),
        ] {
            tells(asked, Ok(expected), call);
        }
        for (asked, refusal) in refused_dots(4, 10) {
            tells(asked, Err(refused(refusal, 0)), call);
        }
    }
    let late = (MIXED.to_vec(), false, refused(2, 43));
    for (file, version_2, outcome) in refused_files().into_iter().chain([late]) {
        for asked in DOTS_OF_FAULTY {
            tells(
                asked,
                Err(outcome),
                |row, first, count, column, line, behind| {
                    ffi::behind_labelled(&file, version_2, row, first, count, column, line, behind)
                },
            );
        }
    }
}

#[test]
fn behind_waveform() {
    let (file, too_big) = (waveform_samples(), too_big());
    let call = |row, first, count, column, line, behind: &mut DotNumbers| {
        ffi::behind_waveform(&file, row, first, count, column, line, behind)
    };
    for (asked, expected) in [
        ((0, (999, 9), 1, 0), [1_032, 255, 255, 0]),
        ((0, (0, 2_048), 1_001, 1), [3_113, 64, 127, 0]),
        ((0, (0, 2_048), 1_003, 1), [3_115, 0, 0, 1]),
        ((1, (1_001, 3), 0, 0), [3_113, 64, 127, 0]),
        ((2, (2_047, 1), 0, 0), [6_239, 0, 0, 1]),
    ] {
        tells(asked, Ok(expected), call);
    }
    for (asked, refusal) in refused_dots(2_048, 2_048) {
        tells(asked, Err(refused(refusal, 0)), call);
    }
    for (file, refusal) in [(&file[1..], 12), (&too_big, 14)] {
        for asked in DOTS_OF_FAULTY {
            tells(
                asked,
                Err(refused(refusal, 0)),
                |row, first, count, column, line, behind| {
                    ffi::behind_waveform(file, row, first, count, column, line, behind)
                },
            );
        }
    }
}

#[test]
fn behind_bursts() {
    let (file, too_big) = (burst_samples(), too_big());
    let call = |row, first, count, column, line, behind: &mut DotNumbers| {
        ffi::behind_bursts(&file, FRONT, row, first, count, column, line, behind)
    };
    for (asked, expected) in [
        ((0, (0, 9), 3, 1), [1_375, 255, 255, 0]),
        ((1, (3, 7), 1, 1), [2_648, 0, 0, 1]),
        ((2, (1_271, 1), 0, 0), [3_915, 0, 0, 1]),
    ] {
        tells(asked, Ok(expected), call);
    }
    for (asked, refusal) in refused_dots(1_272, 1_272) {
        tells(asked, Err(refused(refusal, 0)), call);
    }
    for (file, start, outcome) in refused_bursts(&file, &too_big) {
        for asked in DOTS_OF_FAULTY {
            tells(
                asked,
                Err(outcome),
                |row, first, count, column, line, behind| {
                    ffi::behind_bursts(file, start, row, first, count, column, line, behind)
                },
            );
        }
    }
}

#[test]
fn vax_numbers() {
    let one = [0x80, 0x40, 0, 0, 0, 0, 0, 0];
    let reserved = [0, 0x80, 0, 0, 0, 0, 0, 0];
    for (bytes, expected) in [
        (&one[..4], Ok(1.0)),
        (&one[..3], Err(refused(1, 0))),
        (&reserved[..4], Err(refused(9, 0))),
    ] {
        answers_number("vax_f", expected, |number| ffi::vax_f(bytes, number));
    }
    for (bytes, expected) in [
        (&one[..], Ok(1.0)),
        (&one[..7], Err(refused(1, 0))),
        (&reserved, Err(refused(9, 0))),
    ] {
        answers_number("vax_d", expected, |number| ffi::vax_d(bytes, number));
        answers_number("vax_d_dropped", expected, |number| {
            ffi::vax_d_dropped(bytes, number)
        });
    }
    // 2 less a last place.
    let all_ones = [0xff, 0x40, 0xff, 0xff, 0xff, 0xff, 0xff, 0xff];
    answers_number("vax_d", Ok(2.0), |number| ffi::vax_d(&all_ones, number));
    answers_number("vax_d_dropped", Ok(2.0 - f64::EPSILON), |number| {
        ffi::vax_d_dropped(&all_ones, number)
    });
}

#[test]
fn opening() {
    let good = [
        1, 0, 0, 0, 0x80, 0x40, 0, 0, 0, 0, 0, 0, 0x80, 0xc0, 0, 0, 0, 0, 0, 0,
    ];
    let reserved_at = |place: usize| {
        let mut bytes = good;
        bytes[place..place + 2].copy_from_slice(&[0, 0x80]);
        bytes
    };
    for (bytes, expected) in [
        (&good[..], ANSWERED),
        (&good[..19], refused(1, 0)),
        (&reserved_at(4), refused(9, 4)),
        (&reserved_at(12), refused(9, 12)),
    ] {
        for salt in SALTS {
            let mut orbit = Lent::new(1, salt);
            let (mut start, mut stop) = (Lent::new(1, salt), Lent::new(1, salt));
            let outcome = ffi::opening(bytes, orbit.number(), start.number(), stop.number());
            assert_eq!(outcome, expected);
            let answered = usize::from(outcome == ANSWERED);
            orbit.assert_front(&[1][..answered]);
            start.assert_front(&[1.0][..answered]);
            stop.assert_front(&[-1.0][..answered]);
        }
    }
}

#[test]
fn verdict() {
    for (element, value, expected) in [
        (141, -2_001, Ok(0)),
        (141, 0, Ok(1)),
        (141, 2_001, Ok(2)),
        (4, 0, Err(refused(10, 0))),
        (u64::MAX, 0, Err(refused(10, 0))),
    ] {
        answers_number("verdict", expected, |verdict| {
            ffi::verdict(element, value, verdict)
        });
    }
}

/// A call that reads a field of a burst: its type, bits, place and count.
fn answers_field(
    expected: Result<[u64; 4], Outcome>,
    call: impl Fn(&mut u64, &mut u64, &mut u64, &mut u64) -> Outcome,
) {
    for salt in SALTS {
        let mut lent = [0; 4].map(|_| Lent::new(1, salt));
        let [of, bits, place, shown] = &mut lent;
        let outcome = call(of.number(), bits.number(), place.number(), shown.number());
        assert_eq!(outcome, expected.err().unwrap_or(ANSWERED));
        for (at, number) in lent.iter().enumerate() {
            number.assert_front(expected.ok().map(|parts| parts[at]).as_slice());
        }
    }
}

/// A file with these bytes at a place of its second record.
fn burst_with(place: usize, bytes: &[u8]) -> Vec<u8> {
    let mut file = bursts(2);
    let at = FRONT as usize + 1_272 + place;
    file[at..at + bytes.len()].copy_from_slice(bytes);
    file
}

#[test]
fn burst_field() {
    for (position, place, bytes, expected) in [
        (1, 0, &[1, 2, 3, 4][..], [0, 0x0403_0201, 0, 0]),
        (1, 0, &[0xff; 4], [0, 0xffff_ffff, 0, 0]),
        (251, 1_252, &[1, 2, 3, 4], [0, 0x0403_0201, 0, 0]),
        (203, 1_060, &[1, 2, 3, 4], [1, 0x0403_0201, 0, 0]),
        (
            203,
            1_060,
            &[0xfe, 0xff, 0xff, 0xff],
            [1, u64::MAX - 1, 0, 0],
        ),
        (4, 12, &[0, 0, 0x80, 0x3f], [2, 0x3f80_0000, 0, 0]),
        (255, 1_268, &[0xff; 4], [2, 0xffff_ffff, 0, 0]),
        (
            147,
            584,
            &[1, 2, 3, 4, 5, 6, 7, 8],
            [3, 0x0807_0605_0403_0201, 0, 0],
        ),
        (199, 1_040, &[0xff; 8], [3, u64::MAX, 0, 0]),
        (149, 600, &[b'x'; 24], [4, 0, 1_972, 24]),
        (154, 672, &[0xff; 16], [4, 0, 2_044, 16]),
        (155, 688, &[0; 24], [4, 0, 2_060, 24]),
    ] {
        let file = burst_with(place, bytes);
        answers_field(Ok(expected), |of, bits, place, shown| {
            ffi::burst_field(&file, FRONT, 1, position, of, bits, place, shown)
        });
    }
    let (two, too_big) = (bursts(2), too_big());
    for (row, position, refusal) in [
        (1, 0, 10),
        (1, 256, 10),
        (1, (1 << 32) + 1, 10),
        (1, u64::MAX, 10),
        (2, 1, 6),
        (2, 0, 6),
        (1 << 61, 1, 6),
        (u64::MAX, u64::MAX, 6),
    ] {
        answers_field(Err(refused(refusal, 0)), |of, bits, place, shown| {
            ffi::burst_field(&two, FRONT, row, position, of, bits, place, shown)
        });
    }
    for (file, start, outcome) in refused_bursts(&two, &too_big) {
        for (row, position) in [(0, 1), (0, 0), (u64::MAX, u64::MAX)] {
            answers_field(Err(outcome), |of, bits, place, shown| {
                ffi::burst_field(file, start, row, position, of, bits, place, shown)
            });
        }
    }
}

#[test]
fn burst_verdict() {
    for (position, place, value, expected) in [
        (64, 252, 1_989_u32, Ok(0)),
        (64, 252, 1_990, Ok(1)),
        (64, 252, 2_010, Ok(1)),
        (64, 252, 2_011, Ok(2)),
        (33, 128, u32::MAX, Ok(2)),
        (1, 0, 0, Err(refused(10, 0))),
        (4, 12, 0, Err(refused(10, 0))),
        (154, 672, 0, Err(refused(10, 0))),
        (203, 1_060, 0, Err(refused(10, 0))),
        (0, 0, 0, Err(refused(10, 0))),
        (256, 0, 0, Err(refused(10, 0))),
        (u64::MAX, 0, 0, Err(refused(10, 0))),
    ] {
        let file = burst_with(place, &value.to_le_bytes());
        answers_number("burst_verdict", expected, |verdict| {
            ffi::burst_verdict(&file, FRONT, 1, position, verdict)
        });
        for row in [2, 1 << 61, u64::MAX] {
            answers_number("burst_verdict", Err(refused(6, 0)), |verdict| {
                ffi::burst_verdict(&file, FRONT, row, position, verdict)
            });
        }
    }
    let (two, too_big) = (bursts(2), too_big());
    for (file, start, outcome) in refused_bursts(&two, &too_big) {
        for (row, position) in [(0, 7), (0, 0), (u64::MAX, u64::MAX)] {
            answers_number("burst_verdict", Err(outcome), |verdict| {
                ffi::burst_verdict(file, start, row, position, verdict)
            });
        }
    }
}

/// A mask that is above has no number, and none is written.
#[test]
fn beams() {
    for salt in SALTS {
        for mask in (0..=40).chain([1 << 32, 1 << 63, u64::MAX]) {
            let mut beams = Lent::new(1, salt);
            let verdict = ffi::beams(mask, beams.number());
            if mask <= 31 {
                assert_eq!(verdict, 1, "{mask}");
                beams.assert_front(&[u64::from(mask.count_ones())]);
            } else {
                assert_eq!(verdict, 2, "{mask}");
                beams.assert_front(&[]);
            }
        }
    }
}
