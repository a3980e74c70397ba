//! The same calls in plain Rust, written for speed. Like the library they allocate nothing and
//! change nothing on a refusal. Each is a function that is called, as the library's are; inside
//! of it the compiler may inline what it likes.

use std::hint::black_box;

/// A refusal's number and place.
pub type Fault = (u8, usize);

/// The most bytes that a file may have.
const MOST: usize = u32::MAX as usize;

const LABEL: usize = 20;
const DEEPEST: usize = 8;
const ROWS_PER_ENTRY: usize = 16;
const RECORD: usize = 2_080;
const PREFIX: usize = 32;
const SAMPLES: usize = 2_048;

/// The variable parts of a label.
pub struct Label {
    pub agency: [u8; 4],
    pub version: u8,
    pub class: u8,
    pub description: [u8; 4],
    pub length: usize,
    pub spaces: usize,
}

/// Reads the label at the front of the bytes. As with every call here, `version_2` says whether
/// version 2 is allowed.
#[inline(never)]
pub fn read_label(bytes: &[u8], version_2: bool) -> Result<Label, Fault> {
    let read = || {
        let (head, field) = head_and_field(bytes, version_2)?;
        let (spaces, length) = spaces_and_length(head, field)?;
        Ok(Label {
            agency: [head[0], head[1], head[2], head[3]],
            version: head[4] - b'0',
            class: head[5],
            description: [head[8], head[9], head[10], head[11]],
            length,
            spaces,
        })
    };
    read().map_err(|number| (number, 0))
}

/// Whether the label at the front of the bytes opens a group, and its length.
fn label(bytes: &[u8], version_2: bool) -> Result<(bool, usize), u8> {
    let (head, field) = head_and_field(bytes, version_2)?;
    let (_, length) = spaces_and_length(head, field)?;
    Ok((matches!(head[5], b'F' | b'U' | b'Z'), length))
}

/// The two parts of the label at the front of the bytes, of which the first is good.
#[inline(always)]
fn head_and_field(bytes: &[u8], version_2: bool) -> Result<(&[u8; 12], &[u8; 8]), u8> {
    let label: &[u8; LABEL] = bytes.first_chunk().ok_or(1)?;
    let (head, field) = label.split_first_chunk().ok_or(1)?;
    let is_head = matches!(&head[..4], b"NJPL" | b"CCSD")
        && (head[4] == b'1' || version_2 && head[4] == b'2')
        && head[5].is_ascii_uppercase()
        && head[6..8] == *b"00"
        && head[8..]
            .iter()
            .all(|byte| byte.is_ascii_uppercase() || byte.is_ascii_digit());
    if !is_head {
        return Err(2);
    }
    Ok((head, field.first_chunk().ok_or(1)?))
}

/// How many spaces a length field begins with, and the number behind them; in version 2 the binary
/// number.
#[inline(always)]
fn spaces_and_length(head: &[u8; 12], field: &[u8; 8]) -> Result<(usize, usize), u8> {
    if head[4] == b'2' {
        return Ok((0, u64::from_be_bytes(*field) as usize));
    }
    if field[0] != b' ' {
        // Eight digits, which the compiler counts on.
        return Ok((0, number(field)?));
    }
    let spaces = field.iter().take_while(|&&byte| byte == b' ').count();
    if spaces == field.len() {
        return Err(3);
    }
    Ok((spaces, number(&field[spaces..])?))
}

#[inline(always)]
fn number(digits: &[u8]) -> Result<usize, u8> {
    let mut number = 0;
    for byte in digits {
        let digit = byte.wrapping_sub(b'0');
        if digit > 9 {
            return Err(3);
        }
        number = 10 * number + usize::from(digit);
    }
    Ok(number)
}

fn check_size(file: &[u8]) -> Result<(), Fault> {
    if file.len() > MOST {
        return Err((14, 0));
    }
    Ok(())
}

/// Goes through a labelled file and shows each row, with its depth and its outermost object's place.
#[inline(always)]
fn pass(file: &[u8], version_2: bool, mut row: impl FnMut(Leaf)) -> Result<(), Fault> {
    check_size(file)?;
    let mut outer_ends = [0; DEEPEST];
    let mut depth = 0;
    let mut end = file.len();
    let mut place = 0;
    let mut outermost = 0;
    loop {
        while place == end {
            if depth == 0 {
                return Ok(());
            }
            depth -= 1;
            end = outer_ends[depth];
        }
        if depth == DEEPEST {
            return Err((5, place));
        }
        if depth == 0 {
            outermost = place;
        }
        let label = label(&file[place..end], version_2);
        let (is_group, length) = label.map_err(|number| (number, place))?;
        let value = place + LABEL;
        if length > end - value {
            return Err((4, place));
        }
        if is_group {
            outer_ends[depth] = end;
            depth += 1;
            end = value + length;
            place = value;
        } else {
            row(Leaf {
                label: place,
                value,
                length,
                nesting: Some((depth + 1, outermost)),
            });
            place = value + length;
        }
    }
}

/// Checks a labelled file and counts its rows.
#[inline(never)]
pub fn check(file: &[u8], version_2: bool) -> Result<usize, Fault> {
    let mut rows = 0;
    pass(file, version_2, |_| rows += 1)?;
    Ok(rows)
}

/// A row before a window is taken of it: the places of its label and of its value, the value's length,
/// and where they are known its depth and the place of its outermost object.
#[derive(Clone, Copy)]
struct Leaf {
    label: usize,
    value: usize,
    length: usize,
    nesting: Option<(usize, usize)>,
}

/// A row without a label.
fn unlabelled(place: usize, length: usize) -> Leaf {
    Leaf {
        label: place,
        value: place,
        length,
        nesting: Some((0, place)),
    }
}

/// The leaves from a place on, with no memory of depth.
struct Leaves<'a> {
    file: &'a [u8],
    version_2: bool,
    place: usize,
}

impl Iterator for Leaves<'_> {
    type Item = Result<Leaf, Fault>;

    #[inline]
    fn next(&mut self) -> Option<Self::Item> {
        loop {
            let place = self.place;
            let rest = self.file.get(place..).filter(|rest| !rest.is_empty())?;
            let (is_group, length) = match label(rest, self.version_2) {
                Ok(label) => label,
                Err(number) => return Some(Err((number, place))),
            };
            let value = place + LABEL;
            if is_group {
                self.place = value;
                continue;
            }
            if length > self.file.len() - value {
                return Some(Err((4, place)));
            }
            self.place = value + length;
            return Some(Ok(Leaf {
                label: place,
                value,
                length,
                nesting: None,
            }));
        }
    }
}

fn leaves(file: &[u8], version_2: bool, place: usize) -> Leaves<'_> {
    Leaves {
        file,
        version_2,
        place,
    }
}

/// The places of the labels of rows 0, 16, 32 and so on.
fn entries(file: &[u8], version_2: bool) -> impl Iterator<Item = Result<u32, Fault>> + '_ {
    let places = leaves(file, version_2, 0).step_by(ROWS_PER_ENTRY);
    places.map(|leaf| leaf.map(|leaf| leaf.label as u32))
}

/// Writes the index of a file, and answers how many entries and rows it has.
#[inline(never)]
pub fn build_index(
    file: &[u8],
    version_2: bool,
    list: &mut [u32],
) -> Result<(usize, usize), Fault> {
    let rows = check(file, version_2)?;
    let count = rows.div_ceil(ROWS_PER_ENTRY);
    let list = list.get_mut(..count).ok_or((8, 0))?;
    for (slot, entry) in list.iter_mut().zip(entries(file, version_2)) {
        *slot = entry?;
    }
    Ok((count, rows))
}

/// Accepts exactly the index of an accepted file.
#[inline(never)]
pub fn check_index(file: &[u8], version_2: bool, list: &[u32]) -> Result<(), Fault> {
    rows_indexed(file, version_2, list).map(|_| ())
}

/// How many rows an accepted file has whose whole index this is: the check, and then the entries.
#[inline(always)]
fn rows_indexed(file: &[u8], version_2: bool, list: &[u32]) -> Result<usize, Fault> {
    let rows = check(file, version_2)?;
    let is_index = list.len() == rows.div_ceil(ROWS_PER_ENTRY)
        && list
            .iter()
            .zip(entries(file, version_2))
            .all(|(&entry, place)| place == Ok(entry));
    if is_index {
        Ok(rows)
    } else {
        Err((11, 0))
    }
}

/// A file with its index.
pub type Listed<'a> = (&'a [u8], &'a [u32]);

/// Writes the index of two files set end to end, and answers how many entries and rows it has. Each file is
/// passed twice for its list. Where the list of the second does not have the entries, they are so many rows
/// on from those that it has.
#[inline(never)]
pub fn joined_index(
    first: Listed<'_>,
    second: Listed<'_>,
    version_2: bool,
    list: &mut [u32],
) -> Result<(usize, usize), Fault> {
    let length = first.0.len();
    if length + second.0.len() > MOST {
        return Err((14, 0));
    }
    let before = rows_indexed(first.0, version_2, first.1)?;
    let rows = before + rows_indexed(second.0, version_2, second.1)?;
    let count = rows.div_ceil(ROWS_PER_ENTRY);
    let list = list.get_mut(..count).ok_or((8, 0))?;
    let (own, others) = list.split_at_mut(first.1.len());
    own.copy_from_slice(first.1);
    let on = before.next_multiple_of(ROWS_PER_ENTRY) - before;
    for (slot, &entry) in others.iter_mut().zip(second.1) {
        let label = match on {
            0 => entry as usize,
            _ => {
                let mut leaves = leaves(second.0, version_2, entry as usize);
                leaves.nth(on).ok_or((6, 0))??.label
            }
        };
        *slot = (length + label) as u32;
    }
    Ok((count, rows))
}

/// The bytes of a kept index in front of its entries, of kind 1 and of kind 2.
const KEPT_FRONT: usize = 6;
const KEPT2_FRONT: usize = 10;

/// The most entries of a kept index.
const MOST_ENTRIES: usize = 1_073_741_823;

/// The entries of a kept index of this kind, still as bytes.
#[inline(always)]
fn kept_entries(bytes: &[u8], kind: u8, front: usize) -> Result<&[u8], Fault> {
    let entries = bytes.get(front..).ok_or((13, 0))?;
    let is_kept = four_at(bytes, 0) as usize == bytes.len() - 4
        && bytes[4..6] == [kind, 0]
        && entries.len().is_multiple_of(4);
    if is_kept {
        Ok(entries)
    } else {
        Err((13, 0))
    }
}

/// The front of what is lent for a record of so many bytes, with its length and kind written.
#[inline(always)]
fn begun(out: &mut [u8], size: usize, kind: u8) -> Result<&mut [u8], Fault> {
    let record = out.get_mut(..size).ok_or((8, 0))?;
    record[..4].copy_from_slice(&(size as u32 - 4).to_le_bytes());
    record[4..6].copy_from_slice(&[kind, 0]);
    Ok(record)
}

#[inline(always)]
fn load_entries(entries: &[u8], list: &mut [u32]) -> Result<usize, Fault> {
    let count = entries.len() / 4;
    let list = list.get_mut(..count).ok_or((8, 0))?;
    for (slot, entry) in list.iter_mut().zip(entries.chunks_exact(4)) {
        *slot = four_at(entry, 0);
    }
    Ok(count)
}

/// Writes an index as bytes to keep.
#[inline(never)]
pub fn keep_index(list: &[u32], out: &mut [u8]) -> Result<usize, Fault> {
    if list.len() > MOST_ENTRIES {
        return Err((14, 0));
    }
    let size = KEPT_FRONT + 4 * list.len();
    let entries = begun(out, size, 1)?[KEPT_FRONT..].chunks_exact_mut(4);
    for (bytes, entry) in entries.zip(list) {
        bytes.copy_from_slice(&entry.to_le_bytes());
    }
    Ok(size)
}

/// Reads a kept index, and answers how many entries it has.
#[inline(never)]
pub fn load_kept(bytes: &[u8], list: &mut [u32]) -> Result<usize, Fault> {
    load_entries(kept_entries(bytes, 1, KEPT_FRONT)?, list)
}

/// Reads a kept index of kind 2, and answers how many rows and entries it has.
#[inline(never)]
pub fn load_kept2(bytes: &[u8], list: &mut [u32]) -> Result<(usize, usize), Fault> {
    let entries = kept_entries(bytes, 2, KEPT2_FRONT)?;
    let count = load_entries(entries, list)?;
    Ok((four_at(bytes, KEPT_FRONT) as usize, count))
}

/// The row count of a file, and whether these bytes are the entries of its index.
pub type RowsAndIndex = fn(&[u8], bool, &[u8]) -> Result<(usize, bool), Fault>;

/// Both in two passes, as the library makes them: the check, and then the entries.
#[inline(never)]
pub fn in_two_passes(file: &[u8], version_2: bool, kept: &[u8]) -> Result<(usize, bool), Fault> {
    let rows = check(file, version_2)?;
    let is_index = kept.len() == 4 * rows.div_ceil(ROWS_PER_ENTRY)
        && kept
            .chunks_exact(4)
            .zip(entries(file, version_2))
            .all(|(entry, place)| place == Ok(four_at(entry, 0)));
    Ok((rows, is_index))
}

/// Both in one pass.
#[inline(never)]
pub fn in_one_pass(file: &[u8], version_2: bool, entries: &[u8]) -> Result<(usize, bool), Fault> {
    let (mut rows, mut is_index) = (0, true);
    pass(file, version_2, |leaf| {
        if rows % ROWS_PER_ENTRY == 0 {
            let entry = entries.get(rows / ROWS_PER_ENTRY * 4..).unwrap_or(&[]);
            let entry = entry.first_chunk().copied().map(u32::from_le_bytes);
            is_index &= entry == Some(leaf.label as u32);
        }
        rows += 1;
    })?;
    let is_whole = entries.len() == 4 * rows.div_ceil(ROWS_PER_ENTRY);
    Ok((rows, is_index && is_whole))
}

/// Writes a kept index of kind 1 as one of kind 2, with the row count of its file.
#[inline(never)]
pub fn convert_1_to_2(
    through: RowsAndIndex,
    file: &[u8],
    version_2: bool,
    kept: &[u8],
    out: &mut [u8],
) -> Result<usize, Fault> {
    let entries = kept_entries(kept, 1, KEPT_FRONT);
    let (rows, is_index) = through(file, version_2, entries.unwrap_or(&[]))?;
    let entries = entries?;
    if !is_index {
        return Err((11, 0));
    }
    let size = KEPT2_FRONT + entries.len();
    let record = begun(out, size, 2)?;
    record[KEPT_FRONT..KEPT2_FRONT].copy_from_slice(&(rows as u32).to_le_bytes());
    record[KEPT2_FRONT..].copy_from_slice(entries);
    Ok(size)
}

/// Writes a kept index of kind 2 as one of kind 1.
#[inline(never)]
pub fn convert_2_to_1(kept: &[u8], out: &mut [u8]) -> Result<usize, Fault> {
    let entries = kept_entries(kept, 2, KEPT2_FRONT)?;
    let size = KEPT_FRONT + entries.len();
    begun(out, size, 1)?[KEPT_FRONT..].copy_from_slice(entries);
    Ok(size)
}

/// Accepts exactly the index of an accepted file, kept with its row count.
#[inline(never)]
pub fn check_kept2(
    through: RowsAndIndex,
    file: &[u8],
    version_2: bool,
    kept: &[u8],
) -> Result<(), Fault> {
    let entries = kept_entries(kept, 2, KEPT2_FRONT);
    let (rows, is_index) = through(file, version_2, entries.unwrap_or(&[]))?;
    entries?;
    if is_index && four_at(kept, KEPT_FRONT) as usize == rows {
        Ok(())
    } else {
        Err((11, 0))
    }
}

/// What a window shows of a row: its place, its bytes, and the row's address.
pub struct Row<'a> {
    pub place: usize,
    pub bytes: &'a [u8],
    pub label: usize,
    pub nesting: Option<(usize, usize)>,
}

type Shown<'a> = Result<Row<'a>, Fault>;

fn window(file: &[u8], row: Leaf, first: usize, count: usize) -> Shown<'_> {
    if first > row.length || count > row.length - first {
        return Err((7, 0));
    }
    let place = row.value + first;
    Ok(Row {
        place,
        bytes: &file[place..place + count],
        label: row.label,
        nesting: row.nesting,
    })
}

/// Reads a window of a row of a labelled file in one pass from its first byte.
#[inline(never)]
pub fn read_row_labelled(
    file: &[u8],
    version_2: bool,
    row: usize,
    first: usize,
    count: usize,
) -> Shown<'_> {
    window(file, row_of(file, version_2, row)?, first, count)
}

/// Finds a row of a labelled file in one pass, which goes on to the file's end.
#[inline(always)]
fn row_of(file: &[u8], version_2: bool, row: usize) -> Result<Leaf, Fault> {
    let mut rows = 0;
    let mut wanted = None;
    pass(file, version_2, |leaf| {
        if rows == row {
            wanted = Some(leaf);
        }
        rows += 1;
    })?;
    wanted.ok_or((6, 0))
}

/// Gives a whole row of the substitute, or else of the original, and says whether it is the
/// substitute's. A file that is looked at is passed once.
#[inline(never)]
pub fn substitute_row<'a>(
    original: &'a [u8],
    substitute: &'a [u8],
    version_2: bool,
    row: usize,
) -> Result<(bool, Row<'a>), Fault> {
    let (is_substitute, file, leaf) = match row_of(substitute, version_2, row) {
        Ok(leaf) => (true, substitute, leaf),
        Err(_) => (false, original, row_of(original, version_2, row)?),
    };
    let row = window(file, leaf, 0, leaf.length)?;
    Ok((is_substitute, row))
}

/// Reads a window of a row of a labelled file by its index.
#[inline(never)]
pub fn jump_labelled<'a>(
    file: &'a [u8],
    version_2: bool,
    list: &[u32],
    row: usize,
    first: usize,
    count: usize,
) -> Shown<'a> {
    check_size(file)?;
    let &entry = list.get(row / ROWS_PER_ENTRY).ok_or((6, 0))?;
    let entry = entry as usize;
    if entry > file.len() {
        return Err((11, 0));
    }
    let mut leaves = leaves(file, version_2, entry);
    for _ in 0..row % ROWS_PER_ENTRY {
        leaves.next().ok_or((6, 0))??;
    }
    let leaf = leaves.next().ok_or((6, 0))??;
    window(file, leaf, first, count)
}

/// Gives the first row from a place on, whole.
#[inline(never)]
pub fn row_from(file: &[u8], version_2: bool, from: usize) -> Shown<'_> {
    check_size(file)?;
    let leaf = leaves(file, version_2, from).next().ok_or((6, 0))??;
    window(file, leaf, 0, leaf.length)
}

fn check_waveform(file: &[u8]) -> Result<usize, Fault> {
    check_size(file)?;
    if !file.len().is_multiple_of(RECORD) {
        return Err((12, 0));
    }
    Ok(file.len() / RECORD)
}

/// Reads a window of a row of a waveform file by passing the rows in front of it.
#[inline(never)]
pub fn read_row_waveform(file: &[u8], row: usize, first: usize, count: usize) -> Shown<'_> {
    check_waveform(file)?;
    let place = pass_rows(file, 0, RECORD, row)?;
    window(file, unlabelled(place + PREFIX, SAMPLES), first, count)
}

/// Where a row starts, found by passing the rows in front of it. The compiler is not told how long
/// a row is, or it would compute the place, which is the jump.
#[inline(always)]
fn pass_rows(file: &[u8], start: usize, bytes: usize, row: usize) -> Result<usize, Fault> {
    let bytes = black_box(bytes);
    let mut place = start;
    let mut passed = 0;
    while passed < row && place < file.len() {
        place += bytes;
        passed += 1;
    }
    if place == file.len() {
        return Err((6, 0));
    }
    Ok(place)
}

/// Reads a window of a row of a waveform file at its computed place.
#[inline(never)]
pub fn jump_waveform(file: &[u8], row: usize, first: usize, count: usize) -> Shown<'_> {
    if row >= check_waveform(file)? {
        return Err((6, 0));
    }
    window(
        file,
        unlabelled(row * RECORD + PREFIX, SAMPLES),
        first,
        count,
    )
}

const BURST: usize = 1_272;

fn check_bursts(file: &[u8], start: usize) -> Result<usize, Fault> {
    check_size(file)?;
    let rest = file.len().checked_sub(start).ok_or((16, 0))?;
    if !rest.is_multiple_of(BURST) {
        return Err((12, 0));
    }
    Ok(rest / BURST)
}

/// Reads a window of a row of a burst file by passing the rows in front of it.
#[inline(never)]
pub fn read_row_bursts(
    file: &[u8],
    start: usize,
    row: usize,
    first: usize,
    count: usize,
) -> Shown<'_> {
    check_bursts(file, start)?;
    let place = pass_rows(file, start, BURST, row)?;
    window(file, unlabelled(place, BURST), first, count)
}

/// Reads a window of a row of a burst file at its computed place.
#[inline(never)]
pub fn jump_bursts(file: &[u8], start: usize, row: usize, first: usize, count: usize) -> Shown<'_> {
    let place = burst(file, start, row)?;
    window(file, unlabelled(place, BURST), first, count)
}

/// Gives the row of a burst file that begins at a place.
#[inline(never)]
pub fn row_from_bursts(file: &[u8], start: usize, from: usize) -> Shown<'_> {
    check_bursts(file, start)?;
    let is_row = from >= start && from < file.len() && (from - start).is_multiple_of(BURST);
    if !is_row {
        return Err((6, 0));
    }
    window(file, unlabelled(from, BURST), 0, BURST)
}

/// The place of a row of a burst file.
fn burst(file: &[u8], start: usize, row: usize) -> Result<usize, Fault> {
    if row >= check_bursts(file, start)? {
        return Err((6, 0));
    }
    Ok(start + row * BURST)
}

/// What a field of a burst holds; of a text its place, and its bytes.
pub enum Field<'a> {
    Unsigned(u32),
    Signed(i32),
    Float4(u32),
    Float8(u64),
    Text(usize, &'a [u8]),
}

#[derive(Clone, Copy)]
enum Type {
    Unsigned,
    Signed,
    Float4,
    Float8,
    Text16,
    Text24,
}

/// So many fields of a type follow one another.
const RUNS: [(usize, Type); 29] = [
    (3, Type::Unsigned),
    (3, Type::Float4),
    (28, Type::Unsigned),
    (6, Type::Float4),
    (3, Type::Unsigned),
    (2, Type::Float4),
    (2, Type::Unsigned),
    (3, Type::Float4),
    (4, Type::Unsigned),
    (4, Type::Float4),
    (12, Type::Unsigned),
    (72, Type::Float4),
    (2, Type::Unsigned),
    (1, Type::Float4),
    (1, Type::Unsigned),
    (2, Type::Float8),
    (2, Type::Text24),
    (3, Type::Float8),
    (1, Type::Text16),
    (1, Type::Text24),
    (4, Type::Float8),
    (3, Type::Float4),
    (1, Type::Unsigned),
    (36, Type::Float8),
    (3, Type::Float4),
    (1, Type::Signed),
    (47, Type::Float4),
    (1, Type::Unsigned),
    (4, Type::Float4),
];

/// Each field's place in the record, and its type.
static FIELDS: [(u16, Type); 255] = fields();

const fn fields() -> [(u16, Type); 255] {
    let mut fields = [(0, Type::Unsigned); 255];
    let (mut run, mut at, mut place) = (0, 0, 0);
    while run < RUNS.len() {
        let (count, of) = RUNS[run];
        let end = at + count;
        while at < end {
            fields[at] = (place, of);
            place += match of {
                Type::Unsigned | Type::Signed | Type::Float4 => 4,
                Type::Float8 => 8,
                Type::Text16 => 16,
                Type::Text24 => 24,
            };
            at += 1;
        }
        run += 1;
    }
    fields
}

/// Reads a field of a row of a burst file.
#[inline(never)]
pub fn burst_field(
    file: &[u8],
    start: usize,
    row: usize,
    position: usize,
) -> Result<Field<'_>, Fault> {
    let place = burst(file, start, row)?;
    let before = position.wrapping_sub(1);
    let &(place_in_row, of) = FIELDS.get(before).ok_or((10, 0))?;
    let place = place + usize::from(place_in_row);
    Ok(match of {
        Type::Unsigned => Field::Unsigned(four_at(file, place)),
        Type::Signed => Field::Signed(four_at(file, place) as i32),
        Type::Float4 => Field::Float4(four_at(file, place)),
        Type::Float8 => {
            let low = u64::from(four_at(file, place));
            Field::Float8(u64::from(four_at(file, place + 4)) << 32 | low)
        }
        Type::Text16 => Field::Text(place, &file[place..place + 16]),
        Type::Text24 => Field::Text(place, &file[place..place + 24]),
    })
}

#[inline(always)]
fn four_at(file: &[u8], place: usize) -> u32 {
    let bytes = &file[place..place + 4];
    u32::from_le_bytes([bytes[0], bytes[1], bytes[2], bytes[3]])
}

/// The limits of a field of a burst.
fn burst_limits(position: usize) -> Option<(u32, u32)> {
    Some(match position {
        34 | 68 => (0, 7),
        30 | 31 | 69 => (0, 15),
        33 => (0, 31),
        7 | 19..=22 | 28 | 32 | 51 | 53 | 54 => (0, 255),
        23 => (0, 2_047),
        41..=43 | 65 | 67 | 70 => (0, 4_095),
        144 | 251 => (0, 32_000),
        25 => (0, 64_094),
        9..=11 | 13 | 14 | 16..=18 | 27 | 59..=61 => (0, 65_535),
        62 => (1, 12),
        63 => (1, 31),
        46 => (1, 255),
        47 => (216, 749),
        64 => (1_990, 2_010),
        _ => return None,
    })
}

/// Compares a field of a row of a burst file with its limits: 0, 1 or 2.
#[inline(never)]
pub fn burst_verdict(
    file: &[u8],
    start: usize,
    row: usize,
    position: usize,
) -> Result<usize, Fault> {
    let place = burst(file, start, row)?;
    let (minimum, maximum) = burst_limits(position).ok_or((10, 0))?;
    let value = four_at(file, place + usize::from(FIELDS[position - 1].0));
    Ok(1 + usize::from(value > maximum) - usize::from(value < minimum))
}

/// How many beams a mask enables.
#[inline(never)]
pub fn beams(mask: u64) -> Option<u32> {
    (mask < 32).then(|| mask.count_ones())
}

/// The number of a compression mode, or that of none.
#[inline(never)]
pub fn mode(number: u64) -> u64 {
    number.min(8)
}

/// The bits of a VAX D number: sign, exponent and fraction. The three functions below are written out,
/// since each is slower with its first half in a function that they share.
fn d_bits(bytes: &[u8]) -> Result<u64, Fault> {
    let bytes: &[u8; 8] = bytes.first_chunk().ok_or((1, 0))?;
    let word = |at| u64::from(u16::from_le_bytes([bytes[at], bytes[at + 1]]));
    Ok((word(0) << 48) | (word(2) << 32) | (word(4) << 16) | word(6))
}

/// Reads a VAX D number as the nearest float. The bits of a number that is rounded up run over into
/// its exponent.
#[inline(never)]
pub fn vax_d(bytes: &[u8]) -> Result<f64, Fault> {
    let bits = d_bits(bytes)?;
    let (sign, exponent) = (bits >> 63, (bits >> 55) & 0xff);
    if exponent == 0 {
        return if sign == 0 { Ok(0.0) } else { Err((9, 0)) };
    }
    let size = bits & !(1 << 63);
    let rounded = (size + 3 + ((size >> 3) & 1)) >> 3;
    Ok(f64::from_bits((sign << 63) | (rounded + (894 << 52))))
}

/// Reads a VAX D number as the language makes a float of its mantissa, times a power of two.
#[inline(never)]
pub fn vax_d_by_conversion(bytes: &[u8]) -> Result<f64, Fault> {
    let bits = d_bits(bytes)?;
    let (sign, exponent) = (bits >> 63, (bits >> 55) & 0xff);
    if exponent == 0 {
        return if sign == 0 { Ok(0.0) } else { Err((9, 0)) };
    }
    let mantissa = (1 << 55) | (bits & ((1 << 55) - 1));
    let power = f64::from_bits((sign << 63) | ((exponent + 839) << 52));
    Ok(mantissa as f64 * power)
}

/// Reads a VAX D number without the three lowest bits of its fraction.
#[inline(never)]
pub fn vax_d_dropped(bytes: &[u8]) -> Result<f64, Fault> {
    let bits = d_bits(bytes)?;
    let (sign, exponent) = (bits >> 63, (bits >> 55) & 0xff);
    if exponent == 0 {
        return if sign == 0 { Ok(0.0) } else { Err((9, 0)) };
    }
    let size = bits & !(1 << 63);
    Ok(f64::from_bits((sign << 63) | ((size >> 3) + (894 << 52))))
}

/// The tone of each sample: the largest `t` with `t * t <= 255 * sample`.
const TONES: [u8; 256] = {
    let mut tones = [0; 256];
    let (mut sample, mut tone) = (0, 0);
    while sample < 256 {
        while (tone + 1) * (tone + 1) <= 255 * sample {
            tone += 1;
        }
        tones[sample] = tone as u8;
        sample += 1;
    }
    tones
};

/// For each line and column of a tile the tone from which on no dot is set.
const LIMITS: [[u8; 8]; 8] = {
    let mut limits = [[0; 8]; 8];
    let mut place = 0;
    while place < 64 {
        let (line, column) = (place / 8, place % 8);
        let (mut number, mut bit) = (0, 0);
        while bit < 3 {
            let (down, right) = (line >> bit & 1, column >> bit & 1);
            number = 4 * number + 2 * (down ^ right) + down;
            bit += 1;
        }
        limits[line][column] = (4 * number + 2) as u8;
        place += 1;
    }
    limits
};

/// For each line of a tile the samples from which on no dot is set, the leftmost in the highest byte. The
/// tones never fall, so that samples can be compared in their place.
const SAMPLE_LIMITS: [u64; 8] = {
    let mut limits = [0; 8];
    let mut place = 0;
    while place < 64 {
        let limit = LIMITS[place / 8][place % 8] as u64;
        limits[place / 8] = limits[place / 8] << 8 | (limit * limit).div_ceil(255);
        place += 1;
    }
    limits
};

/// The tone of a sample.
#[inline(never)]
pub fn tone(sample: u8) -> u8 {
    TONES[usize::from(sample)]
}

/// Draws the samples of a line of the strip.
pub trait Draw {
    fn line(samples: &[u8], line: usize, out: &mut [u8]);
}

/// A tone from the table, and a comparison, for each dot; a byte of dots at a time.
pub struct DotByDot;

impl Draw for DotByDot {
    #[inline(always)]
    fn line(samples: &[u8], line: usize, out: &mut [u8]) {
        let limits = &LIMITS[line % 8];
        for (byte, eight) in out.iter_mut().zip(samples.chunks(8)) {
            let mut bits = 0;
            for (x, &sample) in eight.iter().enumerate() {
                let is_dot = TONES[usize::from(sample)] < limits[x];
                bits |= u8::from(is_dot) << (7 - x);
            }
            *byte = bits;
        }
    }
}

/// Eight samples compared at once in a word.
pub struct EightAtOnce;

impl Draw for EightAtOnce {
    #[inline(always)]
    fn line(samples: &[u8], line: usize, out: &mut [u8]) {
        let limits = SAMPLE_LIMITS[line % 8];
        let whole = samples.chunks_exact(8);
        let rest = whole.remainder();
        for (eight, byte) in whole.zip(out.iter_mut()) {
            let eight = eight
                .first_chunk()
                .map_or(0, |eight| u64::from_be_bytes(*eight));
            *byte = less(eight, limits);
        }
        if !rest.is_empty() {
            // No sample of 255 leaves a dot.
            let mut eight = [255; 8];
            eight[..rest.len()].copy_from_slice(rest);
            out[samples.len() / 8] = less(u64::from_be_bytes(eight), limits);
        }
    }
}

/// A bit for each byte of one word that is less than that of the other.
#[inline(always)]
fn less(one: u64, other: u64) -> u8 {
    const HIGH: u64 = 0x8080_8080_8080_8080;
    let is_not_less = (one | HIGH) - (other & !HIGH);
    let less = (!one & other) | (!(one ^ other) & !is_not_less);
    let bits = (less & HIGH) >> 7;
    (bits.wrapping_mul(0x0102_0408_1020_4080) >> 56) as u8
}

/// The rows of a strip, and their window.
#[derive(Clone, Copy)]
pub struct Strip {
    pub row: usize,
    pub rows: usize,
    pub first: usize,
    pub count: usize,
}

impl Strip {
    fn fits(self, length: usize) -> bool {
        self.first <= length && self.count <= length - self.first
    }

    fn size(self) -> usize {
        self.count.div_ceil(8)
    }

    /// Draws the rows that begin at these places, with room for them.
    #[inline(always)]
    fn draw<D: Draw>(
        self,
        file: &[u8],
        places: impl Iterator<Item = usize>,
        out: &mut [u8],
    ) -> Result<usize, Fault> {
        let size = self.size();
        let lines = out.get_mut(..self.rows * size).ok_or((8, 0))?;
        if size > 0 {
            let places = places.enumerate();
            for (line, (y, place)) in lines.chunks_exact_mut(size).zip(places) {
                let samples = &file[place + self.first..][..self.count];
                D::line(samples, y, line);
            }
        }
        Ok(self.rows * size)
    }
}

/// Draws a strip of a waveform file.
#[inline(never)]
pub fn strip_waveform<D: Draw>(file: &[u8], strip: Strip, out: &mut [u8]) -> Result<usize, Fault> {
    let rows = check_waveform(file)?;
    if strip.rows == 0 {
        return Ok(0);
    }
    if strip.row > rows || strip.rows > rows - strip.row {
        return Err((6, 0));
    }
    if !strip.fits(SAMPLES) {
        return Err((7, 0));
    }
    let from = strip.row * RECORD + PREFIX;
    strip.draw::<D>(file, (from..).step_by(RECORD), out)
}

/// Draws a strip of a labelled file: one pass over all labels, and one more over those of the strip.
#[inline(never)]
pub fn strip_labelled<D: Draw>(
    file: &[u8],
    version_2: bool,
    strip: Strip,
    out: &mut [u8],
) -> Result<usize, Fault> {
    let (mut rows, mut from, mut fits) = (0_usize, 0, true);
    pass(file, version_2, |leaf| {
        let line = rows.wrapping_sub(strip.row);
        if line < strip.rows {
            if line == 0 {
                from = leaf.label;
            }
            fits &= strip.fits(leaf.length);
        }
        rows += 1;
    })?;
    if strip.rows == 0 {
        return Ok(0);
    }
    if strip.row > rows || strip.rows > rows - strip.row {
        return Err((6, 0));
    }
    if !fits {
        return Err((7, 0));
    }
    let leaves = leaves(file, version_2, from);
    strip.draw::<D>(file, leaves.flatten().map(|leaf| leaf.value), out)
}

/// What stands behind a dot: the place, the byte, its tone, and whether the dot is set.
pub type Dot = (usize, u8, u8, bool);

#[inline(always)]
fn dot(row: Row<'_>, column: usize, line: usize) -> Result<Dot, Fault> {
    let &byte = row.bytes.get(column).ok_or((7, 0))?;
    let tone = TONES[usize::from(byte)];
    let is_set = tone < LIMITS[line % 8][column % 8];
    Ok((row.place + column, byte, tone, is_set))
}

/// The byte behind a dot of a strip of a waveform file.
#[inline(never)]
pub fn behind_waveform(
    file: &[u8],
    strip: Strip,
    column: usize,
    line: usize,
) -> Result<Dot, Fault> {
    let rows = check_waveform(file)?;
    let number = strip.row.checked_add(line).filter(|&row| row < rows);
    let place = number.ok_or((6, 0))? * RECORD + PREFIX;
    let row = window(file, unlabelled(place, SAMPLES), strip.first, strip.count)?;
    dot(row, column, line)
}

/// The same of a labelled file.
#[inline(never)]
pub fn behind_labelled(
    file: &[u8],
    version_2: bool,
    strip: Strip,
    column: usize,
    line: usize,
) -> Result<Dot, Fault> {
    // No file has so many rows as the last number.
    let number = strip.row.saturating_add(line);
    let row = row_of(file, version_2, number)?;
    dot(window(file, row, strip.first, strip.count)?, column, line)
}

/// Twice the amplitude of a sample.
#[inline(never)]
pub fn sample(sample: u8) -> i64 {
    2 * i64::from(sample) - 255
}
