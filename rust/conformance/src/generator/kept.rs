//! Kept indexes to ask about: their bytes, their kinds, their row counts and lists, the files that
//! they are lent with, and the room for what is read or made of them.

use super::files::{self, LabelledFile, Mix, FAULTS};
use super::random::{each_once, Random};
use super::{edges, CHOICES};
use crate::Case;
use crestulbino::{Refusal, Versions};

/// The bytes of a record in front of its numbers: the length field and the kind.
const FRONT: usize = 6;

/// The length field, which does not count itself.
const LENGTH: usize = 4;

/// A call that reads a kept index.
#[derive(Clone, Copy, Debug, PartialEq, Eq, Hash)]
enum Call {
    Load,
    Load2,
    To2,
    To1,
    Check,
}

const CALLS: [Call; 5] = [Call::Load, Call::Load2, Call::To2, Call::To1, Call::Check];

/// The calls that are lent a file with it.
const FILE_CALLS: [Call; 2] = [Call::To2, Call::Check];

/// The calls that are not.
const RECORD_CALLS: [Call; 3] = [Call::Load, Call::Load2, Call::To1];

impl Call {
    /// The kind that it reads.
    fn kind(self) -> u16 {
        match self {
            Call::Load | Call::To2 => 1,
            Call::Load2 | Call::To1 | Call::Check => 2,
        }
    }

    /// The room that it needs for so many entries: elements of a list, or bytes.
    fn need(self, entries: usize) -> usize {
        match self {
            Call::Load | Call::Load2 => entries,
            Call::To2 => FRONT + 4 + 4 * entries,
            Call::To1 => FRONT + 4 * entries,
            Call::Check => 0,
        }
    }

    /// The call with what is lent, of which it takes a part.
    fn case(self, lent: Lent, random: &mut Random) -> Case {
        let Lent {
            file,
            versions,
            kept,
            room,
        } = lent;
        match self {
            Call::Load => Case::LoadKept {
                bytes: kept,
                list: random.numbers(room),
            },
            Call::Load2 => Case::LoadKept2 {
                bytes: kept,
                list: random.numbers(room),
            },
            Call::To2 => Case::Convert1To2 {
                file,
                kept,
                buffer: random.bytes(room),
                versions,
            },
            Call::To1 => Case::Convert2To1 {
                kept,
                buffer: random.bytes(room),
            },
            Call::Check => Case::CheckKept2 {
                file,
                kept,
                versions,
            },
        }
    }
}

/// All that a call may be lent.
struct Lent {
    file: Vec<u8>,
    versions: Versions,
    kept: Vec<u8>,
    room: usize,
}

/// What stands for a file, and what is told of it, where none is lent.
const NO_FILE: (Vec<u8>, Versions) = (Vec::new(), Versions::One);

/// The bytes of a record of this kind: of kind 1 its entries, of kind 2 the row count and the entries.
pub fn record(kind: u16, numbers: &[u32]) -> Vec<u8> {
    let mut bytes = vec![0; LENGTH];
    bytes.extend(kind.to_le_bytes());
    bytes.extend(numbers.iter().flat_map(|number| number.to_le_bytes()));
    set_own_length(&mut bytes);
    bytes
}

/// Has the length field say what follows it, if there is one.
fn set_own_length(bytes: &mut [u8]) {
    if let Some(length) = bytes.len().checked_sub(LENGTH) {
        bytes[..LENGTH].copy_from_slice(&(length as u32).to_le_bytes());
    }
}

/// What is done to a right record.
#[derive(Clone, Copy, Debug, PartialEq, Eq)]
enum Harm {
    /// It is cut, or made longer, to so many bytes, and its length field says so.
    Size(usize),
    /// Its length field is so much more, or less where that turns.
    Length(u32),
    /// The bytes of its length field are in the other order.
    LengthReversed,
    /// Its kind is this number.
    Kind(u16),
    /// It has so many bytes of a further entry, which its length field counts.
    Part(usize),
    /// So many bytes follow it.
    Behind(usize),
}

impl Harm {
    fn done_to(self, bytes: &mut Vec<u8>, random: &mut Random) {
        match self {
            Harm::Size(size) => {
                bytes.resize(size, 0);
                set_own_length(bytes);
            }
            Harm::Length(more) => {
                let length = (bytes.len() - LENGTH) as u32;
                bytes[..LENGTH].copy_from_slice(&length.wrapping_add(more).to_le_bytes());
            }
            Harm::LengthReversed => bytes[..LENGTH].reverse(),
            Harm::Kind(kind) => bytes[LENGTH..FRONT].copy_from_slice(&kind.to_le_bytes()),
            Harm::Part(more) => {
                bytes.extend(random.bytes(more));
                set_own_length(bytes);
            }
            Harm::Behind(more) => bytes.extend(random.bytes(more)),
        }
    }
}

/// Lengths beside the right one, with the length field or without the kind counted, and beyond it in
/// each byte.
const LENGTHS: [u32; 9] = [
    1,
    u32::MAX,
    4,
    u32::MAX - 3,
    u32::MAX - 1,
    1 << 8,
    1 << 16,
    1 << 24,
    1 << 31,
];

/// Both kinds, in the other byte order and with the other byte set too, and their neighbours.
const KINDS: [u16; 8] = [0, 1, 2, 3, 0x0100, 0x0101, 0x0102, 0x0200];

/// The largest of the small records, of which each size comes up.
const SMALL: usize = 11;

fn harms() -> Vec<Harm> {
    let sizes = (0..=SMALL).map(Harm::Size);
    let lengths = LENGTHS.map(Harm::Length).into_iter();
    let kinds = KINDS.map(Harm::Kind).into_iter();
    let parts = [1, 2, 3].map(Harm::Part).into_iter();
    let behind = [1, 4].map(Harm::Behind).into_iter();
    let harms = sizes.chain(lengths).chain([Harm::LengthReversed]);
    harms.chain(kinds).chain(parts).chain(behind).collect()
}

/// The row count of a record, beside that of its file.
#[derive(Clone, Copy, Debug, PartialEq, Eq)]
enum Count {
    /// So much more, or less where that turns.
    Plus(u32),
    /// With its bytes in the other order.
    Reversed,
    /// The number of entries.
    Entries,
    /// Rounded up to whole groups of 16.
    RoundedUp,
    Is(u32),
    /// The right one, written behind the entries.
    Behind,
}

const RIGHT: Count = Count::Plus(0);

const COUNTS: [Count; 12] = [
    RIGHT,
    Count::Plus(1),
    Count::Plus(u32::MAX),
    Count::Plus(1 << 8),
    Count::Plus(1 << 16),
    Count::Plus(1 << 24),
    Count::Reversed,
    Count::Entries,
    Count::RoundedUp,
    Count::Is(0),
    Count::Is(u32::MAX),
    Count::Behind,
];

impl Count {
    /// The numbers of a record of kind 2: the count and the entries.
    fn with(self, rows: u32, entries: &[u32]) -> Vec<u32> {
        let count = match self {
            Count::Plus(more) => rows.wrapping_add(more),
            Count::Reversed => rows.swap_bytes(),
            Count::Entries => entries.len() as u32,
            Count::RoundedUp => rows.next_multiple_of(16),
            Count::Is(number) => number,
            Count::Behind => return [entries, &[rows]].concat(),
        };
        [&[count], entries].concat()
    }
}

/// The bytes of a record of this kind, with a count only in kind 2.
fn record_of(kind: u16, count: Count, rows: u32, list: &[u32]) -> Vec<u8> {
    match kind {
        1 => record(1, list),
        _ => record(kind, &count.with(rows, list)),
    }
}

/// A list, beside the index of its file.
#[derive(Clone, Copy, Debug, PartialEq, Eq)]
pub(super) enum List {
    Right,
    /// One entry is more, or less.
    Raised,
    Lowered,
    WithoutFirst,
    WithoutLast,
    Longer,
    /// The first and the last are exchanged.
    Exchanged,
    /// The one that the file had while class Z alone was opened, where that is another.
    Old,
    Empty,
    /// Cut to 16 bits.
    Narrow,
}

pub(super) const WRONG_LISTS: [List; 8] = [
    List::Raised,
    List::Lowered,
    List::WithoutFirst,
    List::WithoutLast,
    List::Longer,
    List::Exchanged,
    List::Old,
    List::Empty,
];

impl List {
    pub(super) fn of(self, file: &LabelledFile, random: &mut Random) -> Vec<u32> {
        let mut list = file.index();
        let last = list.len().saturating_sub(1);
        let at = random.between(0, last);
        let step = random.pick(&[1, 1, 20]);
        match self {
            List::Right => {}
            List::Raised => list[at] = list[at].wrapping_add(step),
            List::Lowered => list[at] = list[at].wrapping_sub(step),
            List::WithoutFirst => {
                list.remove(0);
            }
            List::WithoutLast => {
                list.pop();
            }
            List::Longer => {
                let end = file.bytes.len() as u32;
                let again = list.last().copied().unwrap_or(end);
                list.push(random.pick(&[again, end]));
            }
            List::Exchanged => list.swap(0, last),
            List::Old => list = file.old_index(),
            List::Empty => list.clear(),
            List::Narrow => list.iter_mut().for_each(|entry| *entry &= 0xffff),
        }
        list
    }
}

/// How much room a call is lent.
#[derive(Clone, Copy, Debug, PartialEq, Eq)]
enum Room {
    None,
    Less,
    Exact,
    More,
    /// As much as a record of the other kind needs.
    OfOther,
}

impl Room {
    fn of(self, call: Call, entries: usize) -> usize {
        let need = call.need(entries);
        match (self, call) {
            (Room::None, _) => 0,
            (Room::Less, _) => need.saturating_sub(1),
            (Room::Exact, _) => need,
            (Room::More, _) => need + 1,
            (Room::OfOther, Call::To2) => Call::To1.need(entries),
            (Room::OfOther, _) => Call::To2.need(entries),
        }
    }
}

/// The file that a record is lent with or was made of.
#[derive(Clone, Copy, Debug, PartialEq, Eq)]
enum File {
    /// Of some number of rows that is named below.
    Any,
    Rows(usize),
    /// One with an entry beyond 65,536.
    Large,
    /// One that is refused, for this reason.
    Faulty(Refusal),
}

/// Around the ends of groups of 16 rows.
pub(super) const ROWS: [usize; 8] = [0, 1, 15, 16, 17, 31, 32, 33];

/// A call with what is lent to it: each part is a choice, not bytes.
#[derive(Clone, Copy, Debug, PartialEq, Eq)]
pub struct Asked {
    call: Call,
    file: File,
    /// Whether the rows stand in groups; either, where nothing is said.
    is_nested: Option<bool>,
    /// Which labels the file has and what the call is told; some that are allowed, where nothing is
    /// said.
    told: Option<(Mix, Versions)>,
    /// 1 or 2: how the record is written.
    kind: u16,
    count: Count,
    list: List,
    harm: Option<Harm>,
    room: Room,
}

impl Asked {
    fn right(call: Call) -> Asked {
        Asked {
            call,
            file: File::Any,
            is_nested: None,
            told: None,
            kind: call.kind(),
            count: RIGHT,
            list: List::Right,
            harm: None,
            room: Room::More,
        }
    }

    pub fn case(self, random: &mut Random) -> Case {
        let any_told = random.pick(&CHOICES);
        let (mix, versions) = self
            .told
            .unwrap_or_else(|| (Mix::allowed(any_told, random), any_told));
        let file = self.file(mix, versions, random);
        let rows = file.leaves().len();
        let list = match self.call {
            Call::To2 | Call::Check => self.list.of(&file, random),
            Call::Load | Call::Load2 | Call::To1 => entries(rows.div_ceil(16), random),
        };
        let mut kept = record_of(self.kind, self.count, rows as u32, &list);
        if let Some(harm) = self.harm {
            harm.done_to(&mut kept, random);
        }
        let lent = Lent {
            file: file.bytes,
            versions,
            kept,
            room: self.room.of(self.call, list.len()),
        };
        self.call.case(lent, random)
    }

    fn file(self, mix: Mix, versions: Versions, random: &mut Random) -> LabelledFile {
        let rows = match self.file {
            File::Any => random.pick(&ROWS),
            File::Rows(rows) => rows,
            File::Large => return files::with_large_entry(mix, random),
            File::Faulty(reason) => return files::faulty(reason, versions, random),
        };
        loop {
            let is_nested = self.is_nested.unwrap_or_else(|| random.chance(50));
            let file = files::with_rows(rows, is_nested, mix, random);
            if self.list != List::Old || file.old_index() != file.index() {
                return file;
            }
        }
    }
}

/// Some numbers, at times edges.
fn entries(count: usize, random: &mut Random) -> Vec<u32> {
    let mut entry = || match random.between(0, 3) {
        0 => random.pick(&[0, 1, 20, 65_535, 65_536, u32::MAX]),
        _ => random.draw() as u32,
    };
    (0..count).map(|_| entry()).collect()
}

/// Some numbers to keep; rarely as many as a case may hold.
pub fn any_entries(random: &mut Random) -> Vec<u32> {
    let count = match random.between(0, 99) {
        0 => 4_096,
        1..=4 => 300,
        _ => random.pick(&[0, 1, 2, 3, 7]),
    };
    entries(count, random)
}

/// A record of any entries, right or damaged, by a call that is lent no file.
pub fn any_record(random: &mut Random) -> Case {
    let call = random.pick(&RECORD_CALLS);
    let list = any_entries(random);
    let rows = entries(1, random)[0];
    let mut kept = record_of(call.kind(), RIGHT, rows, &list);
    if random.chance(55) {
        damage(&mut kept, random);
    }
    let (file, versions) = NO_FILE;
    let lent = Lent {
        file,
        versions,
        kept,
        room: edges::room(random, call.need(list.len())),
    };
    call.case(lent, random)
}

/// Damages a kept index: its size, its length field, its kind, or its size and length together.
fn damage(bytes: &mut Vec<u8>, random: &mut Random) {
    let size = bytes.len();
    match random.between(0, 8) {
        0 => bytes.truncate(random.between(0, 9)),
        1 => bytes.truncate(size - random.between(1, 4)),
        2 => bytes.extend([0; 4].iter().take(random.between(1, 4))),
        3 => bytes[0] = bytes[0].wrapping_add(random.pick(&[1, 2, 4, 255, 252])),
        4 => {
            let high = random.between(1, 3);
            bytes[high] ^= 1 << random.between(0, 7);
        }
        5 => bytes[4] = random.pick(&[0, 1, 2, 3, 255]),
        6 => bytes[5] = random.pick(&[1, 2, 128, 255]),
        7 => bytes.clear(),
        _ => {
            let part = random.between(1, 3);
            bytes.extend([0; 3].iter().take(part));
            set_own_length(bytes);
        }
    }
}

/// A file with its kept index, or at times an old one, by one of the calls that are lent both.
pub fn of_file(file: LabelledFile, versions: Versions, random: &mut Random) -> Case {
    let call = random.pick(&FILE_CALLS);
    let list = if random.chance(20) {
        file.old_index()
    } else {
        file.index()
    };
    let rows = file.leaves().len() as u32;
    let lent = Lent {
        file: file.bytes,
        versions,
        kept: record_of(call.kind(), RIGHT, rows, &list),
        room: call.need(list.len()) + 1,
    };
    call.case(lent, random)
}

/// All that is dealt, each once.
pub fn asked() -> Vec<Asked> {
    let all = [
        harmed(),
        counted(),
        listed(),
        in_files(),
        at_fault(),
        roomy(),
        wide(),
    ];
    each_once(all.concat())
}

/// Each call with each harm, and with a right record of the other kind.
fn harmed() -> Vec<Asked> {
    let of = |call| {
        let right = Asked::right(call);
        let harms = harms().into_iter().map(Some);
        let harmed = harms.map(move |harm| Asked { harm, ..right });
        let kind = 3 - call.kind();
        harmed.chain([Asked { kind, ..right }])
    };
    CALLS.into_iter().flat_map(of).collect()
}

/// Each row count, by each call that reads one; by the check for several numbers of rows.
fn counted() -> Vec<Asked> {
    let with = |call, file| {
        let right = Asked::right(call);
        COUNTS.map(|count| Asked {
            file,
            count,
            ..right
        })
    };
    let read = [Call::Load2, Call::To1].map(|call| with(call, File::Rows(17)));
    let checked = [16, 17, 33].map(|rows| with(Call::Check, File::Rows(rows)));
    read.into_iter().chain(checked).flatten().collect()
}

/// Each wrong list, by each call that is lent a file.
fn listed() -> Vec<Asked> {
    let with = |call, rows, list| Asked {
        file: File::Rows(rows),
        is_nested: (list == List::Old).then_some(true),
        list,
        ..Asked::right(call)
    };
    let of = |call| {
        let several = WRONG_LISTS
            .into_iter()
            .flat_map(move |list| [17, 33].map(|rows| with(call, rows, list)));
        several.chain([with(call, 0, List::Longer)])
    };
    FILE_CALLS.into_iter().flat_map(of).collect()
}

/// Each number of rows: side by side in labels of version 1, and in groups with labels of both
/// versions, of which version 2 is allowed or not.
fn in_files() -> Vec<Asked> {
    const FILES: [(bool, Mix, Versions); 3] = [
        (false, Mix::None, Versions::One),
        (true, Mix::Half, Versions::One),
        (true, Mix::Half, Versions::OneAndTwo),
    ];
    let of = |call| {
        ROWS.into_iter().flat_map(move |rows| {
            FILES.map(|(is_nested, mix, versions)| Asked {
                file: File::Rows(rows),
                is_nested: Some(is_nested),
                told: Some((mix, versions)),
                ..Asked::right(call)
            })
        })
    };
    FILE_CALLS.into_iter().flat_map(of).collect()
}

/// What can be wrong at once: each set of the record, the list, and the room or in the check the
/// count; with a file of each fault, which has no index, each set of the others.
fn at_fault() -> Vec<Asked> {
    let with = |call, file, list| {
        let right = Asked {
            file,
            list,
            ..Asked::right(call)
        };
        let last = match call {
            Call::Check => Asked {
                count: Count::Plus(1),
                ..right
            },
            _ => Asked {
                room: Room::Less,
                ..right
            },
        };
        let bad = |harm, asked| Asked {
            harm: Some(harm),
            ..asked
        };
        let both = bad(Harm::Kind(3), last);
        [right, last, bad(Harm::Length(4), right), both]
    };
    let good = File::Rows(17);
    let alone = RECORD_CALLS
        .into_iter()
        .flat_map(|call| with(call, good, List::Right));
    let of_file = |call| {
        let lists = [List::Right, List::Longer].into_iter();
        let faults = FAULTS.map(File::Faulty).into_iter();
        let faulty = faults.flat_map(move |faulty| with(call, faulty, List::Right));
        // Told each choice in turn; such a file has labels of any mix.
        let faulty = faulty.zip(CHOICES.into_iter().cycle());
        let faulty = faulty.map(|(asked, versions)| Asked {
            told: Some((Mix::None, versions)),
            ..asked
        });
        lists
            .flat_map(move |list| with(call, good, list))
            .chain(faulty)
    };
    let with_file = FILE_CALLS.into_iter().flat_map(of_file);
    alone.chain(with_file).collect()
}

/// Each room by each call that writes, for no entries and for some.
fn roomy() -> Vec<Asked> {
    let mut asked = Vec::new();
    for call in [Call::Load, Call::Load2, Call::To2, Call::To1] {
        let rooms: &[Room] = match call {
            Call::To1 | Call::To2 => &[
                Room::None,
                Room::Less,
                Room::Exact,
                Room::More,
                Room::OfOther,
            ],
            _ => &[Room::None, Room::Less, Room::Exact, Room::More],
        };
        for &room in rooms {
            asked.extend([0, 17].map(|rows| Asked {
                file: File::Rows(rows),
                room,
                ..Asked::right(call)
            }));
        }
    }
    asked
}

/// Numbers of which not the lowest bytes alone matter.
fn wide() -> Vec<Asked> {
    let with = |call, file, count, list| Asked {
        file,
        count,
        list,
        ..Asked::right(call)
    };
    let many = File::Rows(257);
    vec![
        with(Call::To2, many, RIGHT, List::Right),
        with(Call::Check, many, RIGHT, List::Right),
        with(Call::Check, many, Count::Is(1), List::Right),
        with(Call::To2, File::Large, RIGHT, List::Right),
        with(Call::To2, File::Large, RIGHT, List::Narrow),
        with(Call::Check, File::Large, RIGHT, List::Right),
        with(Call::Check, File::Large, RIGHT, List::Narrow),
    ]
}

#[cfg(test)]
mod tests {
    use super::*;
    use crate::generator::Generator;
    use crate::library::INDEPENDENT;
    use crate::{answer, Library};
    use crestulbino::{Kind, Refused, Window};
    use std::collections::HashSet;

    const LIBRARY: Library = INDEPENDENT;

    #[test]
    fn what_is_asked_is_right_before_anything_is_made_wrong() {
        let mut random = Random::new(51);
        let files = ROWS.map(File::Rows).into_iter().chain([File::Large]);
        for (call, file) in files.flat_map(|file| CALLS.map(|call| (call, file))) {
            let right = Asked::right(call);
            for room in [Room::Exact, Room::More] {
                let case = Asked {
                    file,
                    room,
                    ..right
                }
                .case(&mut random);
                assert!(answer(&LIBRARY, &case).starts_with("ok"), "{case}");
            }
        }
    }

    /// The call of a case that reads a kept index, with what is lent to it.
    fn lent_in(case: Case) -> Option<(Call, Lent)> {
        let (call, kept, room, (file, versions)) = match case {
            Case::LoadKept { bytes, list } => (Call::Load, bytes, list.len(), NO_FILE),
            Case::LoadKept2 { bytes, list } => (Call::Load2, bytes, list.len(), NO_FILE),
            Case::Convert1To2 {
                file,
                kept,
                buffer,
                versions,
            } => (Call::To2, kept, buffer.len(), (file, versions)),
            Case::Convert2To1 { kept, buffer } => (Call::To1, kept, buffer.len(), NO_FILE),
            Case::CheckKept2 {
                file,
                kept,
                versions,
            } => (Call::Check, kept, 0, (file, versions)),
            _ => return None,
        };
        let lent = Lent {
            file,
            versions,
            kept,
            room,
        };
        Some((call, lent))
    }

    /// What is seen in the bytes of a record: its size, if that is small, its length and its kind, one
    /// of them wrong, and the bytes that are no whole number.
    fn seen_in_bytes(kind: u16, kept: &[u8]) -> Vec<String> {
        let size = kept.len() as u32;
        let length = kept.first_chunk().copied().map(u32::from_le_bytes);
        let more = length.map_or(0, |length| length.wrapping_sub(size - 4));
        let mut seen = Vec::new();
        if more == 0 && kept.len() <= SMALL {
            seen.push(format!("size {size}"));
        }
        let Some(said) = kept.get(LENGTH..FRONT) else {
            return seen;
        };
        let said = u16::from_le_bytes([said[0], said[1]]);
        if said == kind {
            seen.push(format!("length {more}"));
            let reversed = length.map(u32::swap_bytes);
            if reversed == Some(size - 4) {
                seen.push("length reversed".to_string());
            }
        }
        if more == 0 {
            seen.push(format!("kind {said}"));
        }
        if more == 0 && said == kind {
            seen.push(format!("part {}", (kept.len() - FRONT) % 4));
        }
        seen
    }

    /// Whether a record is one of this kind, in words.
    fn record_in_words(kind: u16, kept: &[u8]) -> &'static str {
        let refused = match kind {
            1 => (LIBRARY.load_kept)(kept, &mut []).err(),
            _ => (LIBRARY.load_kept2)(kept, &mut []).err(),
        };
        match refused.map(|refused| refused.refusal) {
            Some(Refusal::BadKept) => "bad record",
            _ => "record",
        }
    }

    /// What is seen in a record that is lent without a file: how much more room there is than its
    /// entries need.
    fn seen_alone(call: Call, lent: &Lent) -> Vec<String> {
        let record = record_in_words(call.kind(), &lent.kept);
        let entries = numbers(call.kind(), &lent.kept).1.len();
        let some = if entries > 0 { "some" } else { "no" };
        let more = lent.room as isize - call.need(entries) as isize;
        let no_room = (lent.room == 0).then_some("none");
        let rooms = [Some(more.to_string()), no_room.map(str::to_string)];
        let rooms = rooms.into_iter().flatten();
        rooms
            .map(|room| format!("{record}, {some} entries, room {room}"))
            .collect()
    }

    /// The count, in kind 2, and the entries that stand behind the kind, whatever is wrong in front.
    fn numbers(kind: u16, kept: &[u8]) -> (Option<u32>, Vec<u32>) {
        let numbers = kept.get(FRONT..).unwrap_or_default().chunks_exact(4);
        let number = |four: &[u8]| u32::from_le_bytes(four.try_into().unwrap());
        let mut numbers = numbers.map(number);
        let count = (kind == 2).then(|| numbers.next()).flatten();
        (count, numbers.collect())
    }

    /// The index of a file, and its row count.
    fn index_of(file: &[u8], versions: Versions) -> Result<(Vec<u32>, u32), Refused> {
        let mut list = vec![0; file.len() / 20];
        let built = (LIBRARY.build_index)(versions, file, &mut list)?;
        list.truncate(built.entries);
        Ok((list, built.rows as u32))
    }

    /// What is seen in a record that is lent with a file: which file it is, and how the two differ.
    fn seen_in_file(call: Call, lent: &Lent) -> Vec<String> {
        let record = record_in_words(call.kind(), &lent.kept);
        let (count, list) = numbers(call.kind(), &lent.kept);
        let has_room = call == Call::Check || lent.room >= call.need(list.len());
        let room = if has_room { "room" } else { "no room" };
        let (index, rows) = match index_of(&lent.file, lent.versions) {
            Ok(index) => index,
            Err(refused) => {
                let fault = refused.refusal.name();
                let with = format!("{fault}, {record}, {room}");
                let both = index_of(&lent.file, Versions::OneAndTwo).ok();
                let allowed = both.map(|(_, rows)| format!("{rows} rows, not allowed"));
                return allowed.into_iter().chain([with]).collect();
            }
        };
        let list_in_words = list_in_words(&list, &index);
        let is_count = count.is_none_or(|count| count == rows);
        let count_in_words = if is_count { "count" } else { "wrong count" };
        let mut seen = vec![format!(
            "{record}, {list_in_words}, {count_in_words}, {room}"
        )];
        if record == "record" && list == index && is_count {
            seen.push(format!("{rows} rows, {}", file_in_words(lent, rows)));
        }
        if let Some(count) = count.filter(|_| record == "record") {
            seen.extend(seen_in_count(count, &list, rows, &index));
        }
        seen
    }

    fn file_in_words(lent: &Lent, rows: u32) -> String {
        let kind = Kind::Labelled(lent.versions);
        let depth = |row| {
            let row = (LIBRARY.read_row)(kind, &lent.file, row, Window::new(0, 0));
            row.ok()?.address.nesting.map(|nesting| nesting.depth)
        };
        let is_nested = (0..rows as usize).any(|row| depth(row) > Some(1));
        let nested = if is_nested { "nested" } else { "flat" };
        let has_2 = index_of(&lent.file, Versions::One).is_err();
        let versions = if has_2 { "both" } else { "one" };
        let told = lent.versions;
        format!("{nested}, {versions}, told {told:?}")
    }

    fn list_in_words(list: &[u32], index: &[u32]) -> &'static str {
        let differ = list.iter().zip(index).filter(|(one, other)| one != other);
        match (list.len() as isize - index.len() as isize, differ.count()) {
            (0, 0) => "list",
            (0, 1) => "an entry off",
            (0, _) if list.iter().rev().eq(index) => "exchanged",
            (1, 0) => "one too many",
            (-1, 0) => "the last missing",
            (-1, _) if list == &index[1..] => "the first missing",
            _ => "another list",
        }
    }

    /// What is seen in the count of a record whose list is right, or would be with the count behind.
    fn seen_in_count(count: u32, list: &[u32], rows: u32, index: &[u32]) -> Vec<String> {
        if list != index {
            let is_behind = [&[count], list].concat() == [index, &[rows]].concat();
            return is_behind
                .then(|| "count behind".to_string())
                .into_iter()
                .collect();
        }
        let mut seen = vec![format!("count {}", count.wrapping_sub(rows))];
        for (number, words) in [
            (rows.swap_bytes(), "count reversed"),
            (index.len() as u32, "count of entries"),
            (rows.next_multiple_of(16), "count rounded up"),
            (0, "count none"),
            (u32::MAX, "count most"),
        ] {
            if count == number && count != rows {
                seen.push(words.to_string());
            }
        }
        seen
    }

    /// What has to be seen of a call.
    fn expected(call: Call) -> Vec<String> {
        let mut words: Vec<String> = (0..=SMALL).map(|size| format!("size {size}")).collect();
        words.extend(LENGTHS.map(|more| format!("length {more}")));
        words.extend(KINDS.map(|kind| format!("kind {kind}")));
        words.extend([0, 1, 2, 3].map(|part| format!("part {part}")));
        let mut and = |all: &[&str]| words.extend(all.iter().map(|words| words.to_string()));
        and(&["length reversed"]);
        if !FILE_CALLS.contains(&call) {
            and(&[
                "record, some entries, room -1",
                "record, some entries, room 0",
                "record, some entries, room 1",
                "record, some entries, room none",
                "record, no entries, room 0",
                "record, no entries, room 1",
                "record, no entries, room none",
                "bad record, some entries, room 1",
            ]);
            return words;
        }
        for fault in FAULTS {
            for record in ["record", "bad record"] {
                words.push(format!("{}, {record}, room", fault.name()));
                if call == Call::To2 {
                    words.push(format!("{}, {record}, no room", fault.name()));
                }
            }
        }
        for list in [
            "list",
            "an entry off",
            "exchanged",
            "one too many",
            "the first missing",
            "the last missing",
            "another list",
        ] {
            words.push(format!("record, {list}, count, room"));
        }
        for list in ["list", "one too many"] {
            words.push(format!("bad record, {list}, count, room"));
            for record in ["record", "bad record"] {
                words.push(match call {
                    Call::Check => format!("{record}, {list}, wrong count, room"),
                    _ => format!("{record}, {list}, count, no room"),
                });
            }
        }
        for rows in ROWS {
            words.push(format!("{rows} rows, flat, one, told One"));
            // Of no rows, none is nested; of some, chance may have all labels be of version 1.
            if rows > 1 {
                words.push(format!("{rows} rows, nested, both, told OneAndTwo"));
                words.push(format!("{rows} rows, not allowed"));
            }
        }
        if call == Call::Check {
            for more in [0, 1, u32::MAX, 1 << 8, 1 << 16, 1 << 24] {
                words.push(format!("count {more}"));
            }
            let counts = [
                "reversed",
                "of entries",
                "rounded up",
                "none",
                "most",
                "behind",
            ];
            words.extend(counts.map(|count| format!("count {count}")));
        }
        words
    }

    #[test]
    fn ten_thousand_cases_hold_each_record_right_and_wrong() {
        for seed in 0..3 {
            let mut seen = HashSet::new();
            let lines = Generator::new(seed).take(10_000);
            let cases = lines.filter_map(|line| Case::parse(line.as_bytes()));
            for (call, lent) in cases.filter_map(lent_in) {
                let of_bytes = seen_in_bytes(call.kind(), &lent.kept);
                let of_others = match call {
                    Call::To2 | Call::Check => seen_in_file(call, &lent),
                    Call::Load | Call::Load2 | Call::To1 => seen_alone(call, &lent),
                };
                let words = of_bytes.into_iter().chain(of_others);
                seen.extend(words.map(|words| (call, words)));
            }
            for call in CALLS {
                for words in expected(call) {
                    let key = (call, words);
                    assert!(seen.contains(&key), "{key:?}");
                }
            }
        }
    }
}
