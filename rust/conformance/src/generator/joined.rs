//! Two files to be joined, each with a list: how many rows they have and where, what is wrong with either of
//! them or with its list, and the room for the joined index.

use super::files::{self, LabelledFile, Mix, FAULTS};
use super::kept::{List, ROWS, WRONG_LISTS};
use super::random::{each_once, Random};
use super::{edges, CHOICES};
use crate::Case;
use crestulbino::{Refusal, Versions};

/// One of the two files.
#[derive(Clone, Copy, Debug, PartialEq, Eq)]
enum File {
    /// Of so many rows: in groups or not, in groups, side by side.
    Rows(usize),
    Nested(usize),
    Flat(usize),
    /// It has groups, and no row.
    NoRows,
    Empty,
    /// One that is refused, for this reason.
    Faulty(Refusal),
    /// Of more than 65,536 bytes, with an entry beyond that place or without.
    LargeEntry,
    LargeRow,
    /// With so many rows in front of one at this depth, which is the first of its group or not.
    Deep {
        rows_before: usize,
        depth: usize,
        is_first: bool,
    },
}

impl File {
    fn made(self, mix: Mix, versions: Versions, random: &mut Random) -> LabelledFile {
        match self {
            File::Rows(rows) => files::with_rows(rows, random.chance(50), mix, random),
            File::Nested(rows) => files::with_rows(rows, true, mix, random),
            File::Flat(rows) => files::with_rows(rows, false, mix, random),
            File::NoRows => files::with_rows(0, true, mix, random),
            File::Empty => LabelledFile::default(),
            File::Faulty(reason) => files::faulty(reason, versions, random),
            File::LargeEntry => files::with_large_entry(mix, random),
            File::LargeRow => files::with_large_row(mix, random),
            File::Deep {
                rows_before,
                depth,
                is_first,
            } => files::with_row_at_depth(rows_before, depth, is_first, mix, random),
        }
    }
}

/// The list that a file is lent with.
#[derive(Clone, Copy, Debug, PartialEq, Eq)]
enum Listed {
    /// Its index, or what is made of it.
    Own(List),
    /// The index of the other file.
    OfOther,
    /// Its index, with the length of the first file added to each entry.
    Shifted,
}

const RIGHT: Listed = Listed::Own(List::Right);

/// A file with its list.
#[derive(Clone, Copy, Debug, PartialEq, Eq)]
struct Side {
    file: File,
    /// Which labels are of version 2; some that are allowed, where nothing is said.
    mix: Option<Mix>,
    list: Listed,
}

impl Side {
    fn right(file: File) -> Side {
        Side {
            file,
            mix: None,
            list: RIGHT,
        }
    }

    fn made(self, versions: Versions, random: &mut Random) -> LabelledFile {
        let mix = self.mix.unwrap_or_else(|| Mix::allowed(versions, random));
        loop {
            let file = self.file.made(mix, versions, random);
            let is_old = self.list == Listed::Own(List::Old);
            if !is_old || file.old_index() != file.index() {
                return file;
            }
        }
    }

    fn list(
        self,
        file: &LabelledFile,
        other: &LabelledFile,
        length: usize,
        random: &mut Random,
    ) -> Vec<u32> {
        match self.list {
            Listed::Own(list) => list.of(file, random),
            Listed::OfOther => other.index(),
            Listed::Shifted => {
                let index = file.index().into_iter();
                index.map(|entry| entry + length as u32).collect()
            }
        }
    }
}

/// How much room there is for the joined index.
#[derive(Clone, Copy, Debug, PartialEq, Eq)]
enum Room {
    None,
    Less,
    Exact,
    More,
    /// As much as the indexes of the first file, of the second, and of both have.
    OfFirst,
    OfSecond,
    OfBoth,
}

impl Room {
    /// For files of so many rows each.
    fn of(self, first: usize, second: usize) -> usize {
        let need = (first + second).div_ceil(16);
        match self {
            Room::None => 0,
            Room::Less => need.saturating_sub(1),
            Room::Exact => need,
            Room::More => need + 1,
            Room::OfFirst => first.div_ceil(16),
            Room::OfSecond => second.div_ceil(16),
            Room::OfBoth => first.div_ceil(16) + second.div_ceil(16),
        }
    }
}

/// What is lent to the call: each part is a choice, not bytes.
#[derive(Clone, Copy, Debug, PartialEq, Eq)]
pub struct Asked {
    sides: [Side; 2],
    /// What is told; either, where nothing is said.
    versions: Option<Versions>,
    room: Room,
}

impl Asked {
    fn right(first: File, second: File) -> Asked {
        Asked {
            sides: [first, second].map(Side::right),
            versions: None,
            room: Room::More,
        }
    }

    pub fn case(self, random: &mut Random) -> Case {
        let versions = self.versions.unwrap_or_else(|| random.pick(&CHOICES));
        let [one, other] = self.sides;
        let (first, second) = (one.made(versions, random), other.made(versions, random));
        let length = first.bytes.len();
        let first_list = one.list(&first, &second, length, random);
        let second_list = other.list(&second, &first, length, random);
        let room = self.room.of(first.leaves().len(), second.leaves().len());
        Case::JoinedIndex {
            first: first.bytes,
            first_list,
            second: second.bytes,
            second_list,
            list: random.numbers(room),
            versions,
        }
    }
}

/// All that is dealt, each once.
pub fn asked() -> Vec<Asked> {
    let all = [
        pairs(),
        deep(),
        of_versions(),
        faulty(),
        listed(),
        roomy(),
        without_rows(),
        wide(),
    ];
    each_once(all.concat())
}

/// Each number of rows with each other one; in groups and side by side, the room and what is told in turn.
fn pairs() -> Vec<Asked> {
    let file = |number: usize, rows| match number % 2 {
        0 => File::Flat(rows),
        _ => File::Nested(rows),
    };
    let mut asked = Vec::new();
    for (one, first) in ROWS.into_iter().enumerate() {
        for (other, second) in ROWS.into_iter().enumerate() {
            asked.push(Asked {
                versions: Some(CHOICES[(one + other) / 2 % 2]),
                room: [Room::Exact, Room::More][(one + other) % 2],
                ..Asked::right(
                    file(one + other / 2, first),
                    file(other / 4 + one / 2, second),
                )
            });
        }
    }
    asked
}

/// A row of the second file that gets an entry, as the first file does not fill its last group of 16: at each
/// depth, as the first one of its group and behind another.
fn deep() -> Vec<Asked> {
    let mut asked = Vec::new();
    for (number, depth) in (1..=8).chain(1..=8).enumerate() {
        let rows_before = 1 + 7 * number % 15;
        let rows = 16 - rows_before + 16 * (number % 2);
        let deep = File::Deep {
            rows_before,
            depth,
            is_first: number < 8,
        };
        asked.push(Asked::right(File::Rows(rows), deep));
    }
    asked
}

/// Version 2 in neither file, in either and in both, told each choice.
fn of_versions() -> Vec<Asked> {
    let mixes = [Mix::None, Mix::All, Mix::Last];
    let side = |rows, mix| Side {
        mix: Some(mix),
        ..Side::right(File::Rows(rows))
    };
    let mut asked = Vec::new();
    for (one, other) in mixes
        .into_iter()
        .flat_map(|one| mixes.map(|two| (one, two)))
    {
        asked.extend(CHOICES.map(|versions| Asked {
            sides: [side(17, one), side(16, other)],
            versions: Some(versions),
            room: Room::More,
        }));
    }
    asked
}

/// A file that is refused for each reason: the first one with a second that is right, has a wrong list or has
/// no room; the second one with a first likewise; and both, for each two reasons. What is told takes turns.
fn faulty() -> Vec<Asked> {
    let good = Side::right(File::Rows(17));
    let bad = |reason| Side::right(File::Faulty(reason));
    let wrong = Side {
        list: Listed::Own(List::Raised),
        ..good
    };
    let mut asked = Vec::new();
    let mut ask = |sides, room| {
        let versions = Some(CHOICES[asked.len() % 2]);
        asked.push(Asked {
            sides,
            versions,
            room,
        });
    };
    for reason in FAULTS {
        for (other, room) in [
            (good, Room::More),
            (good, Room::None),
            (wrong, Room::More),
            (wrong, Room::None),
        ] {
            ask([bad(reason), other], room);
            ask([other, bad(reason)], room);
        }
    }
    for (one, other) in FAULTS
        .into_iter()
        .flat_map(|one| FAULTS.map(|two| (one, two)))
    {
        ask([bad(one), bad(other)], Room::More);
    }
    asked
}

/// Each wrong list, of the first file, of the second and of both, where the first file fills its last group of
/// 16 and where it does not; some with too little room.
fn listed() -> Vec<Asked> {
    let with = |rows, lists: [Listed; 2], room| {
        let side = |rows, list| Side {
            list,
            ..Side::right(match list {
                Listed::Own(List::Old) => File::Nested(rows),
                _ => File::Rows(rows),
            })
        };
        Asked {
            sides: [side(rows, lists[0]), side(17, lists[1])],
            versions: None,
            room,
        }
    };
    let mut asked = Vec::new();
    let others = [Listed::OfOther, Listed::Shifted];
    let lists = WRONG_LISTS.map(Listed::Own).into_iter().chain(others);
    for (list, rows) in lists.zip([33, 32].into_iter().cycle()) {
        let wrong = [[list, RIGHT], [RIGHT, list], [list, list]];
        let mut ask = |room| asked.extend(wrong.map(|lists| with(rows, lists, room)));
        ask(Room::More);
        match list {
            Listed::Own(List::Raised) => ask(Room::Less),
            Listed::Own(List::Longer) => ask(Room::None),
            _ => {}
        }
    }
    let longer = Side {
        list: Listed::Own(List::Longer),
        ..Side::right(File::Empty)
    };
    let good = Side::right(File::Rows(16));
    asked.extend([[longer, good], [good, longer]].map(|sides| Asked {
        sides,
        versions: None,
        room: Room::More,
    }));
    asked
}

/// Each room, for a joined index that has as many entries as the two together, and for one that has fewer.
fn roomy() -> Vec<Asked> {
    let rooms = [
        Room::None,
        Room::Less,
        Room::Exact,
        Room::More,
        Room::OfFirst,
        Room::OfSecond,
        Room::OfBoth,
    ];
    let pairs = [
        (1, 1),
        (17, 15),
        (17, 17),
        (16, 17),
        (15, 2),
        (0, 17),
        (17, 0),
    ];
    let mut asked = vec![Asked {
        room: Room::None,
        ..Asked::right(File::Empty, File::Empty)
    }];
    for (first, second) in pairs {
        let right = Asked::right(File::Rows(first), File::Rows(second));
        let mut seen = Vec::new();
        for room in rooms {
            let size = room.of(first, second);
            if !seen.contains(&size) {
                seen.push(size);
                asked.push(Asked { room, ..right });
            }
        }
    }
    asked
}

/// Files without rows on either side, told each choice.
fn without_rows() -> Vec<Asked> {
    let none = [File::Empty, File::NoRows];
    let some = [File::Flat(17), File::Nested(17)];
    let mut pairs = Vec::new();
    for one in none {
        pairs.extend(none.map(|other| (one, other)));
        pairs.extend(some.map(|other| (one, other)));
        pairs.extend(some.map(|other| (other, one)));
    }
    let told = |(first, second)| {
        CHOICES.map(|versions| Asked {
            versions: Some(versions),
            ..Asked::right(first, second)
        })
    };
    pairs.into_iter().flat_map(told).collect()
}

/// Entries of more than 16 bits, of the second file only because of the first one's length; and more rows
/// than 8 bits count.
fn wide() -> Vec<Asked> {
    vec![
        Asked::right(File::Flat(257), File::Rows(17)),
        Asked::right(File::LargeRow, File::Rows(33)),
        Asked::right(File::LargeEntry, File::Rows(17)),
        Asked::right(File::Rows(17), File::LargeEntry),
    ]
}

/// Two files of any kind, with lists and room that are right or nearly so.
pub fn any(random: &mut Random) -> Case {
    let percents = random.pick(&[(0, 40), (40, 0), (30, 30), (0, 0)]);
    let mut file = |percent| {
        let mut file = files::labelled(random);
        if random.chance(percent) {
            files::damage(&mut file, random);
        }
        file
    };
    let (first, second) = (file(percents.0), file(percents.1));
    let rows = first.leaves().len() + second.leaves().len();
    let mut list_of = |file: &LabelledFile| {
        let mut list = file.index();
        match random.between(0, 19) {
            0 => list = file.old_index(),
            1 => list.push(file.bytes.len() as u32),
            2 => list.truncate(list.len() / 2),
            3 => list.iter_mut().for_each(|entry| *entry += 20),
            _ => {}
        }
        list
    };
    let (first_list, second_list) = (list_of(&first), list_of(&second));
    let has_version_2 = first.has_version_2() || second.has_version_2();
    let both_percent = if has_version_2 { 80 } else { 40 };
    let room = match random.chance(70) {
        true => rows.div_ceil(16) + 1,
        false => edges::room(random, rows.div_ceil(16)),
    };
    Case::JoinedIndex {
        first: first.bytes,
        first_list,
        second: second.bytes,
        second_list,
        list: random.numbers(room),
        versions: CHOICES[usize::from(random.chance(both_percent))],
    }
}

/// A file as the first or as the second one, with another that is good and has its index.
pub fn of_file(file: LabelledFile, versions: Versions, random: &mut Random) -> Case {
    let rows = random.pick(&[0, 1, 2, 15, 16, 17]);
    let other = Side::right(File::Rows(rows)).made(versions, random);
    let is_first = random.chance(50);
    let room = (rows + file.leaves().len()).div_ceil(16) + 1;
    let list = match random.chance(20) {
        true => file.old_index(),
        false => file.index(),
    };
    let other_list = other.index();
    let (one, two) = ((file.bytes, list), (other.bytes, other_list));
    let ((first, first_list), (second, second_list)) = match is_first {
        true => (one, two),
        false => (two, one),
    };
    Case::JoinedIndex {
        first,
        first_list,
        second,
        second_list,
        list: random.numbers(room),
        versions,
    }
}

#[cfg(test)]
mod tests {
    use super::*;
    use crate::generator::Generator;
    use crate::library::{taken, INDEPENDENT};
    use crate::{answer, Library};
    use independent::{label, labelled};
    use std::collections::HashSet;

    const LIBRARY: Library = INDEPENDENT;

    #[test]
    fn what_is_asked_is_right_before_anything_is_made_wrong() {
        let mut random = Random::new(81);
        let right = [pairs(), deep(), without_rows(), wide()].concat();
        for asked in right {
            let case = asked.case(&mut random);
            assert!(
                answer(&LIBRARY, &case).starts_with("ok"),
                "{asked:?}: {case}"
            );
        }
    }

    /// A row of an accepted file: the places of its label and of its end, and its depth.
    struct Row {
        label: usize,
        end: usize,
        depth: u64,
    }

    /// What is lent of one file.
    struct Lent {
        file: Vec<u8>,
        list: Vec<u32>,
        /// Its rows, or the name of its fault and the place.
        rows: Result<Vec<Row>, (&'static str, usize)>,
    }

    impl Lent {
        fn new(file: Vec<u8>, list: Vec<u32>, versions: Versions) -> Lent {
            let rows = rows_of(&file, versions);
            Lent { file, list, rows }
        }

        fn count(&self) -> usize {
            self.rows.as_ref().map_or(0, Vec::len)
        }

        fn index(&self) -> Vec<u32> {
            let rows = self.rows.iter().flatten();
            rows.step_by(16).map(|row| row.label as u32).collect()
        }

        /// Whether the list is right or wrong, or why the file is refused.
        fn state(&self) -> &'static str {
            match &self.rows {
                Err((fault, _)) => fault,
                Ok(_) if self.list == self.index() => "right",
                Ok(_) => "wrong",
            }
        }

        fn shape(&self) -> &'static str {
            let is_nested = |row: &Row| row.depth > 1;
            match &self.rows {
                Err(_) => "refused",
                Ok(_) if self.file.is_empty() => "empty",
                Ok(rows) if rows.is_empty() => "no rows",
                Ok(rows) if rows.iter().any(is_nested) => "nested",
                Ok(_) => "flat",
            }
        }

        /// Whether a wrong list differs from the index in this way.
        fn is_wrong_in(&self, words: &str, other: &Lent, length: usize) -> bool {
            let (list, index) = (&self.list, self.index());
            let differ = list.iter().zip(&index).filter(|(one, other)| one != other);
            match words {
                "an entry off" => list.len() == index.len() && differ.count() == 1,
                "one too many" => list.len() == index.len() + 1 && list.starts_with(&index),
                "the first missing" => !list.is_empty() && index.ends_with(list),
                "the last missing" => !list.is_empty() && index.starts_with(list),
                "exchanged" => {
                    let mut again = list.clone();
                    if let [one, .., other] = &mut again[..] {
                        std::mem::swap(one, other);
                    }
                    again == index
                }
                "none" => list.is_empty(),
                "that of the other" => *list == other.index(),
                "shifted" => {
                    let shifted = index.iter().map(|entry| entry + length as u32);
                    shifted.eq(list.iter().copied())
                }
                _ => *list == old_index(&self.file),
            }
        }
    }

    /// The words for wrong lists; the last ones are those of the time when class Z alone was opened.
    const WRONG_IN: [&str; 9] = [
        "an entry off",
        "one too many",
        "the first missing",
        "the last missing",
        "exchanged",
        "none",
        "that of the other",
        "shifted",
        "old",
    ];

    /// The index that an accepted file had while class Z alone was opened.
    fn old_index(file: &[u8]) -> Vec<u32> {
        let (mut places, mut place) = (Vec::new(), 0);
        while place < file.len() {
            let label = label::read(label::Versions::Both, &file[place..]).expect("a label");
            if label.class != b'Z' {
                places.push(place as u32);
                place += label.length as usize;
            }
            place += 20;
        }
        places.into_iter().step_by(16).collect()
    }

    fn rows_of(file: &[u8], versions: Versions) -> Result<Vec<Row>, (&'static str, usize)> {
        let checked = (LIBRARY.check)(crestulbino::Kind::Labelled(versions), file);
        checked.map_err(|refused| (refused.refusal.name(), refused.place))?;
        let leaves = labelled::leaves(taken(versions), file)
            .into_iter()
            .flatten();
        let row = |leaf: labelled::Leaf| Row {
            label: leaf.row.address.label as usize,
            end: (leaf.row.start + leaf.row.length) as usize,
            depth: leaf.row.address.nesting.map_or(0, |nesting| nesting.depth),
        };
        Ok(leaves.flatten().map(row).collect())
    }

    /// The two files of a case, the room and what is told.
    fn lent_in(case: Case) -> Option<([Lent; 2], usize, Versions)> {
        match case {
            Case::JoinedIndex {
                first,
                first_list,
                second,
                second_list,
                list,
                versions,
            } => {
                let first = Lent::new(first, first_list, versions);
                let second = Lent::new(second, second_list, versions);
                Some(([first, second], list.len(), versions))
            }
            _ => None,
        }
    }

    /// What is seen in two files, their lists and the room.
    fn seen_in([first, second]: &[Lent; 2], room: usize, versions: Versions) -> Vec<String> {
        let mut seen = Vec::new();
        let rows = first.count() + second.count();
        let need = rows.div_ceil(16);
        let states = [first.state(), second.state()];
        let is_accepted = first.rows.is_ok() && second.rows.is_ok();
        // Where there is no joined file, no room is none.
        let has_room = if is_accepted { room >= need } else { room > 0 };
        let room_in_words = if has_room { "room" } else { "no room" };
        seen.push(format!("{}, {}, {room_in_words}", states[0], states[1]));
        for (state, of) in [(states[0], "first"), (states[1], "second")] {
            seen.push(format!("{of} {state}, told {versions:?}"));
        }
        if let (Err(one), Err(other)) = (&first.rows, &second.rows) {
            if one.1 != other.1 {
                let reason = if one.0 == other.0 { "same" } else { "other" };
                seen.push(format!("{reason} fault at another place"));
            }
        }
        for words in WRONG_IN {
            let length = first.file.len();
            let is_wrong = [(first, second), (second, first)].map(|(one, other)| {
                one.state() == "wrong" && one.is_wrong_in(words, other, length)
            });
            let which = match (states, is_wrong) {
                ([_, "right"], [true, _]) => "first",
                (["right", _], [_, true]) => "second",
                (_, [true, true]) => "both",
                _ => continue,
            };
            seen.push(format!("{which} list {words}"));
        }
        if states == ["right", "wrong"] {
            let full = first.count().is_multiple_of(16);
            seen.push(format!("second list wrong, first full: {full}"));
        }
        let has_2 = [first, second].map(|lent| {
            let of_one = rows_of(&lent.file, Versions::One).is_err();
            of_one && rows_of(&lent.file, Versions::OneAndTwo).is_ok()
        });
        seen.push(format!("version 2 in {has_2:?}, told {versions:?}"));
        if states == ["right", "right"] {
            seen.extend(seen_in_right(first, second, room, need));
            if has_room {
                let shapes = format!("{} and {}", first.shape(), second.shape());
                seen.push(format!("{shapes}, told {versions:?}"));
            }
        }
        seen
    }

    /// What is seen where files and lists are right.
    fn seen_in_right(first: &Lent, second: &Lent, room: usize, need: usize) -> Vec<String> {
        let mut seen = Vec::new();
        let sum = first.list.len() + second.list.len();
        let than_sum = if need < sum { "fewer" } else { "as many" };
        let more = room as isize - need as isize;
        seen.push(format!("{than_sum} entries, room {more}"));
        for (size, of) in [
            (0, "none"),
            (first.list.len(), "of the first"),
            (sum, "of both"),
        ] {
            if room == size && size != need {
                seen.push(format!("{than_sum} entries, room {of}"));
            }
        }
        if more < 0 {
            return seen;
        }
        seen.push(format!("{} and {} rows", first.count(), second.count()));
        if first.count() > 255 {
            seen.push("more than 255 rows".to_string());
        }
        let length = first.file.len();
        let begins = first.count().next_multiple_of(16) - first.count();
        let rows = second.rows.iter().flatten();
        for (number, row) in rows.enumerate().skip(begins).step_by(16) {
            if row.label <= 65_536 && row.label + length > 65_536 {
                seen.push("an entry beyond 65,536 by the length".to_string());
            }
            if begins == 0 {
                continue;
            }
            seen.push(format!("entry at depth {}", row.depth));
            let before = number
                .checked_sub(1)
                .and_then(|before| second.rows.as_ref().ok()?.get(before));
            if before.is_some_and(|before| before.end == row.label && before.depth == row.depth) {
                seen.push(format!("entry at depth {}, behind a row", row.depth));
            }
            if before.is_some_and(|before| before.depth < row.depth) {
                seen.push(format!("entry at depth {}, first in a group", row.depth));
            }
        }
        let entries = first.index().into_iter().chain(second.index());
        if entries.max() > Some(65_536) {
            seen.push("an entry beyond 65,536 of its own".to_string());
        }
        seen
    }

    /// What has to be seen.
    fn expected() -> Vec<String> {
        let mut words = Vec::new();
        for first in ROWS {
            words.extend(ROWS.map(|second| format!("{first} and {second} rows")));
        }
        for depth in 1..=8 {
            words.push(format!("entry at depth {depth}"));
            words.push(format!("entry at depth {depth}, behind a row"));
            if depth > 1 {
                words.push(format!("entry at depth {depth}, first in a group"));
            }
        }
        let faults = FAULTS.map(Refusal::name);
        for fault in faults {
            for other in ["right", "wrong"] {
                for room in ["room", "no room"] {
                    words.push(format!("{fault}, {other}, {room}"));
                    words.push(format!("{other}, {fault}, {room}"));
                }
            }
            words.extend(faults.map(|other| format!("{fault}, {other}, room")));
        }
        for one in ["right", "wrong"] {
            for other in ["right", "wrong"] {
                words.extend(["room", "no room"].map(|room| format!("{one}, {other}, {room}")));
            }
        }
        for reason in ["same", "other"] {
            words.push(format!("{reason} fault at another place"));
        }
        for list in WRONG_IN {
            words.extend(["first", "second", "both"].map(|of| format!("{of} list {list}")));
        }
        for entries in ["fewer", "as many"] {
            for room in ["-1", "0", "1", "none", "of the first"] {
                words.push(format!("{entries} entries, room {room}"));
            }
        }
        words.push("fewer entries, room of both".to_string());
        for full in [true, false] {
            words.push(format!("second list wrong, first full: {full}"));
        }
        words.push("more than 255 rows".to_string());
        words.push("an entry beyond 65,536 by the length".to_string());
        words.push("an entry beyond 65,536 of its own".to_string());
        for versions in CHOICES {
            let shapes = ["empty", "no rows", "nested", "flat"];
            for (one, other) in shapes
                .into_iter()
                .flat_map(|one| shapes.map(|two| (one, two)))
            {
                words.push(format!("{one} and {other}, told {versions:?}"));
            }
            for state in faults.into_iter().chain(["right", "wrong"]) {
                words.extend(
                    ["first", "second"].map(|of| format!("{of} {state}, told {versions:?}")),
                );
            }
            for has_2 in [[false, false], [false, true], [true, false], [true, true]] {
                words.push(format!("version 2 in {has_2:?}, told {versions:?}"));
            }
        }
        words
    }

    #[test]
    fn ten_thousand_cases_hold_each_pair_to_be_joined() {
        for seed in 0..3 {
            let mut seen = HashSet::new();
            let lines = Generator::new(seed).take(10_000);
            let cases = lines.filter_map(|line| Case::parse(line.as_bytes()));
            for (files, room, versions) in cases.filter_map(lent_in) {
                seen.extend(seen_in(&files, room, versions));
            }
            for words in expected() {
                assert!(seen.contains(&words), "{words}");
            }
        }
    }
}
