//! Originals and substitutes to ask about: which of the two serves, which rows they have, and what
//! their rows of one number have in common.

use super::files::{self, LabelledFile, Mix, FAULTS};
use super::random::Random;
use super::{edges, CHOICES};
use crate::library::{taken, INDEPENDENT};
use crate::Case;
use crestulbino::{Kind, Refusal, Source, Versions};
use independent::labelled;
use independent::window::Row;

/// The bytes of a label.
const LABEL: usize = 20;

/// What a file is to the row that is asked for.
#[derive(Clone, Copy, Debug, PartialEq, Eq)]
enum State {
    Has,
    /// It has rows in front of this one only.
    Lacks,
    /// It has groups, and no row.
    NoRows,
    Empty,
    Faulty(Fault),
}

/// Why a file is refused, and where the fault stands.
#[derive(Clone, Copy, Debug, PartialEq, Eq)]
struct Fault {
    reason: Refusal,
    /// Behind the row, or in front of it.
    is_behind: bool,
    /// Inside a group, or anywhere.
    is_enclosed: bool,
}

const ACCEPTED: [State; 4] = [State::Has, State::Lacks, State::NoRows, State::Empty];

impl State {
    /// A file that is in this state, told these versions. Row 0 is lacking only where there are no
    /// rows.
    fn file(self, row: usize, versions: Versions, random: &mut Random) -> Vec<u8> {
        let mix = Mix::allowed(versions, random);
        match self {
            State::Has => {
                let more = random.pick(&[0, 0, 1, 2]);
                with_rows(row + 1 + more, mix, random)
            }
            State::Lacks => {
                let fewer = random.pick(&[0, 0, 1, 2]).min(row.saturating_sub(1));
                with_rows(row - fewer, mix, random)
            }
            State::NoRows => files::with_rows(0, true, mix, random).bytes,
            State::Empty => Vec::new(),
            State::Faulty(fault) => fault.file(row, versions, random),
        }
    }
}

impl Fault {
    fn file(self, row: usize, versions: Versions, random: &mut Random) -> Vec<u8> {
        loop {
            let mut file = files::faulty(self.reason, versions, random).bytes;
            if self.is_behind {
                let missing = (row + 1).saturating_sub(rows_in_front(versions, &file));
                let mix = Mix::allowed(versions, random);
                file = [with_rows(missing, mix, random), file].concat();
            }
            if self.is_enclosed {
                file = group_of(&file, random);
            }
            // In a group, another label may be the first that is too deep.
            let is_behind = row < rows_in_front(versions, &file);
            if is_behind == self.is_behind && reason_of(versions, &file) == Some(self.reason) {
                return file;
            }
        }
    }
}

/// Why a file is refused, if it is.
fn reason_of(versions: Versions, file: &[u8]) -> Option<Refusal> {
    let checked = (INDEPENDENT.check)(Kind::Labelled(versions), file);
    checked.err().map(|refused| refused.refusal)
}

fn with_rows(rows: usize, mix: Mix, random: &mut Random) -> Vec<u8> {
    let is_nested = rows > 0 && random.chance(60);
    files::with_rows(rows, is_nested, mix, random).bytes
}

/// How many rows stand in front of the first fault of a file, or in a file without one.
fn rows_in_front(versions: Versions, file: &[u8]) -> usize {
    let leaves = labelled::leaves(taken(versions), file)
        .into_iter()
        .flatten();
    leaves.take_while(Result::is_ok).count()
}

/// How many rows the substitute has, beside the original.
#[derive(Clone, Copy, Debug, PartialEq, Eq, Hash)]
enum Size {
    Fewer,
    AsMany,
    More,
}

const SIZES: [Size; 3] = [Size::Fewer, Size::AsMany, Size::More];

/// The number of a row, by the rows of the two files.
#[derive(Clone, Copy, Debug, PartialEq, Eq, Hash)]
enum Number {
    First,
    Last(Source),
    Behind(Source),
    /// One more than that of the first row that neither has.
    Beyond,
    /// The last one, if the rows of the original were counted on behind those of the substitute.
    LastOfSum,
    /// So much more than that of a row that both have. Narrow numbers do not tell the two apart.
    Turned(usize),
    Is(usize),
}

const NUMBERS: [Number; 15] = [
    Number::First,
    Number::Last(Source::Original),
    Number::Last(Source::Substitute),
    Number::Behind(Source::Original),
    Number::Behind(Source::Substitute),
    Number::Beyond,
    Number::LastOfSum,
    Number::Turned(1 << 8),
    Number::Turned(1 << 16),
    Number::Turned(1 << 31),
    Number::Turned(1 << 32),
    Number::Turned(1 << 63),
    Number::Is(1 << 32),
    Number::Is((1 << 32) - 1),
    Number::Is(usize::MAX),
];

impl Number {
    /// The number, for an original and a substitute of so many rows each.
    fn of(self, original: usize, substitute: usize, random: &mut Random) -> usize {
        let rows = |of| match of {
            Source::Original => original,
            Source::Substitute => substitute,
        };
        match self {
            Number::First => 0,
            Number::Last(of) => rows(of) - 1,
            Number::Behind(of) => rows(of),
            Number::Beyond => original.max(substitute) + 1,
            Number::LastOfSum => original + substitute - 1,
            Number::Turned(more) => more + random.between(0, original.min(substitute) - 1),
            Number::Is(number) => number,
        }
    }
}

/// What two files have in common, or their rows of the number that is asked for.
#[derive(Clone, Copy, Debug, PartialEq, Eq, Hash)]
enum Likeness {
    /// All bytes.
    Same,
    /// All labels, and no byte of a row.
    Labels,
    /// The one is the other inside of a group.
    Enclosed,
    /// The one is the other behind an empty group.
    Moved,
    /// The one has the rows of the other, which are in groups, without the groups.
    Flat,
    /// The one has its labels in version 2, and so at the same places.
    Rewritten,
    /// Of files of their own, the row has as many bytes.
    AsLong,
    /// It has fewer bytes in the one, but some.
    Longer,
    /// It has none in the one.
    OneEmpty,
    /// It has none in the one, and ends that file.
    EmptyEnd,
    BothEmpty,
}

const LIKENESSES: [Likeness; 11] = [
    Likeness::Same,
    Likeness::Labels,
    Likeness::Enclosed,
    Likeness::Moved,
    Likeness::Flat,
    Likeness::Rewritten,
    Likeness::AsLong,
    Likeness::Longer,
    Likeness::OneEmpty,
    Likeness::EmptyEnd,
    Likeness::BothEmpty,
];

impl Likeness {
    /// Two files like that, and a row that both have.
    fn files(self, versions: Versions, random: &mut Random) -> (Vec<u8>, Vec<u8>, usize) {
        loop {
            let rows = random.between(1, 6);
            let row = random.between(0, rows - 1);
            let mix = match self {
                Likeness::Rewritten => Mix::None,
                _ => Mix::allowed(versions, random),
            };
            let file = files::with_rows(rows, true, mix, random);
            let other = self.beside(&file, row, random);
            let rows = [&file.bytes, &other].map(|file| row_of(versions, file, row));
            if self.holds(versions, rows) {
                return (file.bytes, other, row);
            }
        }
    }

    /// The other file. One of its own may turn out not to be alike in this way.
    fn beside(self, file: &LabelledFile, row: usize, random: &mut Random) -> Vec<u8> {
        let leaf = |spot: &files::Spot| spot.place..spot.place + LABEL + spot.length;
        match self {
            Likeness::Same => file.bytes.clone(),
            Likeness::Labels => {
                let mut other = file.bytes.clone();
                for spot in file.leaves() {
                    let value = &mut other[leaf(&spot)][LABEL..];
                    let change = random.byte() | 1;
                    value.iter_mut().for_each(|byte| *byte ^= change);
                }
                other
            }
            Likeness::Enclosed => group_of(&file.bytes, random),
            Likeness::Moved => [&group_of(&[], random)[..], &file.bytes].concat(),
            Likeness::Flat => {
                let leaves = file.leaves();
                let rows = leaves.iter().map(|spot| &file.bytes[leaf(spot)]);
                rows.collect::<Vec<_>>().concat()
            }
            Likeness::Rewritten => file.clone().relabelled(Mix::All, random).bytes,
            Likeness::AsLong | Likeness::Longer | Likeness::OneEmpty | Likeness::BothEmpty => {
                let rows = row + 1 + random.between(0, 3);
                with_rows(rows, Mix::None, random)
            }
            Likeness::EmptyEnd => {
                let class = files::leaf_class(random);
                let head = files::head(random, class);
                let field = files::length_field(0, 0);
                [
                    &with_rows(row, Mix::None, random),
                    &head[..],
                    field.as_bytes(),
                ]
                .concat()
            }
        }
    }

    /// Whether the rows are alike in this way, and so that it shows. Only a version that is not
    /// allowed may keep the other file from having one.
    fn holds(self, versions: Versions, rows: [Option<Row>; 2]) -> bool {
        let [Some(one), other] = rows else {
            return false;
        };
        let Some(other) = other else {
            return self == Likeness::Rewritten && versions == Versions::One;
        };
        let is_nested = |row: Row| row.address.nesting.is_some_and(|nesting| nesting.depth > 1);
        match self {
            Likeness::Same | Likeness::Rewritten => true,
            Likeness::Labels | Likeness::Enclosed | Likeness::Moved => one.length > 0,
            Likeness::Flat => one.length > 0 && is_nested(one),
            Likeness::AsLong => one.length > 0 && one.length == other.length,
            Likeness::Longer => one.length > other.length && other.length > 0,
            Likeness::OneEmpty | Likeness::EmptyEnd => one.length > 0 && other.length == 0,
            Likeness::BothEmpty => one.length == 0 && other.length == 0,
        }
    }
}

/// A group of these objects, with a label of version 1.
fn group_of(inside: &[u8], random: &mut Random) -> Vec<u8> {
    let head = files::group_head(random);
    let field = files::length_field(0, inside.len());
    [&head, field.as_bytes(), inside].concat()
}

/// A row of an accepted file that has it.
fn row_of(versions: Versions, file: &[u8], row: usize) -> Option<Row> {
    let leaves = labelled::leaves(taken(versions), file).ok()?;
    let leaves: Vec<_> = leaves.collect::<Result<_, _>>().ok()?;
    leaves.get(row).map(|leaf| leaf.row)
}

/// Which labels of a file are of version 2.
#[derive(Clone, Copy, Debug, PartialEq, Eq, Hash)]
enum Twos {
    None,
    All,
    Last,
}

const TWOS: [Twos; 3] = [Twos::None, Twos::All, Twos::Last];

impl Twos {
    /// A file with such labels, that has a row, with others behind it, or some rows in front of it.
    fn file(self, row: usize, has: bool, random: &mut Random) -> Vec<u8> {
        let rows = match has {
            true => row + 2 + random.between(0, 2),
            false => random.between(1, row),
        };
        let mix = match self {
            Twos::None => Mix::None,
            Twos::All => Mix::All,
            Twos::Last => Mix::Last,
        };
        with_rows(rows, mix, random)
    }
}

/// Places of more than 16 bits.
#[derive(Clone, Copy, Debug, PartialEq, Eq)]
enum Wide {
    RowOfOriginal,
    RowOfSubstitute,
    FaultOfOriginal,
}

/// Two files and a row.
#[derive(Clone, Copy, Debug, PartialEq, Eq)]
pub struct Asked(Choice);

/// What the two files and the row are: each part is a choice, not bytes.
#[derive(Clone, Copy, Debug, PartialEq, Eq)]
enum Choice {
    States {
        original: State,
        substitute: State,
        versions: Versions,
    },
    Numbers {
        size: Size,
        number: Number,
    },
    Alike {
        likeness: Likeness,
        /// Whether the first one of the two files is the substitute.
        is_exchanged: bool,
        versions: Versions,
    },
    Versions {
        original: Twos,
        substitute: Twos,
        /// Which of the two has the row.
        has: [bool; 2],
        versions: Versions,
    },
    Wide(Wide),
}

/// All that is dealt.
pub fn asked() -> Vec<Asked> {
    let wide = [
        Wide::RowOfOriginal,
        Wide::RowOfSubstitute,
        Wide::FaultOfOriginal,
    ];
    let wide = wide.map(Choice::Wide).to_vec();
    let all = [states(), numbers(), alike(), of_versions(), wide].concat();
    all.into_iter().map(Asked).collect()
}

/// Each way in which the original is accepted, and each reason for which it is refused, with each state of
/// the substitute, whose fault is behind the row or in front of it. What else there is takes turns.
fn states() -> Vec<Choice> {
    let is_odd = |number: usize| number % 2 == 1;
    let faulty = |reason, is_behind, is_enclosed| {
        State::Faulty(Fault {
            reason,
            is_behind,
            is_enclosed,
        })
    };
    let mut asked = Vec::new();
    for one in 0..ACCEPTED.len() + FAULTS.len() {
        for other in 0..ACCEPTED.len() + 2 * FAULTS.len() {
            let is_enclosed = is_odd(one + other / 4);
            let original = match one.checked_sub(ACCEPTED.len()) {
                None => ACCEPTED[one],
                Some(at) => faulty(FAULTS[at], is_odd(one + other / 2), is_enclosed),
            };
            let substitute = match other.checked_sub(ACCEPTED.len()) {
                None => ACCEPTED[other],
                Some(at) => faulty(FAULTS[at / 2], is_odd(at), is_enclosed),
            };
            asked.push(Choice::States {
                original,
                substitute,
                versions: CHOICES[(one + other) % 2],
            });
        }
    }
    asked
}

/// Each number of a row, with each of two numbers of rows.
fn numbers() -> Vec<Choice> {
    let with_each = |size| NUMBERS.map(|number| Choice::Numbers { size, number });
    SIZES.into_iter().flat_map(with_each).collect()
}

/// Each likeness both ways round, told each choice.
fn alike() -> Vec<Choice> {
    let mut asked = Vec::new();
    for likeness in LIKENESSES {
        for is_exchanged in [false, true] {
            asked.extend(CHOICES.map(|versions| Choice::Alike {
                likeness,
                is_exchanged,
                versions,
            }));
        }
    }
    asked
}

/// Version 2 in neither file, in either or in both, told each choice, with a row that both have, one, or
/// neither.
fn of_versions() -> Vec<Choice> {
    let mut asked = Vec::new();
    for (original, substitute) in TWOS.into_iter().flat_map(|one| TWOS.map(|two| (one, two))) {
        for has in [[true, true], [true, false], [false, true], [false, false]] {
            asked.extend(CHOICES.map(|versions| Choice::Versions {
                original,
                substitute,
                has,
                versions,
            }));
        }
    }
    asked
}

impl Asked {
    pub fn case(self, random: &mut Random) -> Case {
        match self.0 {
            Choice::States {
                original,
                substitute,
                versions,
            } => {
                let least = usize::from([original, substitute].contains(&State::Lacks));
                let row = random.pick(&[0, 1, 2, 3, 16]).max(least);
                Case::SubstituteRow {
                    original: original.file(row, versions, random),
                    substitute: substitute.file(row, versions, random),
                    row,
                    versions,
                }
            }
            Choice::Numbers { size, number } => {
                let few = random.between(1, 4);
                let more = few + random.pick(&[1, 1, 2, 5]);
                let (of_original, of_substitute) = match size {
                    Size::Fewer => (more, few),
                    Size::AsMany => (few, few),
                    Size::More => (few, more),
                };
                let versions = random.pick(&CHOICES);
                let mix = Mix::allowed(versions, random);
                Case::SubstituteRow {
                    original: with_rows(of_original, mix, random),
                    substitute: with_rows(of_substitute, mix, random),
                    row: number.of(of_original, of_substitute, random),
                    versions,
                }
            }
            Choice::Alike {
                likeness,
                is_exchanged,
                versions,
            } => {
                let (one, other, row) = likeness.files(versions, random);
                let (original, substitute) = match is_exchanged {
                    false => (one, other),
                    true => (other, one),
                };
                Case::SubstituteRow {
                    original,
                    substitute,
                    row,
                    versions,
                }
            }
            Choice::Versions {
                original,
                substitute,
                has,
                versions,
            } => {
                let row = random.between(1, 3);
                Case::SubstituteRow {
                    original: original.file(row, has[0], random),
                    substitute: substitute.file(row, has[1], random),
                    row,
                    versions,
                }
            }
            Choice::Wide(wide) => wide.case(random),
        }
    }
}

impl Wide {
    fn case(self, random: &mut Random) -> Case {
        let versions = random.pick(&CHOICES);
        let mix = Mix::allowed(versions, random);
        let mut large = files::with_large_entry(mix, random);
        let row = large.leaves().len() - 1;
        let (original, substitute) = match self {
            Wide::RowOfOriginal => (large.bytes, State::Lacks.file(row, versions, random)),
            Wide::RowOfSubstitute => (State::Has.file(row, versions, random), large.bytes),
            Wide::FaultOfOriginal => {
                large.bytes.push(b'^');
                (large.bytes, State::Lacks.file(row, versions, random))
            }
        };
        Case::SubstituteRow {
            original,
            substitute,
            row,
            versions,
        }
    }
}

/// Two files of any kind, of which the one is often the other, damaged.
pub fn any(random: &mut Random) -> Case {
    let mut file = files::labelled(random);
    let mut other = match random.chance(50) {
        true => file.clone(),
        false => files::labelled(random),
    };
    let percents = random.pick(&[(0, 50), (50, 0), (50, 50), (10, 10)]);
    for (file, percent) in [(&mut file, percents.0), (&mut other, percents.1)] {
        if random.chance(percent) {
            files::damage(file, random);
        }
    }
    let rows = random.pick(&[file.leaves().len(), other.leaves().len()]);
    let row = edges::row(random, rows);
    let has_version_2 = file.has_version_2() || other.has_version_2();
    let both_percent = if has_version_2 { 75 } else { 40 };
    Case::SubstituteRow {
        original: file.bytes,
        substitute: other.bytes,
        row,
        versions: CHOICES[usize::from(random.chance(both_percent))],
    }
}

/// A file as the substitute, with an original that mostly has the row; or as the original, with a
/// substitute that does not serve, so that the file is looked at.
pub fn of_file(file: LabelledFile, row: usize, versions: Versions, random: &mut Random) -> Case {
    let lacks = if row > 0 { State::Lacks } else { State::NoRows };
    let faulty = State::Faulty(Fault {
        reason: random.pick(&FAULTS),
        is_behind: true,
        is_enclosed: random.chance(50),
    });
    let does_not_serve = random.pick(&[State::Empty, lacks, faulty]);
    if random.chance(50) {
        return Case::SubstituteRow {
            original: file.bytes,
            substitute: does_not_serve.file(row, versions, random),
            row,
            versions,
        };
    }
    let original = random.weighted(&[(70, State::Has), (30, does_not_serve)]);
    Case::SubstituteRow {
        original: original.file(row, versions, random),
        substitute: file.bytes,
        row,
        versions,
    }
}

#[cfg(test)]
mod tests {
    use super::*;
    use crate::generator::Generator;
    use crate::Library;
    use std::collections::HashSet;

    const LIBRARY: Library = INDEPENDENT;

    /// What is lent and told in a case.
    struct Lent {
        files: [Vec<u8>; 2],
        row: usize,
        versions: Versions,
    }

    const FILES: [Source; 2] = [Source::Original, Source::Substitute];

    fn lent_in(case: Case) -> Option<Lent> {
        match case {
            Case::SubstituteRow {
                original,
                substitute,
                row,
                versions,
            } => Some(Lent {
                files: [original, substitute],
                row,
                versions,
            }),
            _ => None,
        }
    }

    fn rows_of(versions: Versions, file: &[u8]) -> Option<usize> {
        (LIBRARY.check)(Kind::Labelled(versions), file).ok()
    }

    /// Whether a file has a row, or where its fault stands, in words.
    fn state_in_words(versions: Versions, file: &[u8], row: usize) -> String {
        let words = match (LIBRARY.check)(Kind::Labelled(versions), file) {
            Err(refused) => {
                let name = refused.refusal.name();
                return match row < rows_in_front(versions, file) {
                    true => format!("{name} behind"),
                    false => format!("{name} in front"),
                };
            }
            Ok(0) if file.is_empty() => "empty",
            Ok(0) => "no rows",
            Ok(rows) if row < rows => "has",
            Ok(_) => "lacks",
        };
        words.to_string()
    }

    /// A state without where a fault stands.
    fn without_position(state: &str) -> &str {
        let state = state.trim_end_matches(" behind");
        state.trim_end_matches(" in front")
    }

    /// What is seen of the states of both files, and of their faults.
    fn seen_in_states(lent: &Lent) -> Vec<String> {
        let Lent {
            files,
            row,
            versions,
        } = lent;
        let [original, substitute] = [0, 1].map(|at| state_in_words(*versions, &files[at], *row));
        let reason = without_position(&original);
        let mut seen = vec![
            format!("{reason}, {substitute}"),
            format!("substitute {substitute}, told {versions:?}"),
        ];
        if substitute == "has" {
            seen.push(format!("original {reason}, not looked at"));
            return seen;
        }
        seen.push(format!("original {original}, told {versions:?}"));
        let kind = Kind::Labelled(*versions);
        let [one, other] = [0, 1].map(|at| (LIBRARY.check)(kind, &files[at]).err());
        for (of, refused) in FILES.into_iter().zip([one, other]) {
            if let Some(refused) = refused {
                let is_inside = is_inside(&files[of as usize], refused.place);
                let depth = if is_inside { "in a group" } else { "outermost" };
                seen.push(format!("{} of {of:?}, {depth}", refused.refusal.name()));
            }
        }
        if let (Some(one), Some(other)) = (one, other) {
            let is = |same: bool| if same { "same" } else { "other" };
            let reason = is(one.refusal == other.refusal);
            let place = is(one.place == other.place);
            seen.push(format!("both refused, {reason} reason, {place} place"));
        }
        seen
    }

    /// Whether a place is inside an outermost object.
    fn is_inside(file: &[u8], place: usize) -> bool {
        let mut begin = 0;
        while begin < place {
            let label = (LIBRARY.read_label)(Versions::OneAndTwo, &file[begin..]);
            let length = label.map_or(usize::MAX, |label| label.length);
            begin = begin.saturating_add(LABEL).saturating_add(length);
        }
        begin > place
    }

    /// What is seen of the row's number where both files are accepted.
    fn seen_in_numbers(lent: &Lent) -> Vec<String> {
        let [original, substitute] = [0, 1].map(|at| rows_of(lent.versions, &lent.files[at]));
        let (Some(original @ 1..), Some(substitute @ 1..)) = (original, substitute) else {
            return Vec::new();
        };
        let size = match substitute.cmp(&original) {
            std::cmp::Ordering::Less => Size::Fewer,
            std::cmp::Ordering::Equal => Size::AsMany,
            std::cmp::Ordering::Greater => Size::More,
        };
        let is = |number: &Number| match *number {
            Number::Turned(more) => {
                let turned = lent.row.checked_sub(more);
                turned.is_some_and(|row| row < original.min(substitute))
            }
            number => number.of(original, substitute, &mut Random::new(0)) == lent.row,
        };
        let numbers = NUMBERS.iter().filter(|number| is(number));
        numbers
            .map(|number| format!("{size:?}, {number:?}"))
            .collect()
    }

    /// A row of a file that serves.
    struct Shown<'a> {
        place: usize,
        bytes: &'a [u8],
        depth: u64,
        outermost: usize,
        /// Whether no byte follows it.
        is_end: bool,
        /// Whether no row of its file is in a group.
        is_flat: bool,
    }

    fn shown(lent: &Lent, of: Source) -> Option<Shown<'_>> {
        let file = &lent.files[of as usize];
        let row = row_of(lent.versions, file, lent.row)?;
        let (place, length) = (row.start as usize, row.length as usize);
        let nesting = row.address.nesting?;
        let others = (0..).map_while(|other| row_of(lent.versions, file, other));
        let mut depths = others.filter_map(|other| other.address.nesting);
        Some(Shown {
            place,
            bytes: &file[place..place + length],
            depth: nesting.depth,
            outermost: nesting.outermost as usize,
            is_end: place + length == file.len(),
            is_flat: depths.all(|nesting| nesting.depth == 1),
        })
    }

    /// What is seen of two rows where both files serve.
    fn seen_in_rows(lent: &Lent) -> Vec<String> {
        let [Some(one), Some(other)] = FILES.map(|of| shown(lent, of)) else {
            return Vec::new();
        };
        let mut seen = both_in_words(&one, &other);
        for (of, row, next) in [(FILES[0], &one, &other), (FILES[1], &other, &one)] {
            let words = one_in_words(row, next).into_iter();
            seen.extend(words.map(|words| format!("{words} in {of:?}")));
        }
        if lent.files[0] == lent.files[1] {
            seen.push("same files".to_string());
        }
        let told = |words| format!("{words}, told {:?}", lent.versions);
        seen.into_iter().map(told).collect()
    }

    /// The words that hold.
    fn held(words: &[(bool, &str)]) -> Vec<String> {
        let held = words.iter().filter(|(holds, _)| *holds);
        held.map(|(_, words)| words.to_string()).collect()
    }

    fn both_in_words(one: &Shown, other: &Shown) -> Vec<String> {
        let is_as_long = one.bytes.len() == other.bytes.len() && !one.bytes.is_empty();
        let is_there =
            (one.place, one.depth, one.outermost) == (other.place, other.depth, other.outermost);
        let mut pairs = one.bytes.iter().zip(other.bytes);
        let are_other = pairs.all(|(byte, other)| byte != other);
        held(&[
            (is_as_long && is_there && are_other, "other bytes alone"),
            (is_as_long && one.bytes != other.bytes, "as long"),
            (one.bytes.is_empty() && other.bytes.is_empty(), "both empty"),
        ])
    }

    /// What is seen of one row beside the other.
    fn one_in_words(row: &Shown, other: &Shown) -> Vec<String> {
        let is_longer = row.bytes.len() > other.bytes.len() && !other.bytes.is_empty();
        let is_empty = row.bytes.is_empty() && !other.bytes.is_empty();
        let is_same = row.bytes == other.bytes && !row.bytes.is_empty();
        let is_further = is_same && row.place == other.place + LABEL;
        let is_deeper = row.depth == other.depth + 1 && row.outermost == 0;
        let is_as_deep = row.depth == other.depth && row.outermost == other.outermost + LABEL;
        held(&[
            (is_longer, "longer"),
            (is_empty, "empty"),
            (is_empty && row.is_end, "empty at the end"),
            (is_further && is_deeper, "enclosed"),
            (is_further && is_as_deep, "moved"),
            (is_same && row.is_flat && other.depth > 1, "flat"),
        ])
    }

    /// What is seen of version 2 in both files: where it stands with regard to the row, and which of
    /// them has the row.
    fn seen_in_versions(lent: &Lent) -> Option<String> {
        let of = |file: &[u8]| {
            let has = lent.row < rows_of(Versions::OneAndTwo, file)?;
            let is_behind = lent.row < rows_in_front(Versions::One, file);
            let twos = match rows_of(Versions::One, file) {
                Some(_) => "none",
                None if !has => "some",
                None if is_behind => "behind",
                None => "in front",
            };
            Some(format!("version 2 {twos}, has {has}"))
        };
        let [one, other] = [0, 1].map(|at| of(&lent.files[at]));
        Some(format!("{}; {}; told {:?}", one?, other?, lent.versions))
    }

    /// What is shown or refused at a place of more than 16 bits.
    fn seen_in_places(lent: &Lent) -> Option<String> {
        let [original, substitute] = &lent.files;
        let answer = (LIBRARY.substitute_row)(lent.versions, original, substitute, lent.row);
        let (what, place) = match answer {
            Ok(chosen) => (format!("{:?}", chosen.source), chosen.row.place),
            Err(refused) => ("refused".to_string(), refused.place),
        };
        (place > 65_536).then(|| format!("{what} beyond 65,536"))
    }

    /// What has to be seen.
    fn expected() -> Vec<String> {
        let accepted = ["has", "lacks", "no rows", "empty"];
        let names = FAULTS.map(Refusal::name);
        let faults = names.map(|name| [format!("{name} behind"), format!("{name} in front")]);
        let states: Vec<String> = accepted
            .map(str::to_string)
            .into_iter()
            .chain(faults.concat())
            .collect();
        let places = ["Original", "Substitute", "refused"];
        let mut words = places.map(|what| format!("{what} beyond 65,536")).to_vec();
        for state in &states {
            for original in accepted.into_iter().chain(names) {
                words.push(format!("{original}, {state}"));
            }
            words.push(format!(
                "original {}, not looked at",
                without_position(state)
            ));
            for versions in CHOICES {
                words.push(format!("substitute {state}, told {versions:?}"));
                words.push(format!("original {state}, told {versions:?}"));
            }
        }
        for (name, of) in names
            .into_iter()
            .flat_map(|name| FILES.map(|of| (name, of)))
        {
            words.push(format!("{name} of {of:?}, in a group"));
            // Only a label inside of groups is too deep.
            if name != Refusal::Deep.name() {
                words.push(format!("{name} of {of:?}, outermost"));
            }
        }
        for reason in ["same", "other"] {
            words.push(format!("both refused, {reason} reason, other place"));
        }
        for size in SIZES {
            words.extend(NUMBERS.map(|number| format!("{size:?}, {number:?}")));
        }
        for versions in CHOICES {
            let mut and = |all: &str| words.push(format!("{all}, told {versions:?}"));
            for all in ["same files", "other bytes alone", "as long", "both empty"] {
                and(all);
            }
            for of in FILES {
                for one in ["longer", "empty", "enclosed", "moved", "flat"] {
                    and(&format!("{one} in {of:?}"));
                }
                and(&format!("empty at the end in {of:?}"));
            }
            let has = |has| match has {
                true => ["none", "in front", "behind"].map(|twos| (twos, has)),
                false => ["none", "some", "some"].map(|twos| (twos, has)),
            };
            let files = [has(true), has(false)].concat();
            for ((one, of_one), (other, of_other)) in files
                .iter()
                .flat_map(|one| files.iter().map(move |other| (one, other)))
            {
                words.push(format!(
                    "version 2 {one}, has {of_one}; version 2 {other}, has {of_other}; told {versions:?}"
                ));
            }
        }
        words
    }

    #[test]
    fn ten_thousand_cases_hold_each_pair_of_files() {
        for seed in 0..3 {
            let mut seen = HashSet::new();
            let lines = Generator::new(seed).take(10_000);
            let cases = lines.filter_map(|line| Case::parse(line.as_bytes()));
            for lent in cases.filter_map(lent_in) {
                seen.extend(seen_in_states(&lent));
                seen.extend(seen_in_numbers(&lent));
                seen.extend(seen_in_rows(&lent));
                seen.extend(seen_in_versions(&lent));
                seen.extend(seen_in_places(&lent));
            }
            for words in expected() {
                assert!(seen.contains(&words), "{words}");
            }
        }
    }
}
