//! Joined indexes that are made wrongly, each in one way: ten thousand generated cases tell each of them
//! from what is right.

use conformance::generator::Generator;
use conformance::library::{Answer, INDEPENDENT};
use conformance::{Case, Library};
use crestulbino::{Built, Kind, Refusal, Refused, Versions};
use independent::{label, labelled};

const RIGHT: Library = INDEPENDENT;

/// A file with the list that it is lent with.
#[derive(Clone, Copy)]
struct Listed<'a> {
    file: &'a [u8],
    list: &'a [u32],
}

/// What a call is lent and told, but the memory for the index.
#[derive(Clone, Copy)]
struct Asked<'a> {
    versions: Versions,
    first: Listed<'a>,
    second: Listed<'a>,
}

type Wrong = fn(Asked<'_>, &mut [u32]) -> Answer<Built>;

/// What the entries are.
const ENTRIES: [(&str, Wrong); 35] = [
    ("both lists, the second shifted", |asked, list| {
        asked.writing(list, |joined| {
            let length = joined.length;
            let shifted = asked.second.list.iter().map(|entry| entry + length);
            asked.first.list.iter().copied().chain(shifted).collect()
        })
    }),
    (
        "both lists, the second shifted, as many as are needed",
        |asked, list| {
            asked.writing(list, |joined| {
                let length = joined.length;
                let shifted = asked.second.list.iter().map(|entry| entry + length);
                let both = asked.first.list.iter().copied().chain(shifted);
                both.take(joined.need()).collect()
            })
        },
    ),
    ("the length is not added", |asked, list| {
        asked.moving(list, |place, _| place)
    }),
    ("the length is added twice", |asked, list| {
        asked.moving(list, |place, length| place + 2 * length)
    }),
    ("the second's length is added", |asked, list| {
        let length = asked.second.file.len() as u32;
        asked.moving(list, |place, _| place + length)
    }),
    ("the length is added with a byte more", |asked, list| {
        asked.moving(list, |place, length| place + length + 1)
    }),
    ("the sum has 16 bits", |asked, list| {
        asked.moving(list, |place, length| (place + length) % 65_536)
    }),
    ("the length has 16 bits", |asked, list| {
        asked.moving(list, |place, length| place + length % 65_536)
    }),
    (
        "the length is that of the first's rows with their labels",
        |asked, list| {
            let rows = asked.first.rows(asked.versions).unwrap_or_default();
            let bytes: u32 = rows.iter().map(|row| row.end - row.label).sum();
            asked.moving(list, |place, _| place + bytes)
        },
    ),
    (
        "the length is where the first's last row ends",
        |asked, list| {
            let rows = asked.first.rows(asked.versions).unwrap_or_default();
            let end = rows.last().map_or(0, |row| row.end);
            asked.moving(list, |place, _| place + end)
        },
    ),
    (
        "nothing is added for a first file without rows",
        |asked, list| match asked.first.list {
            [] => asked.moving(list, |place, _| place),
            _ => asked.right(list),
        },
    ),
    ("the places of the values", |asked, list| {
        asked.placing(list, |row| row.label + 20)
    }),
    ("the places of the outermost objects", |asked, list| {
        asked.placing(list, |row| row.outermost)
    }),
    ("the ends of the rows", |asked, list| {
        asked.placing(list, |row| row.end)
    }),
    (
        "the first row of the second gets an entry of its own",
        |asked, list| {
            asked.writing(list, |joined| {
                let mut entries = joined.entries();
                let rows = joined.first.len();
                if rows % 16 != 0 && !joined.second.is_empty() {
                    entries.insert(rows.div_ceil(16), joined.second[0].label + joined.length);
                }
                entries
            })
        },
    ),
    (
        "the first row of the second gets the entry of the group that it fills",
        |asked, list| {
            asked.writing(list, |joined| {
                let mut entries = joined.entries();
                let rows = joined.first.len();
                if rows % 16 != 0 && !joined.second.is_empty() {
                    entries[rows / 16] = joined.second[0].label + joined.length;
                }
                entries
            })
        },
    ),
    ("the first group is filled with 15", |asked, list| {
        asked.beginning(list, |rows| (31 - rows % 16) % 16)
    }),
    ("the first group is filled with 17", |asked, list| {
        asked.beginning(list, |rows| (17 - rows % 16) % 16)
    }),
    ("as many rows fill it as are in it", |asked, list| {
        asked.beginning(list, |rows| rows % 16)
    }),
    ("a full group is filled with 16 more", |asked, list| {
        asked.beginning(list, |rows| 16 - rows % 16)
    }),
    (
        "it is filled as if the second's rows stood in it",
        |asked, list| {
            let rows = asked.second.rows(asked.versions);
            let rows = rows.map_or(0, |rows| rows.len());
            asked.beginning(list, |_| rows.next_multiple_of(16) - rows)
        },
    ),
    (
        "behind the first entry of the second its list",
        |asked, list| {
            asked.writing(list, |joined| {
                let mut entries = joined.entries();
                let own = joined.first.len().div_ceil(16);
                let rest = asked.second.list.iter().skip(1);
                let rest = rest.map(|entry| entry + joined.length);
                let slots = entries.iter_mut().skip(own + 1);
                slots.zip(rest).for_each(|(slot, entry)| *slot = entry);
                entries
            })
        },
    ),
    ("the place behind the row in front", |asked, list| {
        asked.writing(list, |joined| {
            let ends = joined.second.iter().map(|row| row.end);
            let places = [0].into_iter().chain(ends).zip(&joined.second);
            let first = joined.first.iter().map(|row| row.label);
            let second = places.map(|(place, _)| place + joined.length);
            first.chain(second).step_by(16).collect()
        })
    }),
    (
        "labels are counted on from an entry, of groups too",
        |asked, list| {
            asked.walking(list, |asked, entry, on| {
                asked.second.labels_on(entry, on, 20)
            })
        },
    ),
    (
        "groups are passed like rows from an entry on",
        |asked, list| {
            asked.walking(list, |asked, entry, on| {
                asked.second.labels_on(entry, on, u32::MAX)
            })
        },
    ),
    ("rows in groups are passed over", |asked, list| {
        asked.leaving_out(list, |row| row.depth > 1)
    }),
    ("rows at depth 8 are passed over", |asked, list| {
        asked.leaving_out(list, |row| row.depth == 8)
    }),
    ("rows without bytes are passed over", |asked, list| {
        asked.leaving_out(list, |row| row.end == row.label + 20)
    }),
    ("one entry of the second at most", |asked, list| {
        asked.writing(list, |joined| {
            let mut entries = joined.entries();
            entries.truncate(joined.first.len().div_ceil(16) + 1);
            entries
        })
    }),
    ("no entries of the second", |asked, list| {
        asked.writing(list, |joined| {
            let mut entries = joined.entries();
            entries.truncate(joined.first.len().div_ceil(16));
            entries
        })
    }),
    (
        "a last entry that is not full is left out",
        |asked, list| {
            asked.writing(list, |joined| {
                let mut entries = joined.entries();
                entries.truncate((joined.first.len() + joined.second.len()) / 16);
                entries
            })
        },
    ),
    ("the second file in front", |asked, list| {
        asked.writing(list, |_| {
            asked
                .exchanged()
                .joined()
                .map_or(vec![], |joined| joined.entries())
        })
    }),
    (
        "nothing for an empty second file",
        |asked, list| match asked.second.file {
            [] => asked.writing(list, |_| vec![]),
            _ => asked.right(list),
        },
    ),
    ("groups of 15 rows", |asked, list| {
        asked.writing(list, |joined| {
            joined.labels().into_iter().step_by(15).collect()
        })
    }),
    ("groups of 17 rows", |asked, list| {
        asked.writing(list, |joined| {
            joined.labels().into_iter().step_by(17).collect()
        })
    }),
];

/// What is counted.
const COUNTS: [(&str, Wrong); 11] = [
    ("the entries of both files", |asked, list| {
        let entries = asked.first.list.len() + asked.second.list.len();
        Ok(Built {
            entries,
            ..asked.right(list)?
        })
    }),
    ("the entries of the first", |asked, list| {
        let entries = asked.first.list.len();
        Ok(Built {
            entries,
            ..asked.right(list)?
        })
    }),
    ("the entries of the second", |asked, list| {
        let entries = asked.second.list.len();
        Ok(Built {
            entries,
            ..asked.right(list)?
        })
    }),
    ("full entries", |asked, list| {
        let built = asked.right(list)?;
        Ok(Built {
            entries: built.rows / 16,
            ..built
        })
    }),
    ("the rows of the first", |asked, list| {
        let rows = asked
            .first
            .rows(asked.versions)
            .map_or(0, |rows| rows.len());
        Ok(Built {
            rows,
            ..asked.right(list)?
        })
    }),
    ("the rows of the second", |asked, list| {
        let rows = asked
            .second
            .rows(asked.versions)
            .map_or(0, |rows| rows.len());
        Ok(Built {
            rows,
            ..asked.right(list)?
        })
    }),
    ("16 rows for each entry", |asked, list| {
        let built = asked.right(list)?;
        Ok(Built {
            rows: 16 * built.entries,
            ..built
        })
    }),
    ("16 rows for each entry of the first", |asked, list| {
        let rows = asked
            .second
            .rows(asked.versions)
            .map_or(0, |rows| rows.len());
        let rows = rows + 16 * asked.first.list.len();
        Ok(Built {
            rows,
            ..asked.right(list)?
        })
    }),
    ("rows in 8 bits", |asked, list| {
        let built = asked.right(list)?;
        Ok(Built {
            rows: built.rows % 256,
            ..built
        })
    }),
    ("rows for entries", |asked, list| {
        let built = asked.right(list)?;
        Ok(Built {
            entries: built.rows,
            rows: built.entries,
        })
    }),
    ("what there is room for", |asked, list| {
        let entries = list.len();
        Ok(Built {
            entries,
            ..asked.right(list)?
        })
    }),
];

/// What is written.
const WRITTEN: [(&str, Wrong); 8] = [
    ("zeros behind the entries", |asked, list| {
        let built = asked.right(list)?;
        list[built.entries..].fill(0);
        Ok(built)
    }),
    ("one more behind the entries", |asked, list| {
        let built = asked.right(list)?;
        if let Some(behind) = list.get_mut(built.entries) {
            *behind = (asked.first.file.len() + asked.second.file.len()) as u32;
        }
        Ok(built)
    }),
    ("nothing for the first", |asked, list| {
        let before = list.to_vec();
        let built = asked.right(list)?;
        let own = asked.first.list.len();
        list[..own].copy_from_slice(&before[..own]);
        Ok(built)
    }),
    ("the front before 8", |asked, list| {
        let entries = asked.joined().map_or(vec![], |joined| joined.entries());
        asked.having_written(list, Refusal::Small, &entries)
    }),
    ("the first's list before 8", |asked, list| {
        asked.having_written(list, Refusal::Small, asked.first.list)
    }),
    (
        "the first's list before the second's fault",
        |asked, list| {
            asked.first.checked(asked.versions)?;
            let fault = asked.second.rows(asked.versions).err();
            match fault {
                Some(fault) => asked.having_written(list, fault.refusal, asked.first.list),
                None => asked.right(list),
            }
        },
    ),
    ("the first's list before 11 of the second", |asked, list| {
        asked.first.checked(asked.versions)?;
        asked.having_written(list, Refusal::BadIndex, asked.first.list)
    }),
    (
        "the first's list before its own 11",
        |asked, list| match asked.first.checked(asked.versions) {
            Err(refused) => asked.having_written(list, refused.refusal, asked.first.list),
            Ok(()) => asked.right(list),
        },
    ),
];

/// Which refusal there is, and with which place.
const REFUSALS: [(&str, Wrong); 35] = [
    (
        "8 before all, where there is no room",
        |asked, list| match list {
            [] if asked.lists() > 0 => refused(Refusal::Small),
            _ => asked.right(list),
        },
    ),
    ("8 before 11", |asked, list| {
        asked.first.rows(asked.versions)?;
        if let Some(need) = asked.need() {
            has_room(list, need)?;
        }
        asked.right(list)
    }),
    (
        "8 for the first's entries before the second",
        |asked, list| {
            asked.first.checked(asked.versions)?;
            has_room(list, asked.first.list.len())?;
            asked.right(list)
        },
    ),
    ("8 before 11 of the second", |asked, list| {
        asked.first.checked(asked.versions)?;
        asked.second.rows(asked.versions)?;
        has_room(list, asked.need().unwrap_or(0))?;
        asked.right(list)
    }),
    ("8 unless there is room for both lists", |asked, list| {
        asked.joined()?;
        has_room(list, asked.lists())?;
        asked.right(list)
    }),
    (
        "8 unless there is one more than is needed",
        |asked, list| {
            has_room(list, asked.joined()?.need() + 1)?;
            asked.right(list)
        },
    ),
    (
        "no 8 where there is one less than is needed",
        |asked, list| asked.filling(list, |need| need.saturating_sub(1)),
    ),
    ("no 8 where there is room for the first", |asked, list| {
        let own = asked.first.list.len();
        asked.filling(list, |need| need.min(own))
    }),
    ("no 8 at all", |asked, list| asked.filling(list, |_| 0)),
    ("8 for an index without entries", |asked, list| {
        asked.joined()?;
        has_room(list, 1)?;
        asked.right(list)
    }),
    (
        "the second's fault at its place in the joined file",
        |asked, list| asked.refusing_second(list, |place, length| place + length),
    ),
    ("the second's fault at place 0", |asked, list| {
        asked.refusing_second(list, |_, _| 0)
    }),
    (
        "the second's fault at the end of the first",
        |asked, list| asked.refusing_second(list, |_, length| length),
    ),
    ("the first's fault at place 0", |asked, list| {
        let fault = asked.first.rows(asked.versions).err();
        fault.map_or_else(|| asked.right(list), |fault| refused(fault.refusal))
    }),
    ("11 of the second at the end of the first", |asked, list| {
        asked.first.checked(asked.versions)?;
        let place = asked.first.file.len();
        asked.right(list).map_err(|why| match why.refusal {
            Refusal::BadIndex => Refused { place, ..why },
            _ => why,
        })
    }),
    ("8 with the room for a place", |asked, list| {
        let place = list.len();
        asked.right(list).map_err(|why| match why.refusal {
            Refusal::Small => Refused { place, ..why },
            _ => why,
        })
    }),
    ("the second before the first", |asked, list| {
        asked.second.checked(asked.versions)?;
        asked.right(list)
    }),
    ("the second's fault before the first", |asked, list| {
        asked.second.rows(asked.versions)?;
        asked.right(list)
    }),
    ("both files before both lists", |asked, list| {
        asked.first.rows(asked.versions)?;
        asked.second.rows(asked.versions)?;
        asked.right(list)
    }),
    ("11 before the first's fault", |asked, list| {
        asked.first.list_before_fault(asked.versions)?;
        asked.right(list)
    }),
    ("11 before the second's fault", |asked, list| {
        asked.first.checked(asked.versions)?;
        asked.second.list_before_fault(asked.versions)?;
        asked.right(list)
    }),
    ("the first's list is not checked", |asked, list| {
        asked.with_lists(list, |index, _| index.to_vec(), |_, list| list.to_vec())
    }),
    ("the second's list is not checked", |asked, list| {
        asked.with_lists(list, |_, list| list.to_vec(), |index, _| index.to_vec())
    }),
    ("no list is checked", |asked, list| {
        asked.with_lists(list, |index, _| index.to_vec(), |index, _| index.to_vec())
    }),
    (
        "the second's list is checked where the first is full",
        |asked, list| {
            let rows = asked.first.rows(asked.versions)?.len();
            match rows % 16 {
                0 => asked.right(list),
                _ => asked.with_lists(list, |_, list| list.to_vec(), |index, _| index.to_vec()),
            }
        },
    ),
    (
        "the second's list is checked where the first is not full",
        |asked, list| {
            let rows = asked.first.rows(asked.versions)?.len();
            match rows % 16 {
                0 => asked.with_lists(list, |_, list| list.to_vec(), |index, _| index.to_vec()),
                _ => asked.right(list),
            }
        },
    ),
    (
        "the first's list is checked for its length",
        |asked, list| asked.with_lists(list, as_long, |_, list| list.to_vec()),
    ),
    (
        "the second's list is checked for its length",
        |asked, list| asked.with_lists(list, |_, list| list.to_vec(), as_long),
    ),
    ("the first's list may go on", |asked, list| {
        asked.with_lists(list, front, |_, list| list.to_vec())
    }),
    ("the second's list may go on", |asked, list| {
        asked.with_lists(list, |_, list| list.to_vec(), front)
    }),
    ("the first's list may end early", |asked, list| {
        asked.with_lists(list, as_begun, |_, list| list.to_vec())
    }),
    ("the second's list may end early", |asked, list| {
        asked.with_lists(list, |_, list| list.to_vec(), as_begun)
    }),
    ("the lists may be exchanged", |asked, list| {
        let mut exchanged = asked;
        (exchanged.first.list, exchanged.second.list) = (asked.second.list, asked.first.list);
        match exchanged.joined() {
            Ok(_) => exchanged.right(list),
            Err(_) => asked.right(list),
        }
    }),
    ("the second's list may be shifted already", |asked, list| {
        let length = asked.first.file.len() as u32;
        asked.with_lists(
            list,
            |_, list| list.to_vec(),
            |index, list| {
                let is_shifted = index
                    .iter()
                    .map(|entry| entry + length)
                    .eq(list.iter().copied());
                if is_shifted {
                    index.to_vec()
                } else {
                    list.to_vec()
                }
            },
        )
    }),
    (
        "the second's list has to be shifted already",
        |asked, list| {
            let length = asked.first.file.len() as u32;
            let lowered = |list: &[u32]| {
                list.iter()
                    .map(|entry| entry.wrapping_sub(length))
                    .collect()
            };
            asked.with_lists(list, |_, list| list.to_vec(), |_, list| lowered(list))
        },
    ),
];

/// Which versions are allowed.
const VERSIONS: [(&str, Wrong); 6] = [
    ("both always", |asked, list| {
        asked.told([Versions::OneAndTwo; 2], list)
    }),
    ("the first alone always", |asked, list| {
        asked.told([Versions::One; 2], list)
    }),
    ("both in the first file always", |asked, list| {
        asked.told([Versions::OneAndTwo, asked.versions], list)
    }),
    ("both in the second file always", |asked, list| {
        asked.told([asked.versions, Versions::OneAndTwo], list)
    }),
    ("the first alone in the first file always", |asked, list| {
        asked.told([Versions::One, asked.versions], list)
    }),
    (
        "the first alone in the second file always",
        |asked, list| asked.told([asked.versions, Versions::One], list),
    ),
];

fn refused<T>(refusal: Refusal) -> Answer<T> {
    Err(Refused { refusal, place: 0 })
}

fn has_room(list: &[u32], need: usize) -> Answer<()> {
    match list.len() >= need {
        true => Ok(()),
        false => refused(Refusal::Small),
    }
}

/// The index in place of a list that has as many entries.
fn as_long(index: &[u32], list: &[u32]) -> Vec<u32> {
    let is_index = index.len() == list.len();
    if is_index { index } else { list }.to_vec()
}

/// The index in place of a list that begins with it.
fn front(index: &[u32], list: &[u32]) -> Vec<u32> {
    let is_index = list.starts_with(index);
    if is_index { index } else { list }.to_vec()
}

/// The index in place of a list that it begins with.
fn as_begun(index: &[u32], list: &[u32]) -> Vec<u32> {
    let is_index = index.starts_with(list);
    if is_index { index } else { list }.to_vec()
}

/// Where a row stands.
#[derive(Clone, Copy)]
struct Row {
    label: u32,
    end: u32,
    depth: u64,
    outermost: u32,
}

impl Row {
    fn of(leaf: labelled::Leaf) -> Row {
        let nesting = leaf.row.address.nesting.expect("a depth");
        Row {
            label: leaf.row.address.label as u32,
            end: (leaf.row.start + leaf.row.length) as u32,
            depth: nesting.depth,
            outermost: nesting.outermost as u32,
        }
    }
}

impl Listed<'_> {
    /// The rows up to the first fault.
    fn rows_in_front(self, versions: Versions) -> Vec<Row> {
        let versions = match versions {
            Versions::One => label::Versions::First,
            Versions::OneAndTwo => label::Versions::Both,
        };
        let leaves = labelled::leaves(versions, self.file).into_iter().flatten();
        let leaves = leaves.take_while(Result::is_ok).flatten();
        leaves.map(Row::of).collect()
    }

    /// The place so many labels on from another. Of a group it passes so many bytes at most, its label too.
    fn labels_on(self, from: u32, on: usize, most: u32) -> u32 {
        let mut place = from;
        for _ in 0..on {
            let rest = &self.file[(place as usize).min(self.file.len())..];
            let Ok(label) = label::read(label::Versions::Both, rest) else {
                break;
            };
            let inside = if label.is_group() {
                most - 20
            } else {
                u32::MAX
            };
            place += 20 + (label.length as u32).min(inside);
        }
        place
    }

    fn rows(self, versions: Versions) -> Answer<Vec<Row>> {
        (RIGHT.check)(Kind::Labelled(versions), self.file)?;
        Ok(self.rows_in_front(versions))
    }

    fn checked(self, versions: Versions) -> Answer<()> {
        (RIGHT.check_index)(versions, self.file, self.list)
    }

    /// Compares the list with the rows up to the first fault.
    fn list_before_fault(self, versions: Versions) -> Answer<()> {
        match index_of(&self.rows_in_front(versions)) == self.list {
            true => Ok(()),
            false => refused(Refusal::BadIndex),
        }
    }
}

fn index_of(rows: &[Row]) -> Vec<u32> {
    rows.iter().step_by(16).map(|row| row.label).collect()
}

/// Two files that are good, with their indexes.
struct Joined {
    first: Vec<Row>,
    second: Vec<Row>,
    length: u32,
}

impl Joined {
    fn labels(&self) -> Vec<u32> {
        let first = self.first.iter().map(|row| row.label);
        let second = self.second.iter().map(|row| row.label + self.length);
        first.chain(second).collect()
    }

    fn entries(&self) -> Vec<u32> {
        self.labels().into_iter().step_by(16).collect()
    }

    fn need(&self) -> usize {
        (self.first.len() + self.second.len()).div_ceil(16)
    }
}

impl<'a> Asked<'a> {
    fn right(self, list: &mut [u32]) -> Answer<Built> {
        let Listed { file, list: one } = self.first;
        let (second, two) = (self.second.file, self.second.list);
        (RIGHT.joined_index)(self.versions, file, one, second, two, list)
    }

    fn exchanged(self) -> Asked<'a> {
        Asked {
            versions: self.versions,
            first: self.second,
            second: self.first,
        }
    }

    /// Both files, once all has been looked at but the room.
    fn joined(self) -> Answer<Joined> {
        self.first.checked(self.versions)?;
        self.second.checked(self.versions)?;
        Ok(Joined {
            first: self.first.rows(self.versions)?,
            second: self.second.rows(self.versions)?,
            length: self.first.file.len() as u32,
        })
    }

    /// How many entries the joined index has, where both files are good.
    fn need(self) -> Option<usize> {
        let first = self.first.rows(self.versions).ok()?;
        let second = self.second.rows(self.versions).ok()?;
        Some((first.len() + second.len()).div_ceil(16))
    }

    /// How many entries the lists have.
    fn lists(self) -> usize {
        self.first.list.len() + self.second.list.len()
    }

    /// Writes these entries.
    fn writing(self, list: &mut [u32], entries: impl FnOnce(&Joined) -> Vec<u32>) -> Answer<Built> {
        let joined = self.joined()?;
        let entries = entries(&joined);
        has_room(list, entries.len())?;
        list[..entries.len()].copy_from_slice(&entries);
        Ok(Built {
            entries: entries.len(),
            rows: joined.first.len() + joined.second.len(),
        })
    }

    /// Moves the places of the second file so, by the length of the first.
    fn moving(self, list: &mut [u32], moved: impl Fn(u32, u32) -> u32) -> Answer<Built> {
        self.writing(list, |joined| {
            let second = joined.second.iter();
            let second = second.map(|row| moved(row.label, joined.length));
            let first = joined.first.iter().map(|row| row.label);
            first.chain(second).step_by(16).collect()
        })
    }

    /// Takes another place of the second file's rows.
    fn placing(self, list: &mut [u32], place: impl Fn(&Row) -> u32) -> Answer<Built> {
        self.writing(list, |joined| {
            let second = joined.second.iter();
            let second = second.map(|row| place(row) + joined.length);
            let first = joined.first.iter().map(|row| row.label);
            first.chain(second).step_by(16).collect()
        })
    }

    /// Begins the entries of the second file at another of its rows, by the number of the first's.
    fn beginning(self, list: &mut [u32], begins: impl Fn(usize) -> usize) -> Answer<Built> {
        self.writing(list, |joined| {
            let second = joined.second.iter().skip(begins(joined.first.len()));
            let second = second.step_by(16).map(|row| row.label + joined.length);
            index_of(&joined.first).into_iter().chain(second).collect()
        })
    }

    /// Has the entries of the second file so many on from those of its list, where the first is not full.
    fn walking(self, list: &mut [u32], walked: fn(Self, u32, usize) -> u32) -> Answer<Built> {
        self.writing(list, |joined| {
            let own = joined.first.len().div_ceil(16);
            let on = joined.first.len().next_multiple_of(16) - joined.first.len();
            let mut entries = joined.entries();
            if on > 0 {
                let others = entries.iter_mut().skip(own).zip(self.second.list);
                others.for_each(|(slot, &entry)| *slot = walked(self, entry, on) + joined.length);
            }
            entries
        })
    }

    /// Does not count some rows of the second file.
    fn leaving_out(self, list: &mut [u32], is_out: impl Fn(&Row) -> bool) -> Answer<Built> {
        self.writing(list, |joined| {
            let second = joined.second.iter().filter(|row| !is_out(row));
            let second = second.map(|row| row.label + joined.length);
            let first = joined.first.iter().map(|row| row.label);
            first.chain(second).step_by(16).collect()
        })
    }

    /// Writes as many entries as there is room for, if that is not less than this.
    fn filling(self, list: &mut [u32], least: impl Fn(usize) -> usize) -> Answer<Built> {
        let joined = self.joined()?;
        has_room(list, least(joined.need()))?;
        let entries = joined.entries();
        list.iter_mut()
            .zip(&entries)
            .for_each(|(slot, entry)| *slot = *entry);
        Ok(Built {
            entries: entries.len(),
            rows: joined.first.len() + joined.second.len(),
        })
    }

    /// Has written these where it refuses for this reason.
    fn having_written(self, list: &mut [u32], reason: Refusal, entries: &[u32]) -> Answer<Built> {
        let answer = self.right(list);
        if answer.is_err_and(|refused| refused.refusal == reason) {
            list.iter_mut()
                .zip(entries)
                .for_each(|(slot, entry)| *slot = *entry);
        }
        answer
    }

    /// Has another place in the refusal for a fault of the second file.
    fn refusing_second(
        self,
        list: &mut [u32],
        place: impl Fn(usize, usize) -> usize,
    ) -> Answer<Built> {
        self.first.checked(self.versions)?;
        match self.second.rows(self.versions) {
            Ok(_) => self.right(list),
            Err(fault) => Err(Refused {
                place: place(fault.place, self.first.file.len()),
                ..fault
            }),
        }
    }

    /// Takes other lists: each by the index of the file and the list that it is lent with.
    fn with_lists(
        self,
        list: &mut [u32],
        first: impl Fn(&[u32], &[u32]) -> Vec<u32>,
        second: impl Fn(&[u32], &[u32]) -> Vec<u32>,
    ) -> Answer<Built> {
        let index = |listed: Listed| index_of(&listed.rows_in_front(self.versions));
        let first = first(&index(self.first), self.first.list);
        let second = second(&index(self.second), self.second.list);
        let mut other: Asked<'_> = self;
        (other.first.list, other.second.list) = (&first, &second);
        other.right(list)
    }

    /// Told these versions of the two files.
    fn told(self, versions: [Versions; 2], list: &mut [u32]) -> Answer<Built> {
        self.first.checked(versions[0])?;
        self.second.checked(versions[1])?;
        let both = Versions::OneAndTwo;
        Asked {
            versions: both,
            ..self
        }
        .right(list)
    }
}

/// All of them, with what each is wrong about.
fn all_wrong() -> Vec<(String, Wrong)> {
    let about = |what: &str, wrong: &[(&str, Wrong)]| -> Vec<(String, Wrong)> {
        let named = |(fault, wrong): &(&str, Wrong)| (format!("{what}: {fault}"), *wrong);
        wrong.iter().map(named).collect()
    };
    [
        about("entries", &ENTRIES),
        about("counted", &COUNTS),
        about("written", &WRITTEN),
        about("refused", &REFUSALS),
        about("allowed", &VERSIONS),
    ]
    .concat()
}

#[test]
fn each_of_them_is_found() {
    let lines = Generator::new(4).take(10_000);
    let cases: Vec<Option<Case>> = lines.map(|line| Case::parse(line.as_bytes())).collect();
    for (fault, wrong) in all_wrong() {
        let differ = |case: &Option<Case>| match case {
            Some(Case::JoinedIndex {
                first,
                first_list,
                second,
                second_list,
                list,
                versions,
            }) => {
                let listed = |file, list| Listed { file, list };
                let asked = Asked {
                    versions: *versions,
                    first: listed(first, first_list),
                    second: listed(second, second_list),
                };
                let (mut one, mut other) = (list.clone(), list.clone());
                (wrong(asked, &mut one), one) != (asked.right(&mut other), other)
            }
            _ => false,
        };
        assert!(cases.iter().any(differ), "{fault}");
    }
}
