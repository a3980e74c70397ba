//! Kept indexes that are read, converted and checked wrongly, each in one way: ten thousand generated
//! cases tell each of them from what is right.

use conformance::generator::Generator;
use conformance::library::{Answer, Convert1To2, INDEPENDENT};
use conformance::{answer, Case, Library};
use crestulbino::{Kept2, Kind, Refusal, Refused, Versions};

const RIGHT: Library = INDEPENDENT;

type Load = fn(&[u8], &mut [u32]) -> Answer<usize>;
type Load2 = fn(&[u8], &mut [u32]) -> Answer<Kept2>;
type To1 = fn(&[u8], &mut [u8]) -> Answer<usize>;
type Check = fn(Versions, &[u8], &[u8]) -> Answer<()>;

/// Readers of kind 1.
const LOADS: [(&str, Load); 2] = [
    ("kind 2 is taken", |kept, list| {
        (RIGHT.load_kept)(&with_kind(kept, [2, 0], [1, 0]), list)
    }),
    ("the kind is its low byte", |kept, list| {
        (RIGHT.load_kept)(&with_kind(kept, [1, 1], [1, 0]), list)
    }),
];

/// Readers of kind 2.
const LOADS_2: [(&str, Load2); 11] = [
    ("the count is behind the entries", |kept, list| {
        (RIGHT.load_kept2)(&last_first(kept), list)
    }),
    ("the count's bytes are exchanged", |kept, list| {
        load_counting(kept, list, |two| (two.rows as u32).swap_bytes() as usize)
    }),
    ("the entries are counted", |kept, list| {
        load_counting(kept, list, |two| two.entries)
    }),
    ("the count has 16 bits", |kept, list| {
        load_counting(kept, list, |two| two.rows % 65_536)
    }),
    ("the count has a sign", |kept, list| {
        load_counting(kept, list, |two| two.rows as u32 as i32 as usize)
    }),
    ("the count is compared with the entries", |kept, list| {
        let (rows, entries) = loaded(kept)?;
        match rows.div_ceil(16) == entries.len() {
            true => (RIGHT.load_kept2)(kept, list),
            false => refused(Refusal::BadKept),
        }
    }),
    ("kind 1 is taken", |kept, list| {
        (RIGHT.load_kept2)(&with_kind(kept, [1, 0], [2, 0]), list)
    }),
    ("the kind is its low byte", |kept, list| {
        (RIGHT.load_kept2)(&with_kind(kept, [2, 1], [2, 0]), list)
    }),
    ("six bytes are a record", |kept, list| {
        (RIGHT.load_kept2)(
            match kept {
                [2, 0, 0, 0, 2, 0] => &[6, 0, 0, 0, 2, 0, 0, 0, 0, 0],
                _ => kept,
            },
            list,
        )
    }),
    ("bytes behind the record are ignored", |kept, list| {
        let length = kept.first_chunk().copied().map(u32::from_le_bytes);
        let end = length.map_or(0, |length| 4 + length as usize);
        (RIGHT.load_kept2)(kept.get(..end).unwrap_or(kept), list)
    }),
    ("the list is written before it is refused", |kept, list| {
        let answer = (RIGHT.load_kept2)(kept, list);
        if let (Err(_), Ok((_, entries))) = (answer, loaded(kept)) {
            list.iter_mut()
                .zip(entries)
                .for_each(|(slot, entry)| *slot = entry);
        }
        answer
    }),
];

/// From kind 1 to kind 2.
const TO_2: [(&str, Convert1To2); 16] = [
    (
        "the count is behind the entries",
        |versions, file, kept, buffer| {
            converting(versions, file, kept, buffer, |record| {
                record[6..].rotate_left(4)
            })
        },
    ),
    (
        "the count's bytes are exchanged",
        |versions, file, kept, buffer| {
            converting(versions, file, kept, buffer, |record| {
                record[6..10].reverse()
            })
        },
    ),
    ("the entries are counted", |versions, file, kept, buffer| {
        converting(versions, file, kept, buffer, |record| {
            record[6] = ((record.len() - 10) / 4) as u8;
        })
    }),
    ("the count is rounded up", |versions, file, kept, buffer| {
        converting(versions, file, kept, buffer, |record| {
            record[6] = (4 * (record.len() - 10)) as u8;
        })
    }),
    ("the count has 8 bits", |versions, file, kept, buffer| {
        converting(versions, file, kept, buffer, |record| record[7..10].fill(0))
    }),
    ("entries have 16 bits", |versions, file, kept, buffer| {
        converting(versions, file, kept, buffer, |record| {
            record[10..]
                .chunks_exact_mut(4)
                .for_each(|entry| entry[2..].fill(0));
        })
    }),
    (
        "the length counts itself",
        |versions, file, kept, buffer| {
            converting(versions, file, kept, buffer, |record| record[0] += 4)
        },
    ),
    ("any list is converted", |versions, file, kept, buffer| {
        let rows = (RIGHT.check)(Kind::Labelled(versions), file)?;
        let mut list = vec![0; kept.len()];
        let entries = (RIGHT.load_kept)(kept, &mut list)?;
        let numbers = [&[rows as u32], &list[..entries]].concat();
        write(&numbers, buffer)
    }),
    (
        "a list with the right number of entries is converted",
        |versions, file, kept, buffer| {
            let rows = (RIGHT.check)(Kind::Labelled(versions), file)?;
            let mut list = vec![0; kept.len()];
            let entries = (RIGHT.load_kept)(kept, &mut list)?;
            match entries == rows.div_ceil(16) {
                true => write(&[&[rows as u32], &list[..entries]].concat(), buffer),
                false => refused(Refusal::BadIndex),
            }
        },
    ),
    ("kind 2 is taken", |versions, file, kept, buffer| {
        let kept = with_kind(kept, [2, 0], [1, 0]);
        (RIGHT.convert_1_to_2)(versions, file, &kept, buffer)
    }),
    ("11 comes before 13", |versions, file, kept, buffer| {
        list_first(versions, file, kept, 6)?;
        (RIGHT.convert_1_to_2)(versions, file, kept, buffer)
    }),
    ("8 comes before 11", |versions, file, kept, buffer| {
        let answer = (RIGHT.convert_1_to_2)(versions, file, kept, buffer);
        match answer {
            Err(why) if why.refusal == Refusal::BadIndex && buffer.len() < kept.len() + 4 => {
                refused(Refusal::Small)
            }
            _ => answer,
        }
    }),
    ("13 comes before faults", |versions, file, kept, buffer| {
        (RIGHT.load_kept)(kept, &mut vec![0; kept.len()])?;
        (RIGHT.convert_1_to_2)(versions, file, kept, buffer)
    }),
    ("8 has written", |versions, file, kept, buffer| {
        let answer = (RIGHT.convert_1_to_2)(versions, file, kept, buffer);
        having_written(answer, Refusal::Small, buffer)
    }),
    ("11 has written", |versions, file, kept, buffer| {
        let answer = (RIGHT.convert_1_to_2)(versions, file, kept, buffer);
        having_written(answer, Refusal::BadIndex, buffer)
    }),
    ("13 has written", |versions, file, kept, buffer| {
        let answer = (RIGHT.convert_1_to_2)(versions, file, kept, buffer);
        having_written(answer, Refusal::BadKept, buffer)
    }),
];

/// From kind 2 to kind 1.
const TO_1: [(&str, To1); 7] = [
    ("the count is behind the entries", |kept, buffer| {
        (RIGHT.convert_2_to_1)(&last_first(kept), buffer)
    }),
    ("kind 1 is taken", |kept, buffer| {
        (RIGHT.convert_2_to_1)(&with_kind(kept, [1, 0], [2, 0]), buffer)
    }),
    ("the kind is its high byte", |kept, buffer| {
        (RIGHT.convert_2_to_1)(&with_kind(kept, [0, 2], [2, 0]), buffer)
    }),
    ("entries have 24 bits", |kept, buffer| {
        let written = (RIGHT.convert_2_to_1)(kept, buffer)?;
        let entries = buffer[6..written].chunks_exact_mut(4);
        entries.for_each(|entry| entry[3] = 0);
        Ok(written)
    }),
    ("the length is that of kind 2", |kept, buffer| {
        let written = (RIGHT.convert_2_to_1)(kept, buffer)?;
        buffer[..4].copy_from_slice(&kept[..4]);
        Ok(written)
    }),
    ("8 has written", |kept, buffer| {
        let answer = (RIGHT.convert_2_to_1)(kept, buffer);
        having_written(answer, Refusal::Small, buffer)
    }),
    ("what is behind is written", |kept, buffer| {
        let written = (RIGHT.convert_2_to_1)(kept, buffer)?;
        buffer[written..].fill(0);
        Ok(written)
    }),
];

/// Checks of kind 2.
const CHECKS: [(&str, Check); 15] = [
    ("the count is behind the entries", |versions, file, kept| {
        (RIGHT.check_kept2)(versions, file, &last_first(kept))
    }),
    ("the count's bytes are exchanged", |versions, file, kept| {
        let is_count = |count: usize, rows| (count as u32).swap_bytes() as usize == rows;
        check_counting(versions, file, kept, is_count)
    }),
    ("the entries are counted", |versions, file, kept| {
        check_counting(versions, file, kept, |count, rows| {
            count == rows.div_ceil(16)
        })
    }),
    ("the count is rounded up", |versions, file, kept| {
        check_counting(versions, file, kept, |count, rows| {
            count == rows.next_multiple_of(16)
        })
    }),
    (
        "the count is one of the last group",
        |versions, file, kept| {
            check_counting(versions, file, kept, |count, rows| {
                count.div_ceil(16) == rows.div_ceil(16)
            })
        },
    ),
    (
        "the count is at least that of the file",
        |versions, file, kept| check_counting(versions, file, kept, |count, rows| count >= rows),
    ),
    (
        "the count is at most that of the file",
        |versions, file, kept| check_counting(versions, file, kept, |count, rows| count <= rows),
    ),
    ("the count has 8 bits", |versions, file, kept| {
        check_counting(versions, file, kept, |count, rows| {
            count % 256 == rows % 256
        })
    }),
    ("the count has 16 bits", |versions, file, kept| {
        check_counting(versions, file, kept, |count, rows| count % 65_536 == rows)
    }),
    ("the list alone is compared", |versions, file, kept| {
        check_counting(versions, file, kept, |_, _| true)
    }),
    ("the count alone is compared", |versions, file, kept| {
        let rows = (RIGHT.check)(Kind::Labelled(versions), file)?;
        match loaded(kept)?.0 == rows {
            true => Ok(()),
            false => refused(Refusal::BadIndex),
        }
    }),
    ("kind 1 is taken", |versions, file, kept| {
        (RIGHT.check_kept2)(versions, file, &with_kind(kept, [1, 0], [2, 0]))
    }),
    ("11 comes before 13", |versions, file, kept| {
        list_first(versions, file, kept, 10)?;
        (RIGHT.check_kept2)(versions, file, kept)
    }),
    ("13 comes before faults", |versions, file, kept| {
        loaded(kept)?;
        (RIGHT.check_kept2)(versions, file, kept)
    }),
    ("version 2 is always allowed", |_, file, kept| {
        (RIGHT.check_kept2)(Versions::OneAndTwo, file, kept)
    }),
];

fn refused<T>(refusal: Refusal) -> Answer<T> {
    Err(Refused { refusal, place: 0 })
}

/// A record with the last number behind its kind as the first one.
fn last_first(kept: &[u8]) -> Vec<u8> {
    let mut kept = kept.to_vec();
    if kept.len() >= 10 {
        kept[6..].rotate_right(4);
    }
    kept
}

/// A record of which one kind is taken for another.
fn with_kind(kept: &[u8], one: [u8; 2], other: [u8; 2]) -> Vec<u8> {
    let mut kept = kept.to_vec();
    if let Some(kind) = kept.get_mut(4..6).filter(|kind| **kind == one) {
        kind.copy_from_slice(&other);
    }
    kept
}

/// What a record of kind 2 holds.
fn loaded(kept: &[u8]) -> Answer<(usize, Vec<u32>)> {
    let mut list = vec![0; kept.len()];
    let Kept2 { rows, entries } = (RIGHT.load_kept2)(kept, &mut list)?;
    list.truncate(entries);
    Ok((rows, list))
}

/// Writes a record of kind 2.
fn write(numbers: &[u32], buffer: &mut [u8]) -> Answer<usize> {
    let numbers = numbers.iter().flat_map(|number| number.to_le_bytes());
    let mut record = vec![0, 0, 0, 0, 2, 0];
    record.extend(numbers);
    record[0] = (record.len() - 4) as u8;
    match buffer.get_mut(..record.len()) {
        Some(front) => front.copy_from_slice(&record),
        None => return refused(Refusal::Small),
    }
    Ok(record.len())
}

/// Reads kind 2 with another count.
fn load_counting(
    kept: &[u8],
    list: &mut [u32],
    count: impl FnOnce(Kept2) -> usize,
) -> Answer<Kept2> {
    let two = (RIGHT.load_kept2)(kept, list)?;
    let rows = count(two);
    Ok(Kept2 { rows, ..two })
}

/// Converts to kind 2, and changes what was written.
fn converting(
    versions: Versions,
    file: &[u8],
    kept: &[u8],
    buffer: &mut [u8],
    change: impl FnOnce(&mut [u8]),
) -> Answer<usize> {
    let written = (RIGHT.convert_1_to_2)(versions, file, kept, buffer)?;
    change(&mut buffer[..written]);
    Ok(written)
}

/// Has changed the front of the buffer where it refuses for this reason.
fn having_written(answer: Answer<usize>, reason: Refusal, buffer: &mut [u8]) -> Answer<usize> {
    if answer.is_err_and(|refused| refused.refusal == reason) {
        let front = buffer.iter_mut().take(6);
        front.for_each(|byte| *byte = !*byte);
    }
    answer
}

/// Checks all but the count, and that in this way.
fn check_counting(
    versions: Versions,
    file: &[u8],
    kept: &[u8],
    is_count: impl FnOnce(usize, usize) -> bool,
) -> Answer<()> {
    let rows = (RIGHT.check)(Kind::Labelled(versions), file)?;
    let (count, list) = loaded(kept)?;
    (RIGHT.check_index)(versions, file, &list)?;
    match is_count(count, rows) {
        true => Ok(()),
        false => refused(Refusal::BadIndex),
    }
}

/// Checks the list of a record before it looks at the record.
fn list_first(versions: Versions, file: &[u8], kept: &[u8], front: usize) -> Answer<()> {
    let entries = kept.get(front..).unwrap_or_default().chunks_exact(4);
    let entry = |four: &[u8]| u32::from_le_bytes(four.try_into().unwrap());
    let list: Vec<u32> = entries.map(entry).collect();
    (RIGHT.check_index)(versions, file, &list)
}

/// All of them, each in a library that is right otherwise.
fn all_wrong() -> Vec<(String, Library)> {
    let loads = LOADS.map(|(fault, load_kept)| {
        let wrong = Library { load_kept, ..RIGHT };
        (format!("load_kept: {fault}"), wrong)
    });
    let loads_2 = LOADS_2.map(|(fault, load_kept2)| {
        let wrong = Library {
            load_kept2,
            ..RIGHT
        };
        (format!("load_kept2: {fault}"), wrong)
    });
    let to_2 = TO_2.map(|(fault, convert_1_to_2)| {
        let wrong = Library {
            convert_1_to_2,
            ..RIGHT
        };
        (format!("convert_1_to_2: {fault}"), wrong)
    });
    let to_1 = TO_1.map(|(fault, convert_2_to_1)| {
        let wrong = Library {
            convert_2_to_1,
            ..RIGHT
        };
        (format!("convert_2_to_1: {fault}"), wrong)
    });
    let checks = CHECKS.map(|(fault, check_kept2)| {
        let wrong = Library {
            check_kept2,
            ..RIGHT
        };
        (format!("check_kept2: {fault}"), wrong)
    });
    let wrong = loads.into_iter().chain(loads_2).chain(to_2);
    wrong.chain(to_1).chain(checks).collect()
}

#[test]
fn each_of_them_is_found() {
    let lines = Generator::new(4).take(10_000);
    let cases: Vec<Option<Case>> = lines.map(|line| Case::parse(line.as_bytes())).collect();
    for (fault, wrong) in all_wrong() {
        let differ = |case: &Case| answer(&RIGHT, case) != answer(&wrong, case);
        let found = cases
            .iter()
            .position(|case| case.as_ref().is_some_and(differ));
        assert!(found.is_some(), "{fault}");
    }
}
