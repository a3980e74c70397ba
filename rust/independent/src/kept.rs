//! The stored forms of an index: a length, a kind and the entries, in kind 2
//! with the row count in front of them, all with their lowest byte first.

use crate::label::Versions;
use crate::labelled;
use crate::refusal::{Reason, Refusal};
use crate::row_index;

/// The kind number of an index alone.
const ALONE: u16 = 1;

/// The kind number of an index with the row count.
const COUNTED: u16 = 2;

/// Bytes in front of the entries, or of the row count.
const FRONT_BYTES: u64 = 6;

/// Bytes of the length field, which does not count itself.
const LENGTH_BYTES: u64 = 4;

/// Bytes of an entry, and of the row count.
const NUMBER_BYTES: u64 = 4;

/// With more entries the length field would overflow.
const MOST_ENTRIES: u64 = 1_073_741_823;

/// What the reader of an index with the row count answers.
#[derive(Clone, Copy, Debug, PartialEq, Eq)]
pub struct Loaded {
    pub rows: u64,
    pub entries: u64,
}

/// Writes the stored form of `list` to the front of `buffer` and answers its
/// size.
pub fn keep(list: &[u32], buffer: &mut [u8]) -> Result<u64, Refusal> {
    if list.len() as u64 > MOST_ENTRIES {
        return Err(Reason::TooBig.at_start());
    }
    write(ALONE, list.iter().copied(), buffer)
}

/// Reads a stored index into the front of `list` and answers how many entries
/// it has.
pub fn load(bytes: &[u8], list: &mut [u32]) -> Result<u64, Refusal> {
    fill(list, alone(bytes)?)
}

/// Reads a stored index with the row count into the front of `list`, and answers
/// that count and how many entries it has. Nothing compares the two.
pub fn load_counted(bytes: &[u8], list: &mut [u32]) -> Result<Loaded, Refusal> {
    let (rows, entries) = counted(bytes)?;
    let entries = fill(list, entries)?;
    let rows = u64::from(rows);
    Ok(Loaded { rows, entries })
}

/// Writes the stored index of a file once more, with the row count, to the front
/// of `buffer` and answers its size.
pub fn add_count(
    versions: Versions,
    file: &[u8],
    kept: &[u8],
    buffer: &mut [u8],
) -> Result<u64, Refusal> {
    let rows = labelled::check(versions, file)?;
    let list: Vec<u32> = alone(kept)?.collect();
    row_index::check(versions, file, &list)?;
    // There are fewer rows than bytes, and these are counted in 32 bits.
    let numbers = [&[rows as u32], &list[..]].concat();
    write(COUNTED, numbers.into_iter(), buffer)
}

/// Writes a stored index once more, without the row count, to the front of
/// `buffer` and answers its size.
pub fn drop_count(kept: &[u8], buffer: &mut [u8]) -> Result<u64, Refusal> {
    let (_, entries) = counted(kept)?;
    write(ALONE, entries, buffer)
}

/// Accepts a stored index whose list is exactly the index of an accepted file,
/// with the row count of that file.
pub fn check_counted(versions: Versions, file: &[u8], kept: &[u8]) -> Result<(), Refusal> {
    let rows = labelled::check(versions, file)?;
    let (kept_rows, entries) = counted(kept)?;
    let list: Vec<u32> = entries.collect();
    row_index::check(versions, file, &list)?;
    if u64::from(kept_rows) == rows {
        Ok(())
    } else {
        Err(Reason::BadIndex.at_start())
    }
}

/// The entries of a stored index alone.
fn alone(bytes: &[u8]) -> Result<impl ExactSizeIterator<Item = u32> + '_, Refusal> {
    numbers(ALONE, bytes).ok_or(Reason::BadKept.at_start())
}

/// The row count and the entries of a stored index with both.
fn counted(bytes: &[u8]) -> Result<(u32, impl ExactSizeIterator<Item = u32> + '_), Refusal> {
    let rows_and_entries =
        numbers(COUNTED, bytes).and_then(|mut numbers| numbers.next().map(|rows| (rows, numbers)));
    rows_and_entries.ok_or(Reason::BadKept.at_start())
}

/// The numbers behind the kind of a well-formed record of this kind.
fn numbers(kind: u16, bytes: &[u8]) -> Option<impl ExactSizeIterator<Item = u32> + '_> {
    let (front, behind) = bytes.split_at_checked(FRONT_BYTES as usize)?;
    let length = u32::from_le_bytes([front[0], front[1], front[2], front[3]]);
    let well_formed = u64::from(length) == bytes.len() as u64 - LENGTH_BYTES
        && u16::from_le_bytes([front[4], front[5]]) == kind
        && (behind.len() as u64).is_multiple_of(NUMBER_BYTES);
    let numbers = behind.chunks_exact(NUMBER_BYTES as usize);
    let numbers = numbers.map(|four| u32::from_le_bytes([four[0], four[1], four[2], four[3]]));
    well_formed.then_some(numbers)
}

/// Writes entries to the front of `list` and answers how many.
fn fill(list: &mut [u32], entries: impl ExactSizeIterator<Item = u32>) -> Result<u64, Refusal> {
    let count = entries.len();
    if list.len() < count {
        return Err(Reason::Small.at_start());
    }
    for (slot, entry) in list.iter_mut().zip(entries) {
        *slot = entry;
    }
    Ok(count as u64)
}

/// Writes a record to the front of `buffer` and answers its size.
fn write(
    kind: u16,
    numbers: impl ExactSizeIterator<Item = u32>,
    buffer: &mut [u8],
) -> Result<u64, Refusal> {
    let size = record_size(numbers.len() as u64);
    if (buffer.len() as u64) < size {
        return Err(Reason::Small.at_start());
    }
    let length = (size - LENGTH_BYTES) as u32;
    let bytes = length
        .to_le_bytes()
        .into_iter()
        .chain(kind.to_le_bytes())
        .chain(numbers.flat_map(u32::to_le_bytes));
    for (slot, byte) in buffer.iter_mut().zip(bytes) {
        *slot = byte;
    }
    Ok(size)
}

/// How many bytes a record of so many numbers takes.
fn record_size(numbers: u64) -> u64 {
    FRONT_BYTES + numbers * NUMBER_BYTES
}

#[cfg(test)]
mod tests {
    use super::*;

    #[test]
    fn writes_lowest_bytes_first() {
        let mut buffer = [0xaa; 16];
        assert_eq!(keep(&[20, 0x0102_0304], &mut buffer), Ok(14));
        assert_eq!(
            buffer,
            [10, 0, 0, 0, 1, 0, 20, 0, 0, 0, 4, 3, 2, 1, 0xaa, 0xaa]
        );
        assert_eq!(keep(&[], &mut buffer), Ok(6));
        assert_eq!(buffer[..7], [2, 0, 0, 0, 1, 0, 20]);
    }

    #[test]
    fn a_short_buffer_is_left_alone() {
        let mut buffer = [0xaa; 9];
        assert_eq!(keep(&[20], &mut buffer), Err(Reason::Small.at_start()));
        assert_eq!(buffer, [0xaa; 9]);
    }

    #[test]
    fn reads_back_what_was_written() {
        for list in [&[][..], &[20], &[0, u32::MAX, 65_536]] {
            let mut buffer = [0; 18];
            let size = keep(list, &mut buffer).unwrap() as usize;
            let mut back = [9; 4];
            assert_eq!(load(&buffer[..size], &mut back), Ok(list.len() as u64));
            assert_eq!(&back[..list.len()], list);
            assert!(back[list.len()..].iter().all(|&entry| entry == 9));
            if !list.is_empty() {
                let mut short = vec![9; list.len() - 1];
                let answer = load(&buffer[..size], &mut short);
                assert_eq!(answer, Err(Reason::Small.at_start()));
                assert!(short.iter().all(|&entry| entry == 9));
            }
        }
    }

    #[test]
    fn refuses_what_is_no_kept_index() {
        let bad: [&[u8]; 9] = [
            &[],
            &[1, 0, 0, 0, 1],
            &[1, 0, 0, 0, 1, 0],
            &[3, 0, 0, 0, 1, 0],
            &[2, 0, 0, 0, 0, 0],
            &[2, 0, 0, 0, 1, 1],
            &[2, 0, 0, 0, 1, 0, 0],
            &[2, 0, 0, 1, 1, 0],
            &[5, 0, 0, 0, 1, 0, 9, 9, 9],
        ];
        for bytes in bad {
            assert_eq!(load(bytes, &mut []), Err(Reason::BadKept.at_start()));
        }
        assert_eq!(load(&[2, 0, 0, 0, 1, 0], &mut []), Ok(0));
    }

    #[test]
    fn the_most_entries_just_fit_the_length_field() {
        let length = |entries| record_size(entries) - LENGTH_BYTES;
        assert_eq!(length(MOST_ENTRIES), u64::from(u32::MAX) - 1);
        assert!(length(MOST_ENTRIES + 1) > u64::from(u32::MAX));
    }

    const FIRST: Versions = Versions::First;
    const BOTH: Versions = Versions::Both;

    const BAD: Result<u64, Refusal> = Err(Refusal {
        reason: Reason::BadKept,
        place: 0,
    });

    /// So many empty rows, the last one of version 2.
    fn file(rows: usize) -> Vec<u8> {
        let mut file = b"NJPL1I00DEMO00000000".repeat(rows);
        if let Some(last) = file.last_chunk_mut::<20>() {
            *last = *b"NJPL2I00DEMO\0\0\0\0\0\0\0\0";
        }
        file
    }

    /// The stored index of a file of so many empty rows.
    fn kept(rows: usize) -> Vec<u8> {
        let list: Vec<u32> = (0..rows as u32).step_by(16).map(|row| 20 * row).collect();
        let mut buffer = vec![0; 6 + 4 * list.len()];
        assert_eq!(keep(&list, &mut buffer), Ok(buffer.len() as u64));
        buffer
    }

    #[test]
    fn the_row_count_stands_in_front_of_the_entries() {
        let mut buffer = [0xaa; 19];
        assert_eq!(add_count(BOTH, &file(17), &kept(17), &mut buffer), Ok(18));
        assert_eq!(
            buffer,
            [14, 0, 0, 0, 2, 0, 17, 0, 0, 0, 0, 0, 0, 0, 64, 1, 0, 0, 0xaa]
        );
        let mut list = [9; 3];
        let (rows, entries) = (17, 2);
        assert_eq!(
            load_counted(&buffer[..18], &mut list),
            Ok(Loaded { rows, entries })
        );
        assert_eq!(list, [0, 320, 9]);
    }

    #[test]
    fn there_and_back_gives_the_same_bytes() {
        for rows in [0, 1, 15, 16, 17, 31, 32, 33, 255, 256, 257, 300] {
            let (file, kept) = (file(rows), kept(rows));
            let mut counted = vec![0; kept.len() + 4];
            let size = counted.len() as u64;
            assert_eq!(add_count(BOTH, &file, &kept, &mut counted), Ok(size));
            assert_eq!(check_counted(BOTH, &file, &counted), Ok(()));
            let mut list = vec![0; rows];
            let loaded = load_counted(&counted, &mut list).unwrap();
            assert_eq!(loaded.rows, rows as u64);
            assert_eq!(loaded.entries, rows.div_ceil(16) as u64);
            let mut back = vec![0; kept.len()];
            assert_eq!(drop_count(&counted, &mut back), Ok(size - 4));
            assert_eq!(back, kept);
        }
    }

    #[test]
    fn any_count_is_read() {
        let mut list = [9; 1];
        for rows in [0, 1, 17, 65_536, 0x0403_0201, u32::MAX] {
            let mut bytes = [6, 0, 0, 0, 2, 0, 0, 0, 0, 0];
            bytes[6..].copy_from_slice(&rows.to_le_bytes());
            let loaded = load_counted(&bytes, &mut []).unwrap();
            assert_eq!((loaded.rows, loaded.entries), (rows.into(), 0));
            assert_eq!(drop_count(&bytes, &mut [0; 6]), Ok(6));
        }
        let one = [10, 0, 0, 0, 2, 0, 0, 0, 0, 0, 1, 2, 3, 4];
        let loaded = load_counted(&one, &mut list).unwrap();
        assert_eq!((loaded.rows, loaded.entries), (0, 1));
        assert_eq!(list, [0x0403_0201]);
    }

    #[test]
    fn each_reader_refuses_the_other_kind() {
        let alone = [6, 0, 0, 0, 1, 0, 20, 0, 0, 0];
        let counted = [6, 0, 0, 0, 2, 0, 20, 0, 0, 0];
        let row = b"NJPL1I00DEMO00000000";
        let mut list = [9; 1];
        assert_eq!(load(&alone, &mut list), Ok(1));
        assert_eq!(load(&counted, &mut list), BAD);
        assert_eq!(load_counted(&alone, &mut list).map(|two| two.rows), BAD);
        assert_eq!(
            load_counted(&counted, &mut list).map(|two| two.rows),
            Ok(20)
        );
        let mut buffer = [9; 14];
        assert_eq!(drop_count(&alone, &mut buffer), BAD);
        assert_eq!(add_count(FIRST, row, &counted, &mut buffer), BAD);
        assert_eq!(check_counted(FIRST, row, &alone).map(|()| 0), BAD);
        assert_eq!(buffer, [9; 14]);
    }

    #[test]
    fn refuses_what_is_no_counted_index() {
        let right = [10, 0, 0, 0, 2, 0, 1, 0, 0, 0, 0, 0, 0, 0];
        let row = b"NJPL1I00DEMO00000000";
        assert_eq!(check_counted(FIRST, row, &right), Ok(()));
        let mut bad: Vec<Vec<u8>> = (0..14).map(|size| right[..size].to_vec()).collect();
        // Fewer than ten bytes, and parts of an entry, with their own length.
        for size in [6, 7, 8, 9, 11, 12, 13] {
            let mut bytes = right[..size].to_vec();
            bytes[0] = size as u8 - 4;
            bad.push(bytes);
        }
        bad.push([&right[..], &[0]].concat());
        bad.push([&right[..], &[0; 4]].concat());
        for (place, byte) in [
            (0, 9),
            (0, 11),
            (0, 14),
            (3, 1),
            (4, 0),
            (4, 3),
            (5, 1),
            (5, 2),
        ] {
            let mut bytes = right.to_vec();
            bytes[place] = byte;
            bad.push(bytes);
        }
        for bytes in bad {
            assert_eq!(load_counted(&bytes, &mut []).map(|two| two.rows), BAD);
            assert_eq!(drop_count(&bytes, &mut []), BAD);
            assert_eq!(check_counted(FIRST, row, &bytes).map(|()| 0), BAD);
        }
    }

    #[test]
    fn a_list_or_a_count_of_no_such_file() {
        let (file, kept) = (file(17), kept(17));
        let mut right = vec![0; 18];
        add_count(BOTH, &file, &kept, &mut right).unwrap();
        let refused = Reason::BadIndex.at_start();
        let mut buffer = [9; 18];
        // Each byte of the entries, of the count, and an entry less or more.
        for place in 6..14 {
            let mut wrong = kept.clone();
            wrong[place] ^= 1;
            assert_eq!(add_count(BOTH, &file, &wrong, &mut buffer), Err(refused));
            assert_eq!(add_count(BOTH, &file, &wrong, &mut []), Err(refused));
        }
        for place in 6..18 {
            let mut wrong = right.clone();
            wrong[place] ^= 1;
            assert_eq!(check_counted(BOTH, &file, &wrong), Err(refused));
        }
        for list in [&[][..], &[0], &[0, 320, 340], &[320, 0]] {
            let mut wrong = vec![0; 6 + 4 * list.len()];
            keep(list, &mut wrong).unwrap();
            assert_eq!(add_count(BOTH, &file, &wrong, &mut buffer), Err(refused));
        }
        assert_eq!(buffer, [9; 18]);
    }

    #[test]
    fn a_fault_of_the_file_comes_first_and_room_last() {
        let (good, kept) = (file(17), kept(17));
        let fault = Reason::BadLabel.at(320);
        let mut buffer = [9; 17];
        for kept in [&kept[..], &kept[..9], &[]] {
            assert_eq!(add_count(FIRST, &good, kept, &mut buffer), Err(fault));
            assert_eq!(add_count(FIRST, &good, kept, &mut []), Err(fault));
            assert_eq!(check_counted(FIRST, &good, kept), Err(fault));
        }
        let small = Err(Reason::Small.at_start());
        assert_eq!(add_count(BOTH, &good, &kept, &mut buffer), small);
        assert_eq!(add_count(BOTH, &good, &kept[..9], &mut buffer), BAD);
        let counted = [10, 0, 0, 0, 2, 0, 1, 0, 0, 0, 0, 0, 0, 0];
        assert_eq!(drop_count(&counted, &mut buffer[..9]), small);
        assert_eq!(buffer, [9; 17]);
        let mut list = [9; 0];
        assert_eq!(load_counted(&counted, &mut list).map(|two| two.rows), small);
    }
}
