//! The second implementation beside itself, on generated files: the pass beside a recursion, the
//! jump beside reading.

use conformance::generator::{files, random::Random};
use independent::label::Versions;
use independent::refusal::{Reason, Refusal};
use independent::window::{Address, Nesting, Part, Window};
use independent::{label, labelled, row_index};

/// The check once more, as one function that calls itself on each group.
fn check_by_recursion(
    versions: Versions,
    file: &[u8],
    (from, end): (usize, usize),
    left: u8,
) -> Result<u64, Refusal> {
    let mut rows = 0;
    let mut place = from;
    while place < end {
        let at = |reason: Reason| reason.at(place as u64);
        if left == 0 {
            return Err(at(Reason::Deep));
        }
        let label =
            label::read(versions, &file[place..end]).map_err(|refusal| at(refusal.reason))?;
        let value = place + 20;
        // As wide as a length and a place together.
        let value_end = value as u128 + u128::from(label.length);
        if value_end > end as u128 {
            return Err(at(Reason::Overrun));
        }
        let value_end = value_end as usize;
        rows += match label.class {
            b'F' | b'U' | b'Z' => check_by_recursion(versions, file, (value, value_end), left - 1)?,
            _ => 1,
        };
        place = value_end;
    }
    Ok(rows)
}

#[test]
fn the_pass_agrees_with_recursion() {
    let mut random = Random::new(20);
    let mut accepted = 0;
    for _ in 0..4_000 {
        let mut file = files::labelled(&mut random);
        if random.chance(60) {
            files::damage(&mut file, &mut random);
        }
        for versions in [Versions::First, Versions::Both] {
            let all = (0, file.bytes.len());
            let expected = check_by_recursion(versions, &file.bytes, all, 8);
            assert_eq!(labelled::check(versions, &file.bytes), expected);
            accepted += u32::from(expected.is_ok());
        }
    }
    assert!((1_000..6_000).contains(&accepted), "{accepted} accepted");
}

/// What a jump tells of a row that was read, which has all parts of its address.
fn without_depth(mut part: Part<'_>) -> Part<'_> {
    part.address.nesting.take().expect("a known depth");
    part
}

/// The rows of the part of a file between two places, with the place of the outermost object around it:
/// the place of the label, the depth, the outermost place.
fn addresses(
    file: &[u8],
    (mut place, end): (usize, usize),
    around: &[usize],
) -> Vec<(u64, Nesting)> {
    let mut rows = Vec::new();
    while place < end {
        let label = label::read(Versions::Both, &file[place..]).unwrap();
        let value = place + 20;
        let within = [around, &[place]].concat();
        if label.is_group() {
            rows.extend(addresses(
                file,
                (value, value + label.length as usize),
                &within,
            ));
        } else {
            let nesting = Nesting {
                depth: within.len() as u64,
                outermost: within[0] as u64,
            };
            rows.push((place as u64, nesting));
        }
        place = value + label.length as usize;
    }
    rows
}

#[test]
fn addresses_agree_with_recursion() {
    let mut random = Random::new(18);
    let mut depths = [0; 9];
    for _ in 0..1_500 {
        let file = files::labelled(&mut random).bytes;
        if labelled::check(Versions::Both, &file).is_err() {
            continue;
        }
        let rows = addresses(&file, (0, file.len()), &[]);
        for (number, (label, nesting)) in (0..).zip(rows) {
            let row = labelled::read_row(Versions::Both, &file, number, Window::new(0, 0)).unwrap();
            let address = Address {
                label,
                nesting: Some(nesting),
            };
            assert_eq!((row.address, row.place), (address, label + 20));
            depths[nesting.depth as usize] += 1;
        }
    }
    assert!(depths[1..].iter().all(|&rows| rows > 50), "{depths:?}");
}

#[test]
fn a_right_index_gives_what_reading_gives() {
    let mut random = Random::new(16);
    for _ in 0..1_500 {
        let file = files::labelled(&mut random).bytes;
        let Ok(rows) = labelled::check(Versions::Both, &file) else {
            continue;
        };
        let mut list = [0; 64];
        let used = row_index::build(Versions::Both, &file, &mut list)
            .unwrap()
            .entries as usize;
        for number in 0..rows + 2 {
            for window in [Window::new(0, 0), Window::new(1, 2), Window::new(0, 20)] {
                assert_eq!(
                    row_index::jump(Versions::Both, &file, &list[..used], number, window),
                    labelled::read_row(Versions::Both, &file, number, window).map(without_depth)
                );
            }
        }
    }
}

#[test]
fn going_on_from_row_to_row_gives_what_reading_gives() {
    let mut random = Random::new(17);
    for _ in 0..1_500 {
        let file = files::labelled(&mut random).bytes;
        let Ok(rows) = labelled::check(Versions::Both, &file) else {
            continue;
        };
        let mut from = 0;
        for number in 0..rows {
            let part = labelled::row_from(Versions::Both, &file, from).unwrap();
            let whole = Window::new(0, part.bytes.len() as u64);
            assert_eq!(
                labelled::read_row(Versions::Both, &file, number, whole).map(without_depth),
                Ok(part)
            );
            from = part.place + part.bytes.len() as u64;
        }
        assert_eq!(
            labelled::row_from(Versions::Both, &file, from),
            Err(Reason::NoRow.at_start())
        );
    }
}
