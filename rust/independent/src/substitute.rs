//! Two labelled files, an original and a substitute for it: a row is shown
//! from the substitute where that can be, and from the original otherwise.

use crate::label::Versions;
use crate::labelled::leaves;
use crate::refusal::{Reason, Refusal};
use crate::window::{Part, Row, Window};

/// Which of the two files a row is shown from.
#[derive(Clone, Copy, Debug, PartialEq, Eq)]
pub enum Origin {
    Original,
    Substitute,
}

/// A whole row, and which file it is a part of.
#[derive(Clone, Copy, Debug, PartialEq, Eq)]
pub struct Choice<'a> {
    pub origin: Origin,
    pub part: Part<'a>,
}

/// Shows row `number` whole. The substitute is asked first; if it refuses, its
/// refusal is dropped and the original is asked.
pub fn row<'a>(
    versions: Versions,
    original: &'a [u8],
    substitute: &'a [u8],
    number: u64,
) -> Result<Choice<'a>, Refusal> {
    let in_file = |origin, file| {
        let part = whole_row(versions, file, number)?;
        Ok(Choice { origin, part })
    };
    in_file(Origin::Substitute, substitute).or_else(|_| in_file(Origin::Original, original))
}

/// A row of one file. All rows are listed before any is looked for, so that a
/// file with a fault has none.
fn whole_row(versions: Versions, file: &[u8], number: u64) -> Result<Part<'_>, Refusal> {
    let rows = leaves(versions, file)?.map(|leaf| leaf.map(|leaf| leaf.row));
    let rows: Vec<Row> = rows.collect::<Result<_, Refusal>>()?;
    let number = usize::try_from(number).unwrap_or(usize::MAX);
    let row = *rows.get(number).ok_or(Reason::NoRow.at_start())?;
    Window::new(0, row.length).show(file, row)
}

#[cfg(test)]
mod tests {
    use super::*;
    use crate::labelled;
    use crate::window::{Address, Nesting};

    const FIRST: Versions = Versions::First;
    const BOTH: Versions = Versions::Both;

    /// Three rows, of which the second is empty.
    const THREE: &[u8] = b"NJPL1I00DEMO00000003abcNJPL1I00DEMO00000000NJPL1I00DEMO00000001d";

    /// Two rows in a group.
    const TWO: &[u8] = b"CCSD1Z00000100000045NJPL1I00DEMO00000003xyzNJPL1I00DEMO00000002uv";

    /// What is shown, without the address: which file, the place, the bytes.
    fn shown<'a>(
        versions: Versions,
        original: &'a [u8],
        substitute: &'a [u8],
        number: u64,
    ) -> Result<(Origin, u64, &'a [u8]), Refusal> {
        let choice = row(versions, original, substitute, number)?;
        Ok((choice.origin, choice.part.place, choice.part.bytes))
    }

    #[test]
    fn the_substitute_comes_first() {
        for (number, place, bytes) in [(0, 40, &b"xyz"[..]), (1, 63, b"uv")] {
            let expected = Ok((Origin::Substitute, place, bytes));
            for original in [THREE, TWO, b"", b"x", &THREE[..30]] {
                assert_eq!(shown(FIRST, original, TWO, number), expected);
            }
        }
    }

    #[test]
    fn a_row_that_the_substitute_lacks_is_the_original_s() {
        let last = Ok((Origin::Original, 63, &b"d"[..]));
        for substitute in [TWO, b"", &THREE[..23], &THREE[..43]] {
            assert_eq!(shown(FIRST, THREE, substitute, 2), last);
        }
        let first = Ok((Origin::Original, 20, &b"abc"[..]));
        assert_eq!(shown(FIRST, THREE, b"", 0), first);
        let empty_group = b"CCSD1Z00000100000000";
        assert_eq!(shown(FIRST, THREE, empty_group, 0), first);
    }

    #[test]
    fn an_empty_row_is_a_row() {
        let empty = Ok((Origin::Substitute, 43, &b""[..]));
        assert_eq!(shown(FIRST, TWO, THREE, 1), empty);
        let at_the_end = b"NJPL1I00DEMO00000000";
        let expected = Ok((Origin::Substitute, 20, &b""[..]));
        assert_eq!(shown(FIRST, TWO, at_the_end, 0), expected);
    }

    /// The row is there, but a fault stands behind it.
    #[test]
    fn a_substitute_with_a_late_fault_does_not_serve() {
        let first = Ok((Origin::Original, 20, &b"abc"[..]));
        let late: [&[u8]; 4] = [b"x", b"NJPL1i00DEMO00000000", b"^", b"NJPL1I00DEMO00000001"];
        for fault in late {
            let substitute = [TWO, fault].concat();
            assert_eq!(shown(FIRST, THREE, &substitute, 0), first);
        }
        let in_group = [&TWO[..43], b"x", &TWO[44..]].concat();
        assert_eq!(shown(FIRST, THREE, &in_group, 0), first);
    }

    #[test]
    fn where_neither_serves_the_original_is_refused() {
        let no_row = Err(Reason::NoRow.at_start());
        let short = Err(Reason::Short.at(23));
        let (cut, long) = (&THREE[..30], b"CCSD1Z00000100000021NJPL1I00DEMO00000009x");
        for number in [3, 1 << 32, 1 << 63, u64::MAX] {
            assert_eq!(shown(FIRST, THREE, TWO, number), no_row);
            assert_eq!(shown(FIRST, THREE, cut, number), no_row);
            assert_eq!(shown(FIRST, b"", long, number), no_row);
            assert_eq!(shown(FIRST, cut, TWO, number), short);
        }
        assert_eq!(shown(FIRST, b"", cut, 0), no_row);
        assert_eq!(shown(FIRST, cut, b"", 0), short);
        assert_eq!(shown(FIRST, cut, long, 0), short);
        assert_eq!(
            shown(FIRST, long, cut, 0),
            Err(Reason::Overrun.at(20)),
            "a place of the original"
        );
    }

    /// A row is as it is read in its own file, with the address there.
    #[test]
    fn all_parts_are_those_of_one_file() {
        for (original, substitute) in [(THREE, TWO), (TWO, THREE)] {
            for number in 0..3 {
                let choice = row(FIRST, original, substitute, number).unwrap();
                let file = match choice.origin {
                    Origin::Original => original,
                    Origin::Substitute => substitute,
                };
                let whole = Window::new(0, choice.part.bytes.len() as u64);
                let read = labelled::read_row(FIRST, file, number, whole);
                assert_eq!(read, Ok(choice.part));
                let start = file.as_ptr().wrapping_add(choice.part.place as usize);
                assert_eq!(choice.part.bytes.as_ptr(), start);
            }
        }
        let nesting = Some(Nesting {
            depth: 2,
            outermost: 0,
        });
        let address = Address { label: 43, nesting };
        let second = row(FIRST, THREE, TWO, 1).unwrap();
        assert_eq!(second.part.address, address);
    }

    #[test]
    fn a_file_that_is_its_own_substitute_is_the_substitute() {
        let again = THREE.to_vec();
        for number in 0..3 {
            for substitute in [THREE, &again] {
                let choice = row(FIRST, THREE, substitute, number).unwrap();
                assert_eq!(choice.origin, Origin::Substitute);
            }
        }
    }

    #[test]
    fn the_versions_that_are_taken_decide() {
        let binary = b"NJPL2I00DEMO\0\0\0\0\0\0\0\x02uv";
        let late = [THREE, binary].concat();
        let first = (20, &b"abc"[..]);
        let origin = |versions, original, substitute| {
            let (origin, place, bytes) = shown(versions, original, substitute, 0)?;
            assert_eq!((place, bytes), first);
            Ok(origin)
        };
        assert_eq!(origin(FIRST, THREE, &late), Ok(Origin::Original));
        assert_eq!(origin(BOTH, THREE, &late), Ok(Origin::Substitute));
        assert_eq!(origin(FIRST, &late, THREE), Ok(Origin::Substitute));
        assert_eq!(
            origin(FIRST, &late, binary),
            Err(Reason::BadLabel.at(THREE.len() as u64))
        );
        assert_eq!(origin(BOTH, &late, b"x"), Ok(Origin::Original));
        let uv = Ok((Origin::Substitute, 20, &b"uv"[..]));
        assert_eq!(shown(BOTH, THREE, binary, 0), uv);
    }
}
