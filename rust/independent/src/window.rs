//! Windows into a row, the part of the file a window shows, and the address of
//! a row.

use crate::refusal::{Reason, Refusal};

/// A request for `count` bytes of a row, from its byte `first` on.
#[derive(Clone, Copy, Debug, PartialEq, Eq)]
pub struct Window {
    pub first: u64,
    pub count: u64,
}

/// Depth and outermost place. In a labelled file they are known only to a pass
/// from the first byte.
#[derive(Clone, Copy, Debug, PartialEq, Eq)]
pub struct Nesting {
    /// Outermost objects stand at depth 1, rows without labels at depth 0.
    pub depth: u64,
    /// Where the outermost object around the row begins, which may be the row's
    /// own.
    pub outermost: u64,
}

/// Where a row is found in its file. Both places are those of a label, or of
/// the row's first byte if it has no label.
#[derive(Clone, Copy, Debug, PartialEq, Eq)]
pub struct Address {
    pub label: u64,
    pub nesting: Option<Nesting>,
}

/// Where the bytes of a row stand in its file, and its address there.
#[derive(Clone, Copy, Debug, PartialEq, Eq)]
pub struct Row {
    pub start: u64,
    pub length: u64,
    pub address: Address,
}

/// The answer to a window: borrowed bytes of the file, where they begin, and
/// the address of the row that they are of.
#[derive(Clone, Copy, Debug, PartialEq, Eq)]
pub struct Part<'a> {
    pub place: u64,
    pub bytes: &'a [u8],
    pub address: Address,
}

/// Text in a row: borrowed bytes of the file and where they begin. It is no
/// row, so it has no address.
#[derive(Clone, Copy, Debug, PartialEq, Eq)]
pub struct Text<'a> {
    pub place: u64,
    pub bytes: &'a [u8],
}

impl Row {
    /// A row of a file without labels.
    pub(crate) fn unlabelled(start: u64, length: u64) -> Self {
        let nesting = Nesting {
            depth: 0,
            outermost: start,
        };
        let address = Address {
            label: start,
            nesting: Some(nesting),
        };
        Row {
            start,
            length,
            address,
        }
    }
}

impl Window {
    pub fn new(first: u64, count: u64) -> Self {
        Window { first, count }
    }

    /// Whether the window lies within a row of `length` bytes.
    pub fn fits(self, length: u64) -> bool {
        self.first <= length && self.count <= length - self.first
    }

    /// Shows this window of a row that lies wholly inside `file`.
    pub(crate) fn show(self, file: &[u8], row: Row) -> Result<Part<'_>, Refusal> {
        if !self.fits(row.length) {
            return Err(Reason::NoPart.at_start());
        }
        // Both sums stay inside the file, because the window fits the row.
        let place = row.start + self.first;
        let bytes = &file[place as usize..(place + self.count) as usize];
        Ok(Part {
            place,
            bytes,
            address: row.address,
        })
    }
}

#[cfg(test)]
mod tests {
    use super::*;

    #[test]
    fn windows_fit_up_to_the_end_of_the_row() {
        assert!(Window::new(0, 3).fits(3));
        assert!(Window::new(3, 0).fits(3));
        assert!(Window::new(0, 0).fits(0));
        assert!(!Window::new(3, 1).fits(3));
        assert!(!Window::new(4, 0).fits(3));
        assert!(!Window::new(0, 1).fits(0));
    }

    #[test]
    fn sums_that_would_wrap_do_not_fit() {
        assert!(!Window::new(u64::MAX, 4).fits(3));
        assert!(!Window::new(3, u64::MAX).fits(3));
        assert!(!Window::new(1, u64::MAX).fits(3));
        assert!(!Window::new(u64::MAX, u64::MAX).fits(3));
    }

    #[test]
    fn an_empty_window_still_has_a_place() {
        let row = Row::unlabelled(2, 3);
        let part = Window::new(3, 0).show(b"..abc", row).unwrap();
        assert_eq!((part.place, part.bytes), (5, &b""[..]));
    }

    #[test]
    fn a_row_without_labels_is_found_at_its_first_byte() {
        let nesting = Some(Nesting {
            depth: 0,
            outermost: 2,
        });
        let address = Address { label: 2, nesting };
        assert_eq!(Row::unlabelled(2, 3).address, address);
    }

    #[test]
    fn a_window_moves_the_place_and_not_the_address() {
        let nested = Some(Nesting {
            depth: 3,
            outermost: 7,
        });
        for nesting in [nested, None] {
            let address = Address { label: 9, nesting };
            let row = Row {
                start: 2,
                length: 3,
                address,
            };
            for (first, count) in [(0, 3), (0, 0), (1, 2), (2, 1), (3, 0)] {
                let part = Window::new(first, count).show(b"..abc", row).unwrap();
                assert_eq!((part.place, part.address), (2 + first, address));
            }
        }
    }
}
