//! The comparison: both sides answer the cases of a seed, up to the first difference, which is
//! made smaller before it is shown.

use crate::generator::Generator;
use crate::{answer, Case, Library};
use std::fmt;
use std::time::{Duration, Instant};

/// How long smaller cases are tried for a difference.
const TRIAL_TIME: Duration = Duration::from_secs(10);

/// Longer lines are cut when they are shown.
const SHOWN: usize = 1_200;

/// Two implementations to be compared, each with its name.
#[derive(Clone, Copy, Debug)]
pub struct Sides<'a> {
    /// The first one.
    pub left: (&'a str, &'a Library),
    /// The other one.
    pub right: (&'a str, &'a Library),
}

/// A case that the two sides answer differently.
#[derive(Clone, Debug, PartialEq, Eq)]
pub struct Difference {
    /// The case's number in its seed's stream; the first is 1.
    pub number: usize,
    /// The case, as small as it could be made.
    pub case: Case,
    /// Each side's name and answer.
    pub answers: [(String, String); 2],
}

impl Sides<'_> {
    /// Compares the answers to the first `count` lines of a seed's stream. `progress` is told how
    /// many were compared, after each of them.
    pub fn first_difference(
        &self,
        seed: u64,
        count: usize,
        mut progress: impl FnMut(usize),
    ) -> Option<Difference> {
        for (line, number) in Generator::new(seed).take(count).zip(1..) {
            // A line that is no case is answered alike: the language is the same for both.
            let case = Case::parse(line.as_bytes());
            if let Some(case) = case.filter(|case| self.differ(case)) {
                return Some(self.difference(number, case));
            }
            progress(number);
        }
        None
    }

    fn differ(&self, case: &Case) -> bool {
        answer(self.left.1, case) != answer(self.right.1, case)
    }

    fn difference(&self, number: usize, case: Case) -> Difference {
        let case = self.smallest(case);
        let of = |(name, library): (&str, &Library)| (name.to_string(), answer(library, &case));
        let answers = [of(self.left), of(self.right)];
        Difference {
            number,
            case,
            answers,
        }
    }

    /// Makes a case smaller until nothing more can be taken from it, or it took too long.
    fn smallest(&self, mut case: Case) -> Case {
        let begun = Instant::now();
        loop {
            let before = case.clone();
            let done = case
                .shrink(&mut |trial| (begun.elapsed() < TRIAL_TIME).then(|| self.differ(trial)));
            if done.is_none() || case == before {
                return case;
            }
        }
    }
}

impl fmt::Display for Difference {
    fn fmt(&self, f: &mut fmt::Formatter<'_>) -> fmt::Result {
        writeln!(f, "number: {}", self.number)?;
        writeln!(f, "case: {}", cut(&self.case.to_string()))?;
        for (name, answer) in &self.answers {
            writeln!(f, "{name}: {}", cut(answer))?;
        }
        Ok(())
    }
}

fn cut(line: &str) -> String {
    match line.char_indices().nth(SHOWN) {
        Some((end, _)) => format!("{} .. ({} bytes in all)", &line[..end], line.len()),
        None => line.to_string(),
    }
}

#[cfg(test)]
mod tests {
    use super::*;
    use crate::library::{
        Answer, Behind, JoinedIndex, JumpLabelled, Strip, SubstituteRow, INDEPENDENT,
    };
    use crestulbino::{
        line_bytes, Beams, Field, Kind, Nesting, Refusal, Refused, Row, Versions, Window,
    };

    fn compared_with(wrong: Library) -> Option<Difference> {
        let sides = Sides {
            left: ("right", &INDEPENDENT),
            right: ("wrong", &wrong),
        };
        sides.first_difference(3, 10_000, |_| {})
    }

    #[test]
    fn a_library_does_not_differ_from_itself() {
        assert_eq!(compared_with(INDEPENDENT), None);
    }

    #[test]
    fn a_wrong_number_is_found_and_named() {
        let wrong = Library {
            sample: |byte| (INDEPENDENT.sample)(byte) + i64::from(byte >= 77),
            ..INDEPENDENT
        };
        let found = compared_with(wrong).unwrap();
        assert_eq!(found.case.to_string(), "sample 77");
        assert_eq!(
            found.to_string(),
            format!(
                "number: {}\ncase: sample 77\nright: ok -101\nwrong: ok -100\n",
                found.number
            )
        );
    }

    /// A reader that goes wrong behind the first group of rows.
    #[test]
    fn a_file_is_made_as_small_as_the_fault_allows() {
        fn wrong(kind: Kind, file: &[u8]) -> Result<usize, Refused> {
            let rows = (INDEPENDENT.check)(kind, file)?;
            Ok(match kind {
                Kind::Labelled(_) => rows.min(3),
                Kind::Waveform | Kind::Bursts(_) => rows,
            })
        }
        let found = compared_with(Library {
            check: wrong,
            ..INDEPENDENT
        })
        .unwrap();
        let Case::CheckLabelled { file, versions } = found.case.clone() else {
            panic!("{found}");
        };
        assert_eq!((INDEPENDENT.check)(Kind::Labelled(versions), &file), Ok(4));
        assert!(file.len() < 6 * 20, "{found}");
    }

    /// Readers that are right about the bytes of a row and wrong about its address.
    #[test]
    fn a_wrong_address_is_found() {
        type Reader = fn(Kind, &[u8], usize, Window) -> Answer<Row<'_>>;
        fn with(
            row: Answer<Row<'_>>,
            change: impl FnOnce(&mut Row<'_>, &mut Nesting),
        ) -> Answer<Row<'_>> {
            row.map(|mut row| {
                if let Some(mut nesting) = row.address.nesting {
                    change(&mut row, &mut nesting);
                    row.address.nesting = Some(nesting);
                }
                row
            })
        }
        let wrong: [Reader; 5] = [
            |kind, file, row, window| {
                with((INDEPENDENT.read_row)(kind, file, row, window), |_, n| {
                    n.depth = n.depth.min(7)
                })
            },
            |kind, file, row, window| {
                with((INDEPENDENT.read_row)(kind, file, row, window), |_, n| {
                    n.depth = n.depth.min(1)
                })
            },
            |kind, file, row, window| {
                with((INDEPENDENT.read_row)(kind, file, row, window), |_, n| {
                    n.outermost = 0
                })
            },
            |kind, file, row, window| {
                with((INDEPENDENT.read_row)(kind, file, row, window), |row, n| {
                    n.outermost = row.address.label
                })
            },
            |kind, file, row, window| {
                with((INDEPENDENT.read_row)(kind, file, row, window), |row, _| {
                    row.address.label += window.first
                })
            },
        ];
        for read_row in wrong {
            let found = compared_with(Library {
                read_row,
                ..INDEPENDENT
            });
            assert!(found.is_some());
        }
        let jump_labelled: JumpLabelled = |versions, file, list, row, window| {
            let mut row = (INDEPENDENT.jump_labelled)(versions, file, list, row, window)?;
            row.address.nesting = Some(Nesting {
                depth: 1,
                outermost: row.address.label,
            });
            Ok(row)
        };
        let found = compared_with(Library {
            jump_labelled,
            ..INDEPENDENT
        });
        assert!(found.is_some());
    }

    /// A reader that is wrong about labels of version 2 only.
    #[test]
    fn a_fault_of_version_2_is_found() {
        fn wrong(kind: Kind, file: &[u8]) -> Result<usize, Refused> {
            let is_wrong = |refused: &Refused| {
                let version = file.get(refused.place + 4);
                refused.refusal == Refusal::Overrun && version == Some(&b'2')
            };
            (INDEPENDENT.check)(kind, file).or_else(|refused| match is_wrong(&refused) {
                true => Ok(0),
                false => Err(refused),
            })
        }
        let found = compared_with(Library {
            check: wrong,
            ..INDEPENDENT
        })
        .unwrap();
        let Case::CheckLabelled { file, versions } = &found.case else {
            panic!("{found}");
        };
        assert_eq!((file.len(), file[4]), (20, b'2'), "{found}");
        assert_eq!(*versions, Versions::OneAndTwo, "{found}");
    }

    #[test]
    fn places_are_made_small_too() {
        fn wrong(kind: Kind, file: &[u8], from: usize) -> Result<Row<'_>, Refused> {
            (INDEPENDENT.row_from)(kind, file, from).map_err(|refused| match kind {
                Kind::Waveform if refused.refusal == Refusal::NoRow && from > 9 => Refused {
                    place: from,
                    ..refused
                },
                _ => refused,
            })
        }
        let found = compared_with(Library {
            row_from: wrong,
            ..INDEPENDENT
        })
        .unwrap();
        assert_eq!(found.case.to_string(), "row_from waveform - 10");
    }

    /// A row that is shown from the original where both files serve: both are made small.
    #[test]
    fn both_files_are_made_small() {
        let substitute_row: SubstituteRow = |versions, original, substitute, row| {
            let chosen = (INDEPENDENT.substitute_row)(versions, original, &[], row);
            chosen.or_else(|_| (INDEPENDENT.substitute_row)(versions, original, substitute, row))
        };
        let found = compared_with(Library {
            substitute_row,
            ..INDEPENDENT
        })
        .unwrap();
        let Case::SubstituteRow {
            original,
            substitute,
            row,
            versions,
        } = &found.case
        else {
            panic!("{found}");
        };
        for file in [original, substitute] {
            let rows = (INDEPENDENT.check)(Kind::Labelled(*versions), file);
            assert_eq!((rows, *row), (Ok(1), 0), "{found}");
        }
    }

    /// Refused for the room before the lists: files and lists are made small.
    #[test]
    fn files_with_their_lists_are_made_small() {
        let joined_index: JoinedIndex = |versions, first, one, second, two, list| {
            let rows = |file| (INDEPENDENT.check)(Kind::Labelled(versions), file);
            match (rows(first), rows(second)) {
                (Ok(rows), Ok(more)) if (rows + more).div_ceil(16) > list.len() => Err(Refused {
                    refusal: Refusal::Small,
                    place: 0,
                }),
                _ => (INDEPENDENT.joined_index)(versions, first, one, second, two, list),
            }
        };
        let found = compared_with(Library {
            joined_index,
            ..INDEPENDENT
        })
        .unwrap();
        let Case::JoinedIndex {
            first,
            first_list,
            second,
            second_list,
            list,
            versions,
        } = &found.case
        else {
            panic!("{found}");
        };
        let rows = |file| (INDEPENDENT.check)(Kind::Labelled(*versions), file).unwrap();
        assert_eq!((rows(first) + rows(second), list.len()), (1, 0), "{found}");
        assert!(first_list.len() + second_list.len() < 2, "{found}");
    }

    /// Bits behind the last column that are set: what is left is a row of one byte.
    #[test]
    fn strips_are_made_small() {
        let strip: Strip = |kind, file, row, rows, window, buffer| {
            let drawn = (INDEPENDENT.strip)(kind, file, row, rows, window, buffer)?;
            let unused = 8 * line_bytes(window.count) - window.count;
            let bytes = buffer[..drawn].chunks_mut(line_bytes(window.count).max(1));
            let lasts = bytes.filter_map(|line| line.last_mut());
            lasts.for_each(|byte| *byte |= !(0xff << unused));
            Ok(drawn)
        };
        let found = compared_with(Library {
            strip,
            ..INDEPENDENT
        })
        .unwrap();
        let Case::Strip {
            row,
            rows,
            window,
            buffer,
            ..
        } = &found.case
        else {
            panic!("{found}");
        };
        assert_eq!((*row, *rows, buffer.len()), (0, 1, 1), "{found}");
        assert_eq!((window.first, window.count), (0, 1), "{found}");
    }

    /// A column outside of the window that is told as a missing row.
    #[test]
    fn places_of_dots_are_made_small() {
        let behind: Behind = |kind, file, row, window, column, line| {
            let dot = (INDEPENDENT.behind)(kind, file, row, window, column, line);
            dot.map_err(|refused| match column < window.count {
                true => refused,
                false => Refused {
                    refusal: Refusal::NoRow,
                    ..refused
                },
            })
        };
        let found = compared_with(Library {
            behind,
            ..INDEPENDENT
        })
        .unwrap();
        let Case::Behind {
            row,
            window,
            column,
            line,
            ..
        } = &found.case
        else {
            panic!("{found}");
        };
        assert_eq!((*row, *column, *line), (0, 0, 0), "{found}");
        assert_eq!((window.first, window.count), (0, 0), "{found}");
    }

    #[test]
    fn faults_of_bursts_are_found() {
        fn other_order(file: &[u8], start: usize, row: usize, at: u64) -> Answer<Field<'_>> {
            let field = (INDEPENDENT.burst_field)(file, start, row, at)?;
            Ok(match field {
                Field::Unsigned(number) if at == 251 => {
                    Field::Unsigned((number as u32).swap_bytes().into())
                }
                other => other,
            })
        }
        let found = compared_with(Library {
            burst_field: other_order,
            ..INDEPENDENT
        })
        .unwrap();
        assert!(found.case.to_string().ends_with(" 251"), "{found}");
        let found = compared_with(Library {
            beams: |mask| match mask {
                32 => Beams::Inside(1),
                _ => (INDEPENDENT.beams)(mask),
            },
            ..INDEPENDENT
        })
        .unwrap();
        assert_eq!(found.case.to_string(), "beams 32");
    }

    #[test]
    fn long_lines_are_cut() {
        assert_eq!(cut("sample 1"), "sample 1");
        let long = cut(&"x".repeat(2_000));
        assert!(long.ends_with("x .. (2000 bytes in all)"));
    }
}
