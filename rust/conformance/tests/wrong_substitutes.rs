//! Rows of an original or of its substitute that are shown wrongly, each in one way: ten thousand
//! generated cases tell each of them from what is right.

use conformance::generator::Generator;
use conformance::library::{Answer, INDEPENDENT};
use conformance::{Case, Library};
use crestulbino::Source::{Original, Substitute};
use crestulbino::{Address, Chosen, Kind, Nesting, Refusal, Refused, Row, Source, Versions};
use independent::{label, labelled};

const RIGHT: Library = INDEPENDENT;

/// What a call is lent and told.
#[derive(Clone, Copy)]
struct Asked<'a> {
    versions: Versions,
    original: &'a [u8],
    substitute: &'a [u8],
    row: usize,
}

type Wrong = for<'a> fn(Asked<'a>) -> Answer<Chosen<'a>>;

/// Which file serves.
const FILES: [(&str, Wrong); 26] = [
    ("the original always", |asked| asked.row_of(Original)),
    ("the substitute always", |asked| asked.row_of(Substitute)),
    ("the original, if it serves", |asked| {
        let chosen = asked.row_of(Original);
        chosen.or_else(|refused| asked.row_of(Substitute).map_err(|_| refused))
    }),
    ("the substitute, if it is accepted", |asked| {
        match asked.rows_of(Substitute) {
            Ok(_) => asked.row_of(Substitute),
            Err(_) => asked.row_of(Original),
        }
    }),
    ("the substitute, if it is empty", |asked| {
        match asked.substitute {
            [] => refused(Refusal::NoRow),
            _ => asked.right(),
        }
    }),
    ("the substitute, if it has no rows", |asked| {
        match asked.rows_of(Substitute) {
            Ok(0) => refused(Refusal::NoRow),
            _ => asked.right(),
        }
    }),
    ("the substitute, if it has a fault", |asked| {
        asked.rows_of(Substitute)?;
        asked.right()
    }),
    ("the substitute, checked up to the row", |asked| {
        asked.passed(Substitute).map_or_else(|| asked.right(), Ok)
    }),
    ("the original, checked up to the row", |asked| {
        let chosen = asked.right();
        chosen.or_else(|refused| asked.passed(Original).ok_or(refused))
    }),
    ("no original after a substitute", |asked| {
        let chosen = asked.row_of(Substitute);
        chosen.or_else(|_| asked.row_of(Original).and(refused(Refusal::NoRow)))
    }),
    ("no original with a fault", |asked| {
        asked.rows_of(Original)?;
        asked.right()
    }),
    ("no original without the row", |asked| {
        match asked.rows_of(Original) {
            Ok(rows) if asked.row >= rows => refused(Refusal::NoRow),
            _ => asked.right(),
        }
    }),
    ("no empty original", |asked| match asked.original {
        [] => refused(Refusal::NoRow),
        _ => asked.right(),
    }),
    ("no row of the substitute without bytes", |asked| {
        asked.unless(|row, _| row.bytes.is_empty())
    }),
    ("no row of the substitute at its end", |asked| {
        asked.unless(|row, _| row.place == asked.substitute.len())
    }),
    ("no last row of the substitute", |asked| {
        asked.unless(|_, _| asked.rows_of(Substitute) == Ok(asked.row + 1))
    }),
    ("no row of the substitute in a group", |asked| {
        asked.unless(|row, _| nesting_of(row).depth > 1)
    }),
    ("the longer row", |asked| {
        asked.unless(|row, other| row.bytes.len() < other.bytes.len())
    }),
    ("the shorter row", |asked| {
        asked.unless(|row, other| row.bytes.len() > other.bytes.len())
    }),
    ("the original, if the rows have the same bytes", |asked| {
        asked.unless(|row, other| row.bytes == other.bytes)
    }),
    ("the original, if the files have the same bytes", |asked| {
        asked.unless(|_, _| asked.original == asked.substitute)
    }),
    ("the longer file", |asked| {
        asked.unless(|_, _| asked.substitute.len() < asked.original.len())
    }),
    ("the file with more rows", |asked| {
        asked.unless(|_, _| asked.rows_of(Substitute).ok() < asked.rows_of(Original).ok())
    }),
    ("the file with fewer rows", |asked| {
        asked.unless(|_, _| asked.rows_of(Substitute).ok() > asked.rows_of(Original).ok())
    }),
    ("the two files exchanged", |asked| {
        let (original, substitute) = (asked.substitute, asked.original);
        let exchanged = Asked {
            original,
            substitute,
            ..asked
        };
        exchanged.right().map(telling(exchange))
    }),
    ("the original, if its row is less deep", |asked| {
        asked.unless(|row, other| nesting_of(row).depth > nesting_of(other).depth)
    }),
];

/// Which row it is.
const NUMBERS: [(&str, Wrong); 7] = [
    (
        "the original's rows counted on behind the substitute's",
        |asked| {
            let before = asked.rows_of(Substitute).unwrap_or(0);
            asked.with(Original, |asked| Asked {
                row: asked.row.saturating_sub(before),
                ..asked
            })
        },
    ),
    (
        "the substitute's rows counted on behind the original's",
        |asked| {
            let before = asked.rows_of(Original).unwrap_or(0);
            asked.row_of(Original).or_else(|refused| {
                let row = asked.row.saturating_sub(before);
                let counted = Asked { row, ..asked };
                counted.row_of(Substitute).map_err(|_| refused)
            })
        },
    ),
    ("the number in 8 bits", |asked| {
        asked.numbered(|row| row % 256)
    }),
    ("the number in 16 bits", |asked| {
        asked.numbered(|row| row % 65_536)
    }),
    ("the number in 32 bits", |asked| {
        asked.numbered(|row| row as u32 as usize)
    }),
    ("the number without a sign", |asked| {
        asked.numbered(|row| row & (usize::MAX >> 1))
    }),
    ("the number in 32 bits for the original", |asked| {
        asked.with(Original, |asked| Asked {
            row: asked.row as u32 as usize,
            ..asked
        })
    }),
];

/// Which file is said to serve.
const SOURCES: [(&str, Wrong); 5] = [
    ("the original is told", |asked| {
        asked.right().map(telling(|_| Original))
    }),
    ("the substitute is told", |asked| {
        asked.right().map(telling(|_| Substitute))
    }),
    ("the other is told", |asked| {
        asked.right().map(telling(exchange))
    }),
    ("the substitute is told, if it is accepted", |asked| {
        let is_accepted = asked.rows_of(Substitute).is_ok();
        asked.right().map(telling(|source| match is_accepted {
            true => Substitute,
            false => source,
        }))
    }),
    ("the substitute is told, if it has bytes", |asked| {
        let has_bytes = !asked.substitute.is_empty();
        asked.right().map(telling(|source| match has_bytes {
            true => Substitute,
            false => source,
        }))
    }),
];

/// What is shown of the row.
const PARTS: [(&str, Wrong); 15] = [
    (
        "a part of the substitute, of the original's bytes",
        |asked| asked.cut_from(Substitute, asked.original),
    ),
    (
        "a part of the original, of the substitute's bytes",
        |asked| asked.cut_from(Original, asked.substitute),
    ),
    ("the bytes of the original's row", |asked| {
        asked.beside(|row, other| row.bytes = other.bytes)
    }),
    ("the place of the original's row", |asked| {
        asked.beside(|row, other| row.place = other.place)
    }),
    ("the label of the original's row", |asked| {
        asked.beside(|row, other| row.address.label = other.address.label)
    }),
    ("the depth of the original's row", |asked| {
        asked.beside(|row, other| {
            let depth = nesting_of(other).depth;
            let nesting = nesting_of(*row);
            row.address.nesting = Some(Nesting { depth, ..nesting });
        })
    }),
    ("the outermost place of the original's row", |asked| {
        asked.beside(|row, other| {
            let outermost = nesting_of(other).outermost;
            let nesting = nesting_of(*row);
            row.address.nesting = Some(Nesting {
                outermost,
                ..nesting
            });
        })
    }),
    ("no more bytes than the original's row has", |asked| {
        asked.beside(|row, other| {
            let count = row.bytes.len().min(other.bytes.len());
            row.bytes = &row.bytes[..count];
        })
    }),
    ("7 for a row shorter than the original's", |asked| {
        let chosen = asked.right()?;
        match asked.row_of(Original) {
            Ok(other) if chosen.row.bytes.len() < other.row.bytes.len() => refused(Refusal::NoPart),
            _ => Ok(chosen),
        }
    }),
    ("no bytes", |asked| asked.showing(|row| row.bytes = &[])),
    ("no nesting", |asked| {
        asked.showing(|row| row.address.nesting = None)
    }),
    ("no nesting of the original", |asked| {
        let mut chosen = asked.right()?;
        if chosen.source == Original {
            chosen.row.address.nesting = None;
        }
        Ok(chosen)
    }),
    ("places of the original behind the substitute", |asked| {
        asked.moved(Original, asked.substitute.len())
    }),
    ("places of the substitute behind the original", |asked| {
        asked.moved(Substitute, asked.original.len())
    }),
    ("places in 16 bits", |asked| {
        asked.showing(|row| row.place %= 65_536)
    }),
];

/// What is refused where neither serves.
const REFUSALS: [(&str, Wrong); 14] = [
    ("for the substitute", |asked| {
        asked.refusing(|_, other| other)
    }),
    ("for the substitute, if it has a fault", |asked| {
        asked.refusing(|one, other| match other.refusal {
            Refusal::NoRow => one,
            _ => other,
        })
    }),
    (
        "for the substitute's fault, if the original has none",
        |asked| {
            asked.refusing(|one, other| match one.refusal {
                Refusal::NoRow => other,
                _ => one,
            })
        },
    ),
    ("with 6", |asked| {
        asked.refusing(|_, _| Refused {
            refusal: Refusal::NoRow,
            place: 0,
        })
    }),
    ("with 6, if the substitute is accepted", |asked| {
        asked.refusing(|one, other| match other.refusal {
            Refusal::NoRow => other,
            _ => one,
        })
    }),
    ("at place 0", |asked| {
        asked.refusing(|one, _| Refused { place: 0, ..one })
    }),
    ("at the substitute's place", |asked| {
        asked.refusing(|one, other| Refused {
            place: other.place,
            ..one
        })
    }),
    ("for the substitute's reason", |asked| {
        asked.refusing(|one, other| Refused {
            refusal: other.refusal,
            ..one
        })
    }),
    ("behind the substitute", |asked| {
        let before = asked.substitute.len();
        asked.refusing(|one, _| match one.refusal {
            Refusal::NoRow => one,
            _ => Refused {
                place: one.place + before,
                ..one
            },
        })
    }),
    ("with 6 at the end", |asked| {
        let end = asked.original.len();
        asked.refusing(|one, _| match one.refusal {
            Refusal::NoRow => Refused { place: end, ..one },
            _ => one,
        })
    }),
    ("at the first of both places", |asked| {
        asked.refusing(|one, other| match other.place < one.place {
            true => other,
            false => one,
        })
    }),
    ("at the last of both places", |asked| {
        asked.refusing(|one, other| match other.place > one.place {
            true => other,
            false => one,
        })
    }),
    ("for the lower number", |asked| {
        asked.refusing(
            |one, other| match other.refusal.number() < one.refusal.number() {
                true => other,
                false => one,
            },
        )
    }),
    ("at places in 16 bits", |asked| {
        asked.refusing(|one, _| Refused {
            place: one.place % 65_536,
            ..one
        })
    }),
];

/// Which versions are allowed.
const VERSIONS: [(&str, Wrong); 6] = [
    ("both", |asked| asked.told(Versions::OneAndTwo).right()),
    ("version 1", |asked| asked.told(Versions::One).right()),
    ("both in the original", |asked| {
        asked.with(Original, |asked| asked.told(Versions::OneAndTwo))
    }),
    ("version 1 in the original", |asked| {
        asked.with(Original, |asked| asked.told(Versions::One))
    }),
    ("both in the substitute", |asked| {
        asked.with(Substitute, |asked| asked.told(Versions::OneAndTwo))
    }),
    ("version 1 in the substitute", |asked| {
        asked.with(Substitute, |asked| asked.told(Versions::One))
    }),
];

fn refused<T>(refusal: Refusal) -> Answer<T> {
    Err(Refused { refusal, place: 0 })
}

fn exchange(source: Source) -> Source {
    match source {
        Original => Substitute,
        Substitute => Original,
    }
}

/// Has another file told.
fn telling(source: impl Fn(Source) -> Source) -> impl Fn(Chosen<'_>) -> Chosen<'_> {
    move |chosen| Chosen {
        source: source(chosen.source),
        ..chosen
    }
}

/// Each row that is read has one.
fn nesting_of(row: Row<'_>) -> Nesting {
    row.address.nesting.unwrap()
}

impl<'a> Asked<'a> {
    fn right(self) -> Answer<Chosen<'a>> {
        (RIGHT.substitute_row)(self.versions, self.original, self.substitute, self.row)
    }

    fn file(self, source: Source) -> &'a [u8] {
        match source {
            Original => self.original,
            Substitute => self.substitute,
        }
    }

    fn rows_of(self, source: Source) -> Answer<usize> {
        (RIGHT.check)(Kind::Labelled(self.versions), self.file(source))
    }

    /// The row of one file, whatever the other is.
    fn row_of(self, source: Source) -> Answer<Chosen<'a>> {
        let chosen = (RIGHT.substitute_row)(self.versions, self.file(source), &[], self.row)?;
        Ok(Chosen { source, ..chosen })
    }

    /// The row of one file, whose first fault may stand behind it.
    fn passed(self, source: Source) -> Option<Chosen<'a>> {
        let versions = match self.versions {
            Versions::One => label::Versions::First,
            Versions::OneAndTwo => label::Versions::Both,
        };
        let file = self.file(source);
        let row = labelled::leaves(versions, file)
            .ok()?
            .nth(self.row)?
            .ok()?
            .row;
        let nesting = row.address.nesting?;
        let (place, length) = (row.start as usize, row.length as usize);
        let nesting = Nesting {
            depth: nesting.depth as usize,
            outermost: nesting.outermost as usize,
        };
        let address = Address {
            label: row.address.label as usize,
            nesting: Some(nesting),
        };
        let bytes = &file[place..place + length];
        let row = Row {
            place,
            bytes,
            address,
        };
        Some(Chosen { source, row })
    }

    fn told(self, versions: Versions) -> Asked<'a> {
        Asked { versions, ..self }
    }

    fn numbered(self, number: impl Fn(usize) -> usize) -> Answer<Chosen<'a>> {
        let row = number(self.row);
        Asked { row, ..self }.right()
    }

    /// Asks one of the two files something else.
    fn with(self, source: Source, change: impl Fn(Asked<'a>) -> Asked<'a>) -> Answer<Chosen<'a>> {
        let of = |of| match of == source {
            true => change(self).row_of(of),
            false => self.row_of(of),
        };
        of(Substitute).or_else(|_| of(Original))
    }

    /// The original's row, if both have one and these are so, that of the substitute first.
    fn unless(self, is_so: impl Fn(Row<'a>, Row<'a>) -> bool) -> Answer<Chosen<'a>> {
        match (self.row_of(Substitute), self.row_of(Original)) {
            (Ok(chosen), Ok(other)) if is_so(chosen.row, other.row) => Ok(other),
            _ => self.right(),
        }
    }

    /// Shows the row otherwise.
    fn showing(self, change: impl Fn(&mut Row<'a>)) -> Answer<Chosen<'a>> {
        let mut chosen = self.right()?;
        change(&mut chosen.row);
        Ok(chosen)
    }

    /// Shows the row of the substitute with something of the original's, if that has one.
    fn beside(self, change: impl Fn(&mut Row<'a>, Row<'a>)) -> Answer<Chosen<'a>> {
        let mut chosen = self.right()?;
        if let Ok(other) = self.row_of(Original) {
            change(&mut chosen.row, other.row);
        }
        Ok(chosen)
    }

    /// Shows a part of one file with the bytes that stand there in another, if it has as many.
    fn cut_from(self, source: Source, file: &'a [u8]) -> Answer<Chosen<'a>> {
        let mut chosen = self.right()?;
        let bytes = file.get(chosen.row.place..chosen.row.end());
        if let Some(bytes) = bytes.filter(|_| chosen.source == source) {
            chosen.row.bytes = bytes;
        }
        Ok(chosen)
    }

    /// Shows the rows of one file at places so much further.
    fn moved(self, source: Source, more: usize) -> Answer<Chosen<'a>> {
        let mut chosen = self.right()?;
        if chosen.source == source {
            chosen.row.place += more;
        }
        Ok(chosen)
    }

    /// Refuses otherwise: the refusals of the original and of the substitute.
    fn refusing(self, refusal: impl Fn(Refused, Refused) -> Refused) -> Answer<Chosen<'a>> {
        self.right().map_err(|of_original| {
            let of_substitute = self.row_of(Substitute).unwrap_err();
            refusal(of_original, of_substitute)
        })
    }
}

/// All of them, with what each is wrong about.
fn all_wrong() -> Vec<(String, Wrong)> {
    let about = |what: &str, wrong: &[(&str, Wrong)]| -> Vec<(String, Wrong)> {
        let named = |(fault, wrong): &(&str, Wrong)| (format!("{what}: {fault}"), *wrong);
        wrong.iter().map(named).collect()
    };
    [
        about("the file", &FILES),
        about("the number", &NUMBERS),
        about("what is told", &SOURCES),
        about("what is shown", &PARTS),
        about("refused", &REFUSALS),
        about("allowed", &VERSIONS),
    ]
    .concat()
}

#[test]
fn each_of_them_is_found() {
    let lines = Generator::new(4).take(10_000);
    let cases: Vec<Option<Case>> = lines.map(|line| Case::parse(line.as_bytes())).collect();
    for (fault, wrong) in all_wrong() {
        let differ = |case: &Option<Case>| match case {
            Some(Case::SubstituteRow {
                original,
                substitute,
                row,
                versions,
            }) => {
                let asked = Asked {
                    versions: *versions,
                    original,
                    substitute,
                    row: *row,
                };
                wrong(asked) != asked.right()
            }
            _ => false,
        };
        assert!(cases.iter().any(differ), "{fault}");
    }
}
