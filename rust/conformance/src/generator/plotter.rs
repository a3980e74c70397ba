//! Strips to be drawn and dots to be asked for: how many columns and lines, what stands in them, which rows
//! are missing or too short, what a file is refused for, and the room for the lines.

use super::bursts::BURST;
use super::files::{self, LabelledFile, Mix, FAULTS, RECORD};
use super::random::Random;
use super::{edges, CHOICES, PREFIX, SAMPLES};
use crate::Case;
use crestulbino::{line_bytes, Kind, Refusal, Versions, Window};
use independent::plotter::matrix_at;

const MOST: usize = usize::MAX;

/// How many columns strips have, and how many lines.
const COLUMNS: [usize; 9] = [0, 1, 7, 8, 9, 15, 16, 17, 65];
const LINES: [usize; 6] = [1, 7, 8, 9, 16, 17];

/// Which of the two calls is made.
#[derive(Clone, Copy, Debug, PartialEq, Eq)]
enum Call {
    Strip,
    Behind,
}

/// A file, a strip of it, and a place in the strip.
#[derive(Clone, Debug)]
struct Asked {
    kind: Kind,
    file: Vec<u8>,
    /// How many bytes each row of the file has.
    sizes: Vec<usize>,
    row: usize,
    rows: usize,
    window: Window,
    column: usize,
    line: usize,
    room: Room,
}

/// How much room there is for the lines.
#[derive(Clone, Copy, Debug, PartialEq, Eq)]
enum Room {
    None,
    Less,
    Exact,
    More,
    MuchMore,
    /// For the whole bytes of each line, and for all dots without bits between the lines.
    OfWholeBytes,
    OfDots,
}

/// No more room is lent than this; where more would be needed, some bytes are lent.
const LARGEST_ROOM: usize = 2_000;
const SOME_ROOM: usize = 40;

impl Asked {
    /// A strip of some rows that are there, by a window that fits them and all behind them, and a place in it.
    fn right(kind: Kind, file: Vec<u8>, sizes: Vec<usize>, random: &mut Random) -> Asked {
        let row = random.between(0, sizes.len().saturating_sub(1));
        let rows = random.between(sizes.len().min(1), sizes.len() - row);
        let mut asked = Asked {
            kind,
            file,
            sizes,
            row,
            rows,
            window: Window::new(0, 0),
            column: 0,
            line: random.between(0, rows.saturating_sub(1)),
            room: Room::More,
        };
        let size = asked.sizes.iter().skip(row).min().copied().unwrap_or(0);
        let first = random.between(0, size.saturating_sub(1));
        let count = random.between(size.min(1), (size - first).min(40));
        asked.window = Window::new(first, count);
        asked.column = random.between(0, count.saturating_sub(1));
        asked
    }

    /// The same of a labelled file of these rows.
    fn labelled(values: Vec<Vec<u8>>, versions: Versions, random: &mut Random) -> Asked {
        let mix = Mix::allowed(versions, random);
        Asked::of(files::with_values(values, mix, random), versions, random)
    }

    /// The same of a labelled file as it was before any damage.
    fn of(file: LabelledFile, versions: Versions, random: &mut Random) -> Asked {
        let sizes = file.leaves().iter().map(|leaf| leaf.length).collect();
        Asked::right(Kind::Labelled(versions), file.bytes, sizes, random)
    }

    /// The size of the smallest row of the strip, or of the file where the strip has none.
    fn size(&self) -> usize {
        let strip = self.sizes.iter().skip(self.row).take(self.rows);
        let smallest = strip.min().or(self.sizes.iter().min());
        smallest.copied().unwrap_or(0)
    }

    fn case(self, call: Call, random: &mut Random) -> Case {
        let need = self.rows.checked_mul(line_bytes(self.window.count));
        let need = need.filter(|&need| need <= LARGEST_ROOM);
        let need = need.unwrap_or(SOME_ROOM);
        let room = match self.room {
            Room::None => 0,
            Room::Less => need.saturating_sub(1),
            Room::Exact => need,
            Room::More => need + 1,
            Room::MuchMore => need + random.between(2, 20),
            Room::OfWholeBytes => self.rows * (self.window.count / 8),
            Room::OfDots => (self.rows * self.window.count).div_ceil(8),
        };
        match call {
            Call::Strip => Case::Strip {
                kind: self.kind,
                file: self.file,
                row: self.row,
                rows: self.rows,
                window: self.window,
                buffer: random.bytes(room),
            },
            Call::Behind => Case::Behind {
                kind: self.kind,
                file: self.file,
                row: self.row,
                window: self.window,
                column: self.column,
                line: self.line,
            },
        }
    }

    /// Meets one edge after the other.
    fn meet(&mut self, edges: &[Edge]) {
        edges.iter().for_each(|edge| edge(self));
    }
}

/// Puts something at an edge, in what is right otherwise.
type Edge = fn(&mut Asked);

const RIGHT: Edge = |_| {};

const ROOMS: [Edge; 5] = [
    |asked| asked.room = Room::None,
    |asked| asked.room = Room::Less,
    |asked| asked.room = Room::Exact,
    |asked| asked.room = Room::More,
    |asked| asked.room = Room::MuchMore,
];

/// No rows, from any row on and by any window, mostly without room.
const NO_ROWS: [Edge; 6] = [
    |asked| asked.rows = 0,
    |asked| {
        asked.meet(&[NONE]);
        asked.row = asked.sizes.len();
    },
    |asked| {
        asked.meet(&[NONE]);
        asked.row = MOST;
    },
    |asked| {
        asked.meet(&[NONE]);
        asked.window = Window::new(asked.size() + 1, 0);
    },
    |asked| {
        asked.meet(&[NONE]);
        asked.window = Window::new(0, MOST);
    },
    |asked| {
        asked.meet(&[NONE]);
        asked.row = asked.sizes.len() + 1;
        asked.window = Window::new(MOST, MOST);
    },
];

const NONE: Edge = |asked| {
    asked.rows = 0;
    asked.room = Room::None;
};

/// Rows that are missing: behind the last one, by sums that turn, and by more rows than a product has bits for.
const MISSING: [Edge; 14] = [
    |asked| asked.rows = asked.sizes.len() - asked.row + 1,
    |asked| asked.row = asked.sizes.len(),
    |asked| asked.row = asked.sizes.len() + 1,
    |asked| (asked.row, asked.rows) = (MOST, 1),
    |asked| (asked.row, asked.rows) = (MOST, 2),
    |asked| (asked.row, asked.rows) = (1, MOST),
    |asked| {
        asked.rows = (MOST - asked.row)
            .wrapping_add(2)
            .max(asked.sizes.len() + 1)
    },
    |asked| (asked.row, asked.rows) = (1 << 63, 1 << 63),
    |asked| asked.row += 1 << 32,
    |asked| asked.rows += 1 << 32,
    // As many as come to 2^64 bytes, and a bit more.
    |asked| {
        asked.rows = 1 << 61;
        asked.window.count = asked.window.count.clamp(57, 64);
    },
    |asked| {
        asked.rows = (1 << 63) + 1;
        asked.window.count = asked.window.count.clamp(9, 16);
    },
    |asked| {
        asked.rows = MOST;
        asked.window.count = 0;
    },
    |asked| {
        asked.rows = MOST;
        asked.window.count = 1;
    },
];

/// Windows that do not fit the smallest row, by a byte and by numbers that turn; every other one without room.
const MISFITS: [Edge; 11] = [
    |asked| asked.window = Window::new(asked.size() + 1, 0),
    |asked| {
        asked.window = Window::new(asked.size(), 1);
        asked.room = Room::None;
    },
    MISFIT,
    |asked| {
        asked.window = Window::new(0, asked.size() + 1);
        asked.room = Room::None;
    },
    |asked| asked.window = Window::new(0, MOST),
    |asked| asked.window = Window::new(0, MOST - 6),
    |asked| {
        asked.window = Window::new(0, MOST - 7);
        asked.room = Room::None;
    },
    |asked| asked.window = Window::new(asked.window.first.max(1), MOST),
    |asked| {
        asked.window = Window::new(MOST, 1);
        asked.room = Room::None;
    },
    |asked| asked.window = Window::new(MOST, 0),
    |asked| asked.window.count += 1 << 32,
];

const ONE_MISSING: Edge = |asked| {
    asked.rows = asked.sizes.len() - asked.row + 1;
    asked.line = asked.rows - 1;
};
const MISFIT: Edge = |asked| {
    let beyond = (asked.size() + 1).saturating_sub(asked.window.first);
    asked.window.count = beyond;
};
const NO_ROOM: Edge = |asked| asked.room = Room::None;
const OUTSIDE: Edge = |asked| asked.column = asked.window.count;

/// Two or three faults at once, of which the right one must be told.
const FAULTS_TOGETHER: [Edge; 4] = [
    |asked| asked.meet(&[ONE_MISSING, MISFIT]),
    |asked| asked.meet(&[ONE_MISSING, NO_ROOM]),
    |asked| asked.meet(&[MISFIT, NO_ROOM]),
    |asked| asked.meet(&[ONE_MISSING, MISFIT, NO_ROOM]),
];

/// In no file.
const NOWHERE: Edge = |asked| {
    asked.row = MOST;
    asked.rows = asked.rows.max(1);
    asked.line = asked.line.max(1);
};
const FITS_NONE: Edge = |asked| asked.window = Window::new(MOST, asked.window.count.max(1));

/// What a file that is refused is asked for.
const OF_REFUSED: [Edge; 6] = [RIGHT, NONE, ONE_MISSING, NOWHERE, FITS_NONE, |asked| {
    asked.meet(&[NOWHERE, FITS_NONE, NO_ROOM])
}];

/// Columns around the last one, and such that a sum turns to one in the window.
const COLUMN_EDGES: [Edge; 6] = [
    |asked| asked.column = 0,
    |asked| asked.column = asked.window.count - 1,
    |asked| asked.column = asked.window.count,
    |asked| asked.column = MOST,
    |asked| asked.column += 1 << 32,
    |asked| {
        asked.window = Window::new(1, asked.size() - 1);
        asked.column = MOST;
    },
];

/// Lines around the file's last row, and such that a sum turns to a row in the file.
const LINE_EDGES: [Edge; 7] = [
    |asked| asked.line = asked.sizes.len() - asked.row - 1,
    |asked| asked.line = asked.sizes.len() - asked.row,
    |asked| asked.line += 1 << 32,
    |asked| asked.row += 1 << 32,
    |asked| (asked.row, asked.line) = (1, MOST),
    |asked| (asked.row, asked.line) = (MOST, 1),
    |asked| (asked.row, asked.line) = (1 << 63, 1 << 63),
];

/// The window is too long for the row of the line.
const LINE_MISFIT: Edge = |asked| {
    asked.rows = 1;
    asked.row += asked.line;
    asked.line = 0;
    asked.meet(&[MISFIT]);
};

/// Windows of no byte and windows that do not fit.
const WINDOW_EDGES: [Edge; 4] = [
    |asked| asked.window.count = 0,
    |asked| {
        asked.meet(&[LINE_MISFIT, |asked| {
            asked.window = Window::new(asked.size(), 1)
        }])
    },
    |asked| asked.window = Window::new(asked.window.first.max(1), MOST),
    |asked| asked.window = Window::new(MOST, 1),
];

/// What is not there or does not fit, and both at once, of which the right one must be told.
const DOT_FAULTS: [Edge; 5] = [
    LINE_MISFIT,
    ONE_MISSING,
    |asked| asked.meet(&[LINE_MISFIT, OUTSIDE]),
    |asked| asked.meet(&[ONE_MISSING, OUTSIDE]),
    |asked| asked.meet(&[ONE_MISSING, MISFIT]),
];

/// What a file that is refused is asked for of its dots.
const DOTS_OF_REFUSED: [Edge; 4] = [
    RIGHT,
    ONE_MISSING,
    |asked| asked.meet(&[NOWHERE, OUTSIDE]),
    FITS_NONE,
];

/// The file that is asked about, with a strip of it that is right.
#[derive(Clone, Copy, Debug, PartialEq, Eq)]
enum Base {
    Labelled,
    Waveform,
    Bursts,
    /// Labelled, with a strip of so many columns and lines behind some rows and bytes.
    Sized(usize, usize),
    /// Labelled, with a strip of five rows, of which this one is too short in this way.
    Short(usize, Short),
    /// Labelled, with rows around the strip that are too short for its window.
    Neighbours,
    /// Labelled, with a strip of such samples.
    Filled(Filling),
    /// Labelled, with a place at this number of the matrix and such a sample there.
    Number(u32, Sample),
    /// A whole row of all samples in order, waveform or of bursts.
    AllInWaveform,
    AllInBursts,
    /// Labelled, with rows at all depths.
    Deep,
    /// Labelled, with rows of any sizes in groups.
    Nested,
    /// Labelled, with its last row beyond 65,536.
    Large,
    /// Bursts whose first place is at the last record, and at the end.
    LastBurst,
    NoBurst,
    /// Labelled, with a last label of version 2, which is not allowed.
    NotAllowed,
    /// What is refused, for this reason.
    Faulty(Refusal),
    RaggedWaveform,
    RaggedBursts,
    BeyondBursts,
}

/// Why a row is too short for a window.
#[derive(Clone, Copy, Debug, PartialEq, Eq)]
enum Short {
    /// It lacks the last byte.
    Last,
    /// It ends in front of the first byte.
    First,
    Empty,
}

/// A sample at a number of the matrix.
#[derive(Clone, Copy, Debug, PartialEq, Eq)]
enum Sample {
    /// The largest that leaves a dot.
    LastDot,
    /// The smallest that leaves none.
    FirstWithout,
    /// One that leaves none, with a tone that is smaller in 7 bits, or with a sign.
    FarWithout,
}

/// What a labelled strip is filled with.
#[derive(Clone, Copy, Debug, PartialEq, Eq)]
enum Filling {
    /// At each place the largest sample that leaves a dot there, the next one, or either.
    Dark,
    Light,
    Either,
    /// The same sample everywhere.
    Same,
    /// All samples in order.
    All,
}

impl Filling {
    /// A sample for a column and a line, by one that was drawn for the strip.
    fn sample(self, column: usize, line: usize, drawn: u8, random: &mut Random) -> u8 {
        let light = without_dot(matrix_at(line as u64, column as u64));
        match self {
            Filling::Dark => light - 1,
            Filling::Light => light,
            Filling::Either => light - u8::from(random.chance(50)),
            Filling::Same => drawn,
            Filling::All => (column as u8).wrapping_add(drawn.wrapping_mul(line as u8)),
        }
    }
}

/// The smallest sample that leaves no dot at a number of the matrix.
fn without_dot(number: u32) -> u8 {
    (4 * number + 2).pow(2).div_ceil(255) as u8
}

/// A labelled strip of so many columns and lines, with these samples, that begins at some row and some byte. What is
/// around it is any bytes.
fn sized(
    columns: usize,
    lines: usize,
    versions: Versions,
    random: &mut Random,
    mut sample: impl FnMut(usize, usize, &mut Random) -> u8,
) -> Asked {
    let row = random.between(0, 3);
    let first = random.pick(&[0, 1, 3, 7, 8, 9, 12]);
    let rows = (row + lines + random.between(0, 1)).max(1);
    let values = (0..rows).map(|number| {
        let mut value = random.bytes(first);
        let line = number.wrapping_sub(row);
        value.extend((0..columns).map(|column| sample(column, line, random)));
        let behind = random.pick(&[0, 1, 5]);
        value.extend(random.bytes(behind));
        value
    });
    let values = values.collect();
    let mut asked = Asked::labelled(values, versions, random);
    (asked.row, asked.rows) = (row, lines);
    asked.window = Window::new(first, columns);
    asked.column = random.between(0, columns.saturating_sub(1));
    asked.line = random.between(0, lines.saturating_sub(1));
    asked
}

/// So many bursts behind so many bytes.
fn bursts(front: usize, records: usize, random: &mut Random) -> Asked {
    let file = random.bytes(front + records * BURST);
    Asked::right(Kind::Bursts(front), file, vec![BURST; records], random)
}

/// Puts all samples in order into the one row of a file, from this place on.
fn all_in(mut asked: Asked, place: usize) -> Asked {
    let samples = asked.file[place..].iter_mut();
    samples.zip(0..).for_each(|(slot, at)| *slot = at as u8);
    asked.window = Window::new(0, asked.size());
    asked
}

fn waveform(rows: usize, random: &mut Random) -> Asked {
    let file = random.bytes(rows * RECORD);
    Asked::right(Kind::Waveform, file, vec![SAMPLES; rows], random)
}

impl Base {
    /// What is right of such a file, told these versions where it is labelled.
    fn asked(self, versions: Versions, random: &mut Random) -> Asked {
        match self {
            Base::Labelled => {
                let least = random.between(2, 20);
                let rows = random.between(2, 12);
                let values = (0..rows).map(|_| {
                    let more = random.pick(&[0, 0, 1, 7, 8]);
                    random.bytes(least + more)
                });
                let values = values.collect();
                Asked::labelled(values, versions, random)
            }
            Base::Waveform => {
                let rows = random.weighted(&[(70, 1), (25, 2), (5, 3)]);
                waveform(rows, random)
            }
            Base::Bursts => {
                let records = random.weighted(&[(70, 1), (25, 2), (5, 3)]);
                let few = random.between(2, 40);
                let front = random.pick(&[0, 1, few]);
                bursts(front, records, random)
            }
            Base::Sized(columns, lines) => {
                sized(columns, lines, versions, random, |_, _, random| {
                    random.byte()
                })
            }
            Base::Short(short, how) => {
                let (row, first, count) = (
                    random.between(0, 2),
                    random.between(1, 9),
                    random.between(1, 20),
                );
                let values = (0..row + 5).map(|number| {
                    let size = match how {
                        _ if number != row + short => first + count + random.between(0, 2),
                        Short::Last => first + count - 1,
                        Short::First => first - 1,
                        Short::Empty => 0,
                    };
                    random.bytes(size)
                });
                let values = values.collect();
                let mut asked = Asked::labelled(values, versions, random);
                (asked.row, asked.rows) = (row, 5);
                asked.window = Window::new(first, count);
                asked.column = random.between(0, count - 1);
                // In a row that is long enough.
                asked.line = (short + random.between(1, 4)) % 5;
                asked
            }
            Base::Neighbours => {
                let (first, count) = (random.between(1, 9), random.between(1, 20));
                let values = (0..5).map(|number| match number {
                    0 | 4 => random.bytes(first + count - 1),
                    _ => random.bytes(first + count),
                });
                let values = values.collect();
                let mut asked = Asked::labelled(values, versions, random);
                (asked.row, asked.rows, asked.line) = (1, 3, random.between(0, 2));
                asked.window = Window::new(first, count);
                asked.column = random.between(0, count - 1);
                asked
            }
            Base::Filled(filling) => {
                let (columns, lines) = match filling {
                    Filling::All => (256, 9),
                    Filling::Same => (24, 16),
                    _ => (random.pick(&[8, 9, 16]), random.pick(&[8, 11])),
                };
                let drawn = random.byte();
                sized(columns, lines, versions, random, |column, line, random| {
                    filling.sample(column, line, drawn, random)
                })
            }
            Base::Number(number, sample) => {
                let places = (0..8).flat_map(|line| (0..8).map(move |column| (column, line)));
                let is_there = |&(column, line): &(u64, u64)| matrix_at(line, column) == number;
                let (column, line) = places.into_iter().find(is_there).unwrap_or_default();
                let column = column as usize + random.pick(&[0, 8]);
                let line = line as usize + random.pick(&[0, 0, 8]);
                let (row, first) = (random.between(0, 3), random.between(0, 9));
                let count = column + 1 + random.pick(&[0, 1, 4]);
                let mut values: Vec<Vec<u8>> = (0..=row + line)
                    .map(|_| {
                        let size = random.between(0, 3);
                        random.bytes(size)
                    })
                    .collect();
                values[row + line] = random.bytes(first + count);
                values[row + line][first + column] = match sample {
                    Sample::LastDot => without_dot(number) - 1,
                    Sample::FirstWithout => without_dot(number),
                    // Its tone is 130.
                    Sample::FarWithout => 67,
                };
                let mut asked = Asked::labelled(values, versions, random);
                (asked.row, asked.rows, asked.line) = (row, line + 1, line);
                (asked.window, asked.column) = (Window::new(first, count), column);
                asked
            }
            Base::AllInWaveform => all_in(waveform(1, random), PREFIX),
            Base::AllInBursts => all_in(bursts(7, 1, random), 7),
            Base::Deep => {
                let values: Vec<Vec<u8>> = (0..16).map(|_| random.bytes(3)).collect();
                let mix = Mix::allowed(versions, random);
                let file = files::with_values_ever_deeper(&values, mix, random);
                let mut asked = Asked::of(file, versions, random);
                (asked.row, asked.rows, asked.line) = (0, 16, random.between(0, 15));
                asked.window = Window::new(0, 3);
                asked
            }
            Base::Nested => {
                let mix = Mix::allowed(versions, random);
                let rows = random.between(1, 20);
                let file = files::with_rows(rows, true, mix, random);
                Asked::of(file, versions, random)
            }
            Base::Large => {
                let mix = Mix::allowed(versions, random);
                let file = files::with_large_entry(mix, random);
                let mut asked = Asked::of(file, versions, random);
                let last = asked.sizes.iter().rposition(|&size| size > 0);
                (asked.row, asked.rows, asked.line) = (last.unwrap_or(0), 1, 0);
                (asked.window, asked.column) = (Window::new(0, asked.size()), 0);
                asked
            }
            Base::LastBurst => {
                let mut asked = bursts(3, 2, random);
                asked.kind = Kind::Bursts(3 + BURST);
                asked.sizes = vec![BURST];
                (asked.row, asked.rows, asked.line) = (0, 1, 0);
                asked
            }
            Base::NoBurst => {
                let mut asked = bursts(3, 1, random);
                asked.kind = Kind::Bursts(asked.file.len());
                asked.sizes.clear();
                asked.meet(&[NONE]);
                asked
            }
            Base::NotAllowed => {
                let rows = random.between(1, 9);
                let file = files::with_rows(rows, false, Mix::Last, random);
                Asked::of(file, Versions::One, random)
            }
            Base::Faulty(reason) => {
                Asked::of(files::faulty(reason, versions, random), versions, random)
            }
            Base::RaggedWaveform => {
                let mut asked = Base::Waveform.asked(versions, random);
                asked.file.pop();
                asked
            }
            Base::RaggedBursts => {
                let mut asked = Base::Bursts.asked(versions, random);
                asked.file.push(7);
                asked
            }
            Base::BeyondBursts => {
                let mut asked = Base::Bursts.asked(versions, random);
                asked.kind = Kind::Bursts(asked.file.len() + random.pick(&[1, BURST, 1 << 32]));
                asked
            }
        }
    }
}

/// A call on what is right but for an edge.
#[derive(Clone, Copy, Debug)]
pub struct Card {
    call: Call,
    base: Base,
    edge: Edge,
    versions: Versions,
}

impl Card {
    pub fn case(self, random: &mut Random) -> Case {
        let mut asked = self.base.asked(self.versions, random);
        (self.edge)(&mut asked);
        asked.case(self.call, random)
    }
}

/// Of each kind.
const KINDS: [Base; 3] = [Base::Labelled, Base::Waveform, Base::Bursts];

/// What is refused of each kind.
fn refused() -> Vec<Base> {
    let others = [Base::RaggedWaveform, Base::RaggedBursts, Base::BeyondBursts];
    FAULTS.map(Base::Faulty).into_iter().chain(others).collect()
}

/// The call on each of these with each edge. What is told of labelled files takes turns.
fn cards(call: Call, bases: &[Base], edges: &[Edge]) -> Vec<Card> {
    let pairs = bases
        .iter()
        .flat_map(|&base| edges.iter().map(move |&edge| (base, edge)));
    let told = CHOICES.into_iter().cycle();
    pairs
        .zip(told)
        .map(|((base, edge), versions)| Card {
            call,
            base,
            edge,
            versions,
        })
        .collect()
}

/// The same of each kind, with each choice told of a labelled file.
fn told_each(call: Call, edges: &[Edge]) -> Vec<Card> {
    let labelled = cards(call, &[Base::Labelled], edges);
    let told = |versions| labelled.iter().map(move |card| Card { versions, ..*card });
    let others = cards(call, &[Base::Waveform, Base::Bursts], edges);
    CHOICES.into_iter().flat_map(told).chain(others).collect()
}

/// All strips that are dealt.
pub fn strips() -> Vec<Card> {
    let of = |bases: &[Base], edges: &[Edge]| cards(Call::Strip, bases, edges);
    let sizes = COLUMNS
        .into_iter()
        .flat_map(|columns| LINES.map(|lines| Base::Sized(columns, lines)));
    let sizes: Vec<Base> = sizes.collect();
    let hows = [Short::Last, Short::First, Short::Empty];
    let short = |how| [0, 2, 4].map(|row| Base::Short(row, how));
    let short: Vec<Base> = hows.into_iter().flat_map(short).collect();
    let fillings = [
        Filling::Dark,
        Filling::Light,
        Filling::Either,
        Filling::Either,
        Filling::Same,
        Filling::Same,
        Filling::All,
        Filling::All,
    ];
    let others = [
        Base::Neighbours,
        Base::AllInWaveform,
        Base::AllInBursts,
        Base::Deep,
        Base::Deep,
        Base::Nested,
        Base::Nested,
        Base::NotAllowed,
        Base::Large,
        Base::LastBurst,
        Base::NoBurst,
    ];
    [
        of(&sizes, &[RIGHT]),
        of(&KINDS, &ROOMS),
        of(&KINDS, &NO_ROWS),
        of(&KINDS, &MISSING),
        of(&KINDS, &MISFITS),
        told_each(Call::Strip, &FAULTS_TOGETHER),
        of(&refused(), &OF_REFUSED),
        of(&short, &[RIGHT]),
        of(&short[..3], &[ONE_MISSING]),
        of(&fillings.map(Base::Filled), &[RIGHT]),
        of(&others, &[RIGHT]),
        of(&[Base::NoBurst], &[ONE_MISSING]),
        of(
            &[Base::Sized(9, 8)],
            &[
                |asked| asked.room = Room::OfWholeBytes,
                |asked| asked.room = Room::OfDots,
            ],
        ),
    ]
    .concat()
}

/// All dots that are dealt.
pub fn dots() -> Vec<Card> {
    let of = |bases: &[Base], edges: &[Edge]| cards(Call::Behind, bases, edges);
    let short = [0, 2, 4].map(|row| Base::Short(row, Short::Last));
    let sides = [Sample::LastDot, Sample::FirstWithout];
    let numbers = (0..64).flat_map(|number| sides.map(|side| Base::Number(number, side)));
    let numbers: Vec<Base> = numbers.collect();
    let others = [
        Base::Neighbours,
        Base::Deep,
        Base::Number(9, Sample::FarWithout),
        Base::NotAllowed,
        Base::Large,
        Base::LastBurst,
    ];
    [
        of(&KINDS, &COLUMN_EDGES),
        of(&KINDS, &LINE_EDGES),
        of(&KINDS, &WINDOW_EDGES),
        told_each(Call::Behind, &DOT_FAULTS),
        of(&refused(), &DOTS_OF_REFUSED),
        of(&short, &[RIGHT]),
        of(&numbers, &[RIGHT]),
        of(&others, &[RIGHT]),
    ]
    .concat()
}

/// A strip or a dot of any file, at times one that is missing or does not fit.
pub fn any(random: &mut Random) -> Case {
    let versions = random.pick(&CHOICES);
    let mut asked = match random.between(0, 9) {
        0 => Base::Waveform.asked(versions, random),
        1 => Base::Bursts.asked(versions, random),
        _ => {
            let mut file = files::labelled(random);
            if random.chance(20) {
                files::damage(&mut file, random);
            }
            Asked::of(file, versions, random)
        }
    };
    let rows = asked.sizes.len();
    if random.chance(30) {
        asked.row = edges::row(random, rows);
    }
    if random.chance(30) {
        asked.window = edges::window(random, asked.size());
    }
    if random.chance(30) {
        asked.line = edges::row(random, rows);
        asked.column = edges::row(random, asked.window.count);
    }
    asked.room = random.pick(&[Room::None, Room::Less, Room::Exact, Room::More]);
    let call = random.pick(&[Call::Strip, Call::Behind]);
    asked.case(call, random)
}

/// A strip that reaches a row of a file, or a dot of that row.
pub fn of_file(file: LabelledFile, row: usize, versions: Versions, random: &mut Random) -> Case {
    let mut asked = Asked::of(file, versions, random);
    let before = random.between(0, row.min(3));
    (asked.row, asked.rows, asked.line) = (row - before, before + 1, before);
    let size = asked.size();
    asked.window = Window::new(0, size);
    asked.column = random.between(0, size.saturating_sub(1));
    let call = random.pick(&[Call::Strip, Call::Behind]);
    asked.case(call, random)
}

#[cfg(test)]
mod tests {
    use super::*;
    use crate::answer;
    use crate::generator::Generator;
    use crate::library::{taken, INDEPENDENT};
    use independent::labelled;
    use std::collections::HashSet;

    #[test]
    fn what_is_asked_is_right_before_anything_is_made_wrong() {
        let mut random = Random::new(83);
        let is_right = |card: &Card| {
            let is_refused = refused().contains(&card.base) || card.base == Base::NotAllowed;
            let is_short = card.call == Call::Strip && matches!(card.base, Base::Short(..));
            !is_refused && !is_short
        };
        for card in [strips(), dots()].concat().into_iter().filter(is_right) {
            let right = Card {
                edge: RIGHT,
                ..card
            };
            let case = right.case(&mut random);
            assert!(
                answer(&INDEPENDENT, &case).starts_with("ok"),
                "{card:?}: {case}"
            );
        }
    }

    /// A row of an accepted file: where it begins, its size, and how deep its label stands.
    #[derive(Clone, Copy)]
    struct Row {
        place: usize,
        size: usize,
        depth: u64,
    }

    /// The rows of a file, or the name of its fault.
    fn rows_of(kind: Kind, file: &[u8]) -> Result<Vec<Row>, &'static str> {
        let count = (INDEPENDENT.check)(kind, file).map_err(|refused| refused.refusal.name())?;
        let each = |first: usize, step: usize, size| {
            let row = |number| Row {
                place: first + number * step,
                size,
                depth: 0,
            };
            (0..count).map(row).collect()
        };
        Ok(match kind {
            Kind::Waveform => each(PREFIX, RECORD, SAMPLES),
            Kind::Bursts(start) => each(start, BURST, BURST),
            Kind::Labelled(versions) => labelled::leaves(taken(versions), file)
                .into_iter()
                .flatten()
                .flatten()
                .map(|leaf| Row {
                    place: leaf.row.start as usize,
                    size: leaf.row.length as usize,
                    depth: leaf.row.address.nesting.map_or(0, |nesting| nesting.depth),
                })
                .collect(),
        })
    }

    fn kind_in_words(kind: Kind) -> &'static str {
        match kind {
            Kind::Labelled(_) => "labelled",
            Kind::Waveform => "waveform",
            Kind::Bursts(_) => "bursts",
        }
    }

    /// What is told of a labelled file.
    fn told(kind: Kind) -> &'static str {
        match kind {
            Kind::Labelled(Versions::OneAndTwo) => "told both versions",
            _ => "told version 1",
        }
    }

    /// Whether a file is refused because of what is told of it alone.
    fn is_not_allowed(kind: Kind, file: &[u8]) -> bool {
        let both = Kind::Labelled(Versions::OneAndTwo);
        kind == Kind::Labelled(Versions::One) && (INDEPENDENT.check)(both, file).is_ok()
    }

    fn fits(window: Window, size: usize) -> bool {
        window.first <= size && window.count <= size - window.first
    }

    /// Words for a number near what is right, or at an edge of numbers.
    fn near(number: usize, right: usize) -> Vec<&'static str> {
        let words = [
            (number == right, "right"),
            (number == right + 1, "one more"),
            (number > right + 1, "much more"),
            (number.checked_add(1) == Some(right), "one less"),
            (number == 0 && right > 0, "none"),
            (number == MOST, "2^64 - 1"),
        ];
        let near = words.into_iter().filter(|(is_near, _)| *is_near);
        near.map(|(_, words)| words).collect()
    }

    /// What is seen in a strip.
    fn seen_in_strip(
        kind: Kind,
        file: &[u8],
        row: usize,
        lines: usize,
        window: Window,
        room: usize,
    ) -> Vec<String> {
        let of = kind_in_words(kind);
        let rows = match rows_of(kind, file) {
            Ok(rows) => rows,
            Err(fault) => {
                let mut seen = vec![format!("{of}, {}, {fault}: a strip", told(kind))];
                if is_not_allowed(kind, file) {
                    seen.push("a strip with version 2, which is not allowed".to_string());
                }
                let has_no_room = room == 0 && lines > 0;
                for (is_seen, words) in [
                    (lines == 0, "no rows"),
                    (row == MOST && lines > 0, "no such row"),
                    (window.first == MOST && lines > 0, "no such window"),
                    (has_no_room && row == MOST && window.first == MOST, "all"),
                ] {
                    if is_seen {
                        seen.push(format!("{fault}: {words}"));
                    }
                }
                return seen;
            }
        };
        let count = rows.len();
        let sum = row.checked_add(lines);
        if lines == 0 {
            let mut seen = vec![format!("{of}, no rows, room {}", room > 0)];
            let from = near(row, count).into_iter();
            seen.extend(from.map(|words| format!("{of}, no rows from: {words}")));
            if !rows.iter().any(|row| fits(window, row.size)) {
                seen.push(format!("{of}, no rows, no window"));
            }
            return seen;
        }
        let is_missing = sum.is_none_or(|sum| sum > count);
        let strip: Vec<Row> = rows.iter().copied().skip(row).take(lines).collect();
        let misfits: Vec<usize> = (0..strip.len())
            .filter(|&line| !fits(window, strip[line].size))
            .collect();
        let need = lines.checked_mul(line_bytes(window.count));
        let has_room = need.is_some_and(|need| need <= room);
        let mut seen = vec![format!(
            "{of}: {}, {}, {}",
            if is_missing { "missing" } else { "there" },
            if misfits.is_empty() { "fits" } else { "misfit" },
            if has_room { "room" } else { "no room" },
        )];
        seen.push(format!("{}: {}", told(kind), seen[0]));
        if is_missing {
            seen.extend(missing_in_words(of, row, lines, window, count));
        } else if !misfits.is_empty() {
            seen.extend(misfit_in_words(of, window, &strip, &misfits));
        } else if let Some(need) = need {
            let rooms = near(room, need).into_iter();
            seen.extend(rooms.map(|words| format!("{of}, room: {words}")));
            if has_room {
                seen.extend(drawn_in_words(kind, file, row, window, &rows, &strip));
            }
        }
        seen
    }

    fn missing_in_words(
        of: &str,
        row: usize,
        lines: usize,
        window: Window,
        count: usize,
    ) -> Vec<String> {
        let mut seen = Vec::new();
        let small = |number: usize| number as u32 as usize;
        let product = lines as u128 * line_bytes(window.count) as u128;
        for (is_seen, words) in [
            (row == count, "from behind the last row"),
            (row > count && row < count + 9, "from further behind"),
            (row.checked_add(lines) == Some(count + 1), "one too many"),
            (row == MOST && lines == 1, "the last number"),
            (
                row.wrapping_add(lines) == 0 && lines > 1,
                "numbers up to 2^64",
            ),
            (
                row.checked_add(lines).is_none() && (1..=count).contains(&row.wrapping_add(lines)),
                "a sum that turns",
            ),
            (
                row > count && small(row) + small(lines) <= count,
                "a row that turns in 32 bits",
            ),
            (
                row <= count && lines >= 1 << 32 && small(row) + small(lines) <= count,
                "rows that turn in 32 bits",
            ),
            (product == 1 << 64, "2^64 bytes"),
            (product > 1 << 64 && product < (1 << 64) + 9, "some more"),
            (lines == MOST && window.count == 0, "all rows, no column"),
            (lines == MOST && window.count == 1, "all rows, one column"),
        ] {
            if is_seen {
                seen.push(format!("{of}, missing: {words}"));
            }
        }
        seen
    }

    fn misfit_in_words(of: &str, window: Window, strip: &[Row], misfits: &[usize]) -> Vec<String> {
        let mut seen = Vec::new();
        let size = strip.iter().map(|row| row.size).min().unwrap_or(0);
        let sum = window.first.checked_add(window.count);
        for (is_seen, words) in [
            (sum == Some(size + 1) && window.count > 1, "by a byte"),
            (window == Window::new(size, 1), "behind the row"),
            (window == Window::new(size + 1, 0), "empty, behind the row"),
            (window == Window::new(0, MOST), "2^64 - 1 columns"),
            (window == Window::new(0, MOST - 6), "2^64 - 7 columns"),
            (window == Window::new(0, MOST - 7), "2^64 - 8 columns"),
            (window == Window::new(MOST, 0), "empty, from 2^64 - 1 on"),
            (window == Window::new(MOST, 1), "up to 2^64"),
            (sum.is_none() && window.first <= size, "a sum that turns"),
            (
                window.first + (window.count as u32 as usize) <= size && (window.count >> 32) == 1,
                "columns that turn in 32 bits",
            ),
        ] {
            if is_seen {
                seen.push(format!("{of}, misfit: {words}"));
            }
        }
        if let ([line], 3..) = (misfits, strip.len()) {
            let place = match *line {
                0 => "first",
                line if line + 1 == strip.len() => "last",
                _ => "middle",
            };
            let size = strip[*line].size;
            if size + 1 == window.first + window.count {
                seen.push(format!("{place} row too short by a byte"));
            }
            if size < window.first {
                seen.push(format!("{place} row ends in front"));
            }
            if size == 0 {
                seen.push(format!("{place} row is empty"));
            }
        }
        seen
    }

    /// What is seen in lines that are drawn.
    fn drawn_in_words(
        kind: Kind,
        file: &[u8],
        row: usize,
        window: Window,
        rows: &[Row],
        strip: &[Row],
    ) -> Vec<String> {
        let of = kind_in_words(kind);
        let mut seen = vec![
            format!("{} columns, {} lines", window.count, strip.len()),
            format!("row a multiple of 8: {}", row.is_multiple_of(8)),
            format!(
                "{of}, byte a multiple of 8: {}",
                window.first.is_multiple_of(8)
            ),
        ];
        let lines: Vec<&[u8]> = strip
            .iter()
            .map(|row| &file[row.place + window.first..][..window.count])
            .collect();
        for (y, line) in lines.iter().enumerate() {
            for (x, &sample) in line.iter().enumerate() {
                let m = matrix_at(y as u64, x as u64);
                seen.extend(side(m, sample).map(|side| format!("strip, {side} at {m}")));
            }
            let samples: HashSet<&u8> = line.iter().collect();
            if samples.len() == 256 {
                seen.push(format!("{of}, all samples"));
            }
        }
        let mut all = lines.concat();
        all.dedup();
        if all.len() == 1 && lines.len() > 7 && window.count > 7 {
            seen.push("whole tiles of a sample".to_string());
        }
        let depths: HashSet<u64> = strip.iter().map(|row| row.depth).collect();
        if depths.len() == 8 {
            seen.push(format!("all depths, {}", told(kind)));
        }
        let in_front = row.checked_sub(1).and_then(|row| rows.get(row));
        let behind = rows.get(row + strip.len());
        if [in_front, behind].map(|row| row.map(|row| fits(window, row.size))) == [Some(false); 2] {
            seen.push("short rows around".to_string());
        }
        if strip.iter().any(|row| row.place > 65_536) {
            seen.push("strip beyond 65,536".to_string());
        }
        seen
    }

    /// Whether a sample is the largest that leaves a dot at this number of the matrix, or the next one.
    fn side(m: u32, sample: u8) -> Option<&'static str> {
        let dot = |sample: u8| u32::from((INDEPENDENT.tone)(sample)) < 4 * m + 2;
        match (dot(sample), sample) {
            (true, 255) => None,
            (true, _) => (!dot(sample + 1)).then_some("last dot"),
            (false, 0) => None,
            (false, _) => dot(sample - 1).then_some("first without"),
        }
    }

    /// What is seen in a place of a strip.
    fn seen_in_dot(
        kind: Kind,
        file: &[u8],
        row: usize,
        window: Window,
        column: usize,
        line: usize,
    ) -> Vec<String> {
        let of = kind_in_words(kind);
        let is_outside = column >= window.count;
        let rows = match rows_of(kind, file) {
            Ok(rows) => rows,
            Err(fault) => {
                let mut seen = vec![format!("{of}, {}, {fault}: a dot", told(kind))];
                if is_not_allowed(kind, file) {
                    seen.push("a dot with version 2, which is not allowed".to_string());
                }
                if row == MOST && is_outside {
                    seen.push(format!("{fault}: no such dot"));
                }
                if window.first == MOST {
                    seen.push(format!("{fault}: no window of a dot"));
                }
                return seen;
            }
        };
        let count = rows.len();
        let number = row.checked_add(line);
        let in_file = number.and_then(|number| rows.get(number));
        let is_fit = in_file.is_some_and(|row| fits(window, row.size));
        let mut seen = vec![match in_file {
            None => format!("{of}, dot: missing, outside: {is_outside}"),
            Some(_) => format!("{of}, dot: fits: {is_fit}, outside: {is_outside}"),
        }];
        seen.push(format!("{}: {}", told(kind), seen[0]));
        let smallest = rows.iter().map(|row| row.size).min().unwrap_or(0);
        if in_file.is_none() && !fits(window, smallest) {
            seen.push(format!("{of}, dot: missing, misfit"));
        }
        if let Some(number) = number {
            let numbers = near(number, count).into_iter();
            seen.extend(numbers.map(|words| format!("{of}, dot's row: {words}")));
        }
        let small = |number: usize| number as u32 as usize;
        for (is_seen, words) in [
            (
                number.is_none() && row.wrapping_add(line) < count,
                "a sum that turns",
            ),
            (
                row >= 1 << 32 && small(row) + line < count,
                "a row that turns in 32 bits",
            ),
            (
                line >= 1 << 32 && row + small(line) < count,
                "a line that turns in 32 bits",
            ),
        ] {
            if is_seen {
                seen.push(format!("{of}, dot: {words}"));
            }
        }
        let Some(in_row) = in_file.filter(|_| is_fit) else {
            return seen;
        };
        let columns = near(column, window.count).into_iter();
        seen.extend(columns.map(|words| format!("{of}, column: {words}")));
        if column >= 1 << 32 && small(column) < window.count {
            seen.push(format!("{of}, column turns in 32 bits"));
        }
        if window.count > 0 && window.first > 0 && window.first.wrapping_add(column) == 0 {
            seen.push(format!("{of}, column turns to the row's front"));
        }
        if is_outside {
            return seen;
        }
        let place = in_row.place + window.first + column;
        let m = matrix_at(line as u64, column as u64);
        seen.extend(side(m, file[place]).map(|side| format!("dot, {side} at {m}")));
        if rows.iter().any(|row| !fits(window, row.size)) {
            seen.push("dot with short rows around".to_string());
        }
        if place > 65_536 {
            seen.push("dot beyond 65,536".to_string());
        }
        if in_row.depth > 1 {
            seen.push("dot in a group".to_string());
        }
        seen
    }

    fn seen_in(case: Case) -> Vec<String> {
        match case {
            Case::Tone { byte } => vec![format!("tone {byte}")],
            Case::Strip {
                kind,
                file,
                row,
                rows,
                window,
                buffer,
            } => seen_in_strip(kind, &file, row, rows, window, buffer.len()),
            Case::Behind {
                kind,
                file,
                row,
                window,
                column,
                line,
            } => seen_in_dot(kind, &file, row, window, column, line),
            _ => Vec::new(),
        }
    }

    /// What has to be seen.
    fn expected() -> Vec<String> {
        let mut words: Vec<String> = (0..=255).map(|byte| format!("tone {byte}")).collect();
        for columns in COLUMNS {
            words.extend(LINES.map(|lines| format!("{columns} columns, {lines} lines")));
        }
        for of in ["labelled", "waveform", "bursts"] {
            words.extend(expected_of(of));
            let of_labelled = ["told version 1", "told both versions"];
            let told = match of {
                "labelled" => &of_labelled[..],
                _ => &of_labelled[..1],
            };
            for told in told {
                for state in states_of(of) {
                    words.push(format!("{told}: {state}"));
                }
            }
            let of_refused: &[&str] = match of {
                "waveform" => &["RAGGED"],
                "bursts" => &["RAGGED", "BADSTART"],
                _ => &["SHORT", "BADLABEL", "BADLENGTH", "OVERRUN", "DEEP"],
            };
            for fault in of_refused {
                for (told, call) in told
                    .iter()
                    .flat_map(|told| ["strip", "dot"].map(|call| (told, call)))
                {
                    words.push(format!("{of}, {told}, {fault}: a {call}"));
                }
                for asked in ["no rows", "no such row", "no such window", "all"] {
                    words.push(format!("{fault}: {asked}"));
                }
                words.push(format!("{fault}: no such dot"));
                words.push(format!("{fault}: no window of a dot"));
            }
        }
        for place in ["first", "middle", "last"] {
            for how in [
                "row too short by a byte",
                "row ends in front",
                "row is empty",
            ] {
                words.push(format!("{place} {how}"));
            }
        }
        for m in 0..64 {
            for side in ["last dot", "first without"] {
                words.push(format!("strip, {side} at {m}"));
                words.push(format!("dot, {side} at {m}"));
            }
        }
        for one in [
            "a strip with version 2, which is not allowed",
            "a dot with version 2, which is not allowed",
            "row a multiple of 8: true",
            "row a multiple of 8: false",
            "whole tiles of a sample",
            "all depths, told version 1",
            "all depths, told both versions",
            "short rows around",
            "strip beyond 65,536",
            "dot beyond 65,536",
            "dot in a group",
            "dot with short rows around",
        ] {
            words.push(one.to_string());
        }
        words
    }

    /// The states of strips and dots that have to be seen of each kind.
    fn states_of(of: &str) -> Vec<String> {
        let mut words = Vec::new();
        for (rows, fit) in [
            ("there", "fits"),
            ("there", "misfit"),
            ("missing", "fits"),
            ("missing", "misfit"),
        ] {
            words.extend(["room", "no room"].map(|room| format!("{of}: {rows}, {fit}, {room}")));
        }
        for outside in [true, false] {
            words.push(format!("{of}, dot: missing, outside: {outside}"));
            for is_fit in [true, false] {
                words.push(format!("{of}, dot: fits: {is_fit}, outside: {outside}"));
            }
        }
        words
    }

    /// What has to be seen of each kind.
    fn expected_of(of: &str) -> Vec<String> {
        let mut words = vec![format!("{of}, all samples")];
        for room in ["none", "one less", "right", "one more", "much more"] {
            words.push(format!("{of}, room: {room}"));
        }
        for from in ["right", "one more", "2^64 - 1"] {
            words.push(format!("{of}, no rows from: {from}"));
        }
        words.push(format!("{of}, no rows, no window"));
        words.extend([true, false].map(|room| format!("{of}, no rows, room {room}")));
        for missing in [
            "from behind the last row",
            "from further behind",
            "one too many",
            "the last number",
            "numbers up to 2^64",
            "a sum that turns",
            "a row that turns in 32 bits",
            "rows that turn in 32 bits",
            "2^64 bytes",
            "some more",
            "all rows, no column",
            "all rows, one column",
        ] {
            words.push(format!("{of}, missing: {missing}"));
        }
        for misfit in [
            "by a byte",
            "behind the row",
            "empty, behind the row",
            "2^64 - 1 columns",
            "2^64 - 7 columns",
            "2^64 - 8 columns",
            "empty, from 2^64 - 1 on",
            "up to 2^64",
            "a sum that turns",
            "columns that turn in 32 bits",
        ] {
            words.push(format!("{of}, misfit: {misfit}"));
        }
        words.push(format!("{of}, dot: missing, misfit"));
        for number in ["one less", "right"] {
            words.push(format!("{of}, dot's row: {number}"));
        }
        for turns in [
            "a sum that turns",
            "a row that turns in 32 bits",
            "a line that turns in 32 bits",
        ] {
            words.push(format!("{of}, dot: {turns}"));
        }
        for column in ["none", "one less", "right", "2^64 - 1"] {
            words.push(format!("{of}, column: {column}"));
        }
        words.push(format!("{of}, column turns in 32 bits"));
        words.push(format!("{of}, column turns to the row's front"));
        words.extend([true, false].map(|is| format!("{of}, byte a multiple of 8: {is}")));
        words
    }

    #[test]
    fn ten_thousand_cases_hold_each_strip_and_each_dot() {
        for seed in 0..3 {
            let mut seen = HashSet::new();
            let lines = Generator::new(seed).take(10_000);
            let cases = lines.filter_map(|line| Case::parse(line.as_bytes()));
            seen.extend(cases.flat_map(seen_in));
            for words in expected() {
                assert!(seen.contains(&words), "{words}");
            }
        }
    }
}
