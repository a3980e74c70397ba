//! Tones, strips and dots that are made wrongly, each in one way: ten thousand generated cases tell each of
//! them from what is right.

use conformance::generator::Generator;
use conformance::library::{Answer, INDEPENDENT};
use conformance::{Case, Library};
use crestulbino::{line_bytes, Dot, Kind, Refusal, Refused, Versions, Window};
use independent::plotter::matrix_at;

const RIGHT: Library = INDEPENDENT;

const MOST: usize = usize::MAX;

fn refused<T>(refusal: Refusal) -> Answer<T> {
    Err(Refused { refusal, place: 0 })
}

/// How dots come of samples: by the tone, the number of the matrix, and how the two are compared. The
/// number is told the column, the line, and the same counted in the file: the row's number and the byte's.
#[derive(Clone, Copy)]
struct Rule {
    tone: fn(u8) -> u32,
    number: fn(At) -> u32,
    is_dot: fn(u32, u32) -> bool,
}

/// A place of a strip.
#[derive(Clone, Copy)]
struct At {
    x: usize,
    y: usize,
    /// How many columns the strip has.
    columns: usize,
    /// The number of the row in the file, the byte in the row, and the place in the file.
    row: usize,
    byte: usize,
    place: usize,
}

const RULE: Rule = Rule {
    tone: right_tone,
    number: |at| matrix(at.y, at.x),
    is_dot: |tone, number| tone < 4 * number + 2,
};

fn right_tone(sample: u8) -> u32 {
    (RIGHT.tone)(sample).into()
}

fn matrix(row: usize, column: usize) -> u32 {
    matrix_at(row as u64, column as u64)
}

/// The matrix that grows with these numbers in its quarters.
fn grown(quarters: [u32; 4], row: usize, column: usize) -> u32 {
    (0..3).fold(0, |number, bit| {
        let quarter = 2 * (row >> bit & 1) + (column >> bit & 1);
        4 * number + quarters[quarter]
    })
}

/// The matrix with two numbers exchanged.
fn exchanged(one: u32, other: u32, at: At) -> u32 {
    match matrix(at.y, at.x) {
        number if number == one => other,
        number if number == other => one,
        number => number,
    }
}

/// The curve with another tone for one sample.
fn with_tone(sample: u8, of: u8, tone: u32) -> u32 {
    if sample == of {
        tone
    } else {
        right_tone(sample)
    }
}

/// Rules that draw other dots. Each is tried in strips and in dots.
#[rustfmt::skip] // A line for a rule.
const RULES: [(&str, Rule); 38] = [
    ("or equal", Rule { is_dot: |tone, number| tone <= 4 * number + 2, ..RULE }),
    ("light dots", Rule { is_dot: |tone, number| tone >= 4 * number + 2, ..RULE }),
    ("more than", Rule { is_dot: |tone, number| tone > 4 * number + 2, ..RULE }),
    ("one less", Rule { is_dot: |tone, number| tone < 4 * number + 1, ..RULE }),
    ("two less", Rule { is_dot: |tone, number| tone < 4 * number, ..RULE }),
    ("two more", Rule { is_dot: |tone, number| tone < 4 * number + 4, ..RULE }),
    ("twice the number", Rule { is_dot: |tone, number| tone < 2 * number + 2, ..RULE }),
    ("a quarter of the tone", Rule { is_dot: |tone, number| tone / 4 < number, ..RULE }),
    ("a quarter of the tone, or equal", Rule { is_dot: |tone, number| tone / 4 <= number, ..RULE }),
    ("compared in 7 bits", Rule { is_dot: |tone, number| tone % 128 < (4 * number + 2) % 128, ..RULE }),
    ("compared with a sign", Rule { is_dot: |tone, number| (tone as i8) < (4 * number + 2) as i8, ..RULE }),
    ("column and line exchanged", Rule { number: |at| matrix(at.x, at.y), ..RULE }),
    ("the line by the file's row", Rule { number: |at| matrix(at.row, at.x), ..RULE }),
    ("the column by the row's byte", Rule { number: |at| matrix(at.y, at.byte), ..RULE }),
    ("the column by the file's place", Rule { number: |at| matrix(at.y, at.place), ..RULE }),
    ("both by the file", Rule { number: |at| matrix(at.row, at.byte), ..RULE }),
    ("columns counted on from line to line", Rule { number: |at| matrix(at.y, at.y * at.columns + at.x), ..RULE }),
    ("columns from the right", Rule { number: |at| matrix(at.y, at.columns - 1 - at.x), ..RULE }),
    ("columns from 1", Rule { number: |at| matrix(at.y, at.x + 1), ..RULE }),
    ("lines from 1", Rule { number: |at| matrix(at.y + 1, at.x), ..RULE }),
    ("the first line's numbers always", Rule { number: |at| matrix(0, at.x), ..RULE }),
    ("the first column's numbers always", Rule { number: |at| matrix(at.y, 0), ..RULE }),
    ("lines by 7", Rule { number: |at| matrix(at.y % 7, at.x), ..RULE }),
    ("a matrix of 4 by 4", Rule { number: |at| matrix(at.y, at.x) / 4 * 4, ..RULE }),
    ("the matrix with 63 first", Rule { number: |at| 63 - matrix(at.y, at.x), ..RULE }),
    ("quarters 0 1 2 3", Rule { number: |at| grown([0, 1, 2, 3], at.y, at.x), ..RULE }),
    ("quarters 0 2 1 3", Rule { number: |at| grown([0, 2, 1, 3], at.y, at.x), ..RULE }),
    ("quarters 0 3 1 2", Rule { number: |at| grown([0, 3, 1, 2], at.y, at.x), ..RULE }),
    ("the matrix grown the other way", Rule { number: |at| grown_outwards(at.y, at.x), ..RULE }),
    ("62 and 63 exchanged", Rule { number: |at| exchanged(62, 63, at), ..RULE }),
    ("31 and 32 exchanged", Rule { number: |at| exchanged(31, 32, at), ..RULE }),
    ("3 and 4 exchanged", Rule { number: |at| exchanged(3, 4, at), ..RULE }),
    ("no curve", Rule { tone: |sample| sample.into(), ..RULE }),
    ("the curve twice", Rule { tone: |sample| right_tone(right_tone(sample) as u8), ..RULE }),
    ("the curve of a sample with a sign", Rule { tone: |sample| right_tone(sample ^ 0x80), ..RULE }),
    ("the curve of the amplitude", Rule { tone: |sample| right_tone(sample.abs_diff(127)), ..RULE }),
    ("the curve falls at 201", Rule { tone: |sample| with_tone(sample, 201, 200), ..RULE }),
    ("the curve begins with 15", Rule { tone: |sample| right_tone(sample.max(1)), ..RULE }),
];

/// The matrix in which the quarters are what the growth begins with.
fn grown_outwards(row: usize, column: usize) -> u32 {
    (0..3).rev().fold(0, |number, bit| {
        let (down, right) = ((row >> bit & 1) as u32, (column >> bit & 1) as u32);
        4 * number + 2 * (down ^ right) + down
    })
}

type WrongTone = fn(u8) -> u8;

/// Tones that are wrong for some sample.
const TONES: [(&str, WrongTone); 17] = [
    ("no curve", |sample| sample),
    ("rounded up", |sample| {
        let tone = (RIGHT.tone)(sample);
        let is_exact = u32::from(tone).pow(2) == 255 * u32::from(sample);
        tone + u8::from(!is_exact)
    }),
    ("rounded", |sample| {
        (255.0 * f64::from(sample)).sqrt().round() as u8
    }),
    ("of 256 times", |sample| {
        let largest = (0..=255)
            .rev()
            .find(|t: &u32| t * t <= 256 * u32::from(sample));
        largest.unwrap_or(0) as u8
    }),
    ("of 254 times", |sample| {
        let largest = (0..=255)
            .rev()
            .find(|t: &u32| t * t <= 254 * u32::from(sample));
        largest.unwrap_or(0) as u8
    }),
    ("less than", |sample| {
        let largest = (0..=255)
            .rev()
            .find(|t: &u32| t * t < 255 * u32::from(sample));
        largest.unwrap_or(0) as u8
    }),
    ("in 16 bits with a sign", |sample| {
        let product = 255_i32.wrapping_mul(sample.into()) as i16;
        f64::from(product.max(0)).sqrt() as u8
    }),
    ("1 at 0", |sample| with_tone(sample, 0, 1) as u8),
    ("16 at 1", |sample| with_tone(sample, 1, 16) as u8),
    ("14 at 1", |sample| with_tone(sample, 1, 14) as u8),
    ("128 at 64", |sample| with_tone(sample, 64, 128) as u8),
    ("off by one at 77", |sample| {
        with_tone(sample, 77, right_tone(77) + 1) as u8
    }),
    ("off by one at 128", |sample| {
        with_tone(sample, 128, right_tone(128) - 1) as u8
    }),
    ("off by one at 254", |sample| {
        with_tone(sample, 254, 255) as u8
    }),
    ("254 at 255", |sample| with_tone(sample, 255, 254) as u8),
    ("falls at 100", |sample| {
        with_tone(sample, 100, right_tone(99) - 1) as u8
    }),
    ("falls at 255", |sample| with_tone(sample, 255, 0) as u8),
];

/// What a strip is asked for, but the room.
#[derive(Clone, Copy)]
struct Strip<'a> {
    kind: Kind,
    file: &'a [u8],
    row: usize,
    rows: usize,
    window: Window,
}

type WrongStrip = fn(Strip<'_>, &mut [u8]) -> Answer<usize>;

/// A line of the strip: the bytes of the window and where they begin.
struct Line<'a> {
    place: usize,
    samples: &'a [u8],
}

impl<'a> Strip<'a> {
    fn right(self, out: &mut [u8]) -> Answer<usize> {
        (RIGHT.strip)(self.kind, self.file, self.row, self.rows, self.window, out)
    }

    /// The same with something else asked for.
    fn with(mut self, out: &mut [u8], change: impl FnOnce(&mut Self)) -> Answer<usize> {
        change(&mut self);
        self.right(out)
    }

    fn count(self) -> Answer<usize> {
        (RIGHT.check)(self.kind, self.file)
    }

    fn line(self, number: usize) -> Answer<Line<'a>> {
        let row = (RIGHT.read_row)(self.kind, self.file, number, self.window)?;
        Ok(Line {
            place: row.place,
            samples: row.bytes,
        })
    }

    fn is_missing(self) -> Answer<bool> {
        let count = self.count()?;
        Ok(self.rows > 0 && (self.row > count || self.rows > count - self.row))
    }

    /// The bytes of a row that is there, whole.
    fn whole(self, number: usize) -> &'a [u8] {
        let rows = (RIGHT.check)(self.kind, self.file).unwrap_or(0);
        if number >= rows {
            return &[];
        }
        // The largest count that fits is found by halves.
        let fits = |count| {
            let window = Window::new(0, count);
            (RIGHT.read_row)(self.kind, self.file, number, window).ok()
        };
        let (mut low, mut high) = (0, self.file.len());
        while low < high {
            let middle = (low + high).div_ceil(2);
            match fits(middle) {
                Some(_) => low = middle,
                None => high = middle - 1,
            }
        }
        fits(low).map_or(&[], |row| row.bytes)
    }

    /// The rows of the strip that are there, each with the number of its line.
    fn there(self) -> Answer<Vec<usize>> {
        let count = self.count()?;
        let end = self.row.saturating_add(self.rows).min(count);
        Ok((self.row.min(end)..end).collect())
    }

    /// All lines, once rows and windows have been looked at.
    fn lines(self) -> Answer<Vec<Line<'a>>> {
        if self.is_missing()? {
            return refused(Refusal::NoRow);
        }
        (0..self.rows).map(|y| self.line(self.row + y)).collect()
    }

    fn need(self) -> Option<usize> {
        self.rows.checked_mul(line_bytes(self.window.count))
    }

    fn has_room(self, out: &[u8]) -> bool {
        self.need().is_some_and(|need| need <= out.len())
    }

    /// Draws what these bytes come to, with room for them.
    fn writing(self, out: &mut [u8], bytes: impl FnOnce(&[Line<'a>]) -> Vec<u8>) -> Answer<usize> {
        let lines = self.lines()?;
        let bytes = bytes(&lines);
        match out.get_mut(..bytes.len()) {
            Some(front) => front.copy_from_slice(&bytes),
            None => return refused(Refusal::Small),
        }
        Ok(bytes.len())
    }

    /// Draws by another rule.
    fn drawing(self, out: &mut [u8], rule: Rule) -> Answer<usize> {
        self.writing(out, |lines| {
            let line = |(y, line): (usize, &Line<'_>)| packed(&self.dots(y, line, rule));
            lines.iter().enumerate().flat_map(line).collect()
        })
    }

    /// The dots of a line by a rule.
    fn dots(self, y: usize, line: &Line<'_>, rule: Rule) -> Vec<bool> {
        let dot = |(x, &sample): (usize, &u8)| {
            let at = At {
                x,
                y,
                columns: line.samples.len(),
                row: self.row + y,
                byte: self.window.first + x,
                place: line.place + x,
            };
            (rule.is_dot)((rule.tone)(sample), (rule.number)(at))
        };
        line.samples.iter().enumerate().map(dot).collect()
    }

    /// Packs the dots of each line in another way.
    fn packing(self, out: &mut [u8], pack: impl Fn(&[bool]) -> Vec<u8>) -> Answer<usize> {
        self.writing(out, |lines| {
            let line = |(y, line): (usize, &Line<'_>)| pack(&self.dots(y, line, RULE));
            lines.iter().enumerate().flat_map(line).collect()
        })
    }

    /// Draws the lines with these numbers of the strip's instead of its own, in this order.
    fn choosing(self, out: &mut [u8], choose: impl Fn(usize, usize) -> usize) -> Answer<usize> {
        self.writing(out, |lines| {
            let line = |y: usize| {
                let line = &lines[choose(y, lines.len())];
                packed(&self.dots(y, line, RULE))
            };
            (0..lines.len()).flat_map(line).collect()
        })
    }

    /// Draws the rows with these numbers of the file, as far as they are there and the window fits.
    fn drawing_rows(self, out: &mut [u8], number: impl Fn(usize) -> usize) -> Answer<usize> {
        self.writing(out, |lines| {
            let line = |(y, line): (usize, &Line<'_>)| {
                let other = self.line(number(y));
                packed(&self.dots(y, other.as_ref().unwrap_or(line), RULE))
            };
            lines.iter().enumerate().flat_map(line).collect()
        })
    }

    /// Has written the lines of these rows, as far as they can be and as there is room, where it refuses for
    /// this reason.
    fn having_written(self, out: &mut [u8], reason: Refusal) -> Answer<usize> {
        let answer = self.right(out);
        if answer.is_err_and(|refused| refused.refusal == reason) {
            let lines = self
                .there()?
                .into_iter()
                .map_while(|row| self.line(row).ok());
            let bytes: Vec<u8> = (0..)
                .zip(lines)
                .flat_map(|(y, line)| packed(&self.dots(y, &line, RULE)))
                .collect();
            let slots = out.iter_mut().zip(bytes);
            slots.for_each(|(slot, byte)| *slot = byte);
        }
        answer
    }
}

/// Dots as the bytes of a line.
fn packed(dots: &[bool]) -> Vec<u8> {
    let byte = |dots: &[bool]| {
        let bits = dots.iter().zip(0..);
        bits.fold(0, |byte, (&dot, bit)| byte | u8::from(dot) << (7 - bit))
    };
    dots.chunks(8).map(byte).collect()
}

/// How dots stand in bytes, and bytes in lines.
const PACKED: [(&str, WrongStrip); 16] = [
    ("the lowest bit leftmost", |asked, out| {
        asked.packing(out, |dots| {
            packed(dots)
                .iter()
                .map(|byte| byte.reverse_bits())
                .collect()
        })
    }),
    ("the lowest bit leftmost in whole bytes", |asked, out| {
        asked.packing(out, |dots| {
            let whole = dots.len() / 8;
            let bytes = packed(dots).into_iter().enumerate();
            bytes
                .map(|(at, byte)| {
                    if at < whole {
                        byte.reverse_bits()
                    } else {
                        byte
                    }
                })
                .collect()
        })
    }),
    ("the last dots at the right", |asked, out| {
        asked.packing(out, |dots| {
            let mut bytes = packed(dots);
            if let Some(last) = bytes.last_mut() {
                *last >>= (8 - dots.len() % 8) % 8;
            }
            bytes
        })
    }),
    ("unused bits set", |asked, out| {
        asked.packing(out, |dots| {
            let unused = dots.len().next_multiple_of(8) - dots.len();
            packed(&[dots, &vec![true; unused]].concat())
        })
    }),
    ("unused bits as they were", |asked, out| {
        let before = out.to_vec();
        let written = asked.right(out)?;
        let unused = asked.window.count.next_multiple_of(8) - asked.window.count;
        let size = line_bytes(asked.window.count);
        if size > 0 {
            let lasts = (size - 1..written).step_by(size);
            lasts.for_each(|at| out[at] |= before[at] & !(0xff_u8 << unused));
        }
        Ok(written)
    }),
    ("unused bits of what is behind the window", |asked, out| {
        let mut wider = asked;
        wider.window.count = asked.window.count.next_multiple_of(8);
        match asked.right(out) {
            Ok(written) => Ok(wider.right(out).unwrap_or(written)),
            refused => refused,
        }
    }),
    ("a line of whole bytes only", |asked, out| {
        asked.packing(out, |dots| packed(&dots[..dots.len() / 8 * 8]))
    }),
    ("a byte more for whole bytes", |asked, out| {
        asked.packing(out, |dots| {
            let more = usize::from(dots.len() % 8 == 0);
            [packed(dots), vec![0; more]].concat()
        })
    }),
    ("lines of two bytes and more", |asked, out| {
        asked.packing(out, |dots| {
            let mut bytes = packed(dots);
            bytes.resize(bytes.len().next_multiple_of(2), 0);
            bytes
        })
    }),
    ("lines of four bytes and more", |asked, out| {
        asked.packing(out, |dots| {
            let mut bytes = packed(dots);
            bytes.resize(bytes.len().next_multiple_of(4), 0);
            bytes
        })
    }),
    ("lines without bits between them", |asked, out| {
        asked.writing(out, |lines| {
            let dots = |(y, line): (usize, &Line<'_>)| asked.dots(y, line, RULE);
            let dots: Vec<bool> = lines.iter().enumerate().flat_map(dots).collect();
            packed(&dots)
        })
    }),
    ("the last line first", |asked, out| {
        asked.writing(out, |lines| {
            let line = |(y, line): (usize, &Line<'_>)| packed(&asked.dots(y, line, RULE));
            let lines: Vec<Vec<u8>> = lines.iter().enumerate().map(line).collect();
            lines.into_iter().rev().flatten().collect()
        })
    }),
    ("a line of each column", |asked, out| {
        asked.writing(out, |lines| {
            let dots = |(y, line): (usize, &Line<'_>)| asked.dots(y, line, RULE);
            let dots: Vec<Vec<bool>> = lines.iter().enumerate().map(dots).collect();
            let column = |x: usize| -> Vec<bool> { dots.iter().map(|line| line[x]).collect() };
            let columns = (0..dots.first().map_or(0, Vec::len)).map(column);
            columns.flat_map(|dots| packed(&dots)).collect()
        })
    }),
    ("bytes of dots in the other order", |asked, out| {
        asked.packing(out, |dots| packed(dots).into_iter().rev().collect())
    }),
    ("dots of one byte in all of them", |asked, out| {
        asked.packing(out, |dots| {
            let bytes = packed(dots);
            vec![bytes.first().copied().unwrap_or(0); bytes.len()]
        })
    }),
    ("black where no dot is", |asked, out| {
        asked.packing(out, |dots| {
            let other: Vec<bool> = dots.iter().map(|dot| !dot).collect();
            packed(&other)
        })
    }),
];

/// Which bytes are drawn.
const DRAWN: [(&str, WrongStrip); 14] = [
    ("the same row in every line", |asked, out| {
        asked.choosing(out, |_, _| 0)
    }),
    ("the last row in every line", |asked, out| {
        asked.choosing(out, |_, lines| lines - 1)
    }),
    ("the last row twice", |asked, out| {
        asked.choosing(out, |y, lines| (y + 1).min(lines - 1))
    }),
    ("the first row twice", |asked, out| {
        asked.choosing(out, |y, _| y.saturating_sub(1))
    }),
    ("rows from the last on", |asked, out| {
        asked.choosing(out, |y, lines| lines - 1 - y)
    }),
    ("every other row", |asked, out| {
        asked.choosing(out, |y, lines| 2 * y % lines)
    }),
    ("the file's first rows", |asked, out| {
        asked.drawing_rows(out, |y| y)
    }),
    ("the rows behind", |asked, out| {
        asked.drawing_rows(out, |y| asked.row + y + 1)
    }),
    ("the rows in front", |asked, out| {
        asked.drawing_rows(out, |y| (asked.row + y).saturating_sub(1))
    }),
    ("from the row's first byte on", |asked, out| {
        match asked.right(out) {
            Ok(_) => asked.with(out, |asked| asked.window.first = 0),
            refused => refused,
        }
    }),
    ("from the next byte on", |asked, out| {
        match asked.right(out) {
            Ok(written) => Ok(asked
                .with(out, |asked| asked.window.first += 1)
                .unwrap_or(written)),
            refused => refused,
        }
    }),
    ("the end of the row", |asked, out| match asked.right(out) {
        Ok(_) => asked.with(out, |asked| {
            let rows = (asked.row..asked.row + asked.rows).map(|row| asked.whole(row).len());
            let size = rows.min().unwrap_or(0);
            asked.window.first = size.saturating_sub(asked.window.count);
        }),
        refused => refused,
    }),
    ("nothing", |asked, out| {
        let mut copy = out.to_vec();
        asked.right(&mut copy)
    }),
    ("at most 256 columns of a line", |asked, out| {
        asked.packing(out, |dots| {
            let mut dots = dots.to_vec();
            dots.iter_mut().skip(256).for_each(|dot| *dot = false);
            packed(&dots)
        })
    }),
];

/// What is answered and what is written.
const WRITTEN: [(&str, WrongStrip); 10] = [
    ("the rest is cleared", |asked, out| {
        let written = asked.right(out)?;
        out[written..].fill(0);
        Ok(written)
    }),
    ("a byte behind the lines", |asked, out| {
        let written = asked.right(out)?;
        out.iter_mut()
            .skip(written)
            .take(1)
            .for_each(|byte| *byte = !*byte);
        Ok(written)
    }),
    ("the last byte of the room", |asked, out| {
        let written = asked.right(out)?;
        let last = out.iter_mut().skip(written).last();
        last.into_iter().for_each(|byte| *byte = !*byte);
        Ok(written)
    }),
    ("at the end of the room", |asked, out| {
        let before = out.to_vec();
        let written = asked.right(out)?;
        let lines = out[..written].to_vec();
        out.copy_from_slice(&before);
        let end = out.len() - written;
        out[end..].copy_from_slice(&lines);
        Ok(written)
    }),
    ("set bits only", |asked, out| {
        let before = out.to_vec();
        let written = asked.right(out)?;
        let both = out.iter_mut().zip(before).take(written);
        both.for_each(|(byte, before)| *byte |= before);
        Ok(written)
    }),
    ("the rows are answered", |asked, out| {
        asked.right(out).map(|_| asked.rows)
    }),
    ("the dots are answered", |asked, out| {
        asked.right(out).map(|_| asked.rows * asked.window.count)
    }),
    ("the bytes of a line are answered", |asked, out| {
        asked.right(out).map(|_| line_bytes(asked.window.count))
    }),
    ("the room is answered", |asked, out| {
        asked.right(out).map(|_| out.len())
    }),
    ("all dots in whole bytes are answered", |asked, out| {
        asked
            .right(out)
            .map(|_| (asked.rows * asked.window.count).div_ceil(8))
    }),
];

/// What is refused, and in which order.
const REFUSALS: [(&str, WrongStrip); 38] = [
    ("7 before 6", |asked, out| {
        let rows = asked.there()?;
        match rows.into_iter().find_map(|row| asked.line(row).err()) {
            Some(fault) => Err(fault),
            None => asked.right(out),
        }
    }),
    ("rows one after the other", |asked, out| {
        asked.count()?;
        for y in 0..asked.rows.min(50) {
            let number = asked.row.checked_add(y);
            number.map_or(refused(Refusal::NoRow), |row| asked.line(row).map(|_| ()))?;
        }
        asked.right(out)
    }),
    ("8 before 7", |asked, out| {
        let is_small = !asked.is_missing()? && !asked.has_room(out);
        if is_small {
            return refused(Refusal::Small);
        }
        asked.right(out)
    }),
    ("8 before 6", |asked, out| {
        asked.count()?;
        let fits = asked.right(&mut vec![0; 4_000]) != refused(Refusal::NoPart);
        if fits && !asked.has_room(out) {
            return refused(Refusal::Small);
        }
        asked.right(out)
    }),
    ("8 before all", |asked, out| {
        if !asked.has_room(out) {
            return refused(Refusal::Small);
        }
        asked.right(out)
    }),
    ("6 before the faults", |asked, out| {
        if asked.rows > 0 && asked.row.checked_add(asked.rows).is_none() {
            return refused(Refusal::NoRow);
        }
        asked.right(out)
    }),
    ("7 before the faults", |asked, out| {
        if asked.rows > 0 && asked.window.first > asked.file.len() {
            return refused(Refusal::NoPart);
        }
        asked.right(out)
    }),
    (
        "only the first row is compared with the window",
        |asked, out| {
            if asked.is_missing()? || asked.rows == 0 {
                return asked.right(out);
            }
            asked.line(asked.row)?;
            match asked.right(out) {
                Err(refused) if refused.refusal == Refusal::NoPart => Ok(0),
                answer => answer,
            }
        },
    ),
    (
        "only the last row is compared with the window",
        |asked, out| {
            if asked.is_missing()? || asked.rows == 0 {
                return asked.right(out);
            }
            asked.line(asked.row + asked.rows - 1)?;
            match asked.right(out) {
                Err(refused) if refused.refusal == Refusal::NoPart => Ok(0),
                answer => answer,
            }
        },
    ),
    (
        "rows between are not compared with the window",
        |asked, out| {
            if asked.is_missing()? || asked.rows == 0 {
                return asked.right(out);
            }
            asked.line(asked.row)?;
            asked.line(asked.row + asked.rows - 1)?;
            match asked.right(out) {
                Err(refused) if refused.refusal == Refusal::NoPart => Ok(0),
                answer => answer,
            }
        },
    ),
    (
        "all rows of the file are compared with the window",
        |asked, out| {
            if !asked.is_missing()? && asked.rows > 0 {
                (0..asked.count()?).try_for_each(|row| asked.line(row).map(|_| ()))?;
            }
            asked.right(out)
        },
    ),
    ("a short row is drawn as far as it goes", |asked, out| {
        if asked.is_missing()? {
            return asked.right(out);
        }
        match asked.right(out) {
            Err(fault) if fault.refusal == Refusal::NoPart && asked.has_room(out) => {
                let size = line_bytes(asked.window.count);
                for y in 0..asked.rows {
                    let row = asked.whole(asked.row + y);
                    let samples = row.get(asked.window.first..).unwrap_or(&[]);
                    let samples = &samples[..samples.len().min(asked.window.count)];
                    let line = Line { place: 0, samples };
                    let mut bytes = packed(&asked.dots(y, &line, RULE));
                    bytes.resize(size, 0);
                    out[y * size..][..size].copy_from_slice(&bytes);
                }
                Ok(asked.rows * size)
            }
            answer => answer,
        }
    }),
    ("only the first row has to be there", |asked, out| {
        let count = asked.count()?;
        if asked.is_missing()? && asked.row < count {
            return asked.with(out, |asked| asked.rows = count - asked.row);
        }
        asked.right(out)
    }),
    ("only the last row has to be there", |asked, out| {
        let count = asked.count()?;
        if asked.is_missing()? && asked.row.wrapping_add(asked.rows) <= count {
            return Ok(0);
        }
        asked.right(out)
    }),
    ("the row behind has to be there", |asked, out| {
        if asked.rows > 0 && asked.row.checked_add(asked.rows) == Some(asked.count()?) {
            return refused(Refusal::NoRow);
        }
        asked.right(out)
    }),
    ("a row too many is no fault", |asked, out| {
        let count = asked.count()?;
        if asked.row.checked_add(asked.rows) == Some(count + 1) && asked.rows > 1 {
            return asked.with(out, |asked| asked.rows -= 1);
        }
        asked.right(out)
    }),
    ("the sum of row and rows turns", |asked, out| {
        let count = asked.count()?;
        let sum = asked.row.wrapping_add(asked.rows);
        if asked.is_missing()? && asked.row > sum && sum <= count {
            return asked.with(out, |asked| (asked.row, asked.rows) = (0, sum));
        }
        asked.right(out)
    }),
    ("the row has 32 bits", |asked, out| {
        asked.with(out, |asked| asked.row = asked.row as u32 as usize)
    }),
    ("the rows have 32 bits", |asked, out| {
        asked.with(out, |asked| asked.rows = asked.rows as u32 as usize)
    }),
    ("the rows have a sign", |asked, out| {
        asked.count()?;
        if (asked.rows as isize) < 0 {
            return Ok(0);
        }
        asked.right(out)
    }),
    ("the product turns", |asked, out| {
        asked.count()?;
        let need = asked.rows.wrapping_mul(line_bytes(asked.window.count));
        if need == 0 {
            return Ok(0);
        }
        asked.right(out)
    }),
    (
        "the product turns before the room is compared",
        |asked, out| {
            asked.count()?;
            let size = line_bytes(asked.window.count);
            if asked.need().is_none() && asked.rows.wrapping_mul(size) <= out.len() {
                return Ok(asked.rows.wrapping_mul(size));
            }
            asked.right(out)
        },
    ),
    ("a product that is too large is 8", |asked, out| {
        asked.count()?;
        match asked.need() {
            None => refused(Refusal::Small),
            Some(_) => asked.right(out),
        }
    }),
    ("the columns turn to none", |asked, out| {
        asked.count()?;
        if !asked.is_missing()? && asked.window.count.wrapping_add(7) / 8 == 0 {
            return Ok(0);
        }
        asked.right(out)
    }),
    ("the columns have 32 bits", |asked, out| {
        asked.with(out, |asked| {
            asked.window.count = asked.window.count as u32 as usize
        })
    }),
    ("the end of the window turns", |asked, out| {
        let end = asked.window.first.wrapping_add(asked.window.count);
        if asked.is_missing()? || asked.rows == 0 || end >= asked.window.first {
            return asked.right(out);
        }
        let rows = (asked.row..asked.row + asked.rows).map(|row| asked.whole(row).len());
        match rows.min() >= Some(end) {
            true => Ok(0),
            false => refused(Refusal::NoPart),
        }
    }),
    (
        "no rows from behind the last one are missing",
        |asked, out| {
            if asked.rows == 0 && asked.row >= asked.count()? {
                return refused(Refusal::NoRow);
            }
            asked.right(out)
        },
    ),
    ("no rows from further behind are missing", |asked, out| {
        if asked.rows == 0 && asked.row > asked.count()? {
            return refused(Refusal::NoRow);
        }
        asked.right(out)
    }),
    ("no rows are compared with the window", |asked, out| {
        if asked.rows == 0 && asked.row < asked.count()? {
            asked.line(asked.row)?;
        }
        asked.right(out)
    }),
    ("no rows need the room of a line", |asked, out| {
        asked.count()?;
        if asked.rows == 0 && out.len() < line_bytes(asked.window.count) {
            return refused(Refusal::Small);
        }
        asked.right(out)
    }),
    ("no rows of any file", |asked, out| match asked.rows {
        0 => Ok(0),
        _ => asked.right(out),
    }),
    ("no columns of any file", |asked, out| {
        match asked.window.count {
            0 => Ok(0),
            _ => asked.right(out),
        }
    }),
    ("no columns of any rows", |asked, out| {
        asked.count()?;
        match asked.window.count {
            0 => Ok(0),
            _ => asked.right(out),
        }
    }),
    ("no columns from any byte on", |asked, out| {
        if !asked.is_missing()? && asked.window.count == 0 {
            return Ok(0);
        }
        asked.right(out)
    }),
    ("no columns are refused", |asked, out| {
        if !asked.is_missing()? && asked.rows > 0 && asked.window.count == 0 {
            return refused(Refusal::NoPart);
        }
        asked.right(out)
    }),
    ("a byte more of room", |asked, out| {
        let need = asked.lines().map(|_| asked.need().unwrap_or(MOST));
        if need.is_ok_and(|need| need > 0 && out.len() == need) {
            return refused(Refusal::Small);
        }
        asked.right(out)
    }),
    ("room for whole bytes only", |asked, out| {
        let lines = asked.lines()?.len();
        let need = lines * line_bytes(asked.window.count);
        if out.len() < need && out.len() >= lines * (asked.window.count / 8) {
            return Ok(need);
        }
        asked.right(out)
    }),
    (
        "room for all dots without bits between lines",
        |asked, out| {
            let lines = asked.lines()?.len();
            let need = lines * line_bytes(asked.window.count);
            if out.len() < need && out.len() >= (lines * asked.window.count).div_ceil(8) {
                return Ok(need);
            }
            asked.right(out)
        },
    ),
];

/// A refused strip, and what is written then; and what is told of files.
const REFUSED: [(&str, WrongStrip); 13] = [
    ("lines in front of a short row are written", |asked, out| {
        asked.having_written(out, Refusal::NoPart)
    }),
    (
        "lines in front of a missing row are written",
        |asked, out| asked.having_written(out, Refusal::NoRow),
    ),
    (
        "as many bytes as there is room for are written",
        |asked, out| asked.having_written(out, Refusal::Small),
    ),
    ("the room is cleared before a refusal", |asked, out| {
        let answer = asked.right(out);
        if answer.is_err() {
            out.fill(0);
        }
        answer
    }),
    ("faults behind the strip are not met", |asked, out| {
        let answer = asked.right(out);
        let Kind::Labelled(_) = asked.kind else {
            return answer;
        };
        match answer {
            Err(fault) if fault.place > 0 && !asked.is_ahead(fault.place) => Ok(0),
            answer => answer,
        }
    }),
    ("a fault without its place", |asked, out| {
        let answer = asked.right(out);
        answer.map_err(|fault| Refused { place: 0, ..fault })
    }),
    ("the row's number as the place of 6", |asked, out| {
        asked.right(out).map_err(|fault| match fault.refusal {
            Refusal::NoRow => Refused {
                place: asked.row,
                ..fault
            },
            _ => fault,
        })
    }),
    ("the short row's number as the place of 7", |asked, out| {
        asked.right(out).map_err(|fault| match fault.refusal {
            Refusal::NoPart => Refused {
                place: asked.row.max(1),
                ..fault
            },
            _ => fault,
        })
    }),
    ("version 1 only", |asked, out| {
        asked.with(out, |asked| {
            if let Kind::Labelled(_) = asked.kind {
                asked.kind = Kind::Labelled(Versions::One);
            }
        })
    }),
    ("both versions always", |asked, out| {
        asked.with(out, |asked| {
            if let Kind::Labelled(_) = asked.kind {
                asked.kind = Kind::Labelled(Versions::OneAndTwo);
            }
        })
    }),
    ("bursts from the file's first byte on", |asked, out| {
        asked.with(out, |asked| {
            if let Kind::Bursts(_) = asked.kind {
                asked.kind = Kind::Bursts(0);
            }
        })
    }),
    ("12 before 16", |asked, out| {
        asked.right(out).map_err(|fault| match fault.refusal {
            Refusal::BadStart => Refused {
                refusal: Refusal::Ragged,
                ..fault
            },
            _ => fault,
        })
    }),
    ("waveform rows with their prefix", |asked, out| {
        let answer = asked.right(out);
        match (asked.kind, answer) {
            (Kind::Waveform, Ok(written)) if asked.window.first >= 32 => Ok(asked
                .with(out, |asked| asked.window.first -= 32)
                .unwrap_or(written)),
            (_, answer) => answer,
        }
    }),
];

impl Strip<'_> {
    /// Whether a place stands in front of the end of the strip's last row, as the walk goes.
    fn is_ahead(self, place: usize) -> bool {
        let (mut from, mut left) = (0, self.row.saturating_add(self.rows));
        while left > 0 {
            let Ok(row) = (RIGHT.row_from)(self.kind, self.file, from) else {
                return true;
            };
            from = row.end();
            left -= 1;
        }
        place < from
    }
}

/// What a dot is asked for.
#[derive(Clone, Copy)]
struct Asked<'a> {
    strip: Strip<'a>,
    column: usize,
    line: usize,
}

type WrongDot = fn(Asked<'_>) -> Answer<Dot>;

impl<'a> Asked<'a> {
    fn right(self) -> Answer<Dot> {
        let Strip {
            kind,
            file,
            row,
            window,
            ..
        } = self.strip;
        (RIGHT.behind)(kind, file, row, window, self.column, self.line)
    }

    fn with(mut self, change: impl FnOnce(&mut Self)) -> Answer<Dot> {
        change(&mut self);
        self.right()
    }

    /// The byte at another place, with its own tone and dot.
    fn at(self, place: impl FnOnce(usize) -> usize) -> Answer<Dot> {
        let dot = self.right()?;
        let place = place(dot.place);
        let byte = *self.strip.file.get(place).unwrap_or(&dot.byte);
        let tone = (RIGHT.tone)(byte);
        let is_set = u32::from(tone) < 4 * matrix(self.line, self.column) + 2;
        Ok(Dot {
            place,
            byte,
            tone,
            is_set,
        })
    }

    fn number(self) -> Option<usize> {
        self.strip.row.checked_add(self.line)
    }

    /// The place of the row and its size, if the file is accepted and has it.
    fn row(self) -> Answer<Option<(usize, usize)>> {
        let count = self.strip.count()?;
        let number = self.number().filter(|&number| number < count);
        Ok(number.map(|number| {
            let whole = self.strip.whole(number);
            let whole_window = Window::new(0, whole.len());
            let row = (RIGHT.read_row)(self.strip.kind, self.strip.file, number, whole_window);
            (row.map_or(0, |row| row.place), whole.len())
        }))
    }

    fn by_rule(self, rule: Rule) -> Answer<Dot> {
        let dot = self.right()?;
        let at = At {
            x: self.column,
            y: self.line,
            columns: self.strip.window.count,
            row: self.strip.row + self.line,
            byte: self.strip.window.first + self.column,
            place: dot.place,
        };
        let tone = (rule.tone)(dot.byte);
        Ok(Dot {
            tone: tone as u8,
            is_set: (rule.is_dot)(tone, (rule.number)(at)),
            ..dot
        })
    }
}

/// What stands behind a dot.
const DOTS: [(&str, WrongDot); 40] = [
    ("the place without the window's first byte", |asked| {
        let first = asked.strip.window.first;
        asked.right().map(|dot| Dot {
            place: dot.place - first,
            ..dot
        })
    }),
    ("the place of the row", |asked| {
        let before = asked.strip.window.first + asked.column;
        asked.right().map(|dot| Dot {
            place: dot.place - before,
            ..dot
        })
    }),
    ("the place of the window", |asked| {
        asked.right().map(|dot| Dot {
            place: dot.place - asked.column,
            ..dot
        })
    }),
    ("the place in the row", |asked| {
        let place = asked.strip.window.first + asked.column;
        asked.right().map(|dot| Dot { place, ..dot })
    }),
    ("the place in the window", |asked| {
        asked.right().map(|dot| Dot {
            place: asked.column,
            ..dot
        })
    }),
    ("the place in the lines", |asked| {
        let size = line_bytes(asked.strip.window.count);
        let place = asked.line * size + asked.column / 8;
        asked.right().map(|dot| Dot { place, ..dot })
    }),
    ("the place has 16 bits", |asked| {
        asked.right().map(|dot| Dot {
            place: dot.place % 65_536,
            ..dot
        })
    }),
    ("places from 1", |asked| {
        asked.right().map(|dot| Dot {
            place: dot.place + 1,
            ..dot
        })
    }),
    ("places from the first record on", |asked| {
        match asked.strip.kind {
            Kind::Bursts(start) => asked.right().map(|dot| Dot {
                place: dot.place - start,
                ..dot
            }),
            _ => asked.right(),
        }
    }),
    ("the next byte", |asked| asked.at(|place| place + 1)),
    ("the byte before", |asked| {
        asked.at(|place| place - usize::from(place > 0))
    }),
    ("the byte without the window's first", |asked| {
        asked.at(|place| place - asked.strip.window.first)
    }),
    ("the byte of the window's first column", |asked| {
        asked.at(|place| place - asked.column)
    }),
    ("the byte of another column in its byte of dots", |asked| {
        let bit = asked.column % 8;
        asked.at(|place| place - bit + (7 - bit))
    }),
    (
        "the byte of the next column, the place of this one",
        |asked| {
            let next = asked.at(|place| place + 1)?;
            asked.right().map(|dot| Dot {
                byte: next.byte,
                tone: next.tone,
                ..dot
            })
        },
    ),
    ("the first line's row", |asked| {
        asked.right()?;
        let dot = asked.with(|asked| asked.line = 0);
        dot.or_else(|_| asked.right())
    }),
    ("the file's row", |asked| {
        asked.right()?;
        let dot = asked.with(|asked| asked.strip.row = 0);
        dot.or_else(|_| asked.right())
    }),
    ("the tone for the byte", |asked| {
        asked.right().map(|dot| Dot {
            byte: dot.tone,
            ..dot
        })
    }),
    ("the byte for the tone", |asked| {
        asked.right().map(|dot| Dot {
            tone: dot.byte,
            ..dot
        })
    }),
    ("a tone off by one", |asked| {
        asked.right().map(|dot| Dot {
            tone: dot.tone.saturating_add(1),
            ..dot
        })
    }),
    ("always a dot", |asked| {
        asked.right().map(|dot| Dot {
            is_set: true,
            ..dot
        })
    }),
    ("never a dot", |asked| {
        asked.right().map(|dot| Dot {
            is_set: false,
            ..dot
        })
    }),
    ("a dot where none is", |asked| {
        asked.right().map(|dot| Dot {
            is_set: !dot.is_set,
            ..dot
        })
    }),
    ("7 for the column before 6", |asked| {
        asked.strip.count()?;
        if asked.column >= asked.strip.window.count {
            return refused(Refusal::NoPart);
        }
        asked.right()
    }),
    ("7 for the column before the faults", |asked| {
        if asked.column >= asked.strip.window.count {
            return refused(Refusal::NoPart);
        }
        asked.right()
    }),
    ("6 for the column", |asked| {
        let answer = asked.right();
        match answer.is_err_and(|fault| fault.refusal == Refusal::NoPart)
            && asked.column >= asked.strip.window.count
        {
            true => refused(Refusal::NoRow),
            false => answer,
        }
    }),
    ("the column right behind the window", |asked| {
        if asked.column != asked.strip.window.count {
            return asked.right();
        }
        let dot = asked.with(|asked| asked.strip.window.count += 1);
        dot.or_else(|_| asked.right())
    }),
    ("any column of the row", |asked| match asked.right() {
        Err(fault) if fault.refusal == Refusal::NoPart => {
            let size = asked.row()?.map_or(0, |(_, size)| size);
            let window = asked.strip.window;
            let whole = Window::new(window.first, size.saturating_sub(window.first));
            asked.with(|asked| asked.strip.window = whole)
        }
        answer => answer,
    }),
    ("the column turns", |asked| match asked.row()? {
        Some((place, size)) if asked.strip.window.first <= size => {
            let byte = asked.strip.window.first.wrapping_add(asked.column);
            match byte < size && asked.column >= asked.strip.window.count {
                true => Ok(Dot {
                    place: place + byte,
                    byte: 0,
                    tone: 0,
                    is_set: true,
                }),
                false => asked.right(),
            }
        }
        _ => asked.right(),
    }),
    ("the column has 32 bits", |asked| {
        asked.with(|asked| asked.column = asked.column as u32 as usize)
    }),
    ("the window need not fit", |asked| match asked.right() {
        Err(fault) if fault.refusal == Refusal::NoPart => {
            let window = asked.strip.window;
            match asked.column < window.count {
                true => asked.with(|asked| {
                    asked.strip.window = Window::new(window.first, asked.column + 1);
                }),
                false => Err(fault),
            }
        }
        answer => answer,
    }),
    ("the window has to fit the first row too", |asked| {
        let dot = asked.right()?;
        asked.strip.line(asked.strip.row)?;
        Ok(dot)
    }),
    ("the window has to fit all rows", |asked| {
        let dot = asked.right()?;
        (0..asked.strip.count()?).try_for_each(|row| asked.strip.line(row).map(|_| ()))?;
        Ok(dot)
    }),
    ("7 for the window before 6", |asked| {
        let count = asked.strip.count()?;
        if count > 0 && asked.row()?.is_none() {
            asked.strip.line(count - 1)?;
        }
        asked.right()
    }),
    ("the sum of row and line turns", |asked| {
        asked.with(|asked| {
            asked.strip.row = asked.strip.row.wrapping_add(asked.line);
            asked.line %= 8;
            asked.strip.row = asked.strip.row.wrapping_sub(asked.line);
            if asked.strip.row.checked_add(asked.line).is_none() {
                (asked.strip.row, asked.line) = (0, asked.line.wrapping_add(asked.strip.row));
            }
        })
    }),
    ("the row has 32 bits", |asked| {
        asked.with(|asked| asked.strip.row = asked.strip.row as u32 as usize)
    }),
    ("the line has 32 bits", |asked| {
        asked.with(|asked| asked.line = asked.line as u32 as usize)
    }),
    (
        "6 for a sum that turns before the faults",
        |asked| match asked.number() {
            None => refused(Refusal::NoRow),
            Some(_) => asked.right(),
        },
    ),
    ("version 1 only", |asked| {
        asked.with(|asked| {
            if let Kind::Labelled(_) = asked.strip.kind {
                asked.strip.kind = Kind::Labelled(Versions::One);
            }
        })
    }),
    ("both versions always", |asked| {
        asked.with(|asked| {
            if let Kind::Labelled(_) = asked.strip.kind {
                asked.strip.kind = Kind::Labelled(Versions::OneAndTwo);
            }
        })
    }),
];

/// A wrong call of one of the three, by which a case is told from a right one.
#[derive(Clone, Copy)]
enum Wrong {
    Tone(WrongTone),
    Strip(WrongStrip),
    StripBy(Rule),
    Dot(WrongDot),
    DotBy(Rule),
}

impl Wrong {
    /// Whether it gives another answer than the right one.
    fn differs(self, case: &Case) -> bool {
        match case {
            Case::Tone { byte } => match self {
                Wrong::Tone(tone) => tone(*byte) != (RIGHT.tone)(*byte),
                _ => false,
            },
            Case::Strip {
                kind,
                file,
                row,
                rows,
                window,
                buffer,
            } => {
                let asked = Strip {
                    kind: *kind,
                    file,
                    row: *row,
                    rows: *rows,
                    window: *window,
                };
                let (mut one, mut other) = (buffer.clone(), buffer.clone());
                let wrong = match self {
                    Wrong::Strip(strip) => strip(asked, &mut one),
                    Wrong::StripBy(rule) => asked.drawing(&mut one, rule),
                    _ => return false,
                };
                (wrong, one) != (asked.right(&mut other), other)
            }
            Case::Behind {
                kind,
                file,
                row,
                window,
                column,
                line,
            } => {
                let strip = Strip {
                    kind: *kind,
                    file,
                    row: *row,
                    rows: 1,
                    window: *window,
                };
                let asked = Asked {
                    strip,
                    column: *column,
                    line: *line,
                };
                match self {
                    Wrong::Dot(dot) => dot(asked) != asked.right(),
                    Wrong::DotBy(rule) => asked.by_rule(rule) != asked.right(),
                    _ => false,
                }
            }
            _ => false,
        }
    }
}

/// All of them, with what each is wrong about.
fn all_wrong() -> Vec<(String, Wrong)> {
    let strips = [
        ("packed", &PACKED[..]),
        ("drawn", &DRAWN),
        ("written", &WRITTEN),
        ("refused", &REFUSALS),
        ("once refused", &REFUSED),
    ];
    let mut all = Vec::new();
    for (fault, tone) in TONES {
        all.push((format!("tone: {fault}"), Wrong::Tone(tone)));
    }
    for (fault, rule) in RULES {
        all.push((format!("strip by a rule: {fault}"), Wrong::StripBy(rule)));
        all.push((format!("dot by a rule: {fault}"), Wrong::DotBy(rule)));
    }
    for (about, wrong) in strips {
        for (fault, strip) in wrong {
            all.push((format!("strip {about}: {fault}"), Wrong::Strip(*strip)));
        }
    }
    for (fault, dot) in DOTS {
        all.push((format!("dot: {fault}"), Wrong::Dot(dot)));
    }
    all
}

/// The cases of the three calls among the first ten thousand lines of a seed.
fn cases(seed: u64) -> Vec<Case> {
    let is_asked = |line: &String| {
        let call = line.split(' ').next();
        matches!(call, Some("tone" | "strip" | "behind"))
    };
    let lines = Generator::new(seed).take(10_000).filter(is_asked);
    lines
        .filter_map(|line| Case::parse(line.as_bytes()))
        .collect()
}

#[test]
fn each_of_them_is_found() {
    let cases = cases(4);
    for (fault, wrong) in all_wrong() {
        assert!(cases.iter().any(|case| wrong.differs(case)), "{fault}");
    }
}

/// What is not wrong at all is not told from what is right.
#[test]
fn the_rule_itself_is_right() {
    for case in cases(4) {
        assert!(!Wrong::StripBy(RULE).differs(&case), "{case}");
        assert!(!Wrong::DotBy(RULE).differs(&case), "{case}");
    }
}
