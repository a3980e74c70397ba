//! Row numbers, windows and lent memory around the edges of what fits.

use super::files::RECORD;
use super::random::Random;
use crestulbino::Window;

const MOST: usize = usize::MAX;

/// A window into a row of `length` bytes, or just outside it.
pub fn window(random: &mut Random, length: usize) -> Window {
    if random.chance(30) {
        let first = random.between(0, length);
        let count = random.between(0, length - first).min(64);
        return Window::new(first, count);
    }
    let before = length.saturating_sub(1);
    let (first, count) = random.pick(&[
        (0, 0),
        (0, length.min(64)),
        (0, length),
        (before, length - before),
        (length, 0),
        (length, 1),
        (length + 1, 0),
        (0, length + 1),
        (1, length),
        (1, before),
        (before, 1),
        (before, 2),
        (MOST, 0),
        (MOST, 1),
        (0, MOST),
        (1, MOST),
        (length, MOST),
        (MOST, MOST),
        (MOST - length, length + 1),
        (MOST - 1, 2),
        (1 << 32, 0),
        (0, 1 << 32),
        (1 << 63, 1 << 63),
    ]);
    Window::new(first, count)
}

/// The number of one of so many rows, or one that is missing.
pub fn row(random: &mut Random, rows: usize) -> usize {
    if rows > 0 && random.chance(60) {
        return random.between(0, rows - 1);
    }
    // The large ones would turn to a small row or group in narrow numbers.
    let choices = [
        0,
        rows.saturating_sub(1),
        rows,
        rows + 1,
        15,
        16,
        17,
        31,
        32,
        33,
        1 << 16,
        1 << 32,
        1 << 36,
        (1 << 36) + 1,
        1 << 59,
        1 << 60,
        MOST / RECORD,
        MOST / RECORD + 1,
        MOST - 1,
        MOST,
    ];
    let small = if random.chance(60) { 10 } else { choices.len() };
    random.pick(&choices[..small])
}

/// A waveform row whose computed place would turn to one near the front.
pub fn wrapping_row(random: &mut Random) -> usize {
    let beyond = MOST / RECORD + 1;
    random.pick(&[1 << 59, 1 << 60, (1 << 59) + 1, beyond, beyond + 1])
}

/// How much memory to lend where `need` is needed: one too little, as much,
/// or more.
pub fn room(random: &mut Random, need: usize) -> usize {
    match random.between(0, 9) {
        0..=2 => need.saturating_sub(1),
        3..=5 => need,
        6 => need + 1,
        7 => need + random.between(2, 9),
        8 => random.between(0, need),
        _ => 0,
    }
}

pub fn buffer(random: &mut Random, need: usize) -> Vec<u8> {
    let room = room(random, need);
    random.bytes(room)
}

pub fn list(random: &mut Random, need: usize) -> Vec<u32> {
    let room = room(random, need);
    random.numbers(room)
}

/// A place from which to go on in a file of so many bytes: one of those given, the file's end, a
/// neighbour of either, or a number that is too large in some way.
pub fn place(random: &mut Random, places: &[usize], end: usize) -> usize {
    let known = if places.is_empty() || random.chance(15) {
        end
    } else {
        random.pick(places)
    };
    match random.between(0, 99) {
        0..=49 => known,
        50..=59 => known.saturating_sub(random.between(1, 21)),
        60..=69 => known + random.between(1, 21),
        70..=84 => random.between(0, end),
        // These would turn to a place inside in narrow numbers, or when a label is added.
        85..=89 => known + random.pick(&[1 << 16, 1 << 32, 1 << 33, 1 << 63]),
        _ => random.pick(&[
            MOST,
            MOST - 1,
            MOST - 19,
            MOST - 20,
            MOST / RECORD * RECORD,
            1 << 32,
        ]),
    }
}
