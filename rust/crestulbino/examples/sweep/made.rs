//! A made waveform file: a signal whose waves come closer and closer, and under it all samples from 0 to
//! 255. It is made by whole numbers alone, so that anyone makes the same.

/// The rows of the file.
pub const ROWS: usize = 128;

/// From this row on, samples grow from left to right.
const RAMP: usize = 104;

/// Where the signal swings around, and how far up and down.
const MIDDLE: usize = 42;
const SWING: usize = 40;

/// The file: each row a prefix of 32 bytes with the row's number, then 2,048 samples.
pub fn file() -> Vec<u8> {
    let mut file = Vec::new();
    for row in 0..ROWS {
        file.extend([row as u8; 32]);
        file.extend((0..2_048).map(|column| sample(row, column)));
    }
    file
}

/// White above the signal, black on it, and lighter and lighter below.
fn sample(row: usize, column: usize) -> u8 {
    let shade = match row {
        RAMP.. => column / 2,
        _ => match row.checked_sub(signal(column)) {
            Some(below) => below * below / 4,
            None => 255,
        },
    };
    shade.min(255) as u8
}

/// The row of the signal in a column. Half a wave is a parabola.
fn signal(column: usize) -> usize {
    let phase = (column * column / 110 + column) % 256;
    let along = phase % 128;
    let swing = along * (128 - along) * SWING / 4_096;
    match phase {
        0..128 => MIDDLE + swing,
        _ => MIDDLE - swing,
    }
}
