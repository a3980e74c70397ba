//! Plotter lines, tried with both implementations on generated files: each bit beside the byte behind it, each
//! line beside its row, strips in parts, the same bytes in files of other kinds, and tiles of each sample.

use conformance::generator::files::{self, Mix};
use conformance::generator::random::Random;
use conformance::library::{Library, INDEPENDENT, PROVED};
use crestulbino::{line_bytes, Kind, Refusal, Refused, Versions, Window};

const LIBRARIES: [Library; 2] = [INDEPENDENT, PROVED];

const CHOICES: [Versions; 2] = [Versions::One, Versions::OneAndTwo];

/// A file with rows, and of each row its size.
struct Rows {
    kind: Kind,
    file: Vec<u8>,
    sizes: Vec<usize>,
}

/// A labelled file of these rows, in groups or not, in labels of either version.
fn labelled(values: Vec<Vec<u8>>, random: &mut Random) -> Rows {
    let sizes = values.iter().map(Vec::len).collect();
    let versions = random.pick(&CHOICES);
    let mix = Mix::allowed(versions, random);
    Rows {
        kind: Kind::Labelled(versions),
        file: files::with_values(values, mix, random).bytes,
        sizes,
    }
}

/// A file of any kind.
fn any_rows(random: &mut Random) -> Rows {
    match random.between(0, 9) {
        0 => Rows {
            kind: Kind::Waveform,
            file: random.bytes(3 * 2_080),
            sizes: vec![2_048; 3],
        },
        1 => Rows {
            kind: Kind::Bursts(9),
            file: random.bytes(9 + 3 * 1_272),
            sizes: vec![1_272; 3],
        },
        _ => {
            let rows = random.between(1, 30);
            let least = random.pick(&[0, 7, 8, 20, 40]);
            let values = (0..rows).map(|_| {
                let size = least + random.pick(&[0, 1, 8, 30]);
                random.bytes(size)
            });
            let values = values.collect();
            labelled(values, random)
        }
    }
}

impl Rows {
    /// A strip of the file, mostly by a window that fits its rows: the first row, the rows, the window.
    fn any_strip(&self, random: &mut Random) -> (usize, usize, Window) {
        let row = random.between(0, self.sizes.len() - 1);
        let rows = random.between(1, (self.sizes.len() - row).min(20));
        let sizes = self.sizes[row..row + rows].iter();
        let size = sizes.min().copied().unwrap_or(0) + usize::from(random.chance(10));
        let first = random.between(0, size);
        let count = random.between(0, (size - first).min(80));
        (row, rows, Window::new(first, count))
    }

    /// The lines of a strip with room for some bytes more, which stay as they are.
    fn drawn(
        &self,
        library: &Library,
        (row, rows, window): (usize, usize, Window),
    ) -> Result<Vec<u8>, Refused> {
        let need = rows * line_bytes(window.count);
        let mut lines = vec![0x5a; need + 3];
        let drawn = (library.strip)(self.kind, &self.file, row, rows, window, &mut lines);
        match drawn {
            Ok(written) => assert_eq!(written, need),
            Err(_) => assert_eq!(lines, vec![0x5a; need + 3]),
        }
        assert_eq!(lines.split_off(need), [0x5a; 3]);
        drawn.map(|_| lines)
    }
}

/// Each bit of a line is what is told of its place, by the byte that reading its row shows there; bits behind
/// the last column are 0. A strip that is refused has a row that reading refuses.
#[test]
fn every_bit_has_its_byte() {
    let mut random = Random::new(71);
    let (mut bits, mut refusals) = (0, 0);
    for _ in 0..800 {
        let file = any_rows(&mut random);
        let strip = file.any_strip(&mut random);
        let (row, rows, window) = strip;
        for library in &LIBRARIES {
            let read = |line: usize| (library.read_row)(file.kind, &file.file, row + line, window);
            let lines = match file.drawn(library, strip) {
                Ok(lines) => lines,
                Err(refused) => {
                    let faults: Vec<Refused> =
                        (0..rows).filter_map(|line| read(line).err()).collect();
                    assert_eq!(faults.first(), Some(&refused));
                    refusals += 1;
                    continue;
                }
            };
            let size = line_bytes(window.count);
            for line in 0..rows {
                let shown = read(line).unwrap();
                for column in 0..8 * size {
                    let byte = lines[line * size + column / 8];
                    let bit = byte & (0x80 >> (column % 8)) != 0;
                    let dot = (library.behind)(file.kind, &file.file, row, window, column, line);
                    let Some(&sample) = shown.bytes.get(column) else {
                        let refusal = dot.map_err(|refused| refused.refusal);
                        assert_eq!((refusal, bit), (Err(Refusal::NoPart), false));
                        continue;
                    };
                    let dot = dot.unwrap();
                    assert_eq!((dot.place, dot.byte), (shown.place + column, sample));
                    assert_eq!((dot.tone, dot.is_set), ((library.tone)(sample), bit));
                    bits += 1;
                }
            }
        }
    }
    assert!(bits > 20_000 && refusals > 20, "{bits} {refusals}");
}

/// Parts of a strip that begin at a multiple of eight lines, or of eight columns, are the same alone.
#[test]
fn parts_at_multiples_of_eight_are_the_same_alone() {
    let mut random = Random::new(72);
    for _ in 0..300 {
        let rows = random.between(1, 40);
        let values = (0..rows).map(|_| random.bytes(60)).collect();
        let file = labelled(values, &mut random);
        let row = random.between(0, rows - 1);
        let (lines, count) = (rows - row, random.between(1, 50));
        let first = random.between(0, 60 - count);
        let (above, left) = (
            random.between(0, lines / 8) * 8,
            random.between(0, count / 8) * 8,
        );
        for library in &LIBRARIES {
            let draw = |row, lines, first, count| {
                let window = Window::new(first, count);
                file.drawn(library, (row, lines, window)).unwrap()
            };
            let whole = draw(row, lines, first, count);
            let upper = draw(row, above, first, count);
            let lower = draw(row + above, lines - above, first, count);
            assert_eq!([upper, lower].concat(), whole);
            let (size, cut) = (line_bytes(count), left / 8);
            let near = draw(row, lines, first, left);
            let far = draw(row, lines, first + left, count - left);
            for (line, bytes) in whole.chunks(size).enumerate() {
                assert_eq!(near[line * cut..][..cut], bytes[..cut]);
                let rest = size - cut;
                assert_eq!(far[line * rest..][..rest], bytes[cut..]);
            }
        }
    }
}

/// The same bytes in rows of every kind, drawn by the same window, are the same lines.
#[test]
fn lines_depend_on_the_bytes_alone() {
    let mut random = Random::new(73);
    for _ in 0..40 {
        let rows = random.between(1, 4);
        let samples: Vec<Vec<u8>> = (0..rows).map(|_| random.bytes(1_272)).collect();
        let front = random.between(0, 50);
        let bursts = Rows {
            kind: Kind::Bursts(front),
            file: [random.bytes(front), samples.concat()].concat(),
            sizes: vec![1_272; rows],
        };
        let waveform = samples.iter().flat_map(|samples| {
            let prefix = random.bytes(32);
            let behind = random.bytes(2_048 - 1_272);
            [prefix, samples.clone(), behind].concat()
        });
        let waveform = Rows {
            kind: Kind::Waveform,
            file: waveform.collect(),
            sizes: vec![2_048; rows],
        };
        let strip = bursts.any_strip(&mut random);
        let labelled = labelled(samples, &mut random);
        for library in &LIBRARIES {
            let lines = bursts.drawn(library, strip);
            assert!(lines.is_ok() || strip.2.first + strip.2.count > 1_272);
            assert_eq!(labelled.drawn(library, strip), lines);
            if lines.is_ok() {
                assert_eq!(waveform.drawn(library, strip), lines);
            }
        }
    }
}

/// What stands outside of a strip's windows changes nothing in its lines, and each byte inside no other bit than
/// its own.
#[test]
fn a_byte_changes_its_own_dot_alone() {
    let mut random = Random::new(74);
    let (mut inside, mut outside) = (0, 0);
    for _ in 0..2_000 {
        let values = (0..6).map(|_| random.bytes(20)).collect();
        let mut file = labelled(values, &mut random);
        let strip = (1, 4, Window::new(3, 13));
        let before = LIBRARIES.map(|library| file.drawn(&library, strip).unwrap());
        // A byte of one of the rows.
        let (row, byte) = (random.between(0, 5), random.between(0, 19));
        let whole = Window::new(0, 20);
        let place = (PROVED.read_row)(file.kind, &file.file, row, whole)
            .unwrap()
            .place;
        file.file[place + byte] = random.byte();
        let is_inside = (1..5).contains(&row) && (3..16).contains(&byte);
        for (library, before) in LIBRARIES.iter().zip(before) {
            let after = file.drawn(library, strip).unwrap();
            let changed: Vec<usize> = (0..8 * after.len())
                .filter(|bit| (before[bit / 8] ^ after[bit / 8]) & (0x80 >> (bit % 8)) != 0)
                .collect();
            if is_inside {
                let own = (row - 1) * 16 + byte - 3;
                assert!(changed.iter().all(|&bit| bit == own));
                inside += changed.len();
            } else {
                assert!(changed.is_empty());
                outside += 1;
            }
        }
    }
    assert!(inside > 200 && outside > 1_000, "{inside} {outside}");
}

/// An aligned tile of one sample holds 64 - (t + 2) div 4 dots, wherever it stands in the strip, and a sample
/// that is darker has them all.
#[test]
fn tiles_of_each_sample() {
    for library in &LIBRARIES {
        let mut lighter: Option<Vec<u8>> = None;
        for sample in (0..=255).rev() {
            let tone = (library.tone)(sample);
            let value = vec![sample; 30];
            let mut random = Random::new(75 + u64::from(sample));
            let file = labelled(vec![value; 19], &mut random);
            let lines = file.drawn(library, (3, 16, Window::new(5, 24))).unwrap();
            for (band, byte) in [(0, 0), (0, 1), (0, 2), (1, 0), (1, 1), (1, 2)] {
                let tile = (8 * band..8 * band + 8).map(|line| lines[3 * line + byte]);
                let dots: u32 = tile.map(u8::count_ones).sum();
                assert_eq!(dots, 64 - (u32::from(tone) + 2) / 4, "{sample}");
            }
            if let Some(lighter) = lighter {
                let both = lines.iter().zip(lighter);
                assert!(both.into_iter().all(|(dark, light)| dark & light == light));
            }
            lighter = Some(lines);
        }
    }
}
