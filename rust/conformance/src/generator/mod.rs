//! Fresh cases from a seed, weighted towards the edges of the documents.

mod bad_lines;
mod bursts;
mod edges;
pub mod files;
mod joined;
pub mod kept;
mod plotter;
pub mod published;
pub mod random;
mod substitutes;

use crate::library::INDEPENDENT;
use crate::Case;
use crestulbino::{Kind, Version, Versions, Window};
use files::{Classed, LabelledFile, LastObject, Versioned, RECORD};
use independent::altimeter::TABLE;
use independent::bursts::Field;
use independent::waveform::{PREFIX_BYTES, SAMPLE_BYTES};
use random::{Deck, Random};

const PREFIX: usize = PREFIX_BYTES as usize;
const SAMPLES: usize = SAMPLE_BYTES as usize;

/// An endless stream of lines, the same for the same seed. Cases of which each
/// one matters are dealt from decks, and so are the calls, so that a stream of
/// ten thousand lines holds all of them.
pub struct Generator {
    random: Random,
    turns: Deck<Option<Call>>,
    label_harms: Deck<(Version, usize, u8)>,
    field_patterns: Deck<u8>,
    binary_lengths: Deck<(u64, Versions)>,
    last_objects: Deck<(CallAt, LastObject)>,
    binary_objects: Deck<(Option<CallAt>, LastObject)>,
    classed: Deck<Classed>,
    versioned: Deck<(Versioned, Versions)>,
    substitutes: Deck<substitutes::Asked>,
    joined: Deck<joined::Asked>,
    kept: Deck<kept::Asked>,
    tones: Deck<u8>,
    strips: Deck<plotter::Card>,
    dots: Deck<plotter::Card>,
    head_harms: Deck<(usize, u8)>,
    written: Deck<Written>,
    samples: Deck<u8>,
    vax_numbers: Deck<VaxNumber>,
    rounded: Deck<(DCall, RoundedNumber)>,
    limit_values: Deck<(u64, i64)>,
    unknown_elements: Deck<u64>,
    burst_edges: Deck<(bursts::Call, bursts::Edge)>,
    burst_fields: Deck<(Field, bursts::Filling)>,
    burst_limits: Deck<(Field, u32)>,
    burst_unknown: Deck<(bursts::Call, u64)>,
    masks: Deck<u64>,
    modes: Deck<u64>,
    bad_lines: Deck<&'static str>,
}

/// What a VAX number is made of; each part is a choice, not a bit pattern.
#[derive(Clone, Copy)]
struct VaxNumber {
    sign: u64,
    exponent: Option<u64>,
    fraction: Fraction,
}

#[derive(Clone, Copy)]
enum Fraction {
    Zero,
    LowBits,
    Full,
    Any,
}

/// A D number at an edge of its rounding.
#[derive(Clone, Copy)]
struct RoundedNumber {
    sign: u64,
    exponent: Option<u64>,
    /// The fraction's upper 51 bits.
    upper: Option<u64>,
    /// Its last four: the last one that stays, and the three that do not.
    last: u64,
}

/// A call that reads a D number.
type DCall = fn(Vec<u8>) -> Case;

const D_CALLS: [DCall; 2] = [
    |bytes| Case::VaxD { bytes },
    |bytes| Case::VaxDDropped { bytes },
];

/// What a label is to be written of.
#[derive(Clone, Copy)]
struct Written {
    version: Version,
    /// The version that the type bytes say.
    said: Version,
    length: usize,
    room: usize,
}

type Call = fn(&mut Generator) -> Case;

/// How often each call is asked in a thousand lines. A deck that one of them deals from alone has
/// no more than ten times as many cards.
const CALLS: [(usize, Call); 48] = [
    (26, Generator::read_spaces_and_digits),
    (3, Generator::read_binary_text),
    (9, Generator::read_binary_length),
    (37, Generator::read_harmed_label),
    (4, Generator::read_cut_label),
    (17, Generator::write_label),
    (13, Generator::write_harmed_head),
    (4, Generator::write_any_head),
    (9, Generator::check_labelled),
    (3, Generator::check_waveform),
    (10, Generator::read_row_labelled),
    (5, Generator::read_row_waveform),
    (17, Generator::jump_labelled),
    (5, Generator::jump_waveform),
    (8, Generator::row_from_labelled),
    (5, Generator::row_from_waveform),
    (5, Generator::substitute_row),
    (29, Generator::substitute_edge),
    (9, Generator::build_index),
    (10, Generator::check_index),
    (2, Generator::joined_index),
    (26, Generator::joined_edge),
    (73, Generator::last_object),
    (74, Generator::binary_object),
    (42, Generator::classed),
    (7, Generator::versioned),
    (5, Generator::keep_index),
    (11, Generator::kept_record),
    (42, Generator::kept_edge),
    (26, Generator::tone),
    (26, Generator::strip),
    (24, Generator::behind),
    (2, |generator| plotter::any(&mut generator.random)),
    (26, Generator::sample),
    (8, Generator::vax_f),
    (12, Generator::vax_d),
    (35, Generator::vax_d_rounded),
    (6, Generator::opening),
    (57, Generator::verdict_at_limit),
    (2, Generator::verdict),
    (11, Generator::verdict_unknown),
    (24, Generator::burst_edge),
    (5, |generator| bursts::row(&mut generator.random)),
    (128, Generator::burst_field),
    (23, Generator::burst_limit),
    (24, Generator::burst_unknown),
    (6, Generator::beams),
    (3, Generator::mode),
];

/// How many of a thousand lines are no cases.
const BAD_LINES: usize = 42;

const VERSIONS: [Version; 2] = [Version::One, Version::Two];

const CHOICES: [Versions; 2] = [Versions::One, Versions::OneAndTwo];

/// A call on a file, above all on the object at a place of it.
type CallAt = fn(&mut Generator, LabelledFile, usize, Versions) -> Case;

/// The calls that go through a labelled file; those that are lent a kept index or another file with it, and those
/// on strips, are one of them.
const CALLS_AT: [CallAt; 7] = [
    |_, file, _, versions| Case::CheckLabelled {
        file: file.bytes,
        versions,
    },
    Generator::read_row_at,
    Generator::jump_at,
    Generator::row_from_at,
    Generator::build_index_at,
    Generator::check_index_at,
    Generator::with_another_at,
];

/// Calls with short lines, to be spoilt. They take no card from a deck whose
/// every card should become a case.
const SPOILT_CALLS: [Call; 4] = [
    Generator::keep_index,
    Generator::kept_record,
    Generator::vax_d,
    Generator::opening,
];

impl Iterator for Generator {
    type Item = String;

    fn next(&mut self) -> Option<String> {
        Some(match self.turns.deal(&mut self.random) {
            Some(call) => call(self).to_string(),
            None => self.bad_line(),
        })
    }
}

impl Generator {
    pub fn new(seed: u64) -> Self {
        Generator {
            random: Random::new(seed),
            turns: Deck::new(turns()),
            label_harms: Deck::new(label_harms()),
            field_patterns: Deck::new((0..=255).collect()),
            binary_lengths: Deck::new(told_each(&binary_lengths())),
            last_objects: Deck::new(last_objects()),
            binary_objects: Deck::new(binary_objects()),
            classed: Deck::new(files::classed()),
            versioned: Deck::new(told_each(&files::versioned())),
            substitutes: Deck::new(substitutes::asked()),
            joined: Deck::new(joined::asked()),
            kept: Deck::new(kept::asked()),
            tones: Deck::new((0..=255).collect()),
            strips: Deck::new(plotter::strips()),
            dots: Deck::new(plotter::dots()),
            head_harms: Deck::new(odd_bytes(12)),
            written: Deck::new(written()),
            samples: Deck::new((0..=255).collect()),
            vax_numbers: Deck::new(vax_numbers()),
            rounded: Deck::new(rounded()),
            limit_values: Deck::new(limit_values()),
            unknown_elements: Deck::new(unknown_elements()),
            burst_edges: Deck::new(bursts::asked_at_edges()),
            burst_fields: Deck::new(bursts::filled_fields()),
            burst_limits: Deck::new(bursts::limit_values()),
            burst_unknown: Deck::new(bursts::unknown_positions()),
            masks: Deck::new(bursts::masks()),
            modes: Deck::new(bursts::modes()),
            bad_lines: Deck::new(bad_lines::LINES.to_vec()),
        }
    }

    fn bad_line(&mut self) -> String {
        if self.random.chance(80) {
            return self.bad_lines.deal(&mut self.random).to_string();
        }
        let call = self.random.pick(&SPOILT_CALLS);
        let case = call(self).to_string();
        bad_lines::spoilt(&case, &mut self.random)
    }

    fn read_spaces_and_digits(&mut self) -> Case {
        let pattern = self.field_patterns.deal(&mut self.random);
        let bytes = self.label_of_spaces_and_digits(Version::One, pattern);
        let versions = self.random.pick(&CHOICES);
        Case::ReadLabel { bytes, versions }
    }

    /// A binary length that looks like spaces and digits.
    fn read_binary_text(&mut self) -> Case {
        let pattern = self.random.byte();
        let bytes = self.label_of_spaces_and_digits(Version::Two, pattern);
        let versions = self.random.pick(&CHOICES);
        Case::ReadLabel { bytes, versions }
    }

    fn read_binary_length(&mut self) -> Case {
        let (length, versions) = self.binary_lengths.deal(&mut self.random);
        let mut bytes = self.head(Version::Two).to_vec();
        bytes.extend(length.to_be_bytes());
        Case::ReadLabel { bytes, versions }
    }

    /// A label whose length field is of spaces, where its pattern has ones, and of digits.
    fn label_of_spaces_and_digits(&mut self, version: Version, pattern: u8) -> Vec<u8> {
        let mut bytes = self.head(version).to_vec();
        bytes.extend((0..8).map(|bit| match (pattern >> bit) & 1 {
            1 => b' ',
            _ => self.random.pick(b"0123456789"),
        }));
        bytes
    }

    /// A label with a byte at the edges of what is allowed, at times with more behind it.
    fn read_harmed_label(&mut self) -> Case {
        let (version, position, byte) = self.label_harms.deal(&mut self.random);
        let mut bytes = self.label(version);
        bytes[position] = byte;
        if self.random.chance(20) {
            let more = self.random.between(1, 30);
            bytes.extend(self.random.bytes(more));
        }
        let versions = match version {
            Version::One => self.random.pick(&CHOICES),
            Version::Two => Versions::OneAndTwo,
        };
        Case::ReadLabel { bytes, versions }
    }

    /// A label that is cut off, mostly, with up to two bytes at the edges of what is allowed.
    fn read_cut_label(&mut self) -> Case {
        let version = self.random.pick(&VERSIONS);
        let mut bytes = self.label(version);
        for _ in 0..self.random.between(0, 2) {
            let (position, byte) = self.random.pick(&odd_bytes(20));
            bytes[position] = byte;
        }
        if self.random.chance(70) {
            bytes.truncate(self.random.between(0, 19));
        }
        let versions = self.random.pick(&CHOICES);
        Case::ReadLabel { bytes, versions }
    }

    /// A whole label of this version.
    fn label(&mut self, version: Version) -> Vec<u8> {
        let mut bytes = self.head(version).to_vec();
        bytes.extend(self.field(version));
        bytes
    }

    /// A length field of a label of this version.
    fn field(&mut self, version: Version) -> Vec<u8> {
        let length = self.random.below(100_000_000);
        let length = self.random.pick(&[0, 3, 99_999_999, length]);
        if version == Version::Two {
            let large = self.random.pick(&files::TURNS);
            let any = self.random.draw();
            let length = self.random.pick(&[length, large, any]);
            return length.to_be_bytes().to_vec();
        }
        let length = length as usize;
        let spaces = if self.random.chance(50) {
            self.random.between(0, files::most_spaces(length))
        } else {
            0
        };
        files::length_field(spaces, length).into_bytes()
    }

    fn write_label(&mut self) -> Case {
        let written = self.written.deal(&mut self.random);
        Case::WriteLabel {
            version: written.version,
            head: self.head(written.said).to_vec(),
            length: written.length,
            buffer: self.random.bytes(written.room),
        }
    }

    fn write_harmed_head(&mut self) -> Case {
        let version = self.random.pick(&VERSIONS);
        let mut head = self.head(version).to_vec();
        let (position, byte) = self.head_harms.deal(&mut self.random);
        head[position] = byte;
        self.write_head(version, head)
    }

    /// A head that is right, or of another count than twelve.
    fn write_any_head(&mut self) -> Case {
        let version = self.random.pick(&VERSIONS);
        let mut head = self.head(version).to_vec();
        match self.random.between(0, 3) {
            0 => head.truncate(11),
            1 => head.push(self.random.pick(b"0A")),
            2 => head.clear(),
            _ => {}
        }
        self.write_head(version, head)
    }

    fn write_head(&mut self, version: Version, head: Vec<u8>) -> Case {
        let any = self.random.between(0, 99_999_999);
        let length = self.random.pick(&WRITTEN_LENGTHS);
        let length = self.random.pick(&[any, 9, 10, 10_000_000, length, length]);
        let buffer = edges::buffer(&mut self.random, 20);
        Case::WriteLabel {
            version,
            head,
            length,
            buffer,
        }
    }

    fn check_labelled(&mut self) -> Case {
        let (file, versions) = self.labelled_file(75);
        Case::CheckLabelled {
            file: file.bytes,
            versions,
        }
    }

    fn check_waveform(&mut self) -> Case {
        let file = files::waveform(&mut self.random);
        Case::CheckWaveform { file }
    }

    fn read_row_labelled(&mut self) -> Case {
        let (file, versions) = self.labelled_file(45);
        let (row, window) = self.labelled_row(&file);
        Case::ReadRowLabelled {
            file: file.bytes,
            row,
            window,
            versions,
        }
    }

    fn read_row_waveform(&mut self) -> Case {
        let (file, row, window) = self.waveform_row();
        Case::ReadRowWaveform { file, row, window }
    }

    fn jump_labelled(&mut self) -> Case {
        let (mut file, versions) = self.labelled_file(55);
        let list = self.jump_list(&file);
        let (row, window) = match self.fault_in(&file, versions) {
            Some(place) if self.random.chance(70) => self.row_at(&file, place),
            _ => self.labelled_row(&file),
        };
        match self.random.between(0, 9) {
            0 => files::harm_group_length(&mut file, &mut self.random),
            1 => files::stretch_leaf(&mut file, row, &mut self.random),
            _ => None,
        };
        Case::JumpLabelled {
            file: file.bytes,
            list,
            row,
            window,
            versions,
        }
    }

    fn jump_waveform(&mut self) -> Case {
        let (file, row, window) = self.waveform_row();
        Case::JumpWaveform { file, row, window }
    }

    fn row_from_labelled(&mut self) -> Case {
        let (mut file, versions) = self.labelled_file(35);
        let harmed = match self.random.between(0, 9) {
            0 | 1 => files::harm_group_length(&mut file, &mut self.random),
            2 => {
                let row = self.random.between(0, file.leaves().len());
                files::stretch_leaf(&mut file, row, &mut self.random)
            }
            _ => None,
        };
        let places = match harmed.or(self.fault_in(&file, versions)) {
            Some(place) if self.random.chance(60) => vec![place],
            _ => file.places(),
        };
        let from = edges::place(&mut self.random, &places, file.bytes.len());
        Case::RowFrom {
            kind: Kind::Labelled(versions),
            file: file.bytes,
            from,
        }
    }

    fn row_from_waveform(&mut self) -> Case {
        let file = files::waveform(&mut self.random);
        let starts: Vec<usize> = (0..file.len()).step_by(RECORD).collect();
        let from = edges::place(&mut self.random, &starts, file.len());
        Case::RowFrom {
            kind: Kind::Waveform,
            file,
            from,
        }
    }

    fn build_index(&mut self) -> Case {
        let (file, versions) = self.labelled_file(50);
        let list = edges::list(&mut self.random, file.index().len());
        Case::BuildIndex {
            file: file.bytes,
            list,
            versions,
        }
    }

    fn check_index(&mut self) -> Case {
        let (file, versions) = self.labelled_file(50);
        let mut list = file.index();
        if self.random.chance(60) {
            self.wrong_list(&mut list, &file);
        }
        Case::CheckIndex {
            file: file.bytes,
            list,
            versions,
        }
    }

    /// A file whose edge is an object's end or length field, and a call that goes through it.
    fn last_object(&mut self) -> Case {
        let (call, object) = self.last_objects.deal(&mut self.random);
        let versions = self.random.pick(&CHOICES);
        let (file, place) = object.in_file(versions, &mut self.random);
        call(self, file, place, versions)
    }

    /// A file with an object of version 2 whose length is an edge, and a call that goes through it.
    fn binary_object(&mut self) -> Case {
        let (call, object) = self.binary_objects.deal(&mut self.random);
        let versions = match call {
            Some(_) => Versions::OneAndTwo,
            None => Versions::One,
        };
        let call = call.unwrap_or_else(|| self.random.pick(&CALLS_AT));
        let (file, place) = object.in_file(versions, &mut self.random);
        call(self, file, place, versions)
    }

    /// A file with an object of some class at some depth, and a call that goes through it.
    fn classed(&mut self) -> Case {
        let object = self.classed.deal(&mut self.random);
        let versions = self.random.pick(&CHOICES);
        let (file, place) = object.in_file(versions, &mut self.random);
        let call = self.random.pick(&CALLS_AT);
        call(self, file, place, versions)
    }

    /// A file with a label of some version at some depth, and a call that goes through it.
    fn versioned(&mut self) -> Case {
        let (object, versions) = self.versioned.deal(&mut self.random);
        let (file, place) = object.in_file(versions, &mut self.random);
        let call = self.random.pick(&CALLS_AT);
        call(self, file, place, versions)
    }

    fn read_row_at(&mut self, file: LabelledFile, place: usize, versions: Versions) -> Case {
        let (row, window) = self.row_at(&file, place);
        Case::ReadRowLabelled {
            file: file.bytes,
            row,
            window,
            versions,
        }
    }

    /// A jump that mostly meets the object, with the file's index or from the object itself.
    fn jump_at(&mut self, file: LabelledFile, place: usize, versions: Versions) -> Case {
        let (mut row, window) = self.row_at(&file, place);
        let mut list = file.index();
        if self.random.chance(30) {
            list = vec![place as u32];
            row = 0;
        } else if row / 16 >= list.len() {
            list.push(place as u32);
        }
        Case::JumpLabelled {
            file: file.bytes,
            list,
            row,
            window,
            versions,
        }
    }

    fn row_from_at(&mut self, file: LabelledFile, place: usize, versions: Versions) -> Case {
        let from = if self.random.chance(70) {
            place
        } else {
            edges::place(&mut self.random, &file.places(), file.bytes.len())
        };
        Case::RowFrom {
            kind: Kind::Labelled(versions),
            file: file.bytes,
            from,
        }
    }

    fn build_index_at(&mut self, file: LabelledFile, _: usize, versions: Versions) -> Case {
        let list = vec![7; file.index().len() + 1];
        Case::BuildIndex {
            file: file.bytes,
            list,
            versions,
        }
    }

    fn check_index_at(&mut self, file: LabelledFile, _: usize, versions: Versions) -> Case {
        let list = if self.random.chance(20) {
            file.old_index()
        } else {
            file.index()
        };
        Case::CheckIndex {
            file: file.bytes,
            list,
            versions,
        }
    }

    /// With its kept index, as an original, as a substitute, joined with another, or as a strip.
    fn with_another_at(&mut self, file: LabelledFile, place: usize, versions: Versions) -> Case {
        match self.random.between(0, 11) {
            0..=4 => kept::of_file(file, versions, &mut self.random),
            5..=7 => {
                let (row, _) = self.row_at(&file, place);
                substitutes::of_file(file, row, versions, &mut self.random)
            }
            8 | 9 => joined::of_file(file, versions, &mut self.random),
            _ => {
                let (row, _) = self.row_at(&file, place);
                plotter::of_file(file, row, versions, &mut self.random)
            }
        }
    }

    /// The first row from a place on, at times the next one, and a window that mostly fits it.
    fn row_at(&mut self, file: &LabelledFile, place: usize) -> (usize, Window) {
        let leaves = file.leaves();
        let before = leaves.iter().filter(|leaf| leaf.place < place).count();
        let row = before + usize::from(self.random.chance(25));
        let length = leaves.get(row).map_or(0, |leaf| leaf.length);
        let window = if self.random.chance(60) {
            Window::new(0, length)
        } else {
            edges::window(&mut self.random, length)
        };
        (row, window)
    }

    fn substitute_row(&mut self) -> Case {
        substitutes::any(&mut self.random)
    }

    fn substitute_edge(&mut self) -> Case {
        let asked = self.substitutes.deal(&mut self.random);
        asked.case(&mut self.random)
    }

    fn joined_index(&mut self) -> Case {
        joined::any(&mut self.random)
    }

    fn joined_edge(&mut self) -> Case {
        let asked = self.joined.deal(&mut self.random);
        asked.case(&mut self.random)
    }

    fn keep_index(&mut self) -> Case {
        let list = kept::any_entries(&mut self.random);
        let buffer = edges::buffer(&mut self.random, 6 + 4 * list.len());
        Case::KeepIndex { list, buffer }
    }

    fn kept_record(&mut self) -> Case {
        kept::any_record(&mut self.random)
    }

    fn kept_edge(&mut self) -> Case {
        let asked = self.kept.deal(&mut self.random);
        asked.case(&mut self.random)
    }

    fn tone(&mut self) -> Case {
        let byte = self.tones.deal(&mut self.random);
        Case::Tone { byte }
    }

    fn strip(&mut self) -> Case {
        let card = self.strips.deal(&mut self.random);
        card.case(&mut self.random)
    }

    fn behind(&mut self) -> Case {
        let card = self.dots.deal(&mut self.random);
        card.case(&mut self.random)
    }

    fn sample(&mut self) -> Case {
        let byte = self.samples.deal(&mut self.random);
        Case::Sample { byte }
    }

    fn vax_f(&mut self) -> Case {
        let mut bytes = self.vax_number(2);
        self.change_length(&mut bytes);
        Case::VaxF { bytes }
    }

    fn vax_d(&mut self) -> Case {
        let mut bytes = self.vax_number(4);
        self.change_length(&mut bytes);
        self.random.pick(&D_CALLS)(bytes)
    }

    fn vax_d_rounded(&mut self) -> Case {
        let (call, number) = self.rounded.deal(&mut self.random);
        call(self.rounded_number(number))
    }

    fn opening(&mut self) -> Case {
        let mut bytes = if self.random.chance(30) {
            self.random.pick(&[[0; 4], [255; 4], [1, 0, 0, 0]]).to_vec()
        } else {
            self.random.bytes(4)
        };
        for _ in 0..2 {
            let mut time = if self.random.chance(50) {
                self.vax_number(4)
            } else {
                let numbers = rounded_numbers();
                let number = self.random.pick(&numbers);
                self.rounded_number(number)
            };
            if self.random.chance(25) {
                // Reserved, whatever its fraction.
                time[0] &= 0x7f;
                time[1] = 0x80;
            }
            bytes.extend(time);
        }
        self.change_length(&mut bytes);
        Case::Opening { bytes }
    }

    fn verdict_at_limit(&mut self) -> Case {
        let (element, value) = self.limit_values.deal(&mut self.random);
        Case::Verdict { element, value }
    }

    fn verdict(&mut self) -> Case {
        let element = self.random.pick(&TABLE).element;
        let value = self.any_value();
        Case::Verdict { element, value }
    }

    fn verdict_unknown(&mut self) -> Case {
        let element = self.unknown_elements.deal(&mut self.random);
        let value = self.any_value();
        Case::Verdict { element, value }
    }

    fn any_value(&mut self) -> i64 {
        let random = &mut self.random;
        let extreme = random.pick(&[i64::MIN, i64::MIN + 1, i64::MAX, 0, -1]);
        let any = random.draw() as i64;
        let any = any >> random.between(0, 63);
        random.pick(&[extreme, any])
    }

    fn burst_edge(&mut self) -> Case {
        let edge = self.burst_edges.deal(&mut self.random);
        bursts::at_edge(edge, &mut self.random)
    }

    fn burst_field(&mut self) -> Case {
        let field = self.burst_fields.deal(&mut self.random);
        bursts::filled_field(field, &mut self.random)
    }

    fn burst_limit(&mut self) -> Case {
        let value = self.burst_limits.deal(&mut self.random);
        bursts::limit_value(value, &mut self.random)
    }

    fn burst_unknown(&mut self) -> Case {
        let position = self.burst_unknown.deal(&mut self.random);
        bursts::unknown_position(position, &mut self.random)
    }

    fn beams(&mut self) -> Case {
        let mask = self.masks.deal(&mut self.random);
        Case::Beams { mask }
    }

    fn mode(&mut self) -> Case {
        let number = self.modes.deal(&mut self.random);
        Case::Mode { number }
    }

    /// The type bytes of a label of this version and of any class.
    fn head(&mut self, version: Version) -> [u8; 12] {
        let mut head = if self.random.chance(25) {
            files::group_head(&mut self.random)
        } else {
            let class = files::leaf_class(&mut self.random);
            files::head(&mut self.random, class)
        };
        head[4] = files::version_byte(version);
        head
    }

    /// What a call is told of a file: mostly what allows its labels.
    fn told_of(&mut self, file: &LabelledFile) -> Versions {
        let both_percent = if file.has_version_2() { 75 } else { 40 };
        CHOICES[usize::from(self.random.chance(both_percent))]
    }

    /// A labelled file and what is told of it. It is damaged in so many of a hundred cases, in half of them so
    /// that it is refused, for each reason as often as for another.
    fn labelled_file(&mut self, damaged_percent: u64) -> (LabelledFile, Versions) {
        let is_damaged = self.random.chance(damaged_percent);
        if is_damaged && self.random.chance(50) {
            let reason = self.random.pick(&files::FAULTS);
            let versions = self.random.pick(&CHOICES);
            let file = files::faulty(reason, versions, &mut self.random);
            return (file, versions);
        }
        let mut file = files::labelled(&mut self.random);
        if is_damaged {
            files::damage(&mut file, &mut self.random);
        }
        let versions = self.told_of(&file);
        (file, versions)
    }

    /// The place of what a labelled file is refused for, if it is.
    fn fault_in(&self, file: &LabelledFile, versions: Versions) -> Option<usize> {
        let checked = (INDEPENDENT.check)(Kind::Labelled(versions), &file.bytes);
        checked.err().map(|refused| refused.place)
    }

    /// A row number and a window that suits the row as it was before damage.
    fn labelled_row(&mut self, file: &LabelledFile) -> (usize, Window) {
        let leaves = file.leaves();
        let row = edges::row(&mut self.random, leaves.len());
        let length = leaves.get(row).map_or(3, |leaf| leaf.length);
        (row, edges::window(&mut self.random, length))
    }

    fn waveform_row(&mut self) -> (Vec<u8>, usize, Window) {
        let file = files::waveform(&mut self.random);
        let rows = file.len() / RECORD;
        if rows > 32 && self.random.chance(60) {
            // The first row that begins at a place too large for 16 bits.
            let window = edges::window(&mut self.random, SAMPLES);
            return (file, 32, window);
        }
        if rows == 32 && self.random.chance(70) {
            // Around the first such place, which is in the row before.
            let turn = 65_536 - 31 * RECORD - PREFIX;
            let first = turn - 2 + self.random.between(0, 4);
            let window = Window::new(first, self.random.between(0, 5));
            return (file, 31, window);
        }
        let row = if self.random.chance(10) {
            edges::wrapping_row(&mut self.random)
        } else {
            edges::row(&mut self.random, rows)
        };
        let window = edges::window(&mut self.random, SAMPLES);
        (file, row, window)
    }

    /// A list for the jump: the index, something like it, or anything.
    fn jump_list(&mut self, file: &LabelledFile) -> Vec<u32> {
        let mut list = file.index();
        match self.random.between(0, 9) {
            0..=4 => {}
            5 | 6 => self.wrong_list(&mut list, file),
            _ => {
                let entries = list.len().max(1) + self.random.between(0, 1);
                list = (0..entries).map(|_| self.any_entry(file)).collect();
            }
        }
        list
    }

    /// Makes an index wrong in one respect, or an old one, which may be right.
    fn wrong_list(&mut self, list: &mut Vec<u32>, file: &LabelledFile) {
        let other = self.any_entry(file);
        if list.is_empty() {
            list.push(other);
            return;
        }
        let at = self.random.between(0, list.len() - 1);
        match self.random.between(0, 9) {
            0 => list[at] = list[at].wrapping_add(1),
            1 => list[at] = list[at].wrapping_sub(1),
            2 => list[at] = list[at].wrapping_add(20),
            3 => list[at] = list[at].wrapping_sub(20),
            4 => list[at] = other,
            5 => {
                list.pop();
            }
            6 => list.push(other),
            7 => *list = file.old_index(),
            8 => {
                let last = list[list.len() - 1];
                list.push(last);
            }
            _ => {
                list.remove(at);
            }
        }
    }

    /// A place that an index might name: of a label, of the file's end, of
    /// something between, or beyond.
    fn any_entry(&mut self, file: &LabelledFile) -> u32 {
        let end = file.bytes.len();
        let place = match self.random.between(0, 9) {
            0..=3 if !file.spots.is_empty() => self.random.pick(&file.spots).place,
            4 if !file.spots.is_empty() => self.random.pick(&file.spots).place + 20,
            5 => end,
            6 => end + self.random.pick(&[1, 1, 2, 20]),
            7 => end.saturating_sub(self.random.between(1, 25)),
            8 => u32::MAX as usize - self.random.pick(&[0, 1]),
            _ => self.random.between(0, end),
        };
        place as u32
    }

    /// The bytes of a VAX number of two or four words.
    fn vax_number(&mut self, words: u32) -> Vec<u8> {
        let number = self.vax_numbers.deal(&mut self.random);
        let fraction_bits = 16 * words - 9;
        let full = (1 << fraction_bits) - 1;
        let exponent = number.exponent.unwrap_or_else(|| self.random.below(256));
        let fraction = match number.fraction {
            Fraction::Zero => 0,
            Fraction::LowBits => self.random.between(1, 16) as u64,
            Fraction::Full => full - self.random.pick(&[0, 0, 7, 8]),
            Fraction::Any => self.random.draw() & full,
        };
        in_words(
            (((number.sign << 8) | exponent) << fraction_bits) | fraction,
            words,
        )
    }

    /// The bytes of a D number at an edge of its rounding.
    fn rounded_number(&mut self, number: RoundedNumber) -> Vec<u8> {
        let exponent = number
            .exponent
            .unwrap_or_else(|| self.random.below(255) + 1);
        let upper = number.upper.unwrap_or_else(|| self.random.below(1 << 51));
        in_words(
            (((((number.sign << 8) | exponent) << 51) | upper) << 4) | number.last,
            4,
        )
    }

    /// Cuts some bytes off or appends some, at times.
    fn change_length(&mut self, bytes: &mut Vec<u8>) {
        match self.random.between(0, 9) {
            0 => bytes.truncate(bytes.len() - 1),
            1 => bytes.truncate(self.random.between(0, bytes.len() - 1)),
            2 => {
                let more = self.random.between(1, 12);
                bytes.extend(self.random.bytes(more));
            }
            _ => {}
        }
    }
}

/// A thousand turns: what is called, or nothing for a line that is no case.
fn turns() -> Vec<Option<Call>> {
    let of_call = |&(count, call): &(usize, Call)| vec![Some(call); count];
    let mut turns: Vec<Option<Call>> = CALLS.iter().flat_map(of_call).collect();
    turns.extend([None; BAD_LINES]);
    turns
}

/// Each object with each choice.
fn told_each<T: Copy>(objects: &[T]) -> Vec<(T, Versions)> {
    let told = |&object: &T| CHOICES.map(|versions| (object, versions));
    objects.iter().flat_map(told).collect()
}

/// Each byte of a label with each value at its edges; of a label of version 2, in which any length
/// is good, each type byte.
fn label_harms() -> Vec<(Version, usize, u8)> {
    let of = |version, positions| {
        let harms = odd_bytes(positions).into_iter();
        harms.map(move |(position, byte)| (version, position, byte))
    };
    of(Version::One, 20).chain(of(Version::Two, 12)).collect()
}

/// Lengths of version 2: edges of narrow numbers, each byte alone, and what looks like text.
fn binary_lengths() -> Vec<u64> {
    let bytes = (0..8).flat_map(|at| [1, 0x80, 0xff].map(|byte| byte << (8 * at)));
    let small = [0, 3, 99_999_999, 100_000_000, 0x0102_0304_0506_0708];
    let named = files::TURNS.into_iter().chain(files::LOOK_LIKE_TEXT);
    let mut lengths: Vec<u64> = bytes.chain(small).chain(named).collect();
    lengths.sort();
    lengths.dedup();
    lengths
}

/// Each of the first bytes of a label with each value at its edges.
fn odd_bytes(positions: usize) -> Vec<(usize, u8)> {
    (0..positions)
        .flat_map(|position| {
            files::odd_bytes(position)
                .iter()
                .map(move |&byte| (position, byte))
        })
        .collect()
}

/// Each last object of a file with each call that goes through it.
fn last_objects() -> Vec<(CallAt, LastObject)> {
    let objects = files::last_objects().into_iter();
    let calls = |object: LastObject| CALLS_AT.map(|call| (call, object));
    objects.flat_map(calls).collect()
}

/// Each last object with a binary length, with each call that goes through it and, for version 1
/// only, with some call.
fn binary_objects() -> Vec<(Option<CallAt>, LastObject)> {
    let objects = files::binary_objects().into_iter();
    let calls = |object: LastObject| {
        let calls = CALLS_AT.map(Some).into_iter().chain([None]);
        calls.map(move |call| (call, object))
    };
    objects.flat_map(calls).collect()
}

const WRITTEN_LENGTHS: [usize; 14] = [
    0,
    1,
    3,
    99_999_998,
    99_999_999,
    100_000_000,
    100_000_001,
    1 << 31,
    (1 << 32) - 1,
    1 << 32,
    (1 << 32) + 1,
    (1 << 63) - 1,
    1 << 63,
    usize::MAX,
];

/// Each version in type bytes of each, with lengths and rooms at their edges.
fn written() -> Vec<Written> {
    let mut labels = Vec::new();
    for length in WRITTEN_LENGTHS {
        for (version, said) in VERSIONS
            .into_iter()
            .flat_map(|one| VERSIONS.map(|other| (one, other)))
        {
            labels.extend([19, 20, 21].map(|room| Written {
                version,
                said,
                length,
                room,
            }));
        }
    }
    labels
}

fn vax_numbers() -> Vec<VaxNumber> {
    let exponents = [0, 0, 1, 2, 127, 128, 129, 254, 255].map(Some);
    let fractions = [
        Fraction::Zero,
        Fraction::LowBits,
        Fraction::Full,
        Fraction::Any,
    ];
    let mut numbers = Vec::new();
    for sign in [0, 1] {
        for exponent in exponents.into_iter().chain([None; 6]) {
            for fraction in fractions {
                numbers.push(VaxNumber {
                    sign,
                    exponent,
                    fraction,
                });
            }
        }
    }
    numbers
}

/// The words of a VAX number, the most significant in front and each with its
/// low byte first.
fn in_words(bits: u64, words: u32) -> Vec<u8> {
    (0..words)
        .rev()
        .flat_map(|word| ((bits >> (16 * word)) as u16).to_le_bytes())
        .collect()
}

/// Everything that a fraction can end in, and at the edges of the exponent and
/// of the fraction what stands beside a tie and all ones.
fn rounded_numbers() -> Vec<RoundedNumber> {
    let any = (0..16).map(|last| (None, None, last));
    let at_edges = [1, 2, 128, 254, 255].into_iter().flat_map(|exponent| {
        [0, (1 << 51) - 1].into_iter().flat_map(move |upper| {
            [0b0011, 0b0100, 0b0101, 0b1011, 0b1100, 0b1101, 0b1111]
                .map(|last| (Some(exponent), Some(upper), last))
        })
    });
    any.chain(at_edges)
        .flat_map(|(exponent, upper, last)| {
            [0, 1].map(|sign| RoundedNumber {
                sign,
                exponent,
                upper,
                last,
            })
        })
        .collect()
}

/// Each of them for each call.
fn rounded() -> Vec<(DCall, RoundedNumber)> {
    rounded_numbers()
        .into_iter()
        .flat_map(|number| D_CALLS.map(|call| (call, number)))
        .collect()
}

/// Each limit of each element, with its neighbours on both sides.
fn limit_values() -> Vec<(u64, i64)> {
    let mut values = Vec::new();
    for limits in TABLE {
        for limit in [limits.minimum, limits.maximum] {
            values.extend((limit - 1..=limit + 1).map(|value| (limits.element, value)));
        }
    }
    values.sort();
    values.dedup();
    values
}

/// Every number up to 200 that has no limits, and some that would turn into
/// one that has.
fn unknown_elements() -> Vec<u64> {
    let is_known = |element: &u64| TABLE.iter().any(|limits| limits.element == *element);
    (0..=200)
        .filter(|element| !is_known(element))
        .chain([256 + 141, 65_536 + 141, (1 << 32) + 141, u64::MAX])
        .collect()
}

#[cfg(test)]
mod tests {
    use super::*;
    use crate::answer_line;
    use independent::bursts::{Storage, FIELDS};
    use independent::label::{self, Label};
    use std::collections::{HashMap, HashSet};

    /// The call of a line, with its kind or version where that is an argument.
    fn called(line: &str) -> String {
        let words: Vec<&str> = line.split(' ').collect();
        match words[..] {
            [call @ ("row_from" | "strip" | "behind"), told, ..] if told.starts_with("bursts:") => {
                format!("{call} bursts")
            }
            [call @ ("row_from" | "strip" | "behind" | "write_label"), told, ..]
            | [call @ ("read_label" | "build_index" | "check_index"), .., told]
            | [call @ ("substitute_row" | "joined_index"), .., told]
            | [call @ ("convert_1_to_2" | "check_kept2"), .., told] => {
                format!("{call} {told}")
            }
            [call, .., told] if call.ends_with("_labelled") => format!("{call} {told}"),
            _ => words[0].to_string(),
        }
    }

    #[test]
    fn the_stream_depends_on_the_seed_alone() {
        let one: Vec<String> = Generator::new(1).take(100).collect();
        let again: Vec<String> = Generator::new(1).take(100).collect();
        let other: Vec<String> = Generator::new(2).take(100).collect();
        assert_eq!(one, again);
        assert_ne!(one, other);
    }

    #[test]
    fn cases_read_back_as_they_were_written() {
        let mut generator = Generator::new(3);
        for call in [turns(), turns()].concat().into_iter().flatten() {
            let case = call(&mut generator);
            assert_eq!(Case::parse(case.to_string().as_bytes()), Some(case));
        }
    }

    #[test]
    fn a_thousand_turns_are_dealt_before_they_come_again() {
        assert_eq!(turns().len(), 1_000);
    }

    #[test]
    fn some_hundreds_of_cases_stay_small() {
        for seed in 0..4 {
            let size: usize = Generator::new(seed).take(500).map(|line| line.len()).sum();
            assert!(size < 4_000_000, "{size} bytes for seed {seed}");
        }
    }

    #[test]
    fn every_deck_is_dealt_in_ten_thousand_cases() {
        for seed in 0..3 {
            let mut generator = Generator::new(seed);
            assert_eq!(generator.by_ref().take(10_000).count(), 10_000);
            assert!(generator.label_harms.is_through());
            assert!(generator.field_patterns.is_through());
            assert!(generator.binary_lengths.is_through());
            assert!(generator.last_objects.is_through());
            assert!(generator.binary_objects.is_through());
            assert!(generator.classed.is_through());
            assert!(generator.versioned.is_through());
            assert!(generator.substitutes.is_through());
            assert!(generator.joined.is_through());
            assert!(generator.kept.is_through());
            assert!(generator.tones.is_through());
            assert!(generator.strips.is_through());
            assert!(generator.dots.is_through());
            assert!(generator.head_harms.is_through());
            assert!(generator.written.is_through());
            assert!(generator.samples.is_through());
            assert!(generator.vax_numbers.is_through());
            assert!(generator.rounded.is_through());
            assert!(generator.limit_values.is_through());
            assert!(generator.unknown_elements.is_through());
            assert!(generator.burst_edges.is_through());
            assert!(generator.burst_fields.is_through());
            assert!(generator.burst_limits.is_through());
            assert!(generator.burst_unknown.is_through());
            assert!(generator.masks.is_through());
            assert!(generator.modes.is_through());
            assert!(generator.bad_lines.is_through());
        }
    }

    /// Each call is seen to succeed and to be refused in every way it can be,
    /// save for sizes that no case reaches.
    #[test]
    fn every_refusal_of_every_call_comes_up() {
        let mut seen: HashMap<(String, String), u32> = HashMap::new();
        for line in Generator::new(5).take(30_000) {
            let answer = answer_line(&INDEPENDENT, line.as_bytes());
            let call = called(&line);
            let mut words = answer.split(' ');
            let kind = match (words.next(), words.next()) {
                (Some("ref"), Some(number)) => number.to_string(),
                (first, _) => first.unwrap_or_default().to_string(),
            };
            *seen.entry((call, kind)).or_default() += 1;
        }
        let labelled: [(&str, &[&str]); 13] = [
            ("read_label ", &["ok", "1", "2", "3"]),
            ("check_labelled ", &["ok", "1", "2", "3", "4", "5"]),
            (
                "read_row_labelled ",
                &["ok", "1", "2", "3", "4", "5", "6", "7"],
            ),
            (
                "jump_labelled ",
                &["ok", "6", "11", "1", "2", "3", "4", "7"],
            ),
            ("row_from labelled", &["ok", "6", "1", "2", "3", "4"]),
            ("substitute_row ", &["ok", "1", "2", "3", "4", "5", "6"]),
            ("build_index ", &["ok", "1", "2", "3", "4", "5", "8"]),
            ("check_index ", &["ok", "1", "2", "3", "4", "5", "11"]),
            ("joined_index ", &["ok", "1", "2", "3", "4", "5", "11", "8"]),
            (
                "convert_1_to_2 ",
                &["ok", "1", "2", "3", "4", "5", "13", "11", "8"],
            ),
            ("check_kept2 ", &["ok", "1", "2", "3", "4", "5", "13", "11"]),
            (
                "strip labelled",
                &["ok", "1", "2", "3", "4", "5", "6", "7", "8"],
            ),
            (
                "behind labelled",
                &["ok", "1", "2", "3", "4", "5", "6", "7"],
            ),
        ];
        let others: [(&str, &[&str]); 29] = [
            ("write_label 1", &["ok", "2", "15", "8"]),
            ("write_label 2", &["ok", "2", "8"]),
            ("check_waveform", &["ok", "12"]),
            ("read_row_waveform", &["ok", "12", "6", "7"]),
            ("jump_waveform", &["ok", "12", "6", "7"]),
            ("row_from waveform", &["ok", "12", "6"]),
            ("keep_index", &["ok", "8"]),
            ("load_kept", &["ok", "13", "8"]),
            ("load_kept2", &["ok", "13", "8"]),
            ("convert_2_to_1", &["ok", "13", "8"]),
            ("tone", &["ok"]),
            ("strip waveform", &["ok", "12", "6", "7", "8"]),
            ("strip bursts", &["ok", "16", "12", "6", "7", "8"]),
            ("behind waveform", &["ok", "12", "6", "7"]),
            ("behind bursts", &["ok", "16", "12", "6", "7"]),
            ("sample", &["ok"]),
            ("vax_f", &["ok", "1", "9"]),
            ("vax_d", &["ok", "1", "9"]),
            ("vax_d_dropped", &["ok", "1", "9"]),
            ("opening", &["ok", "1", "9"]),
            ("verdict", &["ok", "10"]),
            ("check_bursts", &["ok", "16", "12"]),
            ("read_row_bursts", &["ok", "16", "12", "6", "7"]),
            ("jump_bursts", &["ok", "16", "12", "6", "7"]),
            ("row_from bursts", &["ok", "16", "12", "6"]),
            ("burst_field", &["ok", "16", "12", "6", "10"]),
            ("burst_verdict", &["ok", "16", "12", "6", "10"]),
            ("beams", &["ok"]),
            ("mode", &["ok"]),
        ];
        let told = labelled
            .iter()
            .flat_map(|(call, kinds)| [1, 2].map(|versions| (format!("{call}{versions}"), *kinds)));
        let others = others.map(|(call, kinds)| (call.to_string(), kinds));
        for (call, kinds) in told.chain(others) {
            for kind in kinds {
                let key = (call.clone(), kind.to_string());
                let count = seen.remove(&key).unwrap_or(0);
                assert!(count >= 5, "{call} gave {kind} only {count} times");
            }
        }
        // What is left can only be lines that are no cases.
        assert!(seen.keys().all(|(_, kind)| kind == "bad"), "{seen:?}");
    }

    /// The labelled files that the call of a case looks at, and what it is told of them. An original is
    /// not looked at where its substitute serves, nor a second file where a first one is refused.
    fn labelled_files_of(case: Case) -> (Vec<Vec<u8>>, Versions) {
        match case {
            Case::SubstituteRow {
                original,
                substitute,
                row,
                versions,
            } => {
                let served = (INDEPENDENT.substitute_row)(versions, &[], &substitute, row);
                match served {
                    Ok(_) => (vec![substitute], versions),
                    Err(_) => (vec![substitute, original], versions),
                }
            }
            Case::JoinedIndex {
                first,
                first_list,
                second,
                versions,
                ..
            } => match (INDEPENDENT.check_index)(versions, &first, &first_list) {
                Ok(()) => (vec![first, second], versions),
                Err(_) => (vec![first], versions),
            },
            Case::CheckLabelled { file, versions }
            | Case::ReadRowLabelled { file, versions, .. }
            | Case::JumpLabelled { file, versions, .. }
            | Case::BuildIndex { file, versions, .. }
            | Case::CheckIndex { file, versions, .. }
            | Case::Convert1To2 { file, versions, .. }
            | Case::CheckKept2 { file, versions, .. }
            | Case::RowFrom {
                kind: Kind::Labelled(versions),
                file,
                ..
            }
            | Case::Strip {
                kind: Kind::Labelled(versions),
                file,
                ..
            }
            | Case::Behind {
                kind: Kind::Labelled(versions),
                file,
                ..
            } => (vec![file], versions),
            _ => (Vec::new(), Versions::One),
        }
    }

    /// Lends the labels between two places to `meet`, each with its depth, an object's inside before
    /// what follows it. It ends at a fault, or where `meet` says so.
    fn meet_labels(
        file: &[u8],
        (mut place, end): (usize, usize),
        depth: usize,
        meet: &mut dyn FnMut(usize, Label) -> bool,
    ) -> Option<()> {
        while place < end {
            let label = label::read(label::Versions::Both, &file[place..end]).ok()?;
            meet(depth, label).then_some(())?;
            let value = place + 20;
            let length = usize::try_from(label.length).ok()?;
            let value_end = value.checked_add(length).filter(|&place| place <= end)?;
            if label.is_group() {
                meet_labels(file, (value, value_end), depth + 1, meet)?;
            }
            place = value_end;
        }
        Some(())
    }

    #[test]
    fn ten_thousand_cases_hold_each_field_and_each_verdict() {
        for seed in 0..3 {
            let mut seen = HashSet::new();
            for line in Generator::new(seed).take(10_000) {
                if line.starts_with("burst_") {
                    let answer = answer_line(&INDEPENDENT, line.as_bytes());
                    let word = |word: Option<&str>| word.unwrap_or_default().to_string();
                    let (call, position) = (line.split(' ').next(), line.rsplit(' ').next());
                    let told = answer.split(' ').take(2).collect::<Vec<_>>().join(" ");
                    seen.insert((word(call), word(position), told));
                }
            }
            for field in FIELDS {
                let of = match field.storage {
                    Storage::Uint32 => "unsigned",
                    Storage::Int32 => "signed",
                    Storage::Float32 => "float4",
                    Storage::Float64 => "float8",
                    Storage::Text => "text",
                };
                let verdicts: &[&str] = match field.limits {
                    None => &["ref 10"],
                    Some((0, _)) => &["ok inside", "ok above"],
                    Some(_) => &["ok below", "ok inside", "ok above"],
                };
                let fields = [("burst_field", format!("ok {of}"))];
                let verdicts = verdicts
                    .iter()
                    .map(|told| ("burst_verdict", told.to_string()));
                for (call, told) in fields.into_iter().chain(verdicts) {
                    let key = (call.to_string(), field.position.to_string(), told);
                    assert!(seen.contains(&key), "{key:?}");
                }
            }
        }
    }

    /// Of a file with a label that is not allowed, the labels up to it are looked at, and it.
    #[test]
    fn ten_thousand_cases_hold_each_version_everywhere_and_each_length() {
        for seed in 0..3 {
            let (mut places, mut lengths) = (HashSet::new(), HashSet::new());
            for line in Generator::new(seed).take(10_000) {
                let Some(case) = Case::parse(line.as_bytes()) else {
                    continue;
                };
                let (files, versions) = labelled_files_of(case);
                let allows_2 = versions == Versions::OneAndTwo;
                for file in files {
                    meet_labels(&file, (0, file.len()), 1, &mut |depth, label| {
                        let is_two = label.version == label::Version::Two;
                        places.insert((allows_2, is_two, depth.min(9), label.is_group()));
                        if is_two {
                            lengths.insert((allows_2, label.is_group(), label.length));
                        }
                        allows_2 || !is_two
                    });
                }
            }
            for (allows_2, is_group) in [(false, false), (false, true), (true, false), (true, true)]
            {
                for (depth, is_two) in (1..=8).flat_map(|depth| [(depth, false), (depth, true)]) {
                    assert!(places.contains(&(allows_2, is_two, depth, is_group)));
                }
                for length in files::TURNS.into_iter().chain(files::LOOK_LIKE_TEXT) {
                    assert!(lengths.contains(&(allows_2, is_group, length)), "{length}");
                }
            }
        }
    }
}
