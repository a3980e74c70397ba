//! Labelled and waveform files to ask about, and ways to damage them.

use super::published;
use super::random::Random;
use crate::library::INDEPENDENT;
use crestulbino::{Kind, Refusal, Version, Versions};
use independent::label::{GROUP_CLASSES, LABEL_BYTES};
use independent::waveform::RECORD_BYTES;

const LABEL: usize = LABEL_BYTES as usize;

/// The bytes of a label's length field, which are its last.
const FIELD: usize = 8;

/// Where a label says its version.
const VERSION: usize = 4;

/// The bytes of a waveform row with its prefix.
pub const RECORD: usize = RECORD_BYTES as usize;

/// Bytes on both sides of what each field of a label allows.
pub fn odd_bytes(position: usize) -> &'static [u8] {
    match position {
        0..=3 => b"NCXLnc \0",
        VERSION => b"0123l\xb1\0\x01\x02\x03",
        5 => b"@[`azfuAYZEFGTUV01",
        6 | 7 => b"1O9/: ",
        8..=11 => b"/:@[`az{09AZ ",
        _ => b"/:09 +-aO\0\xb0\t\x1f!\xa0",
    }
}

/// A length field: spaces, then the length in as many digits as there is room for.
pub fn length_field(spaces: usize, length: usize) -> String {
    let digits = FIELD - spaces;
    format!("{:spaces$}{length:0digits$}", "")
}

/// The most spaces that can stand in front of a length.
pub fn most_spaces(length: usize) -> usize {
    FIELD - length.to_string().len()
}

/// Makes a field that is no length. It would be the given one, of at most four digits, if spaces
/// and what looks like them were allowed anywhere.
pub type BadField = fn(usize) -> String;

pub const BAD_FIELDS: [BadField; 8] = [
    |_| " ".repeat(FIELD),
    |length| format!("{length:07} "),
    |length| format!("000 {length:04}"),
    |length| format!("  0 {length:04}"),
    |length| format!("0{length:7}"),
    |length| format!("\t{length:07}"),
    |length| format!(" \t{length:06}"),
    |length| format!("\0{length:07}"),
];

/// Binary lengths at which numbers of fewer bits, or with a sign, turn.
pub const TURNS: [u64; 11] = [
    (1 << 31) - 1,
    1 << 31,
    (1 << 31) + 1,
    (1 << 32) - 1,
    1 << 32,
    (1 << 32) + 1,
    (1 << 63) - 1,
    1 << 63,
    (1 << 63) + 1,
    u64::MAX - 1,
    u64::MAX,
];

/// Binary lengths that look like digits and spaces.
pub const LOOK_LIKE_TEXT: [u64; 4] = [
    u64::from_be_bytes(*b"00000003"),
    u64::from_be_bytes(*b"99999999"),
    u64::from_be_bytes(*b"       3"),
    u64::from_be_bytes(*b"        "),
];

/// What stands in a label for its version.
pub fn version_byte(version: Version) -> u8 {
    b'0' + version.number()
}

/// A label as it was put into a file.
#[derive(Clone, Copy, Debug)]
pub struct Spot {
    pub place: usize,
    pub is_group: bool,
    pub length: usize,
    /// Bytes from the label's end to the end of the enclosing value.
    pub room: usize,
}

/// A labelled file with the spots of its labels before any damage.
#[derive(Clone, Debug, Default)]
pub struct LabelledFile {
    pub bytes: Vec<u8>,
    pub spots: Vec<Spot>,
    /// So many of a hundred lengths have spaces in front, where there is room for them.
    padded_percent: u64,
}

impl LabelledFile {
    pub fn leaves(&self) -> Vec<Spot> {
        let is_leaf = |spot: &&Spot| !spot.is_group;
        self.spots.iter().filter(is_leaf).copied().collect()
    }

    /// Where labels begin, where their values begin, and where leaves end.
    pub fn places(&self) -> Vec<usize> {
        let of = |spot: &Spot| {
            let value = spot.place + LABEL;
            let end = if spot.is_group {
                value
            } else {
                value + spot.length
            };
            [spot.place, value, end]
        };
        self.spots.iter().flat_map(of).collect()
    }

    pub fn index(&self) -> Vec<u32> {
        let places = self.leaves().into_iter().map(|leaf| leaf.place as u32);
        places.step_by(16).collect()
    }

    /// The index that the file had while class Z alone was opened.
    pub fn old_index(&self) -> Vec<u32> {
        let mut places = Vec::new();
        let mut passed = 0;
        for spot in &self.spots {
            if spot.place >= passed && self.bytes.get(spot.place + 5) != Some(&b'Z') {
                places.push(spot.place as u32);
                passed = spot.place + LABEL + spot.length;
            }
        }
        places.into_iter().step_by(16).collect()
    }

    /// Whether a label at one of the spots is of version 2.
    pub fn has_version_2(&self) -> bool {
        let is_two = |spot: &Spot| self.version_at(spot.place) == Version::Two;
        self.spots.iter().any(is_two)
    }

    /// The version of the label at `place`, by which its length is written.
    fn version_at(&self, place: usize) -> Version {
        match self.bytes.get(place + VERSION) {
            Some(b'2') => Version::Two,
            _ => Version::One,
        }
    }

    /// Writes all labels once more: some in version 2, and of the lengths in version 1 some with
    /// spaces in front. Most files come to have labels with and without.
    pub fn relabelled(mut self, mix: Mix, random: &mut Random) -> LabelledFile {
        self.padded_percent = random.weighted(&[(20, 0), (30, 30), (35, 60), (15, 100)]);
        let labels = self.spots.len();
        let chosen = random.between(0, labels.saturating_sub(1));
        for (number, spot) in self.spots.clone().into_iter().enumerate() {
            let is_two = match mix {
                Mix::None => false,
                Mix::All => true,
                Mix::Half => random.chance(50),
                Mix::Late => number >= chosen,
                Mix::Last => number + 1 == labels,
                Mix::Single => number == chosen,
                Mix::Groups => spot.is_group,
                Mix::Leaves => !spot.is_group,
            };
            let version = if is_two { Version::Two } else { Version::One };
            self.bytes[spot.place + VERSION] = version_byte(version);
            self.set_length(spot.place, spot.length as u64, random);
        }
        self
    }

    /// Rewrites the length of the label at `place` as its version has it, in version 1 with spaces in
    /// front as often as the file has them.
    fn set_length(&mut self, place: usize, length: u64, random: &mut Random) {
        if self.version_at(place) == Version::Two {
            self.set_field(place, &length.to_be_bytes());
            return;
        }
        let length = length as usize;
        let most = most_spaces(length);
        let spaces = if !random.chance(self.padded_percent) {
            0
        } else if random.chance(50) {
            most
        } else {
            random.between(0, most)
        };
        self.set_field(place, length_field(spaces, length).as_bytes());
    }

    fn set_field(&mut self, place: usize, field: &[u8]) {
        let label = &mut self.bytes[place..place + LABEL];
        label[LABEL - FIELD..].copy_from_slice(field);
    }
}

/// Which labels of a file are of version 2.
#[derive(Clone, Copy, Debug, PartialEq, Eq)]
pub enum Mix {
    None,
    All,
    Half,
    /// All from some label on.
    Late,
    /// The last one alone.
    Last,
    Single,
    Groups,
    Leaves,
}

impl Mix {
    fn any(random: &mut Random) -> Mix {
        random.weighted(&[
            (38, Mix::None),
            (12, Mix::All),
            (20, Mix::Half),
            (10, Mix::Late),
            (8, Mix::Single),
            (6, Mix::Groups),
            (6, Mix::Leaves),
        ])
    }

    /// Labels that do not keep a call from what stands among them.
    pub fn allowed(versions: Versions, random: &mut Random) -> Mix {
        match versions {
            Versions::One => Mix::None,
            Versions::OneAndTwo => Mix::any(random),
        }
    }
}

/// An object to be written into a file.
enum Object {
    Leaf([u8; 12], Vec<u8>),
    Group([u8; 12], Vec<Object>),
    /// Bytes without a label of their own.
    Stray(Vec<u8>),
}

impl Object {
    fn size(&self) -> usize {
        match self {
            Object::Leaf(_, value) => LABEL + value.len(),
            Object::Group(_, inside) => LABEL + size_of_all(inside),
            Object::Stray(bytes) => bytes.len(),
        }
    }
}

fn size_of_all(objects: &[Object]) -> usize {
    objects.iter().map(Object::size).sum()
}

/// Writes objects into an enclosing value that ends at `end`.
fn write_all(objects: &[Object], end: usize, file: &mut LabelledFile) {
    for object in objects {
        match object {
            Object::Leaf(head, value) => {
                write_label(head, false, value.len(), end, file);
                file.bytes.extend(value);
            }
            Object::Group(head, inside) => {
                let length = size_of_all(inside);
                write_label(head, true, length, end, file);
                write_all(inside, file.bytes.len() + length, file);
            }
            Object::Stray(bytes) => file.bytes.extend(bytes),
        }
    }
}

fn write_label(
    head: &[u8; 12],
    is_group: bool,
    length: usize,
    end: usize,
    file: &mut LabelledFile,
) {
    let place = file.bytes.len();
    file.bytes.extend(head);
    file.bytes.extend(length_field(0, length).bytes());
    file.spots.push(Spot {
        place,
        is_group,
        length,
        room: end - place - LABEL,
    });
}

fn written(objects: &[Object]) -> LabelledFile {
    let mut file = LabelledFile::default();
    write_all(objects, size_of_all(objects), &mut file);
    file
}

/// The type bytes of a label.
pub fn head(random: &mut Random, class: u8) -> [u8; 12] {
    let mut head = *b"NJPL1.00....";
    if random.chance(50) {
        head[..4].copy_from_slice(b"CCSD");
    }
    head[5] = class;
    for byte in &mut head[8..] {
        *byte = random.pick(b"0189ABMYZ");
    }
    head
}

/// A class other than those of groups, often a neighbour of one of them.
pub fn leaf_class(random: &mut Random) -> u8 {
    match random.between(0, 9) {
        0..=3 => random.pick(b"IKRA"),
        4..=6 => random.pick(b"EGTVY"),
        _ => random.pick(b"ABCDEGHIJKLMNOPQRSTVWXY"),
    }
}

/// Any of the 26 classes.
fn any_class(random: &mut Random) -> u8 {
    b'A' + random.below(26) as u8
}

/// The type bytes of a group's label.
pub fn group_head(random: &mut Random) -> [u8; 12] {
    let class = random.pick(&GROUP_CLASSES);
    head(random, class)
}

fn leaf_of(random: &mut Random, value: Vec<u8>) -> Object {
    let class = leaf_class(random);
    Object::Leaf(head(random, class), value)
}

fn leaf(random: &mut Random) -> Object {
    let value = value(random);
    leaf_of(random, value)
}

fn group(random: &mut Random, inside: Vec<Object>) -> Object {
    Object::Group(group_head(random), inside)
}

/// A short value, sometimes one that could be taken for labels.
fn value(random: &mut Random) -> Vec<u8> {
    if random.chance(10) {
        let mut looks_like = group_head(random).to_vec();
        let fields = [
            b"00000000",
            b"00000020",
            b"99999999",
            b"      20",
            b" 9999999",
            b"        ",
            b"\0\0\0\0\0\0\0\x14",
            b"\xff\xff\xff\xff\xff\xff\xff\xff",
        ];
        looks_like.extend(random.pick(&fields));
        looks_like.extend(head(random, b'I'));
        looks_like.extend(random.pick(&[b"00000000", b"       0", b"\0\0\0\0\0\0\0\0"]));
        for label in looks_like.chunks_exact_mut(LABEL) {
            if random.chance(40) {
                label[VERSION] = b'2';
            }
        }
        looks_like.truncate(random.pick(&[20, 40]));
        return looks_like;
    }
    let length = if random.chance(60) {
        random.pick(&[0, 0, 1, 2, 3])
    } else {
        random.between(0, 24)
    };
    random.bytes(length)
}

/// So many leaves, spread over groups at random.
fn forest(random: &mut Random, leaves: usize, depth: usize, grouping: u64) -> Vec<Object> {
    forest_of(random, leaves, depth, grouping, &mut leaf)
}

/// The same of leaves that are made so, one after the other.
fn forest_of(
    random: &mut Random,
    leaves: usize,
    depth: usize,
    grouping: u64,
    next: &mut dyn FnMut(&mut Random) -> Object,
) -> Vec<Object> {
    let mut objects = Vec::new();
    let mut left = leaves;
    loop {
        if depth < 8 && random.chance(grouping) {
            let inside = random.between(0, left);
            let objects_inside = forest_of(random, inside, depth + 1, grouping, next);
            objects.push(group(random, objects_inside));
            left -= inside;
        } else if left > 0 {
            objects.push(next(random));
            left -= 1;
        }
        if left == 0 && random.chance(90) {
            return objects;
        }
    }
}

/// Groups nested one in the other, with little inside and around them.
fn chain(random: &mut Random) -> Vec<Object> {
    let depth = random.weighted(&[(4, 8), (4, 9), (1, 1), (1, 2), (1, 7)]);
    let mut inside = match random.between(0, 4) {
        0 | 1 => Vec::new(),
        2 => vec![leaf(random)],
        3 => vec![group(random, Vec::new())],
        _ => {
            let count = random.pick(&[1, 19, 20, 21]);
            vec![Object::Stray(random.bytes(count))]
        }
    };
    for _ in 0..depth {
        let mut around = vec![group(random, inside)];
        if random.chance(20) {
            around.push(leaf(random));
        }
        if random.chance(10) {
            around.insert(0, leaf(random));
        }
        inside = around;
    }
    inside
}

/// Rows in front of and behind the group at each depth, in outermost objects one behind the other.
fn stairs(random: &mut Random) -> Vec<Object> {
    let mut objects = Vec::new();
    for _ in 0..random.between(1, 3) {
        let deepest = random.weighted(&[(4, 8), (1, 7), (1, 3), (1, 2), (1, 1)]);
        let mut inside = vec![leaf(random)];
        for _ in 1..deepest {
            let mut around = vec![group(random, inside)];
            if random.chance(70) {
                around.push(leaf(random));
            }
            if random.chance(70) {
                around.insert(0, leaf(random));
            }
            inside = around;
        }
        objects.extend(inside);
        if random.chance(30) {
            objects.push(group(random, Vec::new()));
        }
    }
    objects
}

/// A file whose later rows stand beyond 65,536, or around it, with so many rows before the large one
/// and after it.
fn large(random: &mut Random, before: usize, after: usize) -> Vec<Object> {
    let mut objects = forest(random, before, 1, 10);
    let size = random.between(64_000, 66_000);
    let value = random.bytes(size);
    objects.push(leaf_of(random, value));
    objects.extend(forest(random, after, 1, 10));
    objects
}

/// Takes over a printed file by passing through its labels.
fn known(bytes: Vec<u8>) -> LabelledFile {
    let mut spots = Vec::new();
    let mut place = 0;
    let mut end = bytes.len();
    while place < bytes.len() {
        let field = std::str::from_utf8(&bytes[place + LABEL - FIELD..place + LABEL]);
        let length = field
            .ok()
            .and_then(|field| field.trim_start_matches(' ').parse().ok());
        let length: usize = length.unwrap_or_default();
        let is_group = GROUP_CLASSES.contains(&bytes[place + 5]);
        let room = end - place - LABEL;
        spots.push(Spot {
            place,
            is_group,
            length,
            room,
        });
        place += LABEL;
        if is_group {
            end = place + length;
        } else {
            place += length;
        }
        if place == end {
            end = bytes.len();
        }
    }
    LabelledFile {
        bytes,
        spots,
        ..LabelledFile::default()
    }
}

#[derive(Clone, Copy)]
enum Shape {
    Empty,
    Demo,
    Published,
    Rows,
    Chain,
    Stairs,
    Tree,
    Large,
}

/// A labelled file without damage; only some chains of groups are refused. Labels of version 1 and
/// of version 2 are mixed in it in some way.
pub fn labelled(random: &mut Random) -> LabelledFile {
    let mix = Mix::any(random);
    labelled_with(mix, random)
}

/// A labelled file without damage, with labels of version 2 in this way.
pub fn labelled_with(mix: Mix, random: &mut Random) -> LabelledFile {
    let shape = random.weighted(&[
        (4, Shape::Empty),
        (6, Shape::Demo),
        (6, Shape::Published),
        (42, Shape::Rows),
        (20, Shape::Chain),
        (15, Shape::Stairs),
        (21, Shape::Tree),
        (1, Shape::Large),
    ]);
    let file = match shape {
        Shape::Empty => LabelledFile::default(),
        Shape::Demo => {
            known(b"CCSD1Z00000100000043NJPL1I00DEMO00000003abcNJPL1I00DEMO00000000".to_vec())
        }
        Shape::Published => known(match random.between(0, 3) {
            0 => published::volume_header(),
            1 => published::volume_trailer(),
            2 => published::pass_file(1),
            _ => [published::volume_header(), published::volume_trailer()].concat(),
        }),
        Shape::Rows => {
            let rows = random.pick(&[15, 15, 16, 16, 17, 17, 33, 33, 1, 2, 14, 18, 31, 32, 34, 49]);
            let grouping = random.pick(&[0, 10, 30]);
            written(&forest(random, rows, 1, grouping))
        }
        Shape::Chain => written(&chain(random)),
        Shape::Stairs => written(&stairs(random)),
        Shape::Tree => {
            let leaves = random.between(0, 6);
            written(&forest(random, leaves, 1, 50))
        }
        Shape::Large => {
            let (before, after) = (random.between(0, 17), random.between(1, 20));
            written(&large(random, before, after))
        }
    };
    file.relabelled(mix, random)
}

/// A file of so many rows, none of them or some of them in groups.
pub fn with_rows(rows: usize, is_nested: bool, mix: Mix, random: &mut Random) -> LabelledFile {
    let objects = if is_nested {
        let outside = random.between(0, rows / 2);
        let mut objects = forest(random, outside, 1, 30);
        let inside = forest(random, rows - outside, 2, 30);
        objects.push(group(random, inside));
        objects
    } else {
        forest(random, rows, 1, 0)
    };
    written(&objects).relabelled(mix, random)
}

/// A file of these rows, at times with groups around some of them.
pub fn with_values(values: Vec<Vec<u8>>, mix: Mix, random: &mut Random) -> LabelledFile {
    let rows = values.len();
    let mut values = values.into_iter();
    let mut next =
        |random: &mut Random| leaf_of(random, values.next().expect("a value for each row"));
    let grouping = random.pick(&[0, 10, 30]);
    let objects = forest_of(random, rows, 1, grouping, &mut next);
    written(&objects).relabelled(mix, random)
}

/// A file of these rows, of which the first and the last stand at depth 1, those next to them at depth 2,
/// and so on.
pub fn with_values_ever_deeper(values: &[Vec<u8>], mix: Mix, random: &mut Random) -> LabelledFile {
    fn objects(values: &[Vec<u8>], random: &mut Random) -> Vec<Object> {
        match values {
            [] => Vec::new(),
            [one] => vec![leaf_of(random, one.clone())],
            [first, between @ .., last] => {
                let first = leaf_of(random, first.clone());
                let between = match between {
                    [] => Vec::new(),
                    _ => {
                        let inside = objects(between, random);
                        vec![group(random, inside)]
                    }
                };
                let last = leaf_of(random, last.clone());
                [vec![first], between, vec![last]]
                    .into_iter()
                    .flatten()
                    .collect()
            }
        }
    }
    written(&objects(values, random)).relabelled(mix, random)
}

/// A file with a row at this depth that so many rows stand in front of. Right in front of it stands the label
/// of its group, or another row of it, as far as there is a group.
pub fn with_row_at_depth(
    rows_before: usize,
    depth: usize,
    is_first: bool,
    mix: Mix,
    random: &mut Random,
) -> LabelledFile {
    let mut left = rows_before;
    let mut objects = vec![leaf(random)];
    for level in (1..=depth).rev() {
        let here = match level {
            1 => left,
            _ if level < depth => random.between(0, left.min(2)),
            _ if is_first => 0,
            _ => random.between(left.min(1), left),
        };
        left -= here;
        let mut around: Vec<Object> = (0..here).map(|_| leaf(random)).collect();
        around.append(&mut objects);
        let after = random.pick(&[0, 0, 1]);
        around.extend((0..after).map(|_| leaf(random)));
        objects = match level {
            1 => around,
            _ => vec![group(random, around)],
        };
    }
    written(&objects).relabelled(mix, random)
}

/// What a labelled file is refused for.
pub const FAULTS: [Refusal; 5] = [
    Refusal::Short,
    Refusal::BadLabel,
    Refusal::BadLength,
    Refusal::Overrun,
    Refusal::Deep,
];

/// A file that is refused for this reason, told these versions.
pub fn faulty(reason: Refusal, versions: Versions, random: &mut Random) -> LabelledFile {
    loop {
        let mut file = labelled(random);
        damage(&mut file, random);
        let checked = (INDEPENDENT.check)(Kind::Labelled(versions), &file.bytes);
        if checked.is_err_and(|refused| refused.refusal == reason) {
            return file;
        }
    }
}

/// A file with an entry of its index beyond 65,536.
pub fn with_large_entry(mix: Mix, random: &mut Random) -> LabelledFile {
    loop {
        let (before, after) = (random.between(0, 15), random.between(16, 20));
        let file = written(&large(random, before, after)).relabelled(mix, random);
        if file.index().iter().any(|&entry| entry > 65_536) {
            return file;
        }
    }
}

/// A file of more than 65,536 bytes whose one entry of an index is not beyond that place.
pub fn with_large_row(mix: Mix, random: &mut Random) -> LabelledFile {
    loop {
        let before = random.between(1, 15);
        let file = written(&large(random, before, 0)).relabelled(mix, random);
        if file.bytes.len() > 65_536 {
            return file;
        }
    }
}

/// An object that ends where what encloses it ends, but for what its length field holds.
#[derive(Clone, Copy, Debug)]
pub struct LastObject {
    pub is_group: bool,
    /// Whether it is enclosed by a group, which others may follow, or by the file.
    pub is_enclosed: bool,
    pub field: Field,
}

#[derive(Clone, Copy, Debug)]
pub enum Field {
    /// So many spaces, and the object's length.
    Fits(usize),
    /// So many spaces, and one more than the object's length.
    Beyond(usize),
    /// What is no length.
    Bad(BadField),
    /// In this version, the object's length as the other one writes it.
    OfOther(Version),
    /// In version 2, this length.
    Binary(Binary),
}

/// A binary length of an object: the right one, or one that is wrong in a way that narrow numbers,
/// or sums that turn, do not see.
#[derive(Clone, Copy, Debug)]
pub enum Binary {
    Fits,
    Beyond,
    Is(u64),
    /// The object's length and so much more.
    More(u64),
    /// The object's length with its bytes in the other order.
    Reversed,
    /// What comes to 0 when the place of the object's value is added.
    ToFront,
}

impl Binary {
    pub fn of(self, length: usize, value: usize) -> u64 {
        let (length, value) = (length as u64, value as u64);
        match self {
            Binary::Fits => length,
            Binary::Beyond => length + 1,
            Binary::Is(number) => number,
            Binary::More(number) => length + number,
            Binary::Reversed => length.swap_bytes(),
            Binary::ToFront => value.wrapping_neg(),
        }
    }
}

/// Every binary length that is named above.
pub fn binaries() -> Vec<Binary> {
    let mut lengths = vec![
        Binary::Fits,
        Binary::Beyond,
        Binary::Reversed,
        Binary::ToFront,
    ];
    lengths.extend(TURNS.map(Binary::Is));
    lengths.extend(LOOK_LIKE_TEXT.map(Binary::Is));
    lengths.extend([1 << 31, 1 << 32, 1 << 63].map(Binary::More));
    // What comes to the place of the object's label.
    lengths.push(Binary::Is((LABEL as u64).wrapping_neg()));
    lengths
}

/// Each number of spaces at both sides of an object's end, each bad field, and each version's length
/// in the other.
pub fn last_objects() -> Vec<LastObject> {
    let fits = (0..FIELD).map(Field::Fits);
    let beyond = (0..FIELD).map(Field::Beyond);
    let of_other = [Version::One, Version::Two].map(Field::OfOther);
    let bad = BAD_FIELDS.map(Field::Bad);
    let fields = fits.chain(beyond).chain(bad).chain(of_other);
    fields.flat_map(LastObject::with).collect()
}

/// Each binary length that is named above, in leaves and groups.
pub fn binary_objects() -> Vec<LastObject> {
    let fields = binaries().into_iter().map(Field::Binary);
    fields.flat_map(LastObject::with).collect()
}

impl LastObject {
    /// A leaf and a group with this field, each at the end of a file and of a group.
    fn with(field: Field) -> [LastObject; 4] {
        [(false, false), (false, true), (true, false), (true, true)].map(
            |(is_group, is_enclosed)| LastObject {
                is_group,
                is_enclosed,
                field,
            },
        )
    }

    /// The object's own version.
    fn version(self) -> Version {
        match self.field {
            Field::Binary(_) => Version::Two,
            Field::OfOther(version) => version,
            Field::Fits(_) | Field::Beyond(_) | Field::Bad(_) => Version::One,
        }
    }

    /// A file with this object, among others of allowed versions, and the place of the object's
    /// label.
    pub fn in_file(self, versions: Versions, random: &mut Random) -> (LabelledFile, usize) {
        let leaves_before = random.pick(&[0, 0, 1, 2, 15, 16]);
        let mut objects = forest(random, leaves_before, 1, 10);
        let mut place = size_of_all(&objects);
        let object = self.object(random);
        let length = object.size() - LABEL;
        if self.is_enclosed {
            place += LABEL;
            objects.push(group(random, vec![object]));
            let leaves_after = random.between(0, 2);
            objects.extend((0..leaves_after).map(|_| leaf(random)));
        } else {
            objects.push(object);
        }
        let mix = Mix::allowed(versions, random);
        let mut file = written(&objects).relabelled(mix, random);
        file.bytes[place + VERSION] = version_byte(self.version());
        file.set_field(place, &self.field_for(length, place + LABEL));
        (file, place)
    }

    fn object(self, random: &mut Random) -> Object {
        let most = self.most_length();
        if self.is_group {
            let leaves = random.between(0, (most / 24).min(3));
            let inside = (0..leaves).map(|_| {
                let length = random.between(0, 4);
                let value = random.bytes(length);
                leaf_of(random, value)
            });
            let inside = inside.collect();
            return group(random, inside);
        }
        let length = if random.chance(25) {
            most.min(1_200)
        } else {
            random.between(0, most.min(40))
        };
        let value = random.bytes(length);
        leaf_of(random, value)
    }

    /// The longest object of which the field can be written.
    fn most_length(self) -> usize {
        match self.field {
            Field::Fits(spaces) => longest(spaces),
            Field::Beyond(spaces) => longest(spaces) - 1,
            Field::Bad(_) | Field::OfOther(_) | Field::Binary(_) => longest(4),
        }
    }

    fn field_for(self, length: usize, value: usize) -> Vec<u8> {
        match self.field {
            Field::Fits(spaces) => length_field(spaces, length).into_bytes(),
            Field::Beyond(spaces) => length_field(spaces, length + 1).into_bytes(),
            Field::Bad(bad) => bad(length).into_bytes(),
            Field::OfOther(Version::One) => (length as u64).to_be_bytes().to_vec(),
            Field::OfOther(Version::Two) => length_field(0, length).into_bytes(),
            Field::Binary(binary) => binary.of(length, value).to_be_bytes().to_vec(),
        }
    }
}

/// The largest length behind so many spaces.
fn longest(spaces: usize) -> usize {
    "9".repeat(FIELD - spaces).parse().unwrap_or_default()
}

/// An object of one of the 26 classes at one of the 8 depths.
#[derive(Clone, Copy, Debug)]
pub struct Classed {
    pub class: u8,
    pub depth: usize,
    /// Whether its value divides into objects. That matters to groups only.
    pub divides: bool,
}

/// Each class at each depth, with a value that divides and with one that does not.
pub fn classed() -> Vec<Classed> {
    let mut objects = Vec::new();
    for class in b'A'..=b'Z' {
        for depth in 1..=8 {
            objects.extend([true, false].map(|divides| Classed {
                class,
                depth,
                divides,
            }));
        }
    }
    objects
}

impl Classed {
    pub fn is_group(self) -> bool {
        GROUP_CLASSES.contains(&self.class)
    }

    /// A file with this object inside of groups, all of allowed versions, and the place of the
    /// object's label.
    pub fn in_file(self, versions: Versions, random: &mut Random) -> (LabelledFile, usize) {
        let mix = Mix::allowed(versions, random);
        let mut objects = vec![self.object(mix, random)];
        let mut place = 0;
        for depth in (1..=self.depth).rev() {
            let leaves_before = match depth {
                1 => random.pick(&[0, 0, 1, 14, 15, 16]),
                _ => random.pick(&[0, 0, 0, 1]),
            };
            let mut level: Vec<Object> = (0..leaves_before).map(|_| leaf(random)).collect();
            place += size_of_all(&level);
            level.append(&mut objects);
            let leaves_after = random.pick(&[0, 0, 1, 2]);
            level.extend((0..leaves_after).map(|_| leaf(random)));
            if depth > 1 {
                level = vec![group(random, level)];
                place += LABEL;
            }
            objects = level;
        }
        (written(&objects).relabelled(mix, random), place)
    }

    fn object(self, mix: Mix, random: &mut Random) -> Object {
        let inside = match (self.divides, self.depth) {
            (true, 8) => Vec::new(),
            (true, depth) => {
                let leaves = random.pick(&[0, 1, 2, 3, 17]);
                forest(random, leaves, depth + 1, 20)
            }
            (false, _) => indivisible(random),
        };
        let head = head(random, self.class);
        if self.is_group() {
            Object::Group(head, inside)
        } else {
            Object::Leaf(head, written(&inside).relabelled(mix, random).bytes)
        }
    }
}

/// A leaf or a group of one of the versions at one of the 8 depths.
#[derive(Clone, Copy, Debug)]
pub struct Versioned {
    pub version: Version,
    pub depth: usize,
    pub is_group: bool,
}

/// Each version at each depth, in a leaf and in a group.
pub fn versioned() -> Vec<Versioned> {
    let mut objects = Vec::new();
    for version in [Version::One, Version::Two] {
        for depth in 1..=8 {
            objects.extend([true, false].map(|is_group| Versioned {
                version,
                depth,
                is_group,
            }));
        }
    }
    objects
}

impl Versioned {
    /// A file with this object, and the place of its label. All others are of allowed versions.
    pub fn in_file(self, versions: Versions, random: &mut Random) -> (LabelledFile, usize) {
        let class = if self.is_group {
            random.pick(&GROUP_CLASSES)
        } else {
            leaf_class(random)
        };
        let classed = Classed {
            class,
            depth: self.depth,
            divides: true,
        };
        let (mut file, place) = classed.in_file(versions, random);
        let spot = file.spots.iter().find(|spot| spot.place == place);
        if let Some(length) = spot.map(|spot| spot.length as u64) {
            file.bytes[place + VERSION] = version_byte(self.version);
            file.set_length(place, length, random);
        }
        (file, place)
    }
}

/// What no value divides into: at times a leaf, then bytes that are no object.
fn indivisible(random: &mut Random) -> Vec<Object> {
    let mut objects = Vec::new();
    if random.chance(30) {
        objects.push(leaf(random));
    }
    let length = random.between(0, 5);
    let class = any_class(random);
    let mut label = head(random, class).to_vec();
    match random.between(0, 4) {
        0 => label = random.bytes(20),
        1 => label.truncate(random.between(1, 12)),
        2 if random.chance(50) => {
            label[VERSION] = b'2';
            let beyond = random.pick(&TURNS);
            let beyond = random.pick(&[length as u64 + 1, beyond]);
            label.extend(beyond.to_be_bytes());
        }
        2 => label.extend(length_field(1, length + 1).bytes()),
        3 => label.extend(random.pick(&BAD_FIELDS)(length).bytes()),
        _ => label.extend(b"0000000"),
    }
    if label.len() >= LABEL {
        label.extend(random.bytes(length));
    }
    objects.push(Object::Stray(label));
    objects
}

/// Does one or two kinds of harm to a labelled file.
pub fn damage(file: &mut LabelledFile, random: &mut Random) {
    harm(file, random);
    if random.chance(15) {
        harm(file, random);
    }
}

fn harm(file: &mut LabelledFile, random: &mut Random) {
    let reachable = |spot: &&Spot| spot.place + LABEL <= file.bytes.len();
    let spots: Vec<Spot> = file.spots.iter().filter(reachable).copied().collect();
    if spots.is_empty() {
        let extra = random.pick(&[1, 19, 20, 21, 40]);
        let fill = random.pick(b"^\0A");
        file.bytes.resize(file.bytes.len() + extra, fill);
        return;
    }
    let spot = random.pick(&spots);
    let label = spot.place..spot.place + LABEL;
    match random.between(0, 17) {
        0..=2 => {
            let position = random.between(0, LABEL - 1);
            harm_byte(&mut file.bytes[label], position, random);
        }
        3..=5 => {
            let to_file_end = file.bytes.len() - label.end;
            let length = random.pick(&[
                spot.room + 1,
                spot.room,
                to_file_end,
                to_file_end + 1,
                spot.length + 1,
                spot.length.saturating_sub(1),
                spot.length + LABEL,
                spot.length.saturating_sub(LABEL),
                0,
                9_999_999,
                99_999_999,
            ]);
            file.set_length(spot.place, length as u64, random);
            harm_binary(file, spot, 40, random);
        }
        6 | 7 => {
            let length = file.bytes.len();
            let kept = match random.between(0, 3) {
                0 => length - 1,
                1 => length.saturating_sub(random.between(1, 25)),
                2 => spot.place + random.between(1, LABEL),
                _ => random.between(0, length),
            };
            file.bytes.truncate(kept);
        }
        8 | 17 => {
            let extra = random.pick(&[1, 2, 18, 19, 20, 21, 39, 40]);
            let fill = random.pick(b"^\0 0");
            file.bytes.resize(file.bytes.len() + extra, fill);
        }
        9 | 10 => harm_spaces(file, spot, random),
        11 | 12 => file.bytes[spot.place + 5] = any_class(random),
        13 => {
            // The other version, with the length as it stands, or none.
            let other = random.pick(b"1122\x01\x02\0\x0303");
            file.bytes[spot.place + VERSION] = other;
        }
        14 | 15 => harm_binary(file, spot, 100, random),
        _ => {
            let place = random.between(0, file.bytes.len() - 1);
            if random.chance(50) {
                file.bytes.remove(place);
            } else {
                file.bytes.insert(place, random.byte());
            }
        }
    }
}

/// Changes one byte of a label, mostly to one at the edge of what is allowed.
fn harm_byte(label: &mut [u8], position: usize, random: &mut Random) {
    label[position] = if random.chance(80) {
        random.pick(odd_bytes(position))
    } else {
        random.byte()
    };
}

/// Makes a label's length a bad field, or puts a space too many in front of it: for its first
/// digit, or as a ninth byte.
fn harm_spaces(file: &mut LabelledFile, spot: Spot, random: &mut Random) {
    let field = spot.place + LABEL - FIELD;
    match random.between(0, 9) {
        0 | 1 => {
            let is_space = |byte: &&u8| **byte == b' ';
            let spaces = file.bytes[field..].iter().take_while(is_space).count();
            file.bytes[field + spaces.min(FIELD - 1)] = b' ';
        }
        2 => file.bytes.insert(field, b' '),
        _ => {
            let bad = random.pick(&BAD_FIELDS);
            let field = bad(spot.length.min(longest(4)));
            file.set_field(spot.place, field.as_bytes());
        }
    }
}

/// Gives a label of version 2, in so many of a hundred cases, a length that narrow numbers take for
/// another.
fn harm_binary(file: &mut LabelledFile, spot: Spot, percent: u64, random: &mut Random) {
    if file.version_at(spot.place) == Version::Two && random.chance(percent) {
        let binary = random.pick(&binaries());
        let length = binary.of(spot.length, spot.place + LABEL);
        file.set_field(spot.place, &length.to_be_bytes());
    }
}

/// Makes a group claim more than the file has, or nothing, or makes its length a bad field. The
/// jump tells these apart. Gives the place of the group, if there is one.
pub fn harm_group_length(file: &mut LabelledFile, random: &mut Random) -> Option<usize> {
    let groups = file.spots.iter().filter(|spot| spot.is_group);
    let groups: Vec<Spot> = groups.copied().collect();
    if groups.is_empty() {
        return None;
    }
    let group = random.pick(&groups);
    let place = group.place;
    let to_file_end = file.bytes.len().checked_sub(place + LABEL)?;
    match random.between(0, 9) {
        0..=2 => {
            let position = random.between(LABEL - FIELD, LABEL - 1);
            harm_byte(&mut file.bytes[place..], position, random);
        }
        3 | 4 => {
            let bad = random.pick(&BAD_FIELDS);
            file.set_field(place, bad(0).as_bytes());
        }
        _ => {
            let length = random.pick(&[to_file_end + 1, 9_999_999, 99_999_999, 0]);
            file.set_length(place, length as u64, random);
            harm_binary(file, group, 70, random);
        }
    }
    Some(place)
}

/// Makes a leaf end just at, or beyond, the end of the file. Gives the place of its label, if
/// there is one.
pub fn stretch_leaf(file: &mut LabelledFile, row: usize, random: &mut Random) -> Option<usize> {
    let leaf = file.leaves().get(row).copied()?;
    let to_file_end = file.bytes.len().checked_sub(leaf.place + LABEL)?;
    let length = to_file_end + random.pick(&[0, 1, 1, 20]);
    file.set_length(leaf.place, length as u64, random);
    Some(leaf.place)
}

/// A waveform file: mostly one to three rows, at times 32 or 33, at times
/// some bytes more or less than whole rows.
pub fn waveform(random: &mut Random) -> Vec<u8> {
    let size = random.weighted(&[
        (4, 0),
        (30, RECORD),
        (20, 2 * RECORD),
        (20, 3 * RECORD),
        (3, 1),
        (4, RECORD - 1),
        (4, RECORD + 1),
        (2, RECORD - 32),
        (2, 2 * RECORD - 1),
        (8, 32 * RECORD),
        (6, 33 * RECORD),
    ]);
    random.bytes(size)
}

#[cfg(test)]
mod tests {
    use super::*;
    use crate::library::taken;
    use independent::label;
    use independent::labelled::{check, leaves};
    use independent::refusal::Reason;

    /// Each object with each choice, so many times.
    fn told<T: Copy>(objects: Vec<T>, times: usize) -> impl Iterator<Item = (T, Versions)> {
        let choices = |object| [(object, Versions::One), (object, Versions::OneAndTwo)];
        objects.repeat(times).into_iter().flat_map(choices)
    }

    const BOTH: label::Versions = label::Versions::Both;

    #[test]
    fn spots_are_where_the_labels_are() {
        let mut random = Random::new(11);
        let mut refused = 0;
        for _ in 0..1_000 {
            let file = labelled(&mut random);
            let Ok(rows) = check(BOTH, &file.bytes) else {
                refused += 1;
                continue;
            };
            let spots = file.leaves();
            assert_eq!(rows, spots.len() as u64);
            for (spot, leaf) in spots.iter().zip(leaves(BOTH, &file.bytes).unwrap()) {
                let leaf = leaf.unwrap();
                assert_eq!(spot.place as u64, leaf.row.address.label);
                assert_eq!(spot.length as u64, leaf.row.length);
                assert!(spot.length <= spot.room);
            }
        }
        assert!((10..200).contains(&refused), "{refused} nested too deep");
    }

    /// How many spaces stand in the length fields of a file's labels, and whether these are groups.
    fn paddings(file: &LabelledFile) -> Vec<(bool, usize)> {
        let of = |spot: &Spot| {
            let field = &file.bytes[spot.place + LABEL - FIELD..];
            let spaces = field.iter().take_while(|&&byte| byte == b' ').count();
            (spot.is_group, spaces)
        };
        file.spots.iter().map(of).collect()
    }

    #[test]
    fn most_files_have_labels_with_and_without_spaces() {
        let mut random = Random::new(13);
        let (mut none, mut mixed, mut all) = (0, 0, 0);
        let mut seen = [[0; FIELD]; 2];
        for _ in 0..1_000 {
            let paddings = paddings(&labelled_with(Mix::None, &mut random));
            if paddings.len() < 2 {
                continue;
            }
            match paddings.iter().filter(|(_, spaces)| *spaces > 0).count() {
                0 => none += 1,
                padded if padded < paddings.len() => mixed += 1,
                _ => all += 1,
            }
            for (is_group, spaces) in paddings {
                seen[usize::from(is_group)][spaces] += 1;
            }
        }
        assert!(mixed > none + all && none > 100 && all > 50);
        let leaves_seen = seen[0].iter().all(|&count| count > 100);
        let groups_seen = seen[1].iter().all(|&count| count > 20);
        assert!(leaves_seen && groups_seen, "{seen:?}");
    }

    #[test]
    fn a_padded_file_is_taken_over_too() {
        let mut random = Random::new(14);
        for _ in 0..100 {
            let header = known(published::volume_header()).relabelled(Mix::None, &mut random);
            let again = known(header.bytes.clone());
            for (spot, other) in header.spots.iter().zip(&again.spots) {
                assert_eq!((spot.place, spot.length), (other.place, other.length));
            }
            assert_eq!(header.spots.len(), again.spots.len());
        }
    }

    #[test]
    fn last_objects_fit_or_are_at_fault() {
        let mut random = Random::new(15);
        for (object, versions) in told([last_objects(), binary_objects()].concat(), 20) {
            let (file, place) = object.in_file(versions, &mut random);
            let spot = file.spots.iter().find(|spot| spot.place == place).unwrap();
            let rows = file.leaves().len() as u64;
            let fits = |length: u64| match length <= spot.length as u64 {
                true => Ok(rows),
                false => Err(Reason::Overrun.at(place as u64)),
            };
            let expected = match object.field {
                _ if versions == Versions::One && object.version() == Version::Two => {
                    Err(Reason::BadLabel.at(place as u64))
                }
                Field::Fits(_) => Ok(rows),
                Field::Beyond(_) => Err(Reason::Overrun.at(place as u64)),
                Field::Bad(_) => Err(Reason::BadLength.at(place as u64)),
                Field::OfOther(Version::One) => Err(Reason::BadLength.at(place as u64)),
                Field::OfOther(Version::Two) => Err(Reason::Overrun.at(place as u64)),
                Field::Binary(binary) => fits(binary.of(spot.length, place + LABEL)),
            };
            assert_eq!(check(taken(versions), &file.bytes), expected, "{object:?}");
        }
    }

    #[test]
    fn objects_of_each_class_divide_or_are_at_fault() {
        let mut random = Random::new(18);
        for (object, versions) in told(classed(), 10) {
            let (file, place) = object.in_file(versions, &mut random);
            let rows = file.leaves().len() as u64;
            let is_good = object.divides || !object.is_group();
            match check(taken(versions), &file.bytes) {
                Ok(found) => assert!(is_good && found == rows, "{object:?}"),
                Err(refusal) => {
                    let spot = file.spots.iter().find(|spot| spot.place == place);
                    let value = place + LABEL..place + LABEL + spot.unwrap().length;
                    let is_inside = value.contains(&(refusal.place as usize));
                    assert!(!is_good && is_inside, "{object:?}: {refusal:?}");
                }
            }
        }
    }

    #[test]
    fn objects_of_each_version_are_accepted_where_they_are_allowed() {
        let mut random = Random::new(22);
        for (object, versions) in told(versioned(), 20) {
            let (file, place) = object.in_file(versions, &mut random);
            let expected = match (versions, object.version) {
                (Versions::One, Version::Two) => Err(Reason::BadLabel.at(place as u64)),
                _ => Ok(file.leaves().len() as u64),
            };
            assert_eq!(check(taken(versions), &file.bytes), expected, "{object:?}");
        }
    }

    #[test]
    fn most_files_with_version_2_have_version_1_too() {
        let mut random = Random::new(23);
        let (mut none, mut mixed, mut all, mut late) = (0, 0, 0, 0);
        for _ in 0..1_000 {
            let file = labelled(&mut random);
            let version = |spot: &Spot| file.version_at(spot.place);
            let versions: Vec<Version> = file.spots.iter().map(version).collect();
            if versions.len() < 2 {
                continue;
            }
            match versions.iter().position(|&version| version == Version::Two) {
                None => none += 1,
                Some(_) if !versions.contains(&Version::One) => all += 1,
                Some(first) => {
                    mixed += 1;
                    late += u32::from(first > 15);
                }
            }
        }
        assert!(
            mixed > 300 && none > 150 && all > 50 && late > 15,
            "{none} {mixed} {all} {late}"
        );
    }

    #[test]
    fn groups_of_each_class_stand_at_all_depths() {
        let mut random = Random::new(19);
        let mut seen = [[0; 8]; GROUP_CLASSES.len()];
        for _ in 0..1_000 {
            let file = labelled(&mut random);
            let mut ends = Vec::new();
            for spot in file.spots.iter().filter(|spot| spot.is_group) {
                ends.retain(|&end| end > spot.place);
                let class = file.bytes[spot.place + 5];
                let which = GROUP_CLASSES.iter().position(|&group| group == class);
                if let Some(count) = seen[which.unwrap()].get_mut(ends.len()) {
                    *count += 1;
                }
                ends.push(spot.place + LABEL + spot.length);
            }
        }
        let is_seen = |counts: &[u32; 8]| counts.iter().all(|&count| count > 10);
        assert!(seen.iter().all(is_seen), "{seen:?}");
    }

    #[test]
    fn old_indexes_are_right_and_wrong() {
        let mut random = Random::new(20);
        let mut right = 0;
        for _ in 0..1_000 {
            let file = labelled(&mut random);
            right += u32::from(file.old_index() == file.index());
        }
        assert!((200..800).contains(&right), "{right} of 1000");
    }

    #[test]
    fn files_are_faulty_as_they_are_asked_for() {
        let mut random = Random::new(52);
        for (reason, versions) in told(FAULTS.to_vec(), 1) {
            let file = faulty(reason, versions, &mut random);
            let checked = (INDEPENDENT.check)(Kind::Labelled(versions), &file.bytes);
            assert_eq!(checked.map_err(|refused| refused.refusal), Err(reason));
        }
    }

    #[test]
    fn files_stay_within_the_size_of_a_case() {
        let mut random = Random::new(12);
        for _ in 0..2_000 {
            let mut file = labelled(&mut random);
            damage(&mut file, &mut random);
            assert!(file.bytes.len() <= 131_072);
        }
        for _ in 0..200 {
            assert!(waveform(&mut random).len() <= 131_072);
        }
    }
}
