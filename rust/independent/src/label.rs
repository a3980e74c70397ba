//! The 20-byte label in front of every object: twelve bytes of type, and eight
//! that count the bytes behind them. A label's version says how it is counted:
//! in digits that may have spaces in front, or as a binary number.

use crate::refusal::{Reason, Refusal};

/// Size of a label.
pub const LABEL_BYTES: u64 = 20;

/// The largest number that eight digits can hold.
pub const LONGEST_VALUE: u64 = 99_999_999;

const TYPE_BYTES: usize = 12;

/// Where the version stands among the type bytes.
const VERSION_BYTE: usize = 4;

/// Size of the length field.
const FIELD_BYTES: usize = LABEL_BYTES as usize - TYPE_BYTES;

/// The structure classes: their values are divided into further objects.
pub const GROUP_CLASSES: [u8; 3] = *b"ZUF";

/// The versions of the label. They differ in how the length is written, and in
/// nothing else.
#[derive(Clone, Copy, Debug, PartialEq, Eq)]
pub enum Version {
    /// In digits, with or without spaces in front.
    One,
    /// As a binary number, the most significant byte first.
    Two,
}

impl Version {
    /// The version that a label's version byte names.
    fn named(byte: u8) -> Option<Version> {
        match byte {
            b'1' => Some(Version::One),
            b'2' => Some(Version::Two),
            _ => None,
        }
    }

    /// How many spaces stand in front of the length in a field, and the
    /// length; nothing if the field holds none.
    fn read_field(self, field: [u8; FIELD_BYTES]) -> Option<(u8, u64)> {
        match self {
            Version::One => spaces_and_length(&field),
            Version::Two => Some((0, u64::from_be_bytes(field))),
        }
    }

    /// The field for a length; nothing if it has no room for it.
    fn field(self, length: u64) -> Option<[u8; FIELD_BYTES]> {
        match self {
            Version::One if length > LONGEST_VALUE => None,
            Version::One => format!("{length:08}").into_bytes().try_into().ok(),
            Version::Two => Some(length.to_be_bytes()),
        }
    }
}

/// The versions that a call takes. To a call that takes the first only, a label
/// of the second is no label.
#[derive(Clone, Copy, Debug, PartialEq, Eq)]
pub enum Versions {
    First,
    Both,
}

impl Versions {
    fn allows(self, version: &Version) -> bool {
        self == Versions::Both || *version == Version::One
    }
}

/// The variable contents of a label.
#[derive(Clone, Copy, Debug, PartialEq, Eq)]
pub struct Label {
    pub agency: [u8; 4],
    pub version: Version,
    pub class: u8,
    pub description: [u8; 4],
    pub length: u64,
    /// How many spaces stand in front of the length's digits.
    pub spaces: u8,
}

impl Label {
    pub fn is_group(&self) -> bool {
        GROUP_CLASSES.contains(&self.class)
    }

    /// Reads the label that begins at `place`, from bytes that end at `end`.
    /// The caller keeps `place <= end` and `end` inside the file.
    pub(crate) fn read_at(
        versions: Versions,
        file: &[u8],
        place: u64,
        end: u64,
    ) -> Result<Label, Refusal> {
        let bytes = &file[place as usize..end as usize];
        parse(versions, bytes).map_err(|reason| reason.at(place))
    }
}

/// Reads the label at the front of the lent bytes; what follows it is ignored.
pub fn read(versions: Versions, bytes: &[u8]) -> Result<Label, Refusal> {
    parse(versions, bytes).map_err(Reason::at_start)
}

/// Writes a label of the given version, type bytes and length to the front of
/// `buffer`. Answers how many bytes were written. Digits are written without
/// spaces.
pub fn write(
    version: Version,
    head: &[u8],
    length: u64,
    buffer: &mut [u8],
) -> Result<u64, Refusal> {
    if version_of(head) != Some(version) {
        return Err(Reason::BadLabel.at_start());
    }
    let field = version.field(length).ok_or(Reason::TooLong.at_start())?;
    let label = buffer
        .get_mut(..LABEL_BYTES as usize)
        .ok_or(Reason::Small.at_start())?;
    let (front, back) = label.split_at_mut(TYPE_BYTES);
    front.copy_from_slice(head);
    back.copy_from_slice(&field);
    Ok(LABEL_BYTES)
}

fn parse(versions: Versions, bytes: &[u8]) -> Result<Label, Reason> {
    let (head, rest) = bytes.split_at_checked(TYPE_BYTES).ok_or(Reason::Short)?;
    let field = *rest.first_chunk().ok_or(Reason::Short)?;
    let version = version_of(head)
        .filter(|version| versions.allows(version))
        .ok_or(Reason::BadLabel)?;
    let (spaces, length) = version.read_field(field).ok_or(Reason::BadLength)?;
    Ok(Label {
        agency: [head[0], head[1], head[2], head[3]],
        version,
        class: head[5],
        description: [head[8], head[9], head[10], head[11]],
        length,
        spaces,
    })
}

/// Divides a length field at its first byte that is no space: how many spaces
/// stand before it, and the number that the rest is. Nothing if there is no
/// such byte, or if the rest is not of digits.
fn spaces_and_length(field: &[u8]) -> Option<(u8, u64)> {
    let spaces = field.iter().position(|&byte| byte != b' ')?;
    let length = decimal(&field[spaces..])?;
    Some((spaces as u8, length))
}

/// The version of a label with these type bytes; nothing if they are not the
/// twelve of a label.
fn version_of(head: &[u8]) -> Option<Version> {
    let is_type = head.len() == TYPE_BYTES
        && matches!(&head[..4], b"NJPL" | b"CCSD")
        && head[5].is_ascii_uppercase()
        && &head[6..8] == b"00"
        && head[8..]
            .iter()
            .all(|byte| byte.is_ascii_uppercase() || byte.is_ascii_digit());
    if !is_type {
        return None;
    }
    Version::named(head[VERSION_BYTE])
}

/// The number written in ASCII digits, or nothing if one of the bytes is no
/// digit.
fn decimal(digits: &[u8]) -> Option<u64> {
    digits.iter().try_fold(0, |number, byte| {
        byte.is_ascii_digit()
            .then(|| number * 10 + u64::from(byte - b'0'))
    })
}

#[cfg(test)]
mod tests {
    use super::*;

    const DEMO: &[u8; 20] = b"NJPL1I00DEMO00000003";

    /// The same label in version 2.
    const DEMO_2: &[u8; 20] = b"NJPL2I00DEMO\0\0\0\0\0\0\0\x03";

    const CHOICES: [Versions; 2] = [Versions::First, Versions::Both];

    /// Reads what is no label of version 2: whether that is allowed does not matter.
    fn read(bytes: &[u8]) -> Result<Label, Refusal> {
        let [first, both] = CHOICES.map(|versions| super::read(versions, bytes));
        assert_eq!(first, both);
        first
    }

    fn read_both(bytes: &[u8]) -> Result<Label, Refusal> {
        super::read(Versions::Both, bytes)
    }

    fn damaged(label: &[u8; 20], position: usize, byte: u8) -> [u8; 20] {
        let mut label = *label;
        label[position] = byte;
        label
    }

    #[test]
    fn reads_the_fields() {
        let expected = Label {
            agency: *b"NJPL",
            version: Version::One,
            class: b'I',
            description: *b"DEMO",
            length: 3,
            spaces: 0,
        };
        assert_eq!(read(DEMO), Ok(expected));
        assert_eq!(read(b"NJPL1I00DEMO00000003abc and more"), Ok(expected));
        let widest = read(b"CCSD1Z00000199999999").unwrap();
        assert_eq!(widest.length, LONGEST_VALUE);
        assert!(widest.is_group());
        assert!(!expected.is_group());
        let padded = Label {
            spaces: 7,
            ..expected
        };
        assert_eq!(read(b"NJPL1I00DEMO       3abc"), Ok(padded));
        let binary = Label {
            version: Version::Two,
            ..expected
        };
        assert_eq!(read_both(DEMO_2), Ok(binary));
    }

    #[test]
    fn version_2_is_read_where_it_is_allowed() {
        let refused = super::read(Versions::First, DEMO_2);
        assert_eq!(refused, Err(Reason::BadLabel.at_start()));
        assert_eq!(read_both(DEMO_2).unwrap().length, 3);
        let [one, other] = [DEMO, DEMO_2].map(|label| read_both(&label[..19]));
        assert_eq!((one, other), (Err(Reason::Short.at_start()), one));
    }

    /// Any eight bytes are a length, those of digits and spaces too.
    #[test]
    fn binary_lengths() {
        for (field, length) in [
            (*b"\0\0\0\0\0\0\0\0", 0),
            ([1, 2, 3, 4, 5, 6, 7, 8], 0x0102_0304_0506_0708),
            ([0, 0, 0, 0, 0x80, 0, 0, 0], 1 << 31),
            ([0, 0, 0, 1, 0, 0, 0, 0], 1 << 32),
            ([0x80, 0, 0, 0, 0, 0, 0, 0], 1 << 63),
            ([0x7f, 255, 255, 255, 255, 255, 255, 255], (1 << 63) - 1),
            ([255; 8], u64::MAX),
            (*b"00000003", 0x3030_3030_3030_3033),
            (*b"       3", 0x2020_2020_2020_2033),
            (*b"        ", 0x2020_2020_2020_2020),
        ] {
            let label = read_both(&[b"NJPL2I00DEMO", &field[..]].concat()).unwrap();
            assert_eq!((label.version, label.spaces), (Version::Two, 0));
            assert_eq!(label.length, length);
        }
        for bit in 0..64 {
            let field = (1u64 << bit).to_be_bytes();
            assert_eq!(field[7 - bit / 8], 1 << (bit % 8));
            let label = read_both(&[b"NJPL2I00DEMO", &field[..]].concat()).unwrap();
            assert_eq!(label.length, 1 << bit);
        }
    }

    #[test]
    fn three_classes_of_26_are_groups() {
        let is_group = |class: &u8| read(&damaged(DEMO, 5, *class)).unwrap().is_group();
        let groups: Vec<u8> = (b'A'..=b'Z').filter(is_group).collect();
        assert_eq!(groups, b"FUZ");
    }

    #[test]
    fn nineteen_bytes_are_short_whatever_they_hold() {
        assert_eq!(read(&DEMO[..19]), Err(Reason::Short.at_start()));
        assert_eq!(read(&[0; 19]), Err(Reason::Short.at_start()));
        assert_eq!(read(b""), Err(Reason::Short.at_start()));
    }

    /// Tries every byte value at every position of a good label of each version, told each choice.
    #[test]
    fn one_byte_at_a_time() {
        const LETTERS: &[u8] = b"ABCDEFGHIJKLMNOPQRSTUVWXYZ";
        const DIGITS: &[u8] = b"0123456789";
        let places = (0..20).flat_map(|position| (0..=255u8).map(move |byte| (position, byte)));
        for (label, versions) in [(DEMO, CHOICES[0]), (DEMO, CHOICES[1]), (DEMO_2, CHOICES[1])] {
            for (position, byte) in places.clone() {
                let damaged = damaged(label, position, byte);
                let version = damaged[4];
                let is_version = version == b'1' || version == b'2' && versions == Versions::Both;
                let is_type = is_version
                    && match position {
                        0..=3 | 6 | 7 => byte == label[position],
                        5 => LETTERS.contains(&byte),
                        8..=11 => LETTERS.contains(&byte) || DIGITS.contains(&byte),
                        _ => true,
                    };
                let digits = &damaged[12 + usize::from(damaged[12] == b' ')..];
                let is_length = version == b'2' || digits.iter().all(|byte| DIGITS.contains(byte));
                let read = super::read(versions, &damaged).map(|label| label.version);
                let expected = match (is_type, is_length) {
                    (false, _) => Err(Reason::BadLabel.at_start()),
                    (true, false) => Err(BAD_LENGTH),
                    (true, true) if version == b'1' => Ok(Version::One),
                    (true, true) => Ok(Version::Two),
                };
                assert_eq!(read, expected, "{byte} at {position}");
            }
        }
    }

    /// Spaces and length of a label of class I with this length field.
    fn read_field(field: &[u8]) -> Result<(u8, u64), Refusal> {
        let label = read(&[b"NJPL1I00DEMO", field].concat())?;
        Ok((label.spaces, label.length))
    }

    /// A field of so many spaces, and as many of these digits as there is room for.
    fn padded(spaces: usize, digits: &[u8; 8]) -> [u8; 8] {
        let mut field = *digits;
        field[..spaces].fill(b' ');
        field
    }

    const BAD_LENGTH: Refusal = Refusal {
        reason: Reason::BadLength,
        place: 0,
    };

    #[test]
    fn each_number_of_spaces() {
        let lengths = [12_345_678, 2_345_678, 345_678, 45_678, 5_678, 678, 78, 8];
        for (spaces, length) in lengths.into_iter().enumerate() {
            let field = padded(spaces, b"12345678");
            assert_eq!(read_field(&field), Ok((spaces as u8, length)));
            let zeros = padded(spaces, b"00000000");
            assert_eq!(read_field(&zeros), Ok((spaces as u8, 0)));
        }
    }

    #[test]
    fn spaces_stand_in_front_of_digits_only() {
        for field in [
            b"        ",
            b"0000000 ",
            b"      3 ",
            b"3       ",
            b"0 000003",
            b"   0 003",
            b"\t0000003",
            b"      \t3",
            b"\x000000003",
        ] {
            assert_eq!(read_field(field), Err(BAD_LENGTH), "{field:?}");
        }
    }

    /// Each byte of the field a space or a digit: spaces first, and one digit at least.
    #[test]
    fn every_pattern_of_spaces_and_digits() {
        let mut accepted = 0;
        for pattern in 0..=255u8 {
            let mut field = *b"12345678";
            for (at, byte) in field.iter_mut().enumerate() {
                if pattern & (0x80 >> at) != 0 {
                    *byte = b' ';
                }
            }
            let spaces = pattern.leading_ones();
            let text = std::str::from_utf8(&field).unwrap();
            let expected = if pattern.count_ones() == spaces && spaces < 8 {
                accepted += 1;
                Ok((spaces as u8, text.trim_start().parse().unwrap()))
            } else {
                Err(BAD_LENGTH)
            };
            assert_eq!(read_field(&field), expected, "{text:?}");
        }
        assert_eq!(accepted, 8);
    }

    /// Tries every byte value at every position of a field with so many spaces. A digit may stand
    /// behind the spaces or take the place of the last one, a space in front of a digit that is
    /// not the last.
    #[test]
    fn one_byte_of_a_padded_field_at_a_time() {
        for spaces in 0..8 {
            for position in 0..8 {
                for byte in 0..=255u8 {
                    let mut field = padded(spaces, b"00000000");
                    field[position] = byte;
                    let found = match byte {
                        b'0'..=b'9' if position >= spaces => Some(spaces),
                        b'0'..=b'9' if position + 1 == spaces => Some(position),
                        b' ' if position < spaces => Some(spaces),
                        b' ' if position == spaces && spaces < 7 => Some(spaces + 1),
                        _ => None,
                    };
                    let found = found.map(|spaces| spaces as u8).ok_or(BAD_LENGTH);
                    let read = read_field(&field).map(|(spaces, _)| spaces);
                    assert_eq!(read, found, "{field:?}");
                }
            }
        }
    }

    #[test]
    fn a_bad_type_comes_before_a_bad_length() {
        for bytes in [b"NJPL3I00DEMO0000000x", b"NJPL0I00DEMO        "] {
            assert_eq!(read(bytes), Err(Reason::BadLabel.at_start()));
        }
        for bytes in [b"NJPL2I00DEMO0000000x", b"NJPL2I00DEMO        "] {
            let refused = super::read(Versions::First, bytes);
            assert_eq!(refused, Err(Reason::BadLabel.at_start()));
            assert!(read_both(bytes).is_ok());
        }
    }

    #[test]
    fn agencies_are_not_mixed() {
        assert_eq!(
            read(b"NJSD1I00DEMO00000000"),
            Err(Reason::BadLabel.at_start())
        );
    }

    #[test]
    fn writes_the_front_of_the_buffer_only() {
        let mut buffer = [b'.'; 22];
        assert_eq!(write(Version::One, b"NJPL1I00DEMO", 3, &mut buffer), Ok(20));
        assert_eq!(&buffer, b"NJPL1I00DEMO00000003..");
        assert_eq!(write(Version::Two, b"NJPL2I00DEMO", 3, &mut buffer), Ok(20));
        assert_eq!(&buffer, b"NJPL2I00DEMO\0\0\0\0\0\0\0\x03..");
        let mut exact = [0; 20];
        let written = write(Version::One, b"CCSD1Z000001", LONGEST_VALUE, &mut exact);
        assert_eq!(written, Ok(20));
        assert_eq!(&exact, b"CCSD1Z00000199999999");
    }

    #[test]
    fn the_writer_writes_no_spaces() {
        for length in [0, 3, 10, 9_999_999, LONGEST_VALUE] {
            let mut buffer = [b' '; 20];
            let written = write(Version::One, b"NJPL1I00DEMO", length, &mut buffer);
            assert_eq!(written, Ok(20));
            let label = read(&buffer).unwrap();
            assert_eq!((label.spaces, label.length), (0, length));
        }
    }

    #[test]
    fn any_length_is_written_in_version_2() {
        let around = [31, 32, 63].map(|bit| 1u64 << bit);
        let around = around.into_iter().flat_map(|n| [n - 1, n, n + 1]);
        for length in around.chain([0, LONGEST_VALUE + 1, 1 << 40, u64::MAX]) {
            let mut buffer = [b' '; 20];
            let written = write(Version::Two, b"NJPL2I00DEMO", length, &mut buffer);
            assert_eq!(written, Ok(20));
            let label = read_both(&buffer).unwrap();
            assert_eq!((label.version, label.length), (Version::Two, length));
        }
    }

    #[test]
    fn writer_refusals_come_in_order_and_write_nothing() {
        use Version::{One, Two};
        let mut buffer = [b'.'; 19];
        let cases: [(Version, &[u8], u64, Reason); 12] = [
            (One, b"", 100_000_000, Reason::BadLabel),
            (One, b"NJPL1I00DEM", 100_000_000, Reason::BadLabel),
            (One, b"NJPL1I00DEMO0", 100_000_000, Reason::BadLabel),
            (One, b"NJPL1i00DEMO", 100_000_000, Reason::BadLabel),
            (One, b"NJPL2I00DEMO", 100_000_000, Reason::BadLabel),
            (Two, b"NJPL1I00DEMO", 100_000_000, Reason::BadLabel),
            (Two, b"NJPL3I00DEMO", 3, Reason::BadLabel),
            (One, b"NJPL1I00DEMO", 100_000_000, Reason::TooLong),
            (One, b"NJPL1I00DEMO", u64::MAX, Reason::TooLong),
            (One, b"NJPL1I00DEMO", 99_999_999, Reason::Small),
            (Two, b"NJPL2I00DEMO", 100_000_000, Reason::Small),
            (Two, b"NJPL2I00DEMO", u64::MAX, Reason::Small),
        ];
        for (version, head, length, reason) in cases {
            let refused = write(version, head, length, &mut buffer);
            assert_eq!(refused, Err(reason.at_start()));
            assert_eq!(buffer, [b'.'; 19]);
        }
    }
}
