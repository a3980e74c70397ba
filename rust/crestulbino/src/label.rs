//! The 20-byte label in front of every object of a labelled file.

use crate::ffi;
use crate::refusal::{other_version, Refused};

/// The bytes of a label.
pub const LABEL_BYTES: usize = 20;

/// A version of the label, as its byte 4 says. It says how the length is written.
#[derive(Clone, Copy, Debug, PartialEq, Eq, Hash)]
pub enum Version {
    /// Byte 4 is `1`: the length is eight digits, with spaces for those in front or without.
    One,
    /// Byte 4 is `2`: the length is a binary number of 64 bits, the most significant byte first.
    Two,
}

impl Version {
    /// 1 or 2.
    ///
    /// ```
    /// assert_eq!(crestulbino::Version::Two.number(), 2);
    /// ```
    pub const fn number(self) -> u8 {
        match self {
            Version::One => 1,
            Version::Two => 2,
        }
    }

    /// The version with this number, if there is one.
    ///
    /// ```
    /// use crestulbino::Version;
    ///
    /// assert_eq!(Version::from_number(2), Some(Version::Two));
    /// assert_eq!(Version::from_number(3), None);
    /// ```
    pub const fn from_number(number: u8) -> Option<Version> {
        match number {
            1 => Some(Version::One),
            2 => Some(Version::Two),
            _ => None,
        }
    }
}

/// Which versions of the label are allowed. A label of another one is refused with `BadLabel`.
///
/// Every call that reads labels is told. All that is asked of one file, its check, its index, its
/// rows and the jump to them, is to be told the same.
#[derive(Clone, Copy, Debug, PartialEq, Eq, Hash)]
pub enum Versions {
    /// Version 1 only.
    One,
    /// Versions 1 and 2, mixed in one file and nested in one another.
    OneAndTwo,
}

impl Versions {
    /// Whether version 2 is allowed, which is what the boundary is told.
    #[inline]
    pub(crate) const fn version_2(self) -> bool {
        matches!(self, Versions::OneAndTwo)
    }
}

/// The variable parts of a label.
#[derive(Clone, Copy, Debug, PartialEq, Eq, Hash)]
pub struct Label {
    /// `NJPL` or `CCSD`.
    pub agency: [u8; 4],
    /// How the length is written.
    pub version: Version,
    /// `A` to `Z`. A value of class `Z`, `U` or `F` is itself divided into labelled objects.
    pub class: u8,
    /// Upper-case letters and digits.
    pub description: [u8; 4],
    /// How many bytes stand behind the label, as it says.
    pub length: usize,
    /// How many spaces stand in front of the length's digits, 0 to 7; 0 in version 2.
    pub spaces: u8,
}

/// Reads the label at the front of `bytes`. What follows it is ignored.
///
/// Refuses: `Short`; `BadLabel`, also for a version that is not allowed; `BadLength` in version 1;
/// all at 0.
///
/// ```
/// use crestulbino::{read_label, Refusal, Version, Versions};
///
/// let label = read_label(Versions::One, b"NJPL1I00DEMO00000003abc")?;
/// assert_eq!((&label.agency, label.class, &label.description), (b"NJPL", b'I', b"DEMO"));
/// assert_eq!((label.version, label.length, label.spaces), (Version::One, 3, 0));
///
/// let padded = read_label(Versions::One, b"NJPL1I00DEMO       3abc")?;
/// assert_eq!((padded.length, padded.spaces), (3, 7));
///
/// let binary = b"NJPL2I00DEMO\0\0\0\0\0\0\x01\x03";
/// let label = read_label(Versions::OneAndTwo, binary)?;
/// assert_eq!((label.version, label.length, label.spaces), (Version::Two, 259, 0));
/// let refused = read_label(Versions::One, binary).unwrap_err();
/// assert_eq!(refused.refusal, Refusal::BadLabel);
/// # Ok::<(), crestulbino::Refused>(())
/// ```
#[inline]
pub fn read_label(versions: Versions, bytes: &[u8]) -> Result<Label, Refused> {
    let (mut agency, mut version, mut class, mut description) = ([0; 4], 0, 0, [0; 4]);
    let (mut length, mut spaces) = (0, 0);
    ffi::read_label(
        bytes,
        versions.version_2(),
        &mut agency,
        &mut version,
        &mut class,
        &mut description,
        &mut length,
        &mut spaces,
    )
    .result()?;
    Ok(Label {
        agency,
        version: Version::from_number(version).unwrap_or_else(|| other_version()),
        class,
        description,
        length: length as usize,
        spaces,
    })
}

/// Writes a label to the first 20 bytes of `out`: the twelve bytes of `head`, whose byte 4 must be
/// that of `version`, and the length of what is to stand behind it, as the version has it: in eight
/// digits, or in eight bytes. Answers how many bytes were written, which is 20.
///
/// Refuses: `BadLabel` (also where `head` has not twelve bytes, or is of another version);
/// `TooLong` in version 1; `Small`.
///
/// ```
/// use crestulbino::{write_label, Refusal, Version};
///
/// let mut out = *b"......................";
/// assert_eq!(write_label(Version::One, b"NJPL1I00DEMO", 3, &mut out)?, 20);
/// assert_eq!(&out, b"NJPL1I00DEMO00000003..");
///
/// assert_eq!(write_label(Version::Two, b"NJPL2I00DEMO", 1 << 32, &mut out)?, 20);
/// assert_eq!(&out, b"NJPL2I00DEMO\0\0\0\x01\0\0\0\0..");
///
/// let refused = write_label(Version::One, b"NJPL1I00DEMO", 1 << 32, &mut out).unwrap_err();
/// assert_eq!(refused.refusal, Refusal::TooLong);
/// let refused = write_label(Version::Two, b"NJPL1I00DEMO", 3, &mut out).unwrap_err();
/// assert_eq!(refused.refusal, Refusal::BadLabel);
/// # Ok::<(), crestulbino::Refused>(())
/// ```
#[inline]
pub fn write_label(
    version: Version,
    head: &[u8],
    length: usize,
    out: &mut [u8],
) -> Result<usize, Refused> {
    let mut written = 0;
    ffi::write_label(version.number(), head, length as u64, out, &mut written).result()?;
    Ok(written as usize)
}
