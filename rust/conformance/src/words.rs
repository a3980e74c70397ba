//! The words of a line: taken one after the other, and what they may hold.

use std::fmt;
use std::str::FromStr;

/// What stands for no bytes, and for no numbers.
const NONE: &str = "-";

/// What is left of a line. Words are separated by exactly one space, so a space too many shows up
/// as an empty word, which nothing accepts.
pub(crate) struct Words<'a> {
    rest: Option<&'a [u8]>,
}

impl<'a> Words<'a> {
    pub fn of(line: &'a [u8]) -> Words<'a> {
        Words { rest: Some(line) }
    }

    pub fn are_used_up(&self) -> bool {
        self.rest.is_none()
    }

    pub fn next(&mut self) -> Option<&'a [u8]> {
        let mut parts = self.rest?.splitn(2, |&byte| byte == b' ');
        let word = parts.next();
        self.rest = parts.next();
        word
    }
}

pub(crate) fn read_bytes(word: &[u8]) -> Option<Vec<u8>> {
    if word == NONE.as_bytes() {
        return Some(Vec::new());
    }
    if word.is_empty() || !word.len().is_multiple_of(2) {
        return None;
    }
    let pairs = word.chunks_exact(2);
    pairs
        .map(|pair| Some((digit(pair[0])? << 4) | digit(pair[1])?))
        .collect()
}

fn digit(hexadecimal: u8) -> Option<u8> {
    match hexadecimal {
        b'0'..=b'9' => Some(hexadecimal - b'0'),
        b'a'..=b'f' => Some(hexadecimal - b'a' + 10),
        _ => None,
    }
}

/// Writes bytes as lower-case hexadecimal.
pub(crate) fn write_bytes(bytes: &[u8], f: &mut dyn fmt::Write) -> fmt::Result {
    const DIGITS: &[u8; 16] = b"0123456789abcdef";
    const PIECE: usize = 64;
    if bytes.is_empty() {
        return f.write_str(NONE);
    }
    for piece in bytes.chunks(PIECE) {
        let mut text = [0; 2 * PIECE];
        for (pair, byte) in text.chunks_exact_mut(2).zip(piece) {
            pair[0] = DIGITS[usize::from(byte >> 4)];
            pair[1] = DIGITS[usize::from(byte & 15)];
        }
        let text = &text[..2 * piece.len()];
        f.write_str(std::str::from_utf8(text).map_err(|_| fmt::Error)?)?;
    }
    Ok(())
}

pub(crate) fn read_list(word: &[u8]) -> Option<Vec<u32>> {
    if word == NONE.as_bytes() {
        return Some(Vec::new());
    }
    word.split(|&byte| byte == b',').map(read_number).collect()
}

/// Writes numbers with commas between them.
pub(crate) fn write_list(list: &[u32], f: &mut dyn fmt::Write) -> fmt::Result {
    let Some((first, others)) = list.split_first() else {
        return f.write_str(NONE);
    };
    write!(f, "{first}")?;
    others.iter().try_for_each(|number| write!(f, ",{number}"))
}

/// Reads a number without sign that fits its type.
pub(crate) fn read_number<T: FromStr>(word: &[u8]) -> Option<T> {
    if is_plain(word) {
        from_text(word)
    } else {
        None
    }
}

/// Reads a number with an optional minus in front. Zero has no sign.
pub(crate) fn read_signed(word: &[u8]) -> Option<i64> {
    match word.strip_prefix(b"-") {
        None => read_number(word),
        Some(digits) if is_plain(digits) && digits != b"0" => from_text(word),
        Some(_) => None,
    }
}

/// Whether a word is digits only, with no zero in front of others.
fn is_plain(word: &[u8]) -> bool {
    match word {
        [] => false,
        [b'0', _, ..] => false,
        _ => word.iter().all(u8::is_ascii_digit),
    }
}

fn from_text<T: FromStr>(word: &[u8]) -> Option<T> {
    std::str::from_utf8(word).ok()?.parse().ok()
}

#[cfg(test)]
mod tests {
    use super::*;

    fn number(word: &str) -> Option<u64> {
        read_number(word.as_bytes())
    }

    fn signed(word: &str) -> Option<i64> {
        read_signed(word.as_bytes())
    }

    fn bytes_text(bytes: &[u8]) -> String {
        let mut text = String::new();
        write_bytes(bytes, &mut text).unwrap();
        text
    }

    fn list_text(list: &[u32]) -> String {
        let mut text = String::new();
        write_list(list, &mut text).unwrap();
        text
    }

    #[test]
    fn hexadecimal_is_lower_case_and_even() {
        assert_eq!(read_bytes(b"-"), Some(vec![]));
        assert_eq!(read_bytes(b"00ff1a"), Some(vec![0, 255, 26]));
        for bad in ["", "0", "000", "FF", "fF", "0g", "--", "-0", "0x00", "0\r"] {
            assert_eq!(read_bytes(bad.as_bytes()), None, "{bad}");
        }
    }

    #[test]
    fn numbers_are_plain() {
        assert_eq!(number("0"), Some(0));
        assert_eq!(number("18446744073709551615"), Some(u64::MAX));
        for bad in [
            "",
            "-",
            "00",
            "01",
            "+1",
            "-1",
            "1_0",
            "1.0",
            "18446744073709551616",
        ] {
            assert_eq!(number(bad), None, "{bad}");
        }
    }

    #[test]
    fn a_signed_number_may_have_a_minus() {
        assert_eq!(signed("0"), Some(0));
        assert_eq!(signed("-5"), Some(-5));
        assert_eq!(signed("9223372036854775807"), Some(i64::MAX));
        assert_eq!(signed("-9223372036854775808"), Some(i64::MIN));
        for bad in ["", "-", "-0", "+5", "--5", "05", "-05"] {
            assert_eq!(signed(bad), None, "{bad}");
        }
        assert_eq!(signed("9223372036854775808"), None);
        assert_eq!(signed("-9223372036854775809"), None);
    }

    #[test]
    fn lists_are_of_32_bit_numbers() {
        assert_eq!(read_list(b"-"), Some(vec![]));
        assert_eq!(read_list(b"0,4294967295"), Some(vec![0, u32::MAX]));
        for bad in ["", ",", "1,", ",1", "1,,2", "01", "1,-", "4294967296", "-1"] {
            assert_eq!(read_list(bad.as_bytes()), None, "{bad}");
        }
    }

    #[test]
    fn words_end_at_single_spaces() {
        let mut words = Words::of(b"a  b ");
        assert_eq!(words.next(), Some(&b"a"[..]));
        assert_eq!(words.next(), Some(&b""[..]));
        assert_eq!(words.next(), Some(&b"b"[..]));
        assert!(!words.are_used_up());
        assert_eq!(words.next(), Some(&b""[..]));
        assert!(words.are_used_up());
        assert_eq!(words.next(), None);
    }

    #[test]
    fn nothing_is_a_dash() {
        assert_eq!(bytes_text(&[]), "-");
        assert_eq!(list_text(&[]), "-");
    }

    #[test]
    fn bytes_and_numbers_are_written_as_they_are_read() {
        assert_eq!(bytes_text(&[0, 0x0a, 0xf9, 255]), "000af9ff");
        assert_eq!(list_text(&[0]), "0");
        assert_eq!(list_text(&[20, u32::MAX]), "20,4294967295");
        let long: Vec<u8> = (0..200).collect();
        assert_eq!(read_bytes(bytes_text(&long).as_bytes()), Some(long));
    }
}
