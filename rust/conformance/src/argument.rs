//! What the arguments of a case can be: how each is read, written and made smaller.

use crate::shrink::{self, Serves};
use crate::words::{
    read_bytes, read_list, read_number, read_signed, write_bytes, write_list, Words,
};
use crestulbino::{Kind, Version, Versions, Window};
use std::fmt;

pub(crate) trait Argument: Sized {
    /// Takes as many words as it needs; nothing if they are no such argument.
    fn read(words: &mut Words<'_>) -> Option<Self>;

    fn write(&self, f: &mut fmt::Formatter<'_>) -> fmt::Result;

    /// Makes it smaller step by step, as long as what comes of it serves.
    fn shrink(&mut self, serves: &mut Serves<'_, Self>) -> Option<()>;
}

impl Argument for Vec<u8> {
    fn read(words: &mut Words<'_>) -> Option<Self> {
        read_bytes(words.next()?)
    }

    fn write(&self, f: &mut fmt::Formatter<'_>) -> fmt::Result {
        write_bytes(self, f)
    }

    fn shrink(&mut self, serves: &mut Serves<'_, Self>) -> Option<()> {
        shrink::items(self, serves)
    }
}

impl Argument for Vec<u32> {
    fn read(words: &mut Words<'_>) -> Option<Self> {
        read_list(words.next()?)
    }

    fn write(&self, f: &mut fmt::Formatter<'_>) -> fmt::Result {
        write_list(self, f)
    }

    fn shrink(&mut self, serves: &mut Serves<'_, Self>) -> Option<()> {
        shrink::items(self, serves)?;
        for at in 0..self.len() {
            let mut trial = self.clone();
            shrink::number(&mut self[at], &mut |&smaller| {
                trial[at] = smaller;
                serves(&trial)
            })?;
        }
        Some(())
    }
}

macro_rules! unsigned {
    ($($number:ty),+) => { $(
        impl Argument for $number {
            fn read(words: &mut Words<'_>) -> Option<Self> {
                read_number(words.next()?)
            }

            fn write(&self, f: &mut fmt::Formatter<'_>) -> fmt::Result {
                write!(f, "{self}")
            }

            fn shrink(&mut self, serves: &mut Serves<'_, Self>) -> Option<()> {
                shrink::number(self, serves)
            }
        }
    )+ };
}

unsigned!(u8, u64, usize);

impl Argument for i64 {
    fn read(words: &mut Words<'_>) -> Option<Self> {
        read_signed(words.next()?)
    }

    fn write(&self, f: &mut fmt::Formatter<'_>) -> fmt::Result {
        write!(f, "{self}")
    }

    fn shrink(&mut self, serves: &mut Serves<'_, Self>) -> Option<()> {
        let sign = self.signum();
        let signed = |size: u64| sign.wrapping_mul(size as i64);
        let mut size = self.unsigned_abs();
        let done = shrink::number(&mut size, &mut |&smaller| serves(&signed(smaller)));
        *self = signed(size);
        done
    }
}

/// A window is its two numbers.
impl Argument for Window {
    fn read(words: &mut Words<'_>) -> Option<Self> {
        Some(Window::new(usize::read(words)?, usize::read(words)?))
    }

    fn write(&self, f: &mut fmt::Formatter<'_>) -> fmt::Result {
        write!(f, "{} {}", self.first, self.count)
    }

    fn shrink(&mut self, serves: &mut Serves<'_, Self>) -> Option<()> {
        let count = self.count;
        shrink::number(&mut self.first, &mut |&first| {
            serves(&Window::new(first, count))
        })?;
        let first = self.first;
        shrink::number(&mut self.count, &mut |&count| {
            serves(&Window::new(first, count))
        })
    }
}

/// A label's version is its number.
impl Argument for Version {
    fn read(words: &mut Words<'_>) -> Option<Self> {
        Version::from_number(u8::read(words)?)
    }

    fn write(&self, f: &mut fmt::Formatter<'_>) -> fmt::Result {
        self.number().write(f)
    }

    fn shrink(&mut self, serves: &mut Serves<'_, Self>) -> Option<()> {
        instead(self, Version::One, serves)
    }
}

/// The versions that are allowed are written as the highest of them.
impl Argument for Versions {
    fn read(words: &mut Words<'_>) -> Option<Self> {
        Some(match Version::read(words)? {
            Version::One => Versions::One,
            Version::Two => Versions::OneAndTwo,
        })
    }

    fn write(&self, f: &mut fmt::Formatter<'_>) -> fmt::Result {
        match self {
            Versions::One => Version::One,
            Versions::OneAndTwo => Version::Two,
        }
        .write(f)
    }

    fn shrink(&mut self, serves: &mut Serves<'_, Self>) -> Option<()> {
        instead(self, Versions::One, serves)
    }
}

const LABELLED_1: &str = "labelled1";
const LABELLED_2: &str = "labelled2";
const WAVEFORM: &str = "waveform";
const BURSTS: &str = "bursts:";

/// A kind is one word, that of a burst file with the first record's place behind it. A labelled
/// file is made one with fewer versions, a burst file one with a smaller first place.
impl Argument for Kind {
    fn read(words: &mut Words<'_>) -> Option<Self> {
        let word = words.next()?;
        if let Some(start) = word.strip_prefix(BURSTS.as_bytes()) {
            return read_number(start).map(Kind::Bursts);
        }
        match std::str::from_utf8(word).ok()? {
            LABELLED_1 => Some(Kind::Labelled(Versions::One)),
            LABELLED_2 => Some(Kind::Labelled(Versions::OneAndTwo)),
            WAVEFORM => Some(Kind::Waveform),
            _ => None,
        }
    }

    fn write(&self, f: &mut fmt::Formatter<'_>) -> fmt::Result {
        match self {
            Kind::Labelled(Versions::One) => f.write_str(LABELLED_1),
            Kind::Labelled(Versions::OneAndTwo) => f.write_str(LABELLED_2),
            Kind::Waveform => f.write_str(WAVEFORM),
            Kind::Bursts(start) => write!(f, "{BURSTS}{start}"),
        }
    }

    fn shrink(&mut self, serves: &mut Serves<'_, Self>) -> Option<()> {
        match self {
            Kind::Labelled(_) => instead(self, Kind::Labelled(Versions::One), serves),
            Kind::Waveform => Some(()),
            Kind::Bursts(start) => {
                shrink::number(start, &mut |&smaller| serves(&Kind::Bursts(smaller)))
            }
        }
    }
}

/// Takes the smallest one instead, if it is another and serves.
fn instead<T: Copy + PartialEq>(
    one: &mut T,
    smallest: T,
    serves: &mut Serves<'_, T>,
) -> Option<()> {
    if *one != smallest && serves(&smallest)? {
        *one = smallest;
    }
    Some(())
}
