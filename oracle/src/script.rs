//! The words of a script's line, and the words of an answer (docs/ORACLE.md has the format).
use crate::config::{FILE_COUNT, MAX_PAGE_COUNT};
use std::ops::Bound;

/// What a program that reads scripts must have room for, and what a script must keep to.
pub const MAX_LINE: usize = 20_000;
pub const MAX_FLASH: usize = 257 * 4096;
pub const MAX_RUNS: usize = 131_072;
pub const MAX_ENDS: usize = 32;
pub const MAX_ROOM: usize = 8_192;
pub const SLOTS: usize = 4;

/// What is wrong with a line. The script stops there.
pub type Fault = String;

/// The words of one line, taken from the left.
pub struct Words<'a> {
    rest: std::str::Split<'a, char>,
}

impl<'a> Words<'a> {
    pub fn of(line: &'a str) -> Self {
        Words { rest: line.split(' ') }
    }

    pub fn word(&mut self) -> Result<&'a str, Fault> {
        self.rest.next().ok_or("a word is missing".into())
    }

    pub fn done(&mut self) -> Result<(), Fault> {
        match self.rest.next() {
            None => Ok(()),
            Some(word) => Err(format!("one word too many: {word:.40}")),
        }
    }

    /// A decimal number up to a limit.
    pub fn number_to(&mut self, limit: u64) -> Result<u64, Fault> {
        let word = self.word()?;
        let digits = word.bytes().all(|b| b.is_ascii_digit());
        let number = word.parse().ok().filter(|n| digits && *n <= limit);
        number.ok_or(format!("not a number up to {limit}: {word:.40}"))
    }

    pub fn number(&mut self) -> Result<u64, Fault> {
        self.number_to(u64::MAX)
    }

    pub fn size_to(&mut self, limit: usize) -> Result<usize, Fault> {
        Ok(self.number_to(limit as u64)? as usize)
    }

    pub fn page(&mut self) -> Result<u16, Fault> {
        Ok(self.number_to(u16::MAX.into())? as u16)
    }

    /// Every word that is left, as pages.
    pub fn pages(&mut self) -> Result<Vec<u16>, Fault> {
        let pages: Vec<u16> = self
            .rest
            .by_ref()
            .map(|word| Words::of(word).page())
            .collect::<Result<_, _>>()?;
        if pages.len() > MAX_PAGE_COUNT {
            return Err(format!("more than {MAX_PAGE_COUNT} pages"));
        }
        Ok(pages)
    }

    pub fn flag(&mut self) -> Result<bool, Fault> {
        match self.word()? {
            "0" => Ok(false),
            "1" => Ok(true),
            word => Err(format!("not 0 or 1: {word:.40}")),
        }
    }

    /// Eight hex digits, the highest first.
    pub fn word32(&mut self) -> Result<u32, Fault> {
        let word = self.word()?;
        let number = u32::from_str_radix(word, 16).ok();
        number
            .filter(|n| format!("{n:08x}") == word)
            .ok_or(format!("not eight hex digits: {word:.40}"))
    }

    /// Pairs of hex digits, or `-` for none.
    pub fn bytes(&mut self) -> Result<Vec<u8>, Fault> {
        let word = self.word()?;
        from_hex(word).ok_or(format!("not bytes in hex: {word:.40}"))
    }

    pub fn array<const N: usize>(&mut self) -> Result<[u8; N], Fault> {
        self.bytes()?.try_into().map_err(|_| format!("not {N} bytes"))
    }

    /// A bound's kind and key.
    pub fn bound(&mut self) -> Result<(Kind, Vec<u8>), Fault> {
        let kind = match self.word()? {
            "none" => Kind::None,
            "included" => Kind::Included,
            "excluded" => Kind::Excluded,
            word => return Err(format!("not a kind of bound: {word:.40}")),
        };
        Ok((kind, self.bytes()?))
    }

    /// A position, or `gone`, for each run that a cursor can have.
    pub fn places(&mut self) -> Result<[Option<u64>; FILE_COUNT], Fault> {
        let mut places = [None; FILE_COUNT];
        for place in &mut places {
            let word = self.word()?;
            if word != "gone" {
                *place = Some(Words::of(word).number()?);
            }
        }
        Ok(places)
    }
}

#[derive(Clone, Copy, PartialEq, Eq, Debug)]
pub enum Kind {
    None,
    Included,
    Excluded,
}

impl Kind {
    pub fn with(self, key: &[u8]) -> Bound<&[u8]> {
        match self {
            Kind::None => Bound::Unbounded,
            Kind::Included => Bound::Included(key),
            Kind::Excluded => Bound::Excluded(key),
        }
    }
}

fn from_hex(word: &str) -> Option<Vec<u8>> {
    if word == "-" {
        return Some(Vec::new());
    }
    let pairs = word.as_bytes().chunks(2);
    let bytes: Option<Vec<u8>> = pairs.map(|p| Some(digit(p[0])? * 16 + digit(*p.get(1)?)?)).collect();
    bytes.filter(|b| !b.is_empty())
}

fn digit(d: u8) -> Option<u8> {
    match d {
        b'0'..=b'9' => Some(d - b'0'),
        b'a'..=b'f' => Some(d - b'a' + 10),
        _ => None,
    }
}

/// Pages as words, each behind a space.
pub fn spaced(pages: &[usize]) -> String {
    pages.iter().map(|page| format!(" {page}")).collect()
}

pub fn hex(bytes: &[u8]) -> String {
    if bytes.is_empty() {
        return "-".into();
    }
    let digits = b"0123456789abcdef";
    let pair = |b: &u8| [digits[usize::from(b / 16)].into(), digits[usize::from(b % 16)].into()];
    bytes.iter().flat_map(pair).collect::<Vec<char>>().iter().collect()
}
