//! The characters of a byte string, by Table 3-7 of the Unicode Standard.
use std::ops::RangeInclusive;

/// The characters of a byte string, from the left. A well-formed sequence gives its code point. Otherwise the longest
/// start of a well-formed sequence, at least one byte, gives U+FFFD.
#[derive(Clone, Debug)]
pub struct Chars<'a> {
    rest: &'a [u8],
}

impl<'a> Chars<'a> {
    /// The characters of `bytes`.
    pub fn new(bytes: &'a [u8]) -> Self {
        Chars { rest: bytes }
    }
}

/// The ranges of the bytes that follow `first` in a well-formed sequence. None follow a byte that is a sequence by
/// itself or begins none.
fn following(first: u8) -> &'static [RangeInclusive<u8>] {
    const ANY: RangeInclusive<u8> = 0x80..=0xBF;
    match first {
        0xC2..=0xDF => &[ANY],
        0xE0 => &[0xA0..=0xBF, ANY],
        0xE1..=0xEC | 0xEE..=0xEF => &[ANY, ANY],
        0xED => &[0x80..=0x9F, ANY],
        0xF0 => &[0x90..=0xBF, ANY, ANY],
        0xF1..=0xF3 => &[ANY, ANY, ANY],
        0xF4 => &[0x80..=0x8F, ANY, ANY],
        _ => &[],
    }
}

/// The code point of a well-formed sequence: the low bits of the first byte, then six bits of each that follows.
fn code_point(first: u8, following: &[u8]) -> u32 {
    let mask = match following.len() {
        0 => 0x7F,
        1 => 0x1F,
        2 => 0x0F,
        _ => 0x07,
    };
    following.iter().fold(u32::from(first & mask), |code, byte| code << 6 | u32::from(byte & 0x3F))
}

impl Iterator for Chars<'_> {
    type Item = char;

    fn next(&mut self) -> Option<char> {
        let (&first, rest) = self.rest.split_first()?;
        let ranges = following(first);
        let fitting = rest.iter().zip(ranges).take_while(|(byte, range)| range.contains(byte)).count();
        let (tail, rest) = rest.split_at(fitting);
        self.rest = rest;
        let well_formed = first < 0x80 || (!ranges.is_empty() && fitting == ranges.len());
        let character = well_formed.then(|| code_point(first, tail)).and_then(char::from_u32);
        Some(character.unwrap_or(char::REPLACEMENT_CHARACTER))
    }
}
