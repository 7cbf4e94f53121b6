//! Why a name, a buffer or a component is refused, with the number of each refusal.
use crate::{WORDS_ROOM, refusal_text};
use std::fmt;

/// Why bytes are no tag name.
#[derive(Clone, Copy, Debug, PartialEq, Eq)]
pub enum TagError {
    /// 1: a byte that no name may hold.
    InvalidByte(u8),
    /// 2: a slash at the beginning.
    StartsWithSlash,
    /// 3: two slashes in a row.
    RepeatedSlash,
    /// 4: two dots in a row.
    RepeatedDot,
    /// 5: a component that ends in `.lock`.
    LockFileSuffix,
    /// 6: `@{`.
    ReflogPortion,
    /// 7: `*`.
    Asterisk,
    /// 8: a component that starts with a dot.
    StartsWithDot,
    /// 9: a dot at the end.
    EndsWithDot,
    /// 10: a slash at the end.
    EndsWithSlash,
    /// 11: no byte.
    Empty,
}

/// Why bytes are no reference name.
#[derive(Clone, Copy, Debug, PartialEq, Eq)]
pub enum ReferenceError<'a> {
    /// 1: a byte that no name may hold.
    InvalidByte(u8),
    /// 2: a slash at the beginning.
    StartsWithSlash,
    /// 3: two slashes in a row.
    RepeatedSlash,
    /// 4: two dots in a row.
    RepeatedDot,
    /// 5: a component that ends in `.lock`.
    LockFileSuffix,
    /// 6: `@{`.
    ReflogPortion,
    /// 7: `*`.
    Asterisk,
    /// 8: a component that starts with a dot.
    StartsWithDot,
    /// 9: a dot at the end.
    EndsWithDot,
    /// 10: a slash at the end.
    EndsWithSlash,
    /// 11: no byte.
    Empty,
    /// 12: a complete name without a slash has a byte other than `A` to `Z` and `_`.
    SomeLowercase,
    /// 13: a name that is kept for other use, borrowed from the input.
    Reserved(&'a [u8]),
}

/// Why bytes are no path component.
#[derive(Clone, Copy, Debug, PartialEq, Eq)]
pub enum ComponentError {
    /// 21: no byte.
    Empty,
    /// 22: a slash or, with the protection of Windows names, a backslash.
    PathSeparator,
    /// 23: the second character is a colon.
    WindowsPathPrefix,
    /// 24: a device of Windows.
    WindowsReservedName,
    /// 25: a character that Windows does not allow there.
    WindowsIllegalCharacter,
    /// 26: the component stands for `.git`.
    DotGitDir,
    /// 27: a symbolic link that stands for `.gitmodules`.
    SymlinkedGitModules,
    /// 28: `.` or `..`.
    Relative,
}

/// 31: the buffer has no room for the text. The mender's has room where it has as many bytes as the larger of 1 and the
/// input's length.
#[derive(Clone, Copy, Debug, PartialEq, Eq)]
pub struct BufferTooShort;

impl TagError {
    /// The number of the refusal.
    pub fn number(&self) -> u32 {
        ReferenceError::from(*self).number()
    }
}

impl From<TagError> for ReferenceError<'_> {
    fn from(error: TagError) -> Self {
        match error {
            TagError::InvalidByte(byte) => ReferenceError::InvalidByte(byte),
            TagError::StartsWithSlash => ReferenceError::StartsWithSlash,
            TagError::RepeatedSlash => ReferenceError::RepeatedSlash,
            TagError::RepeatedDot => ReferenceError::RepeatedDot,
            TagError::LockFileSuffix => ReferenceError::LockFileSuffix,
            TagError::ReflogPortion => ReferenceError::ReflogPortion,
            TagError::Asterisk => ReferenceError::Asterisk,
            TagError::StartsWithDot => ReferenceError::StartsWithDot,
            TagError::EndsWithDot => ReferenceError::EndsWithDot,
            TagError::EndsWithSlash => ReferenceError::EndsWithSlash,
            TagError::Empty => ReferenceError::Empty,
        }
    }
}

impl ReferenceError<'_> {
    /// The number of the refusal.
    pub fn number(&self) -> u32 {
        match self {
            ReferenceError::InvalidByte(_) => 1,
            ReferenceError::StartsWithSlash => 2,
            ReferenceError::RepeatedSlash => 3,
            ReferenceError::RepeatedDot => 4,
            ReferenceError::LockFileSuffix => 5,
            ReferenceError::ReflogPortion => 6,
            ReferenceError::Asterisk => 7,
            ReferenceError::StartsWithDot => 8,
            ReferenceError::EndsWithDot => 9,
            ReferenceError::EndsWithSlash => 10,
            ReferenceError::Empty => 11,
            ReferenceError::SomeLowercase => 12,
            ReferenceError::Reserved(_) => 13,
        }
    }
}

impl ComponentError {
    /// The number of the refusal.
    pub fn number(&self) -> u32 {
        match self {
            ComponentError::Empty => 21,
            ComponentError::PathSeparator => 22,
            ComponentError::WindowsPathPrefix => 23,
            ComponentError::WindowsReservedName => 24,
            ComponentError::WindowsIllegalCharacter => 25,
            ComponentError::DotGitDir => 26,
            ComponentError::SymlinkedGitModules => 27,
            ComponentError::Relative => 28,
        }
    }
}

impl BufferTooShort {
    /// The number of the refusal.
    pub fn number(&self) -> u32 {
        31
    }
}

/// Writes the words of a refusal, as the library has them.
fn write_words(f: &mut fmt::Formatter<'_>, number: u32, byte: Option<u8>) -> fmt::Result {
    let mut buf = [0; WORDS_ROOM];
    f.write_str(refusal_text(number, byte, &mut buf).map_err(|_| fmt::Error)?)
}

impl fmt::Display for TagError {
    fn fmt(&self, f: &mut fmt::Formatter<'_>) -> fmt::Result {
        ReferenceError::from(*self).fmt(f)
    }
}

impl fmt::Display for ReferenceError<'_> {
    fn fmt(&self, f: &mut fmt::Formatter<'_>) -> fmt::Result {
        let byte = match self {
            ReferenceError::InvalidByte(byte) => Some(*byte),
            _ => None,
        };
        write_words(f, self.number(), byte)
    }
}

impl fmt::Display for ComponentError {
    fn fmt(&self, f: &mut fmt::Formatter<'_>) -> fmt::Result {
        write_words(f, self.number(), None)
    }
}

impl fmt::Display for BufferTooShort {
    fn fmt(&self, f: &mut fmt::Formatter<'_>) -> fmt::Result {
        write_words(f, self.number(), None)
    }
}

impl std::error::Error for TagError {}
impl std::error::Error for ReferenceError<'_> {}
impl std::error::Error for ComponentError {}
impl std::error::Error for BufferTooShort {}
