//! Checks of Git's tag names, reference names and path components, a mender of partial names, a register of names that
//! keeps no two that meet, and the words of refusals: safe Rust over the proved static library `libgushteral_c.a`.
#![deny(missing_docs)]

mod errors;
mod raw;

pub use errors::{BufferTooShort, ComponentError, ReferenceError, TagError};

/// What a path component is, where it is the last of its path.
#[derive(Clone, Copy, Debug, PartialEq, Eq)]
pub enum Mode {
    /// A symbolic link.
    Symlink,
}

/// The protections that are on; by default all of them.
#[derive(Clone, Copy, Debug, PartialEq, Eq)]
pub struct Options {
    /// Protect against names with a meaning on Windows. Devices and illegal characters need `protect_ntfs` as well.
    pub protect_windows: bool,
    /// Protect against names that HFS+ takes for others.
    pub protect_hfs: bool,
    /// Protect against names that NTFS takes for others.
    pub protect_ntfs: bool,
}

impl Default for Options {
    fn default() -> Self {
        Options { protect_windows: true, protect_hfs: true, protect_ntfs: true }
    }
}

/// The error of an answer: none where the name is allowed.
#[inline]
fn tag_error(answer: raw::NameAnswer) -> Option<TagError> {
    Some(match answer.number {
        0 => return None,
        1 => TagError::InvalidByte(answer.value as u8),
        2 => TagError::StartsWithSlash,
        3 => TagError::RepeatedSlash,
        4 => TagError::RepeatedDot,
        5 => TagError::LockFileSuffix,
        6 => TagError::ReflogPortion,
        7 => TagError::Asterisk,
        8 => TagError::StartsWithDot,
        9 => TagError::EndsWithDot,
        10 => TagError::EndsWithSlash,
        11 => TagError::Empty,
        number => unreachable!("the contracts of the checks of names know no number {number}"),
    })
}

/// The result of a check of reference names on `input`.
#[inline]
fn reference_check(check: raw::NameCheck, input: &[u8]) -> Result<&[u8], ReferenceError<'_>> {
    // SAFETY: the pointer of a slice is good for its length; the library keeps neither.
    let answer = unsafe { check(input.as_ptr(), input.len()) };
    match answer.number {
        12 => Err(ReferenceError::SomeLowercase),
        13 => Err(ReferenceError::Reserved(input)),
        _ => tag_error(answer).map_or(Ok(input), |error| Err(error.into())),
    }
}

/// The input itself, if it is a tag name.
#[inline]
pub fn tag_name(input: &[u8]) -> Result<&[u8], TagError> {
    // SAFETY: the pointer of a slice is good for its length; the library keeps neither.
    let answer = unsafe { raw::gushteral_tag_name(input.as_ptr(), input.len()) };
    tag_error(answer).map_or(Ok(input), Err)
}

/// The input itself, if it is a partial reference name such as `main` or `heads/main`.
#[inline]
pub fn reference_name_partial(input: &[u8]) -> Result<&[u8], ReferenceError<'_>> {
    reference_check(raw::gushteral_reference_name_partial, input)
}

/// The input itself, if it is a complete reference name such as `HEAD` or `refs/heads/main`.
#[inline]
pub fn reference_name(input: &[u8]) -> Result<&[u8], ReferenceError<'_>> {
    reference_check(raw::gushteral_reference_name, input)
}

/// The input itself, if it is a complete reference name that a branch may have.
#[inline]
pub fn reference_branch_name(input: &[u8]) -> Result<&[u8], ReferenceError<'_>> {
    reference_check(raw::gushteral_reference_branch_name, input)
}

/// Writes to the front of `buf` the partial name that `input` is mended to, and answers that part of it.
///
/// The bytes of `buf` after it become zero up to the larger of 1 and the input's length, and later ones stay. Where
/// `buf` is shorter than that, the call is refused and all of `buf` stays.
#[inline]
pub fn reference_name_partial_or_sanitize<'b>(input: &[u8], buf: &'b mut [u8]) -> Result<&'b mut [u8], BufferTooShort> {
    // SAFETY: the pointers of slices are good for their lengths, and a mutable one overlaps no other.
    let answer = unsafe {
        raw::gushteral_reference_name_partial_or_sanitize(input.as_ptr(), input.len(), buf.as_mut_ptr(), buf.len())
    };
    match answer.number {
        0 => Ok(&mut buf[..answer.length]),
        _ => Err(BufferTooShort),
    }
}

/// The input itself, if it may be a component of a path in a tree under the protections that are on.
#[inline]
pub fn path_component(input: &[u8], mode: Option<Mode>, options: Options) -> Result<&[u8], ComponentError> {
    let link = mode == Some(Mode::Symlink);
    // SAFETY: the pointer of a slice is good for its length; the library keeps neither.
    let number = unsafe {
        raw::gushteral_path_component(
            input.as_ptr(),
            input.len(),
            link.into(),
            options.protect_windows.into(),
            options.protect_hfs.into(),
            options.protect_ntfs.into(),
        )
    };
    Err(match number {
        0 => return Ok(input),
        21 => ComponentError::Empty,
        22 => ComponentError::PathSeparator,
        23 => ComponentError::WindowsPathPrefix,
        24 => ComponentError::WindowsReservedName,
        25 => ComponentError::WindowsIllegalCharacter,
        26 => ComponentError::DotGitDir,
        27 => ComponentError::SymlinkedGitModules,
        28 => ComponentError::Relative,
        number => unreachable!("the contract of the check of components knows no number {number}"),
    })
}

/// Whether the component's device key is one of the listed names, as of `CON` or `lpt1.txt`.
#[inline]
pub fn path_component_is_windows_device(input: &[u8]) -> bool {
    // SAFETY: the pointer of a slice is good for its length; the library keeps neither.
    unsafe { raw::gushteral_path_component_is_windows_device(input.as_ptr(), input.len()) != 0 }
}

/// Enters names of `length` bytes each, as they lie one after another in `names`, into a register with no entry, and
/// answers how many it keeps.
///
/// The register is one of partial names on HFS+ over NTFS: a name is refused that is no partial name, that these file
/// systems take for one of Git's own, or that meets a name that is kept. As many names are entered as `answers` has
/// bytes; a rest of `names` that is shorter than `length` is left out, and where `length` is 0 there is no name. Each
/// answer becomes 0 where its name is kept, and else the number of the refusal; later ones stay.
#[inline]
pub fn enter_all(names: &[u8], length: usize, answers: &mut [u8]) -> usize {
    // SAFETY: the pointers of slices are good for their lengths, and a mutable one overlaps no other.
    unsafe { raw::gushteral_enter_all(names.as_ptr(), names.len(), length, answers.as_mut_ptr(), answers.len()) }
}

/// A buffer of this length has room for the words of every refusal.
pub const WORDS_ROOM: usize = 128;

/// Writes the words of a refusal to the front of `buf`, and answers that part of it: what the number says, and for 1 the
/// byte where it is given.
///
/// A number that is no refusal has no words. Later bytes of `buf` stay; where it is shorter than the words, the call is
/// refused and all of `buf` stays.
#[inline]
pub fn refusal_text(number: u32, byte: Option<u8>, buf: &mut [u8]) -> Result<&str, BufferTooShort> {
    // A value above 255 is no byte.
    let value = byte.map_or(u32::MAX, u32::from);
    // SAFETY: the pointer of a slice is good for its length; the library keeps neither.
    let answer = unsafe { raw::gushteral_refusal_text(number, value, buf.as_mut_ptr(), buf.len()) };
    match answer.number {
        0 => Ok(str::from_utf8(&buf[..answer.length]).expect("the words of refusals are ASCII")),
        _ => Err(BufferTooShort),
    }
}

/// The examples of the README files are run with the tests.
#[cfg(doctest)]
mod readmes {
    #[doc = include_str!("../README.md")]
    struct Wrapper;
    #[doc = include_str!("../../../README.md")]
    struct Repository;
}
