//! The seven calls of the crate and of the port, with answers in one form.
use gushteral::ReferenceError;
use original::ByteSlice;
use original::path::component;
use original::reference::name::Error as OriginalError;
use std::fmt;
use std::panic::{AssertUnwindSafe, catch_unwind};

/// The answer of a check.
#[derive(Clone, Debug, PartialEq, Eq)]
pub enum Answer {
    /// Allowed; `whole` says that the answer is the very slice that was passed.
    Allowed { whole: bool },
    /// Refused by a number, with the bytes that the refusal carries.
    Refused { number: u32, carried: Vec<u8> },
    /// The call did not return.
    Panicked,
}

impl Answer {
    fn allowed(view: &[u8], input: &[u8]) -> Self {
        Answer::Allowed { whole: std::ptr::eq(view, input) }
    }

    fn refused(number: u32) -> Self {
        Answer::Refused { number, carried: Vec::new() }
    }

    pub fn is_allowed(&self) -> bool {
        matches!(self, Answer::Allowed { .. })
    }
}

impl fmt::Display for Answer {
    fn fmt(&self, f: &mut fmt::Formatter<'_>) -> fmt::Result {
        match self {
            Answer::Allowed { whole: true } => write!(f, "0"),
            Answer::Allowed { whole: false } => write!(f, "0 with another slice"),
            Answer::Refused { number, carried } if carried.is_empty() => write!(f, "{number}"),
            Answer::Refused { number, carried } => write!(f, "{number} {}", hex(carried)),
            Answer::Panicked => write!(f, "panic"),
        }
    }
}

/// Bytes in hexadecimal digits, and `-` for none.
pub fn hex(bytes: &[u8]) -> String {
    match bytes {
        [] => "-".into(),
        _ => bytes.iter().map(|byte| format!("{byte:02x}")).collect(),
    }
}

/// What a call of the crate answers, and nothing where it panics.
fn guarded<T>(call: impl FnOnce() -> T) -> Option<T> {
    catch_unwind(AssertUnwindSafe(call)).ok()
}

/// The four checks of names.
#[derive(Clone, Copy, Debug, PartialEq, Eq, PartialOrd, Ord)]
pub enum Check {
    Tag,
    Partial,
    Complete,
    Branch,
}

impl Check {
    pub const ALL: [Check; 4] = [Check::Tag, Check::Partial, Check::Complete, Check::Branch];

    pub fn title(self) -> &'static str {
        match self {
            Check::Tag => "tag::name",
            Check::Partial => "reference::name_partial",
            Check::Complete => "reference::name",
            Check::Branch => "reference::branch_name",
        }
    }

    pub fn of_crate(self, input: &[u8]) -> Answer {
        let name = input.as_bstr();
        let result = guarded(|| match self {
            Check::Tag => original::tag::name(name).map_err(OriginalError::from),
            Check::Partial => original::reference::name_partial(name),
            Check::Complete => original::reference::name(name),
            Check::Branch => original::reference::branch_name(name),
        });
        match result {
            Some(Ok(view)) => Answer::allowed(view, input),
            Some(Err(error)) => original_refusal(error),
            None => Answer::Panicked,
        }
    }

    pub fn of_port(self, input: &[u8]) -> Answer {
        let result = match self {
            Check::Tag => gushteral::tag_name(input).map_err(ReferenceError::from),
            Check::Partial => gushteral::reference_name_partial(input),
            Check::Complete => gushteral::reference_name(input),
            Check::Branch => gushteral::reference_branch_name(input),
        };
        match result {
            Ok(view) => Answer::allowed(view, input),
            Err(error) => port_refusal(error),
        }
    }
}

fn original_refusal(error: OriginalError) -> Answer {
    let number = match error {
        OriginalError::InvalidByte { byte } => return Answer::Refused { number: 1, carried: byte.into() },
        OriginalError::Reserved { name } => return Answer::Refused { number: 13, carried: name.into() },
        OriginalError::StartsWithSlash => 2,
        OriginalError::RepeatedSlash => 3,
        OriginalError::RepeatedDot => 4,
        OriginalError::LockFileSuffix => 5,
        OriginalError::ReflogPortion => 6,
        OriginalError::Asterisk => 7,
        OriginalError::StartsWithDot => 8,
        OriginalError::EndsWithDot => 9,
        OriginalError::EndsWithSlash => 10,
        OriginalError::Empty => 11,
        OriginalError::SomeLowercase => 12,
        error => unreachable!("an error without a number: {error:?}"),
    };
    Answer::refused(number)
}

fn port_refusal(error: ReferenceError<'_>) -> Answer {
    let carried = match error {
        ReferenceError::InvalidByte(byte) => vec![byte],
        ReferenceError::Reserved(name) => name.to_vec(),
        _ => Vec::new(),
    };
    Answer::Refused { number: error.number(), carried }
}

/// The text to which the crate mends the input, and nothing where it panics.
pub fn mended_by_crate(input: &[u8]) -> Option<Vec<u8>> {
    guarded(|| original::reference::name_partial_or_sanitize(input.as_bstr()).into())
}

/// Mode and protections of a component.
#[derive(Clone, Copy, Debug)]
pub struct Settings {
    pub link: bool,
    pub windows: bool,
    pub hfs: bool,
    pub ntfs: bool,
}

impl Settings {
    /// All sixteen, as the bits of the numbers from 0 to 15.
    pub fn all() -> impl Iterator<Item = Settings> {
        (0..16).map(|bits: u8| Settings {
            link: bits & 8 != 0,
            windows: bits & 4 != 0,
            hfs: bits & 2 != 0,
            ntfs: bits & 1 != 0,
        })
    }

    pub fn of_crate(self, input: &[u8]) -> Answer {
        let mode = self.link.then_some(component::Mode::Symlink);
        let options =
            component::Options { protect_windows: self.windows, protect_hfs: self.hfs, protect_ntfs: self.ntfs };
        let number = match guarded(|| original::path::component(input.as_bstr(), mode, options)) {
            Some(Ok(view)) => return Answer::allowed(view, input),
            None => return Answer::Panicked,
            Some(Err(component::Error::Empty)) => 21,
            Some(Err(component::Error::PathSeparator)) => 22,
            Some(Err(component::Error::WindowsPathPrefix)) => 23,
            Some(Err(component::Error::WindowsReservedName)) => 24,
            Some(Err(component::Error::WindowsIllegalCharacter)) => 25,
            Some(Err(component::Error::DotGitDir)) => 26,
            Some(Err(component::Error::SymlinkedGitModules)) => 27,
            Some(Err(component::Error::Relative)) => 28,
            Some(Err(error)) => unreachable!("an error without a number: {error:?}"),
        };
        Answer::refused(number)
    }

    pub fn of_port(self, input: &[u8]) -> Answer {
        let mode = self.link.then_some(gushteral::Mode::Symlink);
        let options =
            gushteral::Options { protect_windows: self.windows, protect_hfs: self.hfs, protect_ntfs: self.ntfs };
        match gushteral::path_component(input, mode, options) {
            Ok(view) => Answer::allowed(view, input),
            Err(error) => Answer::refused(error.number()),
        }
    }
}

/// Four letters `l w h n`, each a dash where it is off.
impl fmt::Display for Settings {
    fn fmt(&self, f: &mut fmt::Formatter<'_>) -> fmt::Result {
        let letters = [(self.link, 'l'), (self.windows, 'w'), (self.hfs, 'h'), (self.ntfs, 'n')];
        letters.iter().try_for_each(|&(on, letter)| write!(f, "{}", if on { letter } else { '-' }))
    }
}

/// Whether the crate takes the input for a device, and nothing where it panics.
pub fn device_by_crate(input: &[u8]) -> Option<bool> {
    guarded(|| original::path::component_is_windows_device(input.as_bstr()))
}
