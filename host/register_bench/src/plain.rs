//! The same register in plain Rust, with the checks of the crate.
use original::ByteSlice;
use original::path::component::{self, Mode, Options};
use original::reference::name;

const LONGEST: usize = 255;
const CAPACITY: usize = 128;
const PROTECTIONS: Options = Options { protect_windows: false, protect_hfs: true, protect_ntfs: true };

/// Entries in ascending order of the bytes of their names.
#[derive(Default)]
struct Register {
    entries: Vec<(Vec<u8>, u32, Option<Mode>)>,
}

impl Register {
    /// Puts a name in, with its number and mode: its place, or the number of the refusal.
    fn enter(&mut self, name: &[u8], number: u32, mode: Option<Mode>) -> Result<usize, u8> {
        if name.len() > LONGEST {
            return Err(32);
        }
        original::reference::name_partial(name.as_bstr()).map_err(name_number)?;
        check_components(name, mode)?;
        if self.entries.iter().any(|(kept, ..)| meet(kept, name)) {
            return Err(41);
        }
        if self.entries.len() == CAPACITY {
            return Err(42);
        }
        let place = self.entries.partition_point(|(kept, ..)| kept.as_slice() < name);
        self.entries.insert(place, (name.to_vec(), number, mode));
        Ok(place)
    }
}

fn components(name: &[u8]) -> impl Iterator<Item = &[u8]> {
    name.split(|&byte| byte == b'/')
}

/// Checks the components from the left: the mode is the last one's, and earlier ones have none.
fn check_components(name: &[u8], mode: Option<Mode>) -> Result<(), u8> {
    let mut rest = components(name).peekable();
    while let Some(component) = rest.next() {
        let mode = if rest.peek().is_none() { mode } else { None };
        original::path::component(component.as_bstr(), mode, PROTECTIONS).map_err(component_number)?;
    }
    Ok(())
}

/// Whether two names meet: they are equal, one goes on after the other with a slash, or the first components in which
/// they differ lie together.
fn meet(left: &[u8], right: &[u8]) -> bool {
    let differing = components(left).zip(components(right)).find(|(left, right)| left != right);
    differing.is_none_or(|(left, right)| lie_together(left, right))
}

fn lie_together(left: &[u8], right: &[u8]) -> bool {
    hfs_key(left).eq(hfs_key(right)) || ntfs_key(left).eq(ntfs_key(right)) || left == right
}

/// The characters without those that HFS+ passes over, A to Z made small.
fn hfs_key(component: &[u8]) -> impl Iterator<Item = char> {
    component.chars().filter(|&character| !passed_over(character)).map(|character| character.to_ascii_lowercase())
}

fn passed_over(character: char) -> bool {
    matches!(
        character,
        '\u{200C}'..='\u{200F}' | '\u{202A}'..='\u{202E}' | '\u{206A}'..='\u{206F}' | '\u{FEFF}'
    )
}

/// The bytes before the first colon without trailing spaces and dots, A to Z made small.
fn ntfs_key(component: &[u8]) -> impl Iterator<Item = u8> {
    let before = &component[..component.find_byte(b':').unwrap_or(component.len())];
    let end = before.iter().rposition(|byte| !b" .".contains(byte)).map_or(0, |last| last + 1);
    before[..end].iter().map(u8::to_ascii_lowercase)
}

fn name_number(error: name::Error) -> u8 {
    match error {
        name::Error::InvalidByte { .. } => 1,
        name::Error::StartsWithSlash => 2,
        name::Error::RepeatedSlash => 3,
        name::Error::RepeatedDot => 4,
        name::Error::LockFileSuffix => 5,
        name::Error::ReflogPortion => 6,
        name::Error::Asterisk => 7,
        name::Error::StartsWithDot => 8,
        name::Error::EndsWithDot => 9,
        name::Error::EndsWithSlash => 10,
        name::Error::Empty => 11,
        name::Error::Reserved { .. } => 13,
        error => unreachable!("no error of a partial name: {error:?}"),
    }
}

fn component_number(error: component::Error) -> u8 {
    match error {
        component::Error::Empty => 21,
        component::Error::PathSeparator => 22,
        component::Error::DotGitDir => 26,
        component::Error::SymlinkedGitModules => 27,
        component::Error::Relative => 28,
        error => unreachable!("no error without the protections of Windows: {error:?}"),
    }
}

/// Enters names of `length` bytes each into a register with no entry, and writes an answer for each. Answers how many
/// entries are kept.
pub fn enter_all(names: &[u8], length: usize, answers: &mut [u8]) -> usize {
    let mut register = Register::default();
    for ((name, answer), number) in names.chunks_exact(length).zip(answers).zip(0..) {
        *answer = register.enter(name, number, None).err().unwrap_or(0);
    }
    register.entries.len()
}
