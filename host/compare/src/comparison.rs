//! One input on both sides: counts the cases and tells the first difference.
use crate::sides::{Answer, Check, Settings, device_by_crate, hex, mended_by_crate};
use std::collections::BTreeMap;
use std::fmt;

/// A call on which the port does not answer as it has to.
#[derive(Debug)]
pub struct Difference {
    call: String,
    input: Vec<u8>,
    wanted: String,
    found: String,
}

impl fmt::Display for Difference {
    fn fmt(&self, f: &mut fmt::Formatter<'_>) -> fmt::Result {
        let Difference { call, input, wanted, found } = self;
        write!(f, "difference at {call}, input {}: wanted {wanted}, found {found}", hex(input))
    }
}

fn difference(
    call: impl fmt::Display,
    input: &[u8],
    wanted: impl fmt::Display,
    found: impl fmt::Display,
) -> Difference {
    Difference { call: call.to_string(), input: input.to_vec(), wanted: wanted.to_string(), found: found.to_string() }
}

pub type Outcome = Result<(), Difference>;

pub const MENDER: &str = "reference::name_partial_or_sanitize";
pub const COMPONENT: &str = "path::component";
pub const DEVICE: &str = "path::component_is_windows_device";

/// Bytes before and after the mender's buffer that no call may touch.
const MARGIN: usize = 8;

/// A byte other than zero for each place of an untouched buffer.
fn pattern(place: usize) -> u8 {
    (place as u8).wrapping_mul(29) | 1
}

/// The mender's answer: where the text is, and that the buffer is too short.
#[derive(Debug, PartialEq, Eq)]
enum Mended {
    AtFront { length: usize },
    Elsewhere,
    Refused,
}

impl Mended {
    fn of_port(input: &[u8], buffer: &mut [u8]) -> Self {
        let front = buffer.as_ptr();
        match gushteral::reference_name_partial_or_sanitize(input, buffer) {
            Ok(text) if text.as_ptr() == front => Mended::AtFront { length: text.len() },
            Ok(_) => Mended::Elsewhere,
            Err(_) => Mended::Refused,
        }
    }
}

/// The comparison so far.
#[derive(Default)]
pub struct Comparison {
    pub counts: BTreeMap<&'static str, u64>,
    /// Branch names with a dash at the beginning, which the crate allows.
    pub dashed: u64,
    area: Vec<u8>,
    wanted_area: Vec<u8>,
}

impl Comparison {
    fn count(&mut self, call: &'static str, cases: u64) {
        *self.counts.entry(call).or_default() += cases;
    }

    /// The five calls on names.
    pub fn name(&mut self, input: &[u8]) -> Outcome {
        for check in Check::ALL {
            let wanted = self.wanted_answer(check, input);
            let found = check.of_port(input);
            if wanted != found {
                return Err(difference(check.title(), input, wanted, found));
            }
            self.count(check.title(), 1);
        }
        self.mender(input)
    }

    /// What the port has to answer: what the crate does, but for branch names with a dash at the beginning.
    fn wanted_answer(&mut self, check: Check, input: &[u8]) -> Answer {
        let answer = check.of_crate(input);
        if check == Check::Branch && input.starts_with(b"refs/heads/-") && answer.is_allowed() {
            self.dashed += 1;
            return Answer::Refused { number: 13, carried: input.to_vec() };
        }
        answer
    }

    /// The mender with a buffer one byte short, one that fits, and longer ones.
    fn mender(&mut self, input: &[u8]) -> Outcome {
        let Some(mended) = mended_by_crate(input) else {
            return Err(difference(MENDER, input, "panic", "an answer"));
        };
        let room = input.len().max(1);
        if mended.len() > room {
            return Err(difference(MENDER, input, hex(&mended), "no room for it"));
        }
        for length in [room - 1, room, room + 1, room + 7] {
            self.buffer(input, &mended, length)?;
        }
        self.count(MENDER, 4);
        Ok(())
    }

    /// The mender with a buffer of `length` bytes: its answer, and every byte in and around the buffer.
    fn buffer(&mut self, input: &[u8], mended: &[u8], length: usize) -> Outcome {
        let room = input.len().max(1);
        let (area, wanted_area) = (&mut self.area, &mut self.wanted_area);
        area.clear();
        area.extend((0..length + 2 * MARGIN).map(pattern));
        wanted_area.clone_from(area);
        let wanted = if length < room {
            Mended::Refused
        } else {
            let written = &mut wanted_area[MARGIN..MARGIN + room];
            written.fill(0);
            written[..mended.len()].copy_from_slice(mended);
            Mended::AtFront { length: mended.len() }
        };
        let found = Mended::of_port(input, &mut area[MARGIN..MARGIN + length]);
        if found != wanted || area != wanted_area {
            let call = format!("{MENDER} with a buffer of {length}");
            let told = |answer, area| format!("{answer:?} and {}", hex(area));
            return Err(difference(call, input, told(wanted, wanted_area), told(found, area)));
        }
        Ok(())
    }

    /// A component under all sixteen settings, and as a device.
    pub fn component(&mut self, input: &[u8]) -> Outcome {
        for settings in Settings::all() {
            let (wanted, found) = (settings.of_crate(input), settings.of_port(input));
            if wanted != found {
                return Err(difference(format!("{COMPONENT} {settings}"), input, wanted, found));
            }
        }
        self.count(COMPONENT, 16);
        let (wanted, found) = (device_by_crate(input), gushteral::path_component_is_windows_device(input));
        if wanted != Some(found) {
            return Err(difference(DEVICE, input, format!("{wanted:?}"), found));
        }
        self.count(DEVICE, 1);
        Ok(())
    }
}
