//! Writes a sample of the crate's answers, one on a line.
use crate::alphabets::{COMPONENT_PIECES, GOOD_COMPONENTS, GOOD_NAMES, NAME_PIECES};
use crate::inputs::Random;
use crate::sides::{Answer, Check, Settings, device_by_crate, hex, mended_by_crate};
use std::collections::{BTreeMap, BTreeSet};
use std::error::Error;

/// Inputs of which every answer is in the sample.
#[rustfmt::skip]
const FIRST_NAMES: &[&[u8]] = &[
    b"", b"/", b"@", b".lock/x", b".a b", b"A1", b"a.lock.lock", b"@.lock", b"a..lock", b".lock", b"a./",
    b"refs/heads/HEAD", b"a.lock", b"a b", b"//a", b"a//b", b"a..b", b"a@{b", b"@{", b"a*", b"a.", b".", b"/a",
    b"refs/heads/.a", b"A", b"Z", b"_", b"`", b"{", b"@A", b"Z[", b"A`", b"Az", b"A/z", b"a/@", b"@/a", b"lock",
    b"a.lockb", b"a/.lock", b"a.lock/", b"x.LOCK", b"\xFF", b"A\x80",
];
#[rustfmt::skip]
const FIRST_COMPONENTS: &[&[u8]] = &[
    b"", b".", b"..", b"...", b"LPT0", b"COM0", b"COM9", b"\xE2\x82:", b"\xF0\x80:", b"\xF0\x90\x80\x80:",
    b"\xF4\x8F\xBF\xBF:", b"\xF4\x90:", b"\xED\x9F\xBF:", b"\xED\xA0:", b"\xE0\xA0\x80:", b"\xE0\x80:",
    b"\xC2\x80:", b"\xC1:", b"\xFF:", b"a:", b"aa:", b"~1000000", b"~0000000", b"~100000", b"g~100000", b"gi7eba~1",
    b"gi7eba~0", b"gi7ebax~1", b"gitmod~4", b"gitmod~5", b".git:/x", b".git", b".gitmodules", b"git~1", b"git~2",
    b".git. :x", b".git\\", b"con", b"con .x", b"conin$ :", b"CONOUT$.", b"conin$x", b"con:", b"a*", b"a.", b"a ",
    b"a/b", b"a\\b", b"c:x", b".g\xE2\x80\x8Cit", b".git\xEF\xBB\xBF", b".git\xE2\x80", b".gitmodules\xE2\x81\xAF",
];

/// Lines that are kept for one kind of answer.
const NAMES_OF_A_KIND: usize = 24;
const BYTES_OF_A_KIND: usize = 2;
const MENDED_OF_A_KIND: usize = 80;
const COMPONENTS_OF_A_KIND: usize = 12;
const DEVICES_OF_A_KIND: usize = 90;

/// The lines so far, and how many there are of each kind of answer.
#[derive(Default)]
struct Sample {
    lines: BTreeSet<String>,
    kinds: BTreeMap<String, usize>,
    /// Whether lines are left out once there are enough of their kind.
    choosy: bool,
}

impl Sample {
    /// Keeps the line, unless there are enough of its kind.
    fn add(&mut self, kind: String, most: usize, line: String) {
        let count = self.kinds.entry(kind).or_default();
        if (!self.choosy || *count < most) && self.lines.insert(line) {
            *count += 1;
        }
    }

    fn name(&mut self, input: &[u8]) {
        for (check, letter) in Check::ALL.into_iter().zip(["t", "p", "n", "b"]) {
            if check == Check::Branch && input.starts_with(b"refs/heads/-") {
                continue;
            }
            let answer = check.of_crate(input);
            let (kind, most) = match &answer {
                Answer::Refused { number: 1, carried } => (format!("{letter} 1 {}", hex(carried)), BYTES_OF_A_KIND),
                Answer::Refused { number, .. } => (format!("{letter} {number}"), NAMES_OF_A_KIND),
                _ => (format!("{letter} 0"), NAMES_OF_A_KIND),
            };
            self.add(kind, most, format!("{letter} {} {answer}", hex(input)));
        }
        if let Some(mended) = mended_by_crate(input) {
            let kind = match &mended[..] {
                b"-" => "m dash",
                same if same == input => "m same",
                _ => "m altered",
            };
            self.add(kind.into(), MENDED_OF_A_KIND, format!("m {} {}", hex(input), hex(&mended)));
        }
    }

    fn component(&mut self, input: &[u8]) {
        for settings in Settings::all() {
            let answer = settings.of_crate(input);
            let kind = format!("c {settings} {answer}");
            self.add(kind, COMPONENTS_OF_A_KIND, format!("c {settings} {} {answer}", hex(input)));
        }
        if let Some(device) = device_by_crate(input) {
            let digit = u8::from(device);
            self.add(format!("d {digit}"), DEVICES_OF_A_KIND, format!("d {} {digit}", hex(input)));
        }
    }

    /// Tells the first kind of answer of which there is no line.
    fn covers(&self) -> Result<(), String> {
        let byte = |byte: u8| format!("1 {byte:02x}");
        let bytes: Vec<String> = (0..0x20).chain(*b"\x7F \\^:[?~").map(byte).collect();
        let numbers: Vec<String> = (2..=11).chain([0]).map(|number: u32| number.to_string()).collect();
        let mut wanted = vec!["p 13".to_string(), "n 12".into(), "n 13".into(), "b 12".into(), "b 13".into()];
        for letter in ["t", "p", "n", "b"] {
            wanted.extend(bytes.iter().chain(&numbers).map(|answer| format!("{letter} {answer}")));
        }
        wanted.extend(["m dash", "m same", "m altered", "d 0", "d 1"].map(String::from));
        wanted.extend([21, 22, 23, 24, 25, 26, 27, 28, 0].map(|number| format!("c lwhn {number}")));
        match wanted.iter().find(|kind| !self.kinds.contains_key(*kind)) {
            Some(kind) => Err(format!("no line of the kind {kind}")),
            None => Ok(()),
        }
    }
}

/// Names around 255 bytes that differ in their last bytes.
fn long_names() -> Vec<Vec<u8>> {
    let ends: [&[u8]; 5] = [b"a", b".", b" ", b"/", b".lock"];
    let of_length = |length: usize| ends.map(|end| [&vec![b'a'; length - end.len()], end].concat());
    (254..=257).flat_map(of_length).collect()
}

/// Good inputs, also in other cases of letters, pairs of pieces, damaged and random ones, in random order.
fn candidates(good: &[&[u8]], pieces: &[&[u8]], random: &mut Random) -> Vec<Vec<u8>> {
    let mut texts: Vec<Vec<u8>> = good.iter().map(|text| text.to_vec()).collect();
    for piece in pieces {
        texts.extend(pieces.iter().map(|other| [*piece, *other].concat()));
        texts.extend((0..4).map(|_| [&b"a"[..], piece, random.pick(pieces)].concat()));
    }
    for text in good {
        texts.extend((0..100).map(|_| random.damage(text, pieces)));
        texts.extend((0..5).map(|_| random.recase(text)));
    }
    texts.extend((0..4_000).map(|_| random.text(pieces)).filter(|text| text.len() <= 260));
    for place in (1..texts.len()).rev() {
        texts.swap(place, random.below(place + 1));
    }
    texts
}

/// Writes the sample to `file`.
pub fn record(file: &str, seed: u64) -> Result<(), Box<dyn Error>> {
    let mut random = Random::new(seed);
    let mut sample = Sample::default();
    FIRST_NAMES.iter().for_each(|input| sample.name(input));
    long_names().iter().for_each(|input| sample.name(input));
    FIRST_COMPONENTS.iter().for_each(|input| sample.component(input));
    sample.choosy = true;
    for byte in 0..=0xFF {
        sample.name(&[b'a', byte]);
        sample.name(&[b'r', b'/', byte, b'b']);
    }
    candidates(GOOD_NAMES, NAME_PIECES, &mut random).iter().for_each(|input| sample.name(input));
    candidates(GOOD_COMPONENTS, COMPONENT_PIECES, &mut random).iter().for_each(|input| sample.component(input));
    sample.covers()?;
    let lines: String = sample.lines.iter().map(|line| format!("{line}\n")).collect();
    std::fs::write(file, lines)?;
    println!("{} answers of the crate written to {file}", sample.lines.len());
    Ok(())
}
