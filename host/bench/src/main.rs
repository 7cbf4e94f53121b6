//! Times the port's calls and the crate's on the same inputs and prints a table in Markdown.
use gushteral::{Mode, Options};
use original::path::component;
use original::{BStr, ByteSlice};
use std::hint::black_box;
use std::time::{Duration, Instant};

const LENGTHS: [usize; 5] = [1, 8, 40, 250, 4000];
const ROUNDS: usize = 31;
const ROUND: Duration = Duration::from_millis(2);
/// Two runs of one program differ by as much.
const NOISE: f64 = 1.01;

/// An input of a length.
type Make = fn(usize) -> Vec<u8>;

/// One call on both sides and its two sorts of input.
struct Row {
    call: &'static str,
    sorts: [(&'static str, Make); 2],
    port: fn(&[u8], &mut [u8]),
    original: fn(&BStr),
}

/// `text` continued by the letter a, or cut, to `length` bytes.
fn padded(text: &str, length: usize) -> Vec<u8> {
    text.bytes().chain(std::iter::repeat(b'a')).take(length).collect()
}

/// The same with its last byte replaced.
fn ending(text: &str, length: usize, last: u8) -> Vec<u8> {
    let mut bytes = padded(text, length);
    bytes[length - 1] = last;
    bytes
}

fn partial(length: usize) -> Vec<u8> {
    padded("staff/Lee.Smith/", length)
}

/// A name that is complete at every length: the shortest ones have only large letters.
fn complete(length: usize) -> Vec<u8> {
    if length < 12 { vec![b'A'; length] } else { padded("refs/heads/", length) }
}

fn bad_partial(length: usize) -> Vec<u8> {
    ending("staff/Lee.Smith/", length, b'~')
}

fn bad_complete(length: usize) -> Vec<u8> {
    let mut bytes = complete(length);
    bytes[length - 1] = b'~';
    bytes
}

fn good_component(length: usize) -> Vec<u8> {
    padded("report 2024", length)
}

fn bad_component(length: usize) -> Vec<u8> {
    ending("report 2024", length, b'*')
}

/// A device with spaces after it; one byte is too short for a device.
fn device(length: usize) -> Vec<u8> {
    let mut bytes = b"con".to_vec();
    bytes.resize(length, b' ');
    bytes
}

/// A device but for its last byte.
fn no_device(length: usize) -> Vec<u8> {
    let mut bytes = device(length);
    bytes[length - 1] = b'a';
    bytes
}

const CHECKED: [&str; 2] = ["allowed", "refused at the last byte"];

const ROWS: [Row; 7] = [
    Row {
        call: "`tag::name`",
        sorts: [(CHECKED[0], partial), (CHECKED[1], bad_partial)],
        port: |input, _| keep(gushteral::tag_name(input)),
        original: |input| keep(apart(|| original::tag::name(input))),
    },
    Row {
        call: "`reference::name_partial`",
        sorts: [(CHECKED[0], partial), (CHECKED[1], bad_partial)],
        port: |input, _| keep(gushteral::reference_name_partial(input)),
        original: |input| keep(apart(|| original::reference::name_partial(input))),
    },
    Row {
        call: "`reference::name`",
        sorts: [(CHECKED[0], complete), (CHECKED[1], bad_complete)],
        port: |input, _| keep(gushteral::reference_name(input)),
        original: |input| keep(apart(|| original::reference::name(input))),
    },
    Row {
        call: "`reference::branch_name`",
        sorts: [(CHECKED[0], complete), (CHECKED[1], bad_complete)],
        port: |input, _| keep(gushteral::reference_branch_name(input)),
        original: |input| keep(apart(|| original::reference::branch_name(input))),
    },
    Row {
        call: "`reference::name_partial_or_sanitize`",
        sorts: [("kept as it is", partial), ("last byte mended", bad_partial)],
        port: |input, buf| keep(gushteral::reference_name_partial_or_sanitize(input, buf)),
        original: |input| keep(apart(|| original::reference::name_partial_or_sanitize(input))),
    },
    Row {
        call: "`path::component`, a link, all protections",
        sorts: [(CHECKED[0], good_component), (CHECKED[1], bad_component)],
        port: |input, _| keep(gushteral::path_component(input, Some(Mode::Symlink), Options::default())),
        original: |input| {
            let options = component::Options::default();
            keep(apart(|| original::path::component(input, Some(component::Mode::Symlink), options)));
        },
    },
    Row {
        call: "`path::component_is_windows_device`",
        sorts: [("no device by the last byte", no_device), ("a device and spaces", device)],
        port: |input, _| keep(gushteral::path_component_is_windows_device(input)),
        original: |input| keep(apart(|| original::path::component_is_windows_device(input))),
    },
];

/// Takes an answer so that the call is not left out.
fn keep<T>(answer: T) {
    black_box(answer);
}

/// Makes a call of the crate in a function that is not inlined, as the port's are not.
#[inline(never)]
fn apart<T>(call: impl FnOnce() -> T) -> T {
    call()
}

/// Nanoseconds for each of `count` calls.
fn time(count: u32, mut call: impl FnMut()) -> f64 {
    let start = Instant::now();
    (0..count).for_each(|_| call());
    start.elapsed().as_nanos() as f64 / f64::from(count)
}

/// How many calls fill a round.
fn enough(mut call: impl FnMut()) -> u32 {
    let mut count = 1;
    while time(count, &mut call) * f64::from(count) < ROUND.as_nanos() as f64 {
        count *= 2;
    }
    count
}

/// The shortest time of a call, port and crate in turn.
fn measure(row: &Row, input: &[u8]) -> (f64, f64) {
    let mut buf = vec![0; input.len().max(1)];
    let mut port = || (row.port)(black_box(input), &mut buf);
    let mut original = || (row.original)(black_box(input).as_bstr());
    let (ports, originals) = (enough(&mut port), enough(&mut original));
    (0..ROUNDS).fold((f64::MAX, f64::MAX), |(best, other), _| {
        (best.min(time(ports, &mut port)), other.min(time(originals, &mut original)))
    })
}

/// Times one sort of input at every length: the line of the table, and the lengths at which the port is slower.
fn line(row: &Row, (sort, make): (&str, Make)) -> (String, Vec<String>) {
    let times = LENGTHS.map(|length| measure(row, &make(length)));
    let cells = times.map(|(port, original)| format!("{port:.1} / {original:.1} ({:.2})", port / original));
    let slower = LENGTHS.iter().zip(times).filter(|(_, (port, original))| port / original > NOISE);
    let slower = slower.map(|(length, (port, original))| format!("{length} ({:.2})", port / original)).collect();
    (format!("| {} | {sort} | {} |", row.call, cells.join(" | ")), slower)
}

fn main() {
    println!("Nanoseconds for one call, port / crate, and in brackets the port's time divided by the crate's.\n");
    println!("| call | input | {} |", LENGTHS.map(|length| format!("length {length}")).join(" | "));
    println!("|---|---|{}", "---|".repeat(LENGTHS.len()));
    let mut all_slower = Vec::new();
    for row in &ROWS {
        for sort in row.sorts {
            let (line, slower) = line(row, sort);
            println!("{line}");
            if !slower.is_empty() {
                all_slower.push(format!("- {}, {}: length {}", row.call, sort.0, slower.join(", ")));
            }
        }
    }
    let slower = if all_slower.is_empty() { "- nothing".to_string() } else { all_slower.join("\n") };
    println!("\n{NOTE}\nThe port is slower by more than one part in a hundred at:\n{slower}");
}

const NOTE: &str = "\
Each time is the shortest of several rounds, port and crate in turn, both built for release. Neither side's calls are
inlined into the loop that times them: the port is called through C, and the crate within a function of its own. The
mender's buffer is made once, is as long as the input and is not cleared between calls: the port writes the text and the
zeros after it there, while the crate allocates a new string in each call. The crate also allocates for the byte that a
refusal by 1 carries. The crate has the character step of this folder, not bstr's `chars`.
";
