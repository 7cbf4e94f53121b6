//! Fills a register with 128 names, by the port and by plain Rust with the crate's checks, and prints the times as a table
//! in Markdown. Ends with status 1 where the two do not answer the same.
mod check;
mod plain;

use std::hint::black_box;
use std::process::ExitCode;
use std::time::{Duration, Instant};

const CAPACITY: usize = 128;
const ROUNDS: usize = 201;
const ROUND: Duration = Duration::from_millis(1);

/// Enters names of a length, and writes an answer for each.
type EnterAll = fn(&[u8], usize, &mut [u8]) -> usize;

/// Names of equal length that are all kept.
struct Shape {
    title: &'static str,
    length: usize,
    name: fn(usize) -> String,
}

const SHAPES: [Shape; 5] = [
    Shape { title: "8 bytes", length: 8, name: |i| format!("name{i:04}") },
    Shape { title: "8 bytes, the last name first", length: 8, name: |i| format!("name{:04}", 1000 - i) },
    Shape {
        title: "255 bytes, one component, the first bytes differ",
        length: 255,
        name: |i| format!("{i:03}{}", "a".repeat(252)),
    },
    Shape {
        title: "255 bytes, one component, the last bytes differ",
        length: 255,
        name: |i| format!("{}{i:03}", "a".repeat(252)),
    },
    Shape {
        title: "255 bytes, 16 components, the last differs",
        length: 255,
        name: |i| format!("{}{}{i:03}", format!("{}/", "a".repeat(15)).repeat(15), "a".repeat(12)),
    },
];

impl Shape {
    /// The first names, one after another.
    fn names(&self, count: usize) -> Vec<u8> {
        (0..count).flat_map(|i| (self.name)(i).into_bytes()).collect()
    }
}

/// Microseconds for each of `count` calls.
fn time(count: u32, mut call: impl FnMut()) -> f64 {
    let start = Instant::now();
    (0..count).for_each(|_| call());
    start.elapsed().as_secs_f64() * 1e6 / f64::from(count)
}

/// How many calls fill a round.
fn enough(mut call: impl FnMut()) -> u32 {
    let mut count = 1;
    while time(count, &mut call) * f64::from(count) < ROUND.as_secs_f64() * 1e6 {
        count *= 2;
    }
    count
}

/// The middle one of some times.
fn median(mut times: Vec<f64>) -> f64 {
    times.sort_by(f64::total_cmp);
    times[times.len() / 2]
}

/// Times one side: the shortest time to enter these names, and the time of the last of them alone. Each round times all
/// names and all but the last, one after the other, and the middle one of the differences counts.
fn measure(side: EnterAll, names: &[u8], length: usize) -> (f64, f64) {
    let mut answers = [0; CAPACITY];
    let mut enter = |names: &[u8]| {
        black_box(side(black_box(names), length, black_box(&mut answers)));
    };
    let count = enough(|| enter(names));
    let fewer = &names[..names.len() - length];
    let rounds: Vec<[f64; 2]> = (0..ROUNDS).map(|_| [names, fewer].map(|names| time(count, || enter(names)))).collect();
    let all = rounds.iter().map(|[all, _]| *all).fold(f64::MAX, f64::min);
    (all, median(rounds.iter().map(|[all, fewer]| all - fewer).collect()))
}

/// The two times, and the port's divided by the other.
fn cell(port: f64, plain: f64) -> String {
    format!("{port:.1} / {plain:.1} ({:.2})", port / plain)
}

/// Times one shape.
fn line(shape: &Shape) -> String {
    let names = shape.names(CAPACITY);
    let (port, port_last) = measure(gushteral::enter_all, &names, shape.length);
    let (plain, plain_last) = measure(plain::enter_all, &names, shape.length);
    format!("| {} | {} | {} |", shape.title, cell(port, plain), cell(port_last, plain_last))
}

/// Compares the two on each shape, with one name more than there is room for, and on random names.
fn compare() -> Result<(), String> {
    SHAPES.iter().try_for_each(|shape| check::same(&shape.names(CAPACITY + 1), shape.length))?;
    check::same_on_random_names()
}

fn main() -> ExitCode {
    if let Err(difference) = compare() {
        eprintln!("{difference}");
        return ExitCode::FAILURE;
    }
    println!("Microseconds, port / plain Rust, and in brackets the port's time divided by the other.\n");
    println!("| names | 128 names | the 128th alone |\n|---|---|---|");
    SHAPES.iter().for_each(|shape| println!("{}", line(shape)));
    println!("\n{NOTE}");
    ExitCode::SUCCESS
}

const NOTE: &str = "\
The time of 128 names is the shortest of several rounds, both sides built for release. The port is called through C, with
the register on the stack; plain Rust keeps a sorted `Vec` and allocates each name. Making the register is part of the
first column. The last name's time is that of 128 names less that of 127, the middle one of all rounds.";
