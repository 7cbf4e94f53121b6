//! Holds the port's answers against those of the program in plain Rust.
use crate::plain;

const SEED: u64 = 0x6775_7368_7465_7261;

/// What random names are put together from: letters, what HFS+ and NTFS pass over, and what no name has.
const PIECES: [&str; 11] = ["a", "A", "b", "git", "GIT", "/", "/", ".", "\u{200C}", ".lock", "*"];

/// Numbers that look random and are the same in each run (xorshift64*).
struct Random(u64);

impl Random {
    fn below(&mut self, limit: usize) -> usize {
        self.0 ^= self.0 >> 12;
        self.0 ^= self.0 << 25;
        self.0 ^= self.0 >> 27;
        ((self.0.wrapping_mul(0x2545_F491_4F6C_DD1D) >> 32) as usize) % limit
    }

    /// A name of `length` bytes.
    fn name(&mut self, length: usize) -> Vec<u8> {
        let mut name = Vec::new();
        while name.len() < length {
            name.extend_from_slice(PIECES[self.below(PIECES.len())].as_bytes());
        }
        name.truncate(length);
        name
    }
}

/// Enters the names on both sides and compares the answers and the counts.
pub fn same(names: &[u8], length: usize) -> Result<(), String> {
    let count = names.len() / length;
    let (mut ports, mut plains) = (vec![0xFF; count], vec![0xFF; count]);
    let kept = gushteral::enter_all(names, length, &mut ports);
    let kept_plainly = plain::enter_all(names, length, &mut plains);
    for ((name, port), plain) in names.chunks_exact(length).zip(ports).zip(plains) {
        if port != plain {
            let name: String = name.iter().map(|byte| format!("{byte:02x}")).collect();
            return Err(format!("{name}: the port answers {port}, and plain Rust {plain}"));
        }
    }
    if kept != kept_plainly {
        return Err(format!("names of {length} bytes: the port keeps {kept}, and plain Rust {kept_plainly}"));
    }
    Ok(())
}

/// Compares on random names of one length at a time, many of which meet or are refused.
pub fn same_on_random_names() -> Result<(), String> {
    let mut random = Random(SEED);
    for length in (1..=24).chain([254, 255, 256]) {
        for _ in 0..100 {
            let names: Vec<u8> = (0..300).flat_map(|_| random.name(length)).collect();
            same(&names, length)?;
        }
    }
    Ok(())
}
