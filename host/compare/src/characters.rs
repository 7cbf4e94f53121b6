//! The character step beside bstr's own `chars`.
use crate::alphabets::EDGES;
use crate::comparison::Outcome;
use crate::inputs::{Alphabet, every_string};
use crate::sides::hex;
use original::Chars;
use real_bstr::ByteSlice;

/// Holds the step against bstr on all strings of up to three bytes and on all of up to five at the edges of the table.
/// A difference is told and ends nothing, for the step is what counts.
pub fn compare() -> Result<(), Box<dyn std::error::Error>> {
    let mut strings = 0_u64;
    let mut different = Vec::new();
    let visit = &mut |input: &[u8]| -> Outcome {
        strings += 1;
        if !Chars::new(input).eq(input.chars()) {
            different.push(hex(input));
        }
        Ok(())
    };
    let edges = Alphabet { start: b"", pieces: EDGES, most: 5 };
    let done = (0..=3).try_for_each(|length| every_string(length, visit)).and_then(|()| edges.each(visit));
    done.map_err(|difference| difference.to_string())?;
    println!("characters: {strings} strings, the step and bstr differ on {}", different.len());
    different.iter().take(20).for_each(|input| println!("  {input}"));
    Ok(())
}
