//! Inputs: every short string over an alphabet, damaged copies of good ones, and random ones around boundaries.
use crate::comparison::Outcome;

/// All strings of at most `most` pieces after a start.
pub struct Alphabet {
    pub start: &'static [u8],
    pub pieces: &'static [&'static [u8]],
    pub most: usize,
}

impl Alphabet {
    pub fn each(&self, visit: &mut impl FnMut(&[u8]) -> Outcome) -> Outcome {
        each(&mut self.start.to_vec(), self.pieces, self.most, visit)
    }
}

/// Visits `text` and all its continuations by at most `most` pieces.
fn each(text: &mut Vec<u8>, pieces: &[&[u8]], most: usize, visit: &mut impl FnMut(&[u8]) -> Outcome) -> Outcome {
    visit(text)?;
    if most == 0 {
        return Ok(());
    }
    let length = text.len();
    for piece in pieces {
        text.extend_from_slice(piece);
        each(text, pieces, most - 1, visit)?;
        text.truncate(length);
    }
    Ok(())
}

/// Visits every string of exactly `length` bytes.
pub fn every_string(length: usize, visit: &mut impl FnMut(&[u8]) -> Outcome) -> Outcome {
    let mut text = vec![0; length];
    loop {
        visit(&text)?;
        let Some(place) = text.iter().rposition(|&byte| byte != 0xFF) else {
            return Ok(());
        };
        text[place] += 1;
        text[place + 1..].fill(0);
    }
}

/// Visits every copy of `good` with one byte altered, put in, dropped, doubled or swapped with the next.
pub fn damaged(good: &[u8], visit: &mut impl FnMut(&[u8]) -> Outcome) -> Outcome {
    for place in 0..=good.len() {
        let (front, back) = good.split_at(place);
        for byte in 0..=0xFF {
            visit(&[front, &[byte], back].concat())?;
            if let [_, rest @ ..] = back {
                visit(&[front, &[byte], rest].concat())?;
            }
        }
        if let [_, rest @ ..] = back {
            visit(&[front, rest].concat())?;
        }
        if let [first, second, rest @ ..] = back {
            visit(&[front, &[*second, *first], rest].concat())?;
        }
    }
    Ok(())
}

/// Visits `good` with its letters in every mixture of large and small ones, up to the first twelve letters.
pub fn recased(good: &[u8], visit: &mut impl FnMut(&[u8]) -> Outcome) -> Outcome {
    let places: Vec<usize> = (0..good.len()).filter(|&place| good[place].is_ascii_alphabetic()).take(12).collect();
    for mixture in 0..1_u32 << places.len() {
        let mut text = good.to_ascii_lowercase();
        for (bit, &place) in places.iter().enumerate() {
            if mixture >> bit & 1 == 1 {
                text[place].make_ascii_uppercase();
            }
        }
        visit(&text)?;
    }
    Ok(())
}

/// Lengths around the boundaries of sizes.
const LENGTHS: &[usize] = &[
    0, 1, 2, 3, 4, 5, 6, 7, 8, 9, 10, 11, 12, 13, 15, 16, 17, 23, 24, 25, 31, 32, 33, 63, 64, 65, 127, 128, 129, 254,
    255, 256, 257,
];
const LONG: &[usize] = &[1023, 1024, 1025, 4095, 4096, 4097];

/// Numbers that look random and are the same in each run (xorshift64*).
pub struct Random(u64);

impl Random {
    pub fn new(seed: u64) -> Self {
        Random(seed.max(1))
    }

    pub fn below(&mut self, limit: usize) -> usize {
        self.0 ^= self.0 >> 12;
        self.0 ^= self.0 << 25;
        self.0 ^= self.0 >> 27;
        ((self.0.wrapping_mul(0x2545_F491_4F6C_DD1D) >> 32) as usize) % limit
    }

    pub fn pick<T: Copy>(&mut self, items: &[T]) -> T {
        items[self.below(items.len())]
    }

    /// A text whose length is near a boundary: any bytes, pieces in a row, or harmless bytes with a few pieces in them.
    pub fn text(&mut self, pieces: &[&[u8]]) -> Vec<u8> {
        let length = if self.below(64) == 0 { self.pick(LONG) } else { self.pick(LENGTHS) };
        let mut text = Vec::with_capacity(length + 16);
        match self.below(4) {
            0 => text.extend((0..length).map(|_| self.below(256) as u8)),
            1 => {
                while text.len() < length {
                    text.extend_from_slice(self.pick(pieces));
                }
                text.truncate(length);
            }
            _ => {
                let filler = self.pick(b"aAe-7_\xC3");
                text.resize(length, filler);
                for _ in 0..=self.below(3) {
                    self.put_in(&mut text, pieces);
                }
            }
        }
        text
    }

    /// Writes a piece at the start, at the end or anywhere.
    fn put_in(&mut self, text: &mut Vec<u8>, pieces: &[&[u8]]) {
        let piece = self.pick(pieces);
        let last = text.len().saturating_sub(piece.len());
        let place = match self.below(3) {
            0 => 0,
            1 => last,
            _ => self.below(last + 1),
        };
        let end = (place + piece.len()).min(text.len());
        text.splice(place..end, piece.iter().copied());
    }

    /// A copy of `good` with some of its letters made large or small.
    pub fn recase(&mut self, good: &[u8]) -> Vec<u8> {
        let mut text = good.to_vec();
        for byte in &mut text {
            if byte.is_ascii_alphabetic() && self.below(2) == 0 {
                *byte ^= 0x20;
            }
        }
        text
    }

    /// A copy of `good` with a few bytes flipped, dropped, doubled or put in.
    pub fn damage(&mut self, good: &[u8], pieces: &[&[u8]]) -> Vec<u8> {
        let mut text = good.to_vec();
        for _ in 0..2 + self.below(2) {
            if text.is_empty() {
                break;
            }
            let place = self.below(text.len());
            match self.below(5) {
                0 => text[place] ^= 1 << self.below(8),
                1 => drop(text.remove(place)),
                2 => text.insert(place, text[place]),
                3 => drop(text.splice(place..place, self.pick(pieces).iter().copied())),
                _ => self.put_in(&mut text, pieces),
            }
        }
        text
    }
}
