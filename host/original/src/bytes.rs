//! The methods of bstr that the crate calls: bstr's own, but for `chars`.
use crate::{BStr, Chars};
use real_bstr::ByteSlice as Real;

/// Methods on byte strings, under the name by which the crate imports them.
pub trait ByteSlice: Real {
    /// The bytes as bstr's type.
    fn as_bstr(&self) -> &BStr {
        Real::as_bstr(self)
    }

    /// The bytes, one by one.
    fn bytes(&self) -> real_bstr::Bytes<'_> {
        Real::bytes(self)
    }

    /// The characters, by Table 3-7 of the Unicode Standard.
    fn chars(&self) -> Chars<'_>;

    /// Whether the bytes end in `suffix`.
    fn ends_with_str(&self, suffix: &str) -> bool {
        Real::ends_with_str(self, suffix)
    }

    /// The first place of `byte`.
    fn find_byte(&self, byte: u8) -> Option<usize> {
        Real::find_byte(self, byte)
    }

    /// The first place of one of the bytes in `set`.
    fn find_byteset(&self, set: &[u8]) -> Option<usize> {
        Real::find_byteset(self, set)
    }
}

impl ByteSlice for [u8] {
    fn chars(&self) -> Chars<'_> {
        Chars::new(self)
    }
}
