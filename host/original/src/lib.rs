//! The three files of gix-validate that are ported, built unchanged from the folder in `GIX_VALIDATE_SRC`.
//!
//! What they import is given here: `bstr` is the real crate but for `chars`, and `gix_error` is its one marker.
#![warn(missing_docs)]

extern crate self as bstr;
extern crate self as gix_error;

mod bytes;
mod characters;
mod marker;

pub use bytes::ByteSlice;
pub use characters::Chars;
pub use marker::ClassificationMarker;
pub use real_bstr::{BStr, BString};

include!(concat!(env!("OUT_DIR"), "/modules.rs"));
