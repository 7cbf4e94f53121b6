//! A stand-in for the marker type of `gix_error` that the crate's errors name as their source.

/// Says of what class an error is.
#[derive(Debug)]
pub struct ClassificationMarker;

impl ClassificationMarker {
    /// The class of errors of validation.
    pub const VALIDATION: Self = Self;
}

impl std::fmt::Display for ClassificationMarker {
    fn fmt(&self, f: &mut std::fmt::Formatter<'_>) -> std::fmt::Result {
        f.write_str("validation")
    }
}

impl std::error::Error for ClassificationMarker {}
