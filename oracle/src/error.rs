//! Stands in for `error.rs` of ytsaurus-yson: the same enum without `thiserror`
//! and `serde`, whose derived texts nothing here reads.

/// The original's error, variant for variant.
#[derive(Clone, Debug, PartialEq)]
pub enum YsonError {
    /// Reached the end of the input stream gracefully.
    Eof,
    /// Reached the end of the input unexpectedly.
    UnexpectedEof(usize),
    /// A byte that is not a valid marker, and its position.
    InvalidMarker(u8, usize),
    /// Never constructed on the paths that are asked here.
    MalformedVarint(usize),
    /// Never constructed on the paths that are asked here.
    InvalidUtf8(usize),
    /// A token that does not fit the structure.
    UnexpectedToken {
        /// What was due.
        expected: &'static str,
        /// The token that was found.
        found: String,
        /// The place just after that token.
        pos: usize,
    },
    /// Everything else, told apart by its text.
    Custom(String),
}
