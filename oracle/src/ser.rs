//! Stands in for `ser.rs` of ytsaurus-yson: the format's name alone.

/// Which of the two encodings a byte string is in.
#[derive(Debug, Clone, Copy, PartialEq, Eq)]
pub enum YsonFormat {
    /// Markers and varints.
    Binary,
    /// Readable text.
    Text,
}
