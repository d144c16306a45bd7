//! Where does the next YSON value end, and is there a whole one at all?
//!
//! [`scan`] answers that question of a byte slice, in either of YSON's two
//! formats. It is the safe Rust face of `yson_scan`, a function that is proved for
//! every input: it reads no byte outside the slice, it ends, and its answer is the
//! one that the definition of the format gives. Nothing is allocated and no value
//! is built.
//!
//! ```
//! use onionsail::{scan, Format, Refusal, Scan};
//!
//! // Two records; only the first is measured.
//! assert_eq!(scan(Format::Text, b"{a=1};{b=2}"), Ok(Scan::Complete { len: 5 }));
//!
//! // A record that is cut short asks for more bytes instead of failing.
//! assert_eq!(scan(Format::Text, b"{a="), Ok(Scan::Incomplete));
//!
//! // Bytes that no more bytes can mend are refused, with the reason.
//! assert_eq!(scan(Format::Text, b"{a;"), Err(Refusal::NotEquals));
//! ```

#![warn(missing_docs)]

mod refusal;

pub use refusal::Refusal;

/// The two ways YSON is written.
#[derive(Debug, Clone, Copy, PartialEq, Eq, Hash)]
pub enum Format {
    /// Markers, varints and bytes as they are.
    Binary,
    /// Readable text, with blanks and comments.
    Text,
}

/// What a scan finds.
#[derive(Debug, Clone, Copy, PartialEq, Eq, Hash)]
pub enum Scan {
    /// A whole value takes the first `len` bytes.
    Complete {
        /// The value's length in bytes, with the blanks and comments before it. It
        /// is never 0 and never more than there are bytes.
        len: usize,
    },
    /// The bytes end inside the value, or before it. No bytes at all are
    /// `Incomplete` too: whether the stream ends there is for the caller to know.
    Incomplete,
}

extern "C" {
    /// The proved function. A slice is passed as a pointer and then a length.
    fn yson_scan(format: u64, bytes: *const u8, length: usize) -> i64;
}

/// Finds the end of the first value of `bytes`.
///
/// A separator before the value is not passed over: strip `;` and blanks between
/// records before the call. Bytes behind the value are not judged.
///
/// In binary an answer other than [`Scan::Incomplete`] stays the same whatever bytes
/// follow. In text it may rest on where the bytes end: `12` is a value and may be
/// the beginning of `123`, and `%t` is refused and may be the beginning of `%true`.
/// A caller that reads text piece by piece asks once more bytes follow, or the end.
///
/// # Errors
///
/// A [`Refusal`] says why the bytes are no value. Bytes that only end too early are
/// [`Scan::Incomplete`], but for the text tokens named above.
///
/// # Examples
///
/// ```
/// use onionsail::{scan, Format, Scan};
///
/// // A binary string: marker, zigzag length, bytes.
/// assert_eq!(scan(Format::Binary, b"\x01\x02a"), Ok(Scan::Complete { len: 3 }));
/// assert_eq!(scan(Format::Binary, b"\x01\x02"), Ok(Scan::Incomplete));
/// assert_eq!(scan(Format::Binary, b""), Ok(Scan::Incomplete));
///
/// // Blanks and comments before a text value count.
/// assert_eq!(scan(Format::Text, b" /* one */ [1; 2]"), Ok(Scan::Complete { len: 17 }));
/// ```
#[inline]
pub fn scan(format: Format, bytes: &[u8]) -> Result<Scan, Refusal> {
    let format = match format {
        Format::Binary => 0,
        Format::Text => 1,
    };
    // SAFETY: the pointer is not null and has `bytes.len()` bytes behind it that can
    // be read, and that nothing writes to while the slice is borrowed. The function
    // writes nothing and keeps no pointer.
    let number = unsafe { yson_scan(format, bytes.as_ptr(), bytes.len()) };
    match number {
        0 => Ok(Scan::Incomplete),
        1.. => Ok(Scan::Complete {
            len: number as usize,
        }),
        _ => Err(Refusal::of(number.unsigned_abs())),
    }
}
