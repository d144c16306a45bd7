//! The record framing of `JobReader` (reader.rs of ytsaurus-job), classification
//! cut away.
//!
//! The three functions between the marks below are lines 425 to 509 of that file,
//! and not one line of them differs. What differs stands around them:
//! - the struct has the fields that they use and no others;
//! - `JobError` has the four variants that they make, without `thiserror`;
//! - [`JobReader::new`] takes the place of `with_buffer_size` and
//!   `with_max_record_bytes`: buffer and limit are the same N bytes, and
//!   `base_offset` begins at a start offset instead of at 0;
//! - [`JobReader::next_record`] takes the place of `ensure_pending` and
//!   `next_event`: every record is handed out, whatever is in it.

use std::io::{ErrorKind, Read};

use crate::{
    error::YsonError,
    refusal::{self, Refusal},
    scan::{Scan, scan_value},
    ser::YsonFormat,
};

/// Shorthand for a job result.
pub type Result<T, E = JobError> = std::result::Result<T, E>;

/// Why the framing stopped.
#[derive(Debug)]
pub enum JobError {
    /// Reading the input stream failed.
    Read(std::io::Error),
    /// The input was not valid YSON.
    Yson {
        /// Offset of the failing record from the start of the stream.
        offset: u64,
        /// The underlying parse error.
        source: YsonError,
    },
    /// The stream ended part-way through a record.
    TruncatedRecord {
        /// Offset of the incomplete record from the start of the stream.
        offset: u64,
        /// How many bytes of it had arrived.
        buffered: usize,
    },
    /// A single record was larger than the reader is willing to buffer.
    RecordTooLarge {
        /// Offset of the oversized record from the start of the stream.
        offset: u64,
        /// The configured limit, in bytes.
        limit: usize,
    },
}

/// A record: its offset in the stream and its bytes.
#[derive(Debug, PartialEq, Eq)]
pub struct Record<'a> {
    /// Offset of the first byte in the stream.
    pub offset: u64,
    /// The bytes, as they lie in the reader's buffer.
    pub bytes: &'a [u8],
}

/// The reader, as far as framing needs it.
pub struct JobReader<R> {
    input: R,
    format: YsonFormat,

    buf: Vec<u8>,
    /// Start of the unconsumed region of `buf`.
    pos: usize,
    /// End of valid data in `buf`.
    filled: usize,
    /// Stream offset corresponding to `buf[0]`.
    base_offset: u64,
    /// The input reader has signalled end of file.
    input_done: bool,

    max_record_bytes: usize,
}

impl<R: Read> JobReader<R> {
    /// A binary reader whose buffer and whose limit are both `n` bytes. The
    /// first byte of `input` has offset `start`.
    pub fn new(input: R, n: usize, start: u64) -> Self {
        Self {
            input,
            format: YsonFormat::Binary,
            buf: vec![0; n],
            pos: 0,
            filled: 0,
            base_offset: start,
            input_done: false,
            max_record_bytes: n,
        }
    }

    /// The next record, or `None` at the end of the stream.
    pub fn next_record(&mut self) -> Result<Option<Record<'_>>> {
        let Some(len) = self.next_record_len()? else {
            return Ok(None);
        };
        let start = self.pos;
        let offset = self.base_offset + start as u64;
        self.pos += len;
        Ok(Some(Record {
            offset,
            bytes: &self.buf[start..start + len],
        }))
    }

    /// The number and place of `source`, counted from the record's first byte.
    /// To be asked right after `next_record` gave [`JobError::Yson`].
    pub fn refusal(&self, source: &YsonError) -> Refusal {
        refusal::of_scan(&self.buf[self.pos..self.filled], self.format, source)
    }

    // upstream begin: reader.rs, lines 425 to 509
    /// Length of the next complete record, refilling the buffer as needed.
    ///
    /// Leaves `self.pos` at the first byte of that record.
    fn next_record_len(&mut self) -> Result<Option<usize>> {
        loop {
            self.skip_separators();

            if self.pos < self.filled {
                match scan_value(&self.buf[self.pos..self.filled], self.format) {
                    Ok(Scan::Complete { len }) => return Ok(Some(len)),
                    Ok(Scan::Incomplete) => {}
                    Err(source) => {
                        return Err(JobError::Yson {
                            offset: self.base_offset + self.pos as u64,
                            source,
                        });
                    }
                }
            }

            if self.input_done {
                return if self.pos == self.filled {
                    Ok(None)
                } else {
                    Err(JobError::TruncatedRecord {
                        offset: self.base_offset + self.pos as u64,
                        buffered: self.filled - self.pos,
                    })
                };
            }

            self.fill()?;
        }
    }

    /// Skips record separators and whitespace between records.
    fn skip_separators(&mut self) {
        while self.pos < self.filled {
            match self.buf[self.pos] {
                b';' => self.pos += 1,
                b if b.is_ascii_whitespace() => self.pos += 1,
                _ => break,
            }
        }
    }

    /// Compacts the buffer, grows it if a single record needs more room, and
    /// reads once from the input.
    fn fill(&mut self) -> Result<()> {
        if self.pos > 0 {
            self.buf.copy_within(self.pos..self.filled, 0);
            self.filled -= self.pos;
            self.base_offset += self.pos as u64;
            self.pos = 0;
        }

        if self.filled == self.buf.len() {
            // The record in flight does not fit. Double the buffer, but refuse
            // to chase an absurd length prefix into an OOM abort.
            let new_len = self.buf.len().saturating_mul(2);
            if self.buf.len() >= self.max_record_bytes {
                return Err(JobError::RecordTooLarge {
                    offset: self.base_offset,
                    limit: self.max_record_bytes,
                });
            }
            self.buf.resize(new_len.min(self.max_record_bytes), 0);
        }

        loop {
            match self.input.read(&mut self.buf[self.filled..]) {
                Ok(0) => {
                    self.input_done = true;
                    return Ok(());
                }
                Ok(n) => {
                    self.filled += n;
                    return Ok(());
                }
                // A signal interrupted the read; nothing was consumed, so retry.
                Err(e) if e.kind() == ErrorKind::Interrupted => {}
                Err(e) => return Err(JobError::Read(e)),
            }
        }
    }
    // upstream end
}
