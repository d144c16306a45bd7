//! Cases in, answer lines out, through the original's code.
//!
//! A case is a kind (1 byte), the length of its payload (4 bytes, little endian)
//! and the payload. Each case gets one line.

use std::{
    borrow::Cow,
    io::{self, BufRead, ErrorKind, Read, Write},
};

use crate::{
    error::YsonError,
    framing::{JobError, JobReader},
    lexer::YsonIterator,
    node::Token,
    protocol::{self, Last, Record, Run},
    refusal::{self, Refusal},
    scan::{Scan, scan_value},
    ser::YsonFormat,
    varint::{read_uvarint, read_varint, write_uvarint, write_varint},
};

/// Bytes of kinds 1 to 10, and the room of kinds 9 and 10, are at most so many.
pub const MOST_BYTES: usize = 65_536;
/// The greatest N that a frame is asked with; one above what opens.
pub const MOST_N: u32 = 65_537;
/// The buffer lengths that open.
const LENGTHS: std::ops::RangeInclusive<usize> = 64..=65_536;
/// What lent output holds before the call.
const LENT: u8 = 0xAA;

/// Answers every case of `input`, one line each.
pub fn answer_all(input: &mut impl BufRead, output: &mut impl Write) -> io::Result<()> {
    let mut payload = Vec::new();
    let mut line = Vec::new();
    while !input.fill_buf()?.is_empty() {
        line.clear();
        match read_case(input, &mut payload)? {
            Some(kind) => answer(kind, &payload, &mut line),
            None => line.extend_from_slice(b"cut short"),
        }
        line.push(b'\n');
        output.write_all(&line)?;
    }
    Ok(())
}

/// Reads one case, or `None` where the input ends inside it.
pub fn read_case(input: &mut impl BufRead, payload: &mut Vec<u8>) -> io::Result<Option<u8>> {
    let mut head = [0; 5];
    match input.read_exact(&mut head) {
        Err(e) if e.kind() == ErrorKind::UnexpectedEof => return Ok(None),
        other => other?,
    }
    let length = u32::from_le_bytes(head[1..].try_into().unwrap());
    payload.clear();
    let read = input.take(u64::from(length)).read_to_end(payload)?;
    Ok((read == length as usize).then_some(head[0]))
}

/// Answers one case; the line is appended without its newline.
pub fn answer(kind: u8, payload: &[u8], line: &mut Vec<u8>) {
    let answered = match kind {
        1 => scan(payload, YsonFormat::Binary, line),
        2 => scan(payload, YsonFormat::Text, line),
        3 => read(payload, read_uvarint, line),
        4 => read(payload, read_varint, line),
        5 => write(payload, write_uvarint, line),
        6 => write(payload, |v, out| write_varint(v as i64, out), line),
        7 => token(payload, YsonFormat::Binary, line),
        8 => token(payload, YsonFormat::Text, line),
        9 => string(payload, YsonFormat::Binary, line),
        10 => string(payload, YsonFormat::Text, line),
        11 => frame(payload, line),
        _ => None,
    };
    if answered.is_none() {
        line.extend_from_slice(b"bad case");
    }
}

/// Appends formatted text; writing to a `Vec` cannot fail.
macro_rules! put {
    ($line:expr, $($words:tt)*) => {
        write!($line, $($words)*).expect("a Vec takes every byte")
    };
}

/// Each kind answers `Some`, or `None` for a payload that is not of its form.
type Answered = Option<()>;

/// Takes four bytes off the front of a payload.
fn take_u32<'a>(payload: &mut &'a [u8]) -> Option<u32> {
    let (four, rest): (&'a [u8; 4], _) = payload.split_first_chunk()?;
    *payload = rest;
    Some(u32::from_le_bytes(*four))
}

fn too_long(line: &mut Vec<u8>) -> Answered {
    line.extend_from_slice(b"too long");
    Some(())
}

fn put_refusal(line: &mut Vec<u8>, refusal: Refusal) {
    put!(line, "refused {} {}", refusal.number, refusal.place);
}

/// Bytes in hex, `-` for none.
fn put_hex(line: &mut Vec<u8>, bytes: &[u8]) {
    const DIGITS: &[u8; 16] = b"0123456789abcdef";
    if bytes.is_empty() {
        line.push(b'-');
    }
    for b in bytes {
        line.extend_from_slice(&[DIGITS[usize::from(b >> 4)], DIGITS[usize::from(b & 15)]]);
    }
}

/// Kinds 1 and 2.
fn scan(bytes: &[u8], format: YsonFormat, line: &mut Vec<u8>) -> Answered {
    if bytes.len() > MOST_BYTES {
        return too_long(line);
    }
    match scan_value(bytes, format) {
        Ok(Scan::Complete { len }) => put!(line, "length {len}"),
        Ok(Scan::Incomplete) => line.extend_from_slice(b"more"),
        Err(error) => put_refusal(line, refusal::of_scan(bytes, format, &error)),
    }
    Some(())
}

/// Kinds 3 and 4.
fn read<V: std::fmt::Display>(
    mut payload: &[u8],
    read: impl Fn(&[u8]) -> Result<(V, usize), YsonError>,
    line: &mut Vec<u8>,
) -> Answered {
    let place = take_u32(&mut payload)? as usize;
    let bytes = payload;
    if bytes.len() > MOST_BYTES {
        return too_long(line);
    }
    let Some(rest) = bytes.get(place..) else {
        line.extend_from_slice(b"refused 26");
        return Some(());
    };
    match read(rest) {
        Ok((value, used)) => put!(line, "value {value} {}", place + used),
        // The original gives no place; the paper's is the varint's first byte.
        Err(error) => match refusal::number(&error) {
            None => line.extend_from_slice(b"more"),
            Some(number) => put_refusal(line, Refusal { number, place }),
        },
    }
    Some(())
}

/// Kinds 5 and 6. The original writes into a growing `Vec`; output that is lent,
/// and 27 where it is too short, are the paper's.
fn write(payload: &[u8], write: impl Fn(u64, &mut Vec<u8>), line: &mut Vec<u8>) -> Answered {
    let &[ref value @ .., room] = payload else {
        return None;
    };
    let value = u64::from_le_bytes(value.try_into().ok()?);
    let mut output = vec![LENT; usize::from(room)];
    let mut written = Vec::with_capacity(10);
    write(value, &mut written);
    match output.get_mut(..written.len()) {
        Some(part) => {
            part.copy_from_slice(&written);
            put!(line, "wrote {} ", written.len());
        }
        None => line.extend_from_slice(b"refused 27 "),
    }
    put_hex(line, &output);
    Some(())
}

/// A token that was read at a place, all places counted from the first of the
/// bytes.
struct Found<'a> {
    token: Token<'a>,
    first: usize,
    end: usize,
}

/// Why there is no token.
enum NoToken {
    More,
    Refused(Refusal),
    /// 26: the place lies beyond the bytes.
    Beyond,
}

/// Reads the token at `place` with the original's lexer.
fn token_at(bytes: &[u8], place: usize, format: YsonFormat) -> Result<Found<'_>, NoToken> {
    let rest = bytes.get(place..).ok_or(NoToken::Beyond)?;
    let mut lexer = YsonIterator::new(rest, format == YsonFormat::Binary);
    // `peek_byte` passes blanks and comments and leaves the cursor on the
    // token's first byte, where `next_token` finds nothing more to pass.
    lexer.peek_byte().map_err(|_| NoToken::More)?;
    let first = lexer.pos();
    match lexer.next_token() {
        Ok(token) => Ok(Found {
            token,
            first: place + first,
            end: place + lexer.pos(),
        }),
        Err(error) => Err(match refusal::of_token(first, &error) {
            None => NoToken::More,
            Some(Refusal { number, place: at }) => NoToken::Refused(Refusal {
                number,
                place: place + at,
            }),
        }),
    }
}

/// How many tokens stand in the bytes, up to the first that is not whole.
pub fn count_tokens(bytes: &[u8], format: YsonFormat) -> u64 {
    let mut lexer = YsonIterator::new(bytes, format == YsonFormat::Binary);
    let mut tokens = 0;
    while lexer.next_token().is_ok() {
        tokens += 1;
    }
    tokens
}

fn put_no_token(line: &mut Vec<u8>, why: NoToken) {
    match why {
        NoToken::More => line.extend_from_slice(b"more"),
        NoToken::Refused(refusal) => put_refusal(line, refusal),
        NoToken::Beyond => line.extend_from_slice(b"refused 26"),
    }
}

/// Kinds 7 and 8.
fn token(mut payload: &[u8], format: YsonFormat, line: &mut Vec<u8>) -> Answered {
    let place = take_u32(&mut payload)? as usize;
    let bytes = payload;
    if bytes.len() > MOST_BYTES {
        return too_long(line);
    }
    match token_at(bytes, place, format) {
        Ok(found) => {
            put_token(line, bytes, format, &found);
            put!(line, " at {} end {}", found.first, found.end);
        }
        Err(why) => put_no_token(line, why),
    }
    Some(())
}

fn put_token(line: &mut Vec<u8>, bytes: &[u8], format: YsonFormat, found: &Found<'_>) {
    let &Found { first, end, .. } = found;
    let word: &[u8] = match &found.token {
        Token::BeginAttributes => b"<",
        Token::EndAttributes => b">",
        Token::BeginList => b"[",
        Token::EndList => b"]",
        Token::BeginMap => b"{",
        Token::EndMap => b"}",
        Token::KeyValueSeparator => b"=",
        Token::ItemSeparator => b";",
        Token::Entity => b"#",
        Token::Boolean(true) => b"true",
        Token::Boolean(false) => b"false",
        Token::Int64(value) => return put!(line, "int64 {value}"),
        Token::Uint64(value) => return put!(line, "uint64 {value}"),
        Token::String(Cow::Borrowed(s)) => {
            // A borrowed string is a part of the input: where it begins is the
            // difference of the two addresses.
            let start = s.as_ptr() as usize - bytes.as_ptr() as usize;
            return put!(line, "string {start} {}", s.len());
        }
        // Only a quoted string with a backslash is owned. What stands between
        // the quotes: all but the first and the last byte of the token.
        Token::String(Cow::Owned(_)) => {
            return put!(line, "escaped {} {}", first + 1, end - first - 2);
        }
        Token::Double(value) => match format {
            YsonFormat::Binary => {
                // The bits are those of the eight bytes. For a NaN they are the
                // input's and not the Rust's: Rust NaNs are compared as NaN only.
                let bits = u64::from_le_bytes(bytes[first + 1..end].try_into().unwrap());
                assert!(value.is_nan() == f64::from_bits(bits).is_nan());
                assert!(value.is_nan() || value.to_bits() == bits);
                return put!(line, "double {bits:016x}");
            }
            YsonFormat::Text if bytes[first] == b'%' => {
                // The paper's bits for %nan, whatever the Rust's NaN has.
                let bits = match value.is_nan() {
                    true => 0x7FF8_0000_0000_0000,
                    false => value.to_bits(),
                };
                return put!(line, "double {bits:016x}");
            }
            YsonFormat::Text => return put!(line, "decimal {first} {}", end - first),
        },
    };
    line.extend_from_slice(word);
}

/// Kinds 9 and 10. The order of answers: 26, the token's own, 14, 27.
fn string(mut payload: &[u8], format: YsonFormat, line: &mut Vec<u8>) -> Answered {
    let place = take_u32(&mut payload)? as usize;
    let room = take_u32(&mut payload)? as usize;
    let bytes = payload;
    if bytes.len() > MOST_BYTES || room > MOST_BYTES {
        return too_long(line);
    }
    let mut output = vec![LENT; room];
    match token_at(bytes, place, format) {
        Err(why) => put_no_token(line, why),
        Ok(Found { token, end, .. }) => match token {
            Token::String(s) => match output.get_mut(..s.len()) {
                Some(part) => {
                    part.copy_from_slice(&s);
                    put!(line, "string {} end {end}", s.len());
                }
                None => line.extend_from_slice(b"refused 27"),
            },
            _ => line.extend_from_slice(b"refused 14"),
        },
    }
    line.push(b' ');
    put_hex(line, &output);
    Some(())
}

/// Kind 11.
///
/// N is judged before the pieces are looked at. Pieces whose lengths do not come
/// out even make the whole a bad case.
fn frame(mut payload: &[u8], line: &mut Vec<u8>) -> Answered {
    let n = take_u32(&mut payload)?;
    let (start, mut rest) = payload.split_first_chunk::<8>()?;
    let start = u64::from_le_bytes(*start);
    if n > MOST_N {
        return too_long(line);
    }
    let mut pieces = Vec::new();
    while !rest.is_empty() {
        let (length, after) = rest.split_first_chunk::<2>()?;
        let (piece, after) = after.split_at_checked(u16::from_le_bytes(*length).into())?;
        pieces.push(piece);
        rest = after;
    }
    let n = n as usize;
    if !LENGTHS.contains(&n) {
        line.extend_from_slice(b"refused 23 readings 0 nexts 0");
        return Some(());
    }
    let run = whole_and_counted(&pieces, n, start);
    for record in &run.records {
        let mark = if record.control { "control" } else { "row" };
        put!(line, "{} {} {mark}; ", record.offset, record.length);
    }
    match run.last {
        Last::End { offset } => put!(line, "end {offset}"),
        Last::Malformed { offset, inner } => {
            put!(line, "refused 20 {offset} {} {}", inner.number, inner.place)
        }
        Last::Truncated { offset, buffered } => put!(line, "refused 21 {offset} {buffered}"),
        Last::TooLarge { offset, n } => put!(line, "refused 22 {offset} {n}"),
        Last::PastTheEnd => line.extend_from_slice(b"refused 25"),
    }
    put!(line, " readings {} nexts {}", run.readings, run.nexts);
    Some(())
}

/// The records and the last answer of the original's framing over the whole
/// stream, with the counts of the protocol over its pieces. The two are worked
/// out apart and must agree on all that both give.
fn whole_and_counted(pieces: &[&[u8]], n: usize, start: u64) -> Run {
    let whole = pieces.concat();

    // A piece that would pass the last offset is not taken, and the run ends
    // there: the framing reads the pieces before it and then finds no more.
    let mut withheld = false;
    let mut bytes = 0;
    for piece in pieces {
        if piece.len() as u128 + bytes as u128 + u128::from(start) > u128::from(u64::MAX) {
            withheld = true;
            break;
        }
        bytes += piece.len();
    }
    let (records, last) = framing(&whole[..bytes], withheld, n, start);

    let run = protocol::run(&whole, pieces, n, start);
    assert!(
        run.records == records && run.last == last,
        "the framing and the protocol differ: N {n}, start {start}, pieces {pieces:02x?}\n\
         framing: {records:?} {last:?}\nprotocol: {run:?}"
    );
    run
}

/// Runs the original's framing over a whole stream.
fn framing(stream: &[u8], withheld: bool, n: usize, start: u64) -> (Vec<Record>, Last) {
    let input = Stream {
        bytes: stream,
        withheld,
    };
    let mut reader = JobReader::new(input, n, start);
    let mut records = Vec::new();
    loop {
        match reader.next_record() {
            Ok(Some(record)) => records.push(Record {
                offset: record.offset,
                length: record.bytes.len(),
                control: record.bytes[0] == b'<',
            }),
            Ok(None) => {
                let offset = start + stream.len() as u64;
                return (records, Last::End { offset });
            }
            Err(error) => {
                let last = match error {
                    JobError::Yson { offset, source } => Last::Malformed {
                        offset,
                        inner: reader.refusal(&source),
                    },
                    JobError::TruncatedRecord { offset, buffered } => {
                        Last::Truncated { offset, buffered }
                    }
                    JobError::RecordTooLarge { offset, limit } => {
                        Last::TooLarge { offset, n: limit }
                    }
                    JobError::Read(_) if withheld => Last::PastTheEnd,
                    JobError::Read(error) => panic!("a slice cannot fail to be read: {error}"),
                };
                return (records, last);
            }
        }
    }
}

/// A stream to read: after its bytes it ends, or fails where a piece is withheld.
struct Stream<'a> {
    bytes: &'a [u8],
    withheld: bool,
}

impl Read for Stream<'_> {
    fn read(&mut self, buf: &mut [u8]) -> io::Result<usize> {
        if self.bytes.is_empty() && self.withheld {
            return Err(io::Error::other(
                "the next piece would pass offset 2^64 - 1",
            ));
        }
        self.bytes.read(buf)
    }
}
