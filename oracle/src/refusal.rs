//! The paper's numbers for the original's errors, and the places.
//!
//! The original gives a place with four kinds of error, and those are taken as
//! they are:
//! - 1, `InvalidMarker`: the byte that starts no token;
//! - 10, 11, 12, `UnexpectedToken`: just after the token that is wrong there.
//!
//! It gives none with the others. Those are derived here, by a walk with the
//! original's own lexer from the first byte:
//! - 2 to 9: the first byte of the token whose reading fails;
//! - 13: the first byte of the token that would open the 129th block.
//!
//! A varint that is read alone has its own first byte as the place of 3 and 4;
//! `answer.rs` says so where it asks for one.

use crate::{error::YsonError, lexer::YsonIterator, node::Token, ser::YsonFormat};

/// Blocks that may be open at once.
const MOST_OPEN: usize = 128;

/// A refusal with a place: numbers 1 to 13.
#[derive(Debug, Clone, Copy, PartialEq, Eq)]
pub struct Refusal {
    /// The paper's number.
    pub number: u8,
    /// Where, from the first byte of what was read.
    pub place: usize,
}

/// The paper's number, or `None` where the bytes only ended.
///
/// Every error is told by its variant and its exact text. One that is not
/// known here stops the program: it must not pass for something else.
pub fn number(error: &YsonError) -> Option<u8> {
    let number = match error {
        YsonError::Eof | YsonError::UnexpectedEof(_) => return None,
        YsonError::InvalidMarker(..) => 1,
        YsonError::UnexpectedToken { expected, .. } => match *expected {
            "a YSON value" => 10,
            "a map key" => 11,
            "'='" => 12,
            _ => panic!("a token was expected that has no number: {error:?}"),
        },
        YsonError::Custom(text) => match text.as_str() {
            "String length cannot be negative" => 2,
            "Varint too long (overflow u64)" => 3,
            "Varint overflows u64" => 4,
            "Invalid hex escape" => 5,
            "Invalid special value: expected 'true', 'false', 'nan', 'inf' or '-inf' after '%'" => {
                9
            }
            "Recursion limit exceeded" => 13,
            _ => number_text(text)
                .unwrap_or_else(|| panic!("an error's text has no number: {error:?}")),
        },
        YsonError::MalformedVarint(_) | YsonError::InvalidUtf8(_) => {
            panic!("an error that cannot arise on these paths: {error:?}")
        }
    };
    Some(number)
}

/// 6, 7 and 8: the text ends in the number text that was refused.
fn number_text(text: &str) -> Option<u8> {
    let (kind, rest) = text.split_once(": ")?;
    let number = match kind {
        "Invalid uint64" => 6,
        "Invalid double" => 7,
        "Invalid int64" => 8,
        _ => return None,
    };
    rest.bytes()
        .all(|b| matches!(b, b'0'..=b'9' | b'+' | b'-' | b'.' | b'e' | b'E' | b'u'))
        .then_some(number)
}

/// The refusal that `scan_value` gave on `input`. It must not be called for an
/// error that only says that the bytes ended.
pub fn of_scan(input: &[u8], format: YsonFormat, error: &YsonError) -> Refusal {
    let number = number(error).expect("scan_value says Incomplete where the bytes ended");
    let place = match error {
        // The original's own places.
        YsonError::InvalidMarker(_, pos) | YsonError::UnexpectedToken { pos, .. } => *pos,
        // Derived places.
        YsonError::Custom(_) if number == 13 => first_of_block_129(input, format),
        _ => first_of_failing_token(input, format, error),
    };
    Refusal { number, place }
}

/// The refusal of one token whose first byte is `first`.
pub fn of_token(first: usize, error: &YsonError) -> Option<Refusal> {
    let number = number(error)?;
    let place = match error {
        // The original's own place; it is the token's first byte too.
        YsonError::InvalidMarker(_, pos) => *pos,
        // Derived place.
        _ => first,
    };
    Some(Refusal { number, place })
}

/// Walks over tokens until one cannot be read: it must fail as the scan failed.
fn first_of_failing_token(input: &[u8], format: YsonFormat, error: &YsonError) -> usize {
    let mut lexer = YsonIterator::new(input, format == YsonFormat::Binary);
    loop {
        // `peek_byte` leaves the cursor on the token's first byte.
        lexer
            .peek_byte()
            .expect("the walk ended before the scan's error");
        let first = lexer.pos();
        if let Err(found) = lexer.next_token() {
            assert_eq!(&found, error, "the walk failed otherwise than the scan");
            return first;
        }
    }
}

/// Walks over tokens and counts open blocks until one is one too many.
fn first_of_block_129(input: &[u8], format: YsonFormat) -> usize {
    let mut lexer = YsonIterator::new(input, format == YsonFormat::Binary);
    let mut open = 0;
    loop {
        lexer.peek_byte().expect("the walk ended before block 129");
        let first = lexer.pos();
        match lexer
            .next_token()
            .expect("the walk failed before block 129")
        {
            Token::BeginList | Token::BeginMap | Token::BeginAttributes => {
                if open == MOST_OPEN {
                    return first;
                }
                open += 1;
            }
            Token::EndList | Token::EndMap | Token::EndAttributes => open -= 1,
            _ => {}
        }
    }
}
