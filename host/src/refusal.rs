//! The refusals, each with its number and its words.

use std::{error::Error, fmt};

/// Why bytes are no YSON value.
#[derive(Debug, Clone, Copy, PartialEq, Eq, Hash)]
pub enum Refusal {
    /// 1: a byte that starts no token.
    BadByte,
    /// 2: a string's length is below zero.
    NegativeLength,
    /// 3: an eleventh varint byte is present after ten with the top bit set.
    LongVarint,
    /// 4: the tenth varint byte has low seven bits above 1.
    WideVarint,
    /// 5: what stands after `\x` is no hex number of two bytes.
    BadHexEscape,
    /// 6: number text that ends in `u` and is no uint64.
    BadUint64,
    /// 7: number text with a point or an exponent that is no double.
    BadDouble,
    /// 8: other number text that is no int64.
    BadInt64,
    /// 9: none of the words that may stand after `%`.
    UnknownWord,
    /// 10: a token where a value is due that starts none.
    NotValue,
    /// 11: a token where a key is due that is no string.
    NotKey,
    /// 12: a token other than `=` after a key.
    NotEquals,
    /// 13: a block that would be the 129th open.
    TooDeep,
    /// 29: a call with a format number that is neither 0 nor 1, or with over
    /// 2^63 - 1 bytes. [`scan`](crate::scan) never gives it: its types have neither.
    BadCall,
}

use Refusal::*;

impl Refusal {
    /// Every refusal that the call can give.
    pub const ALL: [Refusal; 14] = [
        BadByte,
        NegativeLength,
        LongVarint,
        WideVarint,
        BadHexEscape,
        BadUint64,
        BadDouble,
        BadInt64,
        UnknownWord,
        NotValue,
        NotKey,
        NotEquals,
        TooDeep,
        BadCall,
    ];

    /// The refusal's number.
    ///
    /// ```
    /// assert_eq!(onionsail::Refusal::TooDeep.number(), 13);
    /// ```
    pub fn number(self) -> u8 {
        match self {
            BadByte => 1,
            NegativeLength => 2,
            LongVarint => 3,
            WideVarint => 4,
            BadHexEscape => 5,
            BadUint64 => 6,
            BadDouble => 7,
            BadInt64 => 8,
            UnknownWord => 9,
            NotValue => 10,
            NotKey => 11,
            NotEquals => 12,
            TooDeep => 13,
            BadCall => 29,
        }
    }

    /// The refusal of a number. The call gives no other number than these; an archive
    /// that does is not the one that this crate was written for.
    pub(crate) fn of(number: u64) -> Self {
        Self::ALL
            .into_iter()
            .find(|refusal| u64::from(refusal.number()) == number)
            .unwrap_or_else(|| {
                panic!("onionsail: the archive refused with the unknown number {number}")
            })
    }

    fn words(self) -> &'static str {
        match self {
            BadByte => "a byte that starts no token",
            NegativeLength => "a string length below zero",
            LongVarint => "a varint of more than ten bytes",
            WideVarint => "a varint of more than 64 bits",
            BadHexEscape => "no hex number after \\x",
            BadUint64 => "number text with u that is no uint64",
            BadDouble => "number text with a point or an exponent that is no double",
            BadInt64 => "number text that is no int64",
            UnknownWord => "an unknown word after %",
            NotValue => "a token that starts no value where a value is due",
            NotKey => "a token that is no string where a key is due",
            NotEquals => "no = after a key",
            TooDeep => "more than 128 blocks open at once",
            BadCall => "an unknown format number, or over 2^63 - 1 bytes",
        }
    }
}

/// The reason in words, and the number.
///
/// ```
/// let refusal = onionsail::Refusal::NotEquals;
/// assert_eq!(refusal.to_string(), "no = after a key (refusal 12)");
/// ```
impl fmt::Display for Refusal {
    fn fmt(&self, f: &mut fmt::Formatter<'_>) -> fmt::Result {
        write!(f, "{} (refusal {})", self.words(), self.number())
    }
}

impl Error for Refusal {}

#[cfg(test)]
mod tests {
    use super::*;

    #[test]
    fn a_number_names_one_refusal() {
        for refusal in Refusal::ALL {
            assert_eq!(Refusal::of(refusal.number().into()), refusal);
        }
    }

    #[test]
    fn no_two_have_the_same_words() {
        for (i, refusal) in Refusal::ALL.into_iter().enumerate() {
            for other in &Refusal::ALL[..i] {
                assert_ne!(refusal.words(), other.words());
            }
        }
    }

    #[test]
    #[should_panic(expected = "unknown number 14")]
    fn other_numbers_name_none() {
        Refusal::of(14);
    }
}
