//! Values made at random, in both formats, and ways to damage them.

use super::{
    rng::Rng,
    short::{BINARY_BYTES, BINARY_WORDS, TEXT_BYTES, TEXT_WORDS},
};
use crate::{
    ser::YsonFormat,
    varint::{write_uvarint, write_varint},
};

/// A place where values are written.
pub struct Writer<'r> {
    pub rng: &'r mut Rng,
    pub out: Vec<u8>,
    format: YsonFormat,
    /// Values that may still be written; nothing is opened when none is left.
    budget: usize,
}

/// A value with at most `budget` values inside.
pub fn value(rng: &mut Rng, format: YsonFormat, budget: usize) -> Vec<u8> {
    let mut writer = Writer {
        rng,
        out: Vec::new(),
        format,
        budget,
    };
    writer.blanks();
    writer.value(0);
    writer.out
}

/// A string token whose bytes are random.
pub fn string(rng: &mut Rng, format: YsonFormat, length: usize) -> Vec<u8> {
    let mut writer = Writer {
        rng,
        out: Vec::new(),
        format,
        budget: 0,
    };
    writer.string(length);
    writer.out
}

/// Any one token.
pub fn token(rng: &mut Rng, format: YsonFormat) -> Vec<u8> {
    if rng.once_in(3) {
        return match format {
            YsonFormat::Binary => rng.pick(BINARY_WORDS),
            YsonFormat::Text => rng.pick(TEXT_WORDS),
        }
        .into();
    }
    let mut writer = Writer {
        rng,
        out: Vec::new(),
        format,
        budget: 0,
    };
    writer.scalar();
    writer.out
}

/// A varint, sometimes in a longer form than it needs.
pub fn varint(rng: &mut Rng, value: u64, out: &mut Vec<u8>) {
    let begin = out.len();
    write_uvarint(value, out);
    let length = out.len() - begin;
    if length < 10 && rng.once_in(6) {
        *out.last_mut().unwrap() |= 0x80;
        for _ in 0..rng.below(10 - length) {
            out.push(0x80);
        }
        out.push(0);
    }
}

/// A number text, mostly a good one.
pub fn number_text(rng: &mut Rng) -> Vec<u8> {
    let mut out = Vec::new();
    match rng.below(10) {
        0..=2 => out.extend((rng.number() as i64).to_string().bytes()),
        3..=4 => out.extend(format!("{}u", rng.number()).bytes()),
        5 => out.extend(format!("{:e}", f64::from_bits(rng.next())).bytes()),
        6 => out.extend(format!("{}.{}", rng.number() as i32, rng.below(1000)).bytes()),
        7 => {
            // around the limits, by leading zeros and by one digit more or less
            let limit: &[u8] = rng.pick(&[
                b"9223372036854775807".as_slice(),
                b"9223372036854775808",
                b"18446744073709551615",
                b"18446744073709551616",
            ]);
            out.extend(rng.pick(&[b"".as_slice(), b"-", b"+", b"--", b"+-"]));
            out.extend(vec![b'0'; [0, 0, 1, 5, 30][rng.below(5)]]);
            out.extend(limit);
            let at = out.len() - 1 - rng.below(limit.len());
            if rng.once_in(2) {
                out[at] = b'0' + rng.below(10) as u8;
            }
            if rng.once_in(6) {
                out.remove(at);
            }
            out.extend(rng.pick(&[b"".as_slice(), b"u", b".", b"e", b"uu"]));
        }
        8 => {
            // sign, digits, point, digits, exponent: each part may be missing
            out.extend(rng.pick(&[b"".as_slice(), b"-", b"+"]));
            digits(rng, &mut out);
            if rng.once_in(2) {
                out.push(b'.');
                digits(rng, &mut out);
            }
            if rng.once_in(2) {
                out.push(rng.pick_byte(b"eE"));
                out.extend(rng.pick(&[b"".as_slice(), b"-", b"+"]));
                digits(rng, &mut out);
            }
            out.extend(rng.pick(&[b"".as_slice(), b"", b"", b"u", b".", b"-"]));
        }
        _ => {
            for _ in 0..rng.between(1, 12) {
                out.push(rng.pick_byte(b"0123456789+-.eEu"));
            }
        }
    }
    // What begins a number is a digit or a sign; what else came out is kept
    // apart by a digit.
    if !out
        .first()
        .is_some_and(|b| b.is_ascii_digit() || b"+-".contains(b))
    {
        out.insert(0, b'0' + rng.below(10) as u8);
    }
    out
}

fn digits(rng: &mut Rng, out: &mut Vec<u8>) {
    for _ in 0..[0, 1, 1, 2, 3, 8, 25][rng.below(7)] {
        out.push(b'0' + rng.below(10) as u8);
    }
}

/// A quoted string in which escapes of every form stand; a few are bad.
pub fn quoted(rng: &mut Rng, parts: usize) -> Vec<u8> {
    let mut out = vec![b'"'];
    let bad = rng.once_in(12);
    for _ in 0..parts {
        match rng.below(12) {
            0..=4 => {
                let byte = rng.pick_byte(b"abc 0179xfnu/*;={}[]<>#%\n\x00\x80\xFF");
                out.push(byte);
            }
            5 => out.extend([b'\\', rng.pick_byte(b"nrt\\\"")]),
            6 => {
                const HEX: &[u8] = b"0123456789abcdefABCDEF";
                let first = if rng.once_in(4) {
                    b'+'
                } else {
                    rng.pick_byte(HEX)
                };
                out.extend([b'\\', b'x', first, rng.pick_byte(HEX)]);
            }
            7..=8 => {
                out.push(b'\\');
                for _ in 0..rng.between(1, 4) {
                    out.push(rng.pick_byte(b"01234567"));
                }
            }
            9 => out.extend([b'\\', rng.byte()]),
            10 if bad => {
                out.extend(b"\\x");
                for _ in 0..rng.below(3) {
                    out.push(rng.pick_byte(b"0f+-gz\" \x80"));
                }
            }
            _ => {
                let byte = rng.byte();
                if byte != b'"' && byte != b'\\' {
                    out.push(byte);
                }
            }
        }
    }
    out.push(b'"');
    out
}

impl Writer<'_> {
    fn is_text(&self) -> bool {
        self.format == YsonFormat::Text
    }

    /// Blanks and comments, mostly none.
    fn blanks(&mut self) {
        if !self.is_text() || !self.rng.once_in(6) {
            return;
        }
        for _ in 0..self.rng.between(1, 2) {
            let blank = self.rng.pick(&[
                b" ".as_slice(),
                b"\n",
                b"\t",
                b"\r",
                b"\x0C",
                b"  ",
                b"/**/",
                b"/* [ */",
                b"/***/",
                b"// ]\n",
                b"//\n",
            ]);
            self.out.extend_from_slice(blank);
        }
    }

    fn value(&mut self, depth: usize) {
        self.budget = self.budget.saturating_sub(1);
        if self.rng.once_in(7) {
            self.block(b'<', b'>', depth);
            self.blanks();
        }
        let choice = self.rng.below(10);
        if self.budget == 0 || depth > 20 || choice < 5 {
            self.scalar();
        } else if choice < 7 {
            self.block(b'[', b']', depth);
        } else {
            self.block(b'{', b'}', depth);
        }
    }

    fn block(&mut self, open: u8, close: u8, depth: usize) {
        self.out.push(open);
        self.blanks();
        let items = self.rng.below(self.budget.min(5) + 1);
        for i in 0..items {
            if i == 0 && self.rng.once_in(20) {
                self.out.push(b';');
            }
            if open != b'[' {
                let length = self.rng.below(4);
                self.string(length);
                self.blanks();
                self.out.push(b'=');
                self.blanks();
            }
            self.value(depth + 1);
            self.blanks();
            if i + 1 < items || self.rng.once_in(3) {
                // one separator; seldom none or several
                let count = [1, 1, 1, 1, 1, 1, 1, 1, 0, 2][self.rng.below(10)];
                for _ in 0..count {
                    self.out.push(b';');
                    self.blanks();
                }
                if count == 0 && self.is_text() && !self.rng.once_in(4) {
                    self.out.push(b' ');
                }
            }
        }
        self.out.push(close);
    }

    fn scalar(&mut self) {
        if self.is_text() {
            return self.scalar_text();
        }
        match self.rng.below(8) {
            0..=2 => {
                let length = self.rng.below(9);
                self.string(length);
            }
            3 => {
                self.out.push(2);
                let number = self.rng.number();
                varint(self.rng, number, &mut self.out);
            }
            4 => {
                self.out.push(6);
                let number = self.rng.number();
                varint(self.rng, number, &mut self.out);
            }
            5 => {
                let bits = match self.rng.below(4) {
                    0 => self.rng.next() | 0x7FF0_0000_0000_0000,
                    1 => 0x7FF0_0000_0000_0000 | (self.rng.next() << 63),
                    _ => self.rng.next(),
                };
                self.out.push(3);
                self.out.extend(bits.to_le_bytes());
            }
            6 => self.out.push(4 + self.rng.below(2) as u8),
            _ => self.out.push(b'#'),
        }
    }

    fn scalar_text(&mut self) {
        match self.rng.below(9) {
            0..=2 => {
                let length = self.rng.below(9);
                self.string(length);
            }
            3..=5 => {
                // good numbers inside values, most of the time
                let number = match self.rng.below(6) {
                    0 => number_text(self.rng),
                    1..=3 => (self.rng.number() as i64).to_string().into(),
                    4 => format!("{}u", self.rng.number()).into(),
                    _ => format!("{:?}", self.rng.next() as i32 as f64 / 64.0).into(),
                };
                self.out.extend(number);
            }
            6..=7 => {
                let word = self.rng.pick(&["%true", "%false", "%nan", "%inf", "%-inf"]);
                self.out.extend(word.bytes());
            }
            _ => self.out.push(b'#'),
        }
    }

    fn string(&mut self, length: usize) {
        if self.is_text() {
            if self.rng.once_in(2) {
                let parts = quoted(self.rng, length);
                return self.out.extend(parts);
            }
            let first = self.rng.pick_byte(b"abcxyzABCZ_");
            self.out.push(first);
            for _ in 1..length {
                let byte = self.rng.pick_byte(b"abcxyzABCZ_-.0189");
                self.out.push(byte);
            }
            return;
        }
        self.out.push(1);
        let mut zigzag = Vec::new();
        write_varint(length as i64, &mut zigzag);
        if self.rng.once_in(20) {
            varint(self.rng, 2 * length as u64, &mut self.out);
        } else {
            self.out.extend(zigzag);
        }
        for _ in 0..length {
            let byte = self.rng.byte();
            self.out.push(byte);
        }
    }
}

/// A byte that means something in the format, or any byte.
pub fn a_byte(rng: &mut Rng, format: YsonFormat) -> u8 {
    match (rng.below(4), format) {
        (0, _) => rng.byte(),
        (_, YsonFormat::Binary) => rng.pick_byte(BINARY_BYTES),
        (_, YsonFormat::Text) => rng.pick_byte(TEXT_BYTES),
    }
}

/// Changes a few bytes: a bit turned, a byte replaced, put in or taken out, a
/// part doubled.
pub fn damage(rng: &mut Rng, format: YsonFormat, bytes: &mut Vec<u8>) {
    for _ in 0..rng.between(1, 3) {
        if bytes.is_empty() {
            bytes.push(a_byte(rng, format));
            continue;
        }
        let at = rng.below(bytes.len());
        match rng.below(5) {
            0 => bytes[at] ^= 1 << rng.below(8),
            1 => bytes[at] = a_byte(rng, format),
            2 => bytes.insert(at, a_byte(rng, format)),
            3 => {
                bytes.remove(at);
            }
            _ => {
                let end = bytes.len().min(at + 1 + rng.below(6));
                let part = bytes[at..end].to_vec();
                bytes.splice(at..at, part);
            }
        }
    }
}
