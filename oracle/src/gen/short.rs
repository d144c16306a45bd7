//! Everything short: all byte strings up to two bytes, and longer ones over
//! small alphabets of bytes or of whole words. Each is found by its number, so
//! that a run can pick from them evenly or go through them all.

/// All sequences of `length` words, between a fixed beginning and a fixed end.
pub struct Every {
    before: Vec<u8>,
    words: Vec<Vec<u8>>,
    length: u32,
    after: Vec<u8>,
}

impl Every {
    fn new(words: &[&[u8]], length: u32) -> Self {
        Self::within(b"", words, length, b"")
    }

    fn within(before: &[u8], words: &[&[u8]], length: u32, after: &[u8]) -> Self {
        Self {
            before: before.into(),
            words: words.iter().map(|w| w.to_vec()).collect(),
            length,
            after: after.into(),
        }
    }

    fn bytes(bytes: &[u8], length: u32) -> Self {
        Self::within_bytes(b"", bytes, length, b"")
    }

    fn within_bytes(before: &[u8], bytes: &[u8], length: u32, after: &[u8]) -> Self {
        let words: Vec<&[u8]> = bytes.chunks(1).collect();
        Self::within(before, &words, length, after)
    }

    fn count(&self) -> u64 {
        (self.words.len() as u64).pow(self.length)
    }

    fn nth(&self, mut number: u64) -> Vec<u8> {
        let mut out = self.before.clone();
        for _ in 0..self.length {
            let words = self.words.len() as u64;
            out.extend_from_slice(&self.words[(number % words) as usize]);
            number /= words;
        }
        out.extend_from_slice(&self.after);
        out
    }
}

/// Several families, numbered through.
pub struct Short(Vec<Every>);

impl Short {
    pub fn count(&self) -> u64 {
        self.0.iter().map(Every::count).sum()
    }

    pub fn nth(&self, mut number: u64) -> Vec<u8> {
        for every in &self.0 {
            if number < every.count() {
                return every.nth(number);
            }
            number -= every.count();
        }
        panic!("there is no short case of that number");
    }
}

fn all_bytes() -> Vec<u8> {
    (0..=255).collect()
}

/// Bytes that mean something to the binary reader, and neighbours of them.
pub const BINARY_BYTES: &[u8] =
    b"\x00\x01\x02\x03\x04\x05\x06\x07#<>[]{}=;\x20\x0A\x7F\x80\x81\xFFa";

/// Bytes that mean something to the text reader, and neighbours of them.
pub const TEXT_BYTES: &[u8] = b"\"\\x+-.eEu0179%/*\n\r \x0Ba_n[]{}<>=;#\x80";

/// Whole tokens, binary.
pub const BINARY_WORDS: &[&[u8]] = &[
    b"\x01\x02a",
    b"=",
    b"#",
    b";",
    b"<",
    b">",
    b"[",
    b"]",
    b"{",
    b"}",
    b"\x02\x03",
    b"\x01\x00",
];

/// Whole tokens, text.
pub const TEXT_WORDS: &[&[u8]] = &[
    b"a", b"=", b"#", b";", b"<", b">", b"[", b"]", b"{", b"}", b"1", b"\"\"",
];

/// The short byte strings for the binary kinds.
pub fn binary() -> Short {
    let all = all_bytes();
    Short(vec![
        Every::bytes(&all, 0),
        Every::bytes(&all, 1),
        Every::bytes(&all, 2),
        Every::bytes(BINARY_BYTES, 3),
        Every::bytes(b"\x00\x01\x02\x04=;#<>[]{}", 4),
        Every::new(BINARY_WORDS, 3),
        Every::new(BINARY_WORDS, 4),
        Every::new(&BINARY_WORDS[..10], 5),
        Every::new(&[b"<", b">", b"{", b"}", b"\x01\x00=", b"#"], 6),
        Every::new(&[b"[", b"]", b"<", b">", b";", b"\x05"], 6),
    ])
}

/// The short byte strings for the text kinds.
pub fn text() -> Short {
    let all = all_bytes();
    let numbers = b"+-.eEu019";
    let escapes = b"\\x4fg+70\"";
    let comments = b"/*\n 1\r";
    let mut families = vec![
        Every::bytes(&all, 0),
        Every::bytes(&all, 1),
        Every::bytes(&all, 2),
        Every::bytes(TEXT_BYTES, 3),
        Every::new(TEXT_WORDS, 3),
        Every::new(TEXT_WORDS, 4),
        Every::new(&TEXT_WORDS[..10], 5),
        Every::new(&[b"<", b">", b"{", b"}", b"a=", b"#"], 6),
        // escapes: each single one, each pair after \x, octal digits
        Every::within_bytes(b"\"\\", &all, 1, b"\""),
        Every::within_bytes(b"\"\\x", &all, 2, b"\""),
        Every::within_bytes(b"\"\\", b"01234567", 4, b"\""),
        Every::within_bytes(b"\"\\", b"0378", 5, b"\""),
    ];
    for length in 1..=5 {
        families.push(Every::bytes(numbers, length));
    }
    for length in 1..=4 {
        families.push(Every::within_bytes(b"\"", escapes, length, b""));
        families.push(Every::within_bytes(b"\"", escapes, length, b"\""));
    }
    for length in 3..=6 {
        families.push(Every::bytes(comments, length));
        families.push(Every::within_bytes(b"/*", b"/*a", length, b""));
    }
    Short(families)
}

/// The short byte strings for the varint kinds.
pub fn varint() -> Short {
    let all = all_bytes();
    Short(vec![
        Every::bytes(&all, 0),
        Every::bytes(&all, 1),
        Every::bytes(&all, 2),
        Every::bytes(
            b"\x00\x01\x02\x3F\x40\x7E\x7F\x80\x81\x82\xBF\xC0\xFE\xFF",
            3,
        ),
        // every ninth, tenth and eleventh byte of those that decide
        Every::within_bytes(&[0x80; 9], &all, 1, b""),
        Every::within_bytes(&[0xFF; 9], &all, 1, b""),
        Every::within_bytes(&[0x80; 9], &all, 2, b""),
        Every::within_bytes(&[0xFF; 8], b"\x00\x01\x02\x7F\x80\x81\x82\xFE\xFF", 4, b""),
    ])
}

/// The short streams for frames.
pub fn frame() -> Short {
    let all = all_bytes();
    Short(vec![
        Every::bytes(&all, 0),
        Every::bytes(&all, 1),
        Every::bytes(BINARY_BYTES, 2),
        Every::bytes(BINARY_BYTES, 3),
        Every::new(&BINARY_WORDS[..10], 4),
    ])
}
