//! The records that are measured: each corpus is one kind, over and over, with
//! contents that depend on nothing but its place.

use onionsail::Format;
use oracle::varint::{write_uvarint, write_varint};

/// A corpus is filled up to this length, which is some four buffers of a job.
const FILLED: usize = 256 << 10;

/// Records of one kind, each with a separator behind it.
pub struct Corpus {
    pub name: &'static str,
    pub format: Format,
    pub bytes: Vec<u8>,
}

/// Every corpus, in the order of the table.
pub fn all() -> Vec<Corpus> {
    use Format::{Binary, Text};
    vec![
        corpus("flat binary, 1 KB", Binary, flat),
        corpus("tiny records", Binary, tiny),
        corpus("long strings", Binary, long_strings),
        corpus("integers", Binary, integers),
        corpus("deep lists", Binary, deep_lists),
        corpus("deep mixed", Binary, deep_mixed),
        corpus("flat text", Text, flat_text),
        corpus("quoted text", Text, |to| quoted(to, false)),
        corpus("quoted text, escapes", Text, |to| quoted(to, true)),
        corpus("comments", Text, comments),
    ]
}

/// Quoted text whose strings are all of one length, from short to long: what a string
/// costs, and what a byte of one.
pub fn by_length() -> Vec<Corpus> {
    use Format::Text;
    vec![
        corpus("strings of 16 bytes", Text, quoted_each::<16>),
        corpus("strings of 64 bytes", Text, quoted_each::<64>),
        corpus("strings of 160 bytes", Text, quoted_each::<160>),
        corpus("strings of 640 bytes", Text, quoted_each::<640>),
        corpus("strings of 4096 bytes", Text, quoted_each::<4096>),
    ]
}

fn corpus(name: &'static str, format: Format, record: fn(&mut To)) -> Corpus {
    let mut to = To {
        bytes: Vec::new(),
        state: 1,
    };
    while to.bytes.len() < FILLED {
        record(&mut to);
        to.put(match format {
            Format::Binary => b";",
            Format::Text => b";\n",
        });
    }
    Corpus {
        name,
        format,
        bytes: to.bytes,
    }
}

/// Bytes that grow, and numbers that look random (splitmix64).
struct To {
    bytes: Vec<u8>,
    state: u64,
}

impl To {
    fn next(&mut self) -> u64 {
        self.state = self.state.wrapping_add(0x9E37_79B9_7F4A_7C15);
        let mut z = self.state;
        z = (z ^ (z >> 30)).wrapping_mul(0xBF58_476D_1CE4_E5B9);
        z = (z ^ (z >> 27)).wrapping_mul(0x94D0_49BB_1331_11EB);
        z ^ (z >> 31)
    }

    /// A number from `low` to `high`, both allowed.
    fn between(&mut self, low: u64, high: u64) -> u64 {
        low + self.next() % (high - low + 1)
    }

    /// A number of up to `bits` bits, short ones as often as long ones.
    fn number(&mut self, bits: u64) -> u64 {
        let bits = self.between(1, bits);
        self.next() >> (64 - bits)
    }

    fn put(&mut self, bytes: &[u8]) {
        self.bytes.extend_from_slice(bytes);
    }

    fn letters(&mut self, length: u64) {
        for _ in 0..length {
            let letter = b'a' + (self.next() % 26) as u8;
            self.bytes.push(letter);
        }
    }

    fn string(&mut self, length: u64) {
        self.bytes.push(0x01);
        write_varint(length as i64, &mut self.bytes);
        self.letters(length);
    }

    fn int64(&mut self) {
        self.bytes.push(0x02);
        let value = self.number(64) as i64;
        write_varint(value, &mut self.bytes);
    }

    fn uint64(&mut self) {
        self.bytes.push(0x06);
        let value = self.number(64);
        write_uvarint(value, &mut self.bytes);
    }

    fn double(&mut self) {
        self.bytes.push(0x03);
        let value = self.next() as f64 / 1e6;
        self.put(&value.to_le_bytes());
    }

    fn boolean(&mut self) {
        let marker = 0x04 + (self.next() & 1) as u8;
        self.bytes.push(marker);
    }

    /// A scalar of a row, as tables have them.
    fn scalar(&mut self) {
        match self.next() % 8 {
            0..=2 => {
                let length = self.between(5, 40);
                self.string(length);
            }
            3 | 4 => self.int64(),
            5 => self.uint64(),
            6 => self.double(),
            _ => self.boolean(),
        }
    }
}

/// A row of some 40 columns.
fn flat(to: &mut To) {
    let begin = to.bytes.len();
    to.put(b"{");
    while to.bytes.len() < begin + 1000 {
        let length = to.between(4, 12);
        to.string(length);
        to.put(b"=");
        to.scalar();
        to.put(b";");
    }
    to.put(b"}");
}

/// One key and one small number.
fn tiny(to: &mut To) {
    to.put(b"{");
    to.string(1);
    to.put(b"=\x02\x02}");
}

/// Four strings of 4 KB.
fn long_strings(to: &mut To) {
    to.put(b"{");
    for _ in 0..4 {
        to.string(6);
        to.put(b"=");
        to.string(4096);
        to.put(b";");
    }
    to.put(b"}");
}

/// A list of integers of all lengths.
fn integers(to: &mut To) {
    to.put(b"[");
    for i in 0..200 {
        match i % 4 {
            3 => to.uint64(),
            _ => to.int64(),
        }
        to.put(b";");
    }
    to.put(b"]");
}

/// A hundred lists in one another, with an item in each.
fn deep_lists(to: &mut To) {
    for _ in 0..100 {
        to.put(b"[\x02\x02;");
    }
    for _ in 0..100 {
        to.put(b"]");
    }
}

/// Lists, maps and attributes in one another, with scalars between.
fn deep_mixed(to: &mut To) {
    let mut ends: Vec<&[u8]> = Vec::new();
    for i in 0..60 {
        match i % 3 {
            0 => {
                to.put(b"[");
                to.scalar();
                to.put(b";");
                ends.push(b";]");
            }
            1 => {
                to.put(b"{");
                to.string(5);
                to.put(b"=");
                ends.push(b"}");
            }
            _ => {
                to.put(b"<");
                to.string(3);
                to.put(b"=");
                to.scalar();
                to.put(b">[");
                ends.push(b"]");
            }
        }
    }
    to.put(b"#");
    for end in ends.iter().rev() {
        to.put(end);
    }
}

fn text_scalar(to: &mut To) {
    match to.next() % 8 {
        0..=2 => {
            to.put(b"\"");
            let length = to.between(5, 40);
            to.letters(length);
            to.put(b"\"");
        }
        3 | 4 => {
            let value = to.number(64) as i64;
            to.put(value.to_string().as_bytes());
        }
        5 => {
            let value = to.number(64);
            to.put(format!("{value}u").as_bytes());
        }
        6 => {
            let value = to.number(40) as f64 / 1e3;
            to.put(format!("{value:.3}").as_bytes());
        }
        _ => to.put(b"%true"),
    }
}

/// The rows of the first corpus as text.
fn flat_text(to: &mut To) {
    let begin = to.bytes.len();
    to.put(b"{");
    while to.bytes.len() < begin + 1000 {
        let length = to.between(4, 12);
        to.letters(length);
        to.put(b" = ");
        text_scalar(to);
        to.put(b"; ");
    }
    to.put(b"}");
}

/// A row of quoted strings, with an escape in some forty bytes or without any.
fn quoted(to: &mut To, escapes: bool) {
    to.put(b"{");
    for _ in 0..8 {
        to.letters(6);
        to.put(b"=\"");
        for _ in 0..to.between(1, 8) {
            to.letters(36);
            match to.next() % 4 {
                _ if !escapes => {}
                0 => to.put(b"\\n"),
                1 => to.put(b"\\\""),
                2 => to.put(b"\\x4F"),
                _ => to.put(b"\\177"),
            }
        }
        to.put(b"\";");
    }
    to.put(b"}");
}

/// A row of quoted strings without escapes, all of one length.
fn quoted_each<const LENGTH: u64>(to: &mut To) {
    to.put(b"{");
    for _ in 0..8 {
        to.letters(6);
        to.put(b"=\"");
        to.letters(LENGTH);
        to.put(b"\";");
    }
    to.put(b"}");
}

/// A list with a comment of each sort and blanks between its items.
fn comments(to: &mut To) {
    to.put(b"[\n");
    for _ in 0..10 {
        to.put(b"    /* ");
        let length = to.between(10, 60);
        to.letters(length);
        to.put(b" */ 1;  // ");
        let length = to.between(5, 40);
        to.letters(length);
        to.put(b"\n");
    }
    to.put(b"]");
}
