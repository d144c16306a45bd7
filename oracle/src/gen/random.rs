//! Byte strings made at random: good, damaged, cut, deep, long, or noise.

use super::{edges, format_of, rng::Rng, values};
use crate::{answer::MOST_BYTES, ser::YsonFormat};

pub fn random_bytes(rng: &mut Rng, most: usize) -> Vec<u8> {
    (0..rng.below(most + 1)).map(|_| rng.byte()).collect()
}

pub fn random_write(rng: &mut Rng) -> Vec<u8> {
    let value = rng.number();
    let room = if rng.once_in(20) {
        rng.byte()
    } else {
        rng.below(14) as u8
    };
    [&value.to_le_bytes(), [room].as_slice()].concat()
}

/// Varints one after the other, good and bad.
pub fn random_varints(rng: &mut Rng) -> Vec<u8> {
    let mut bytes = Vec::new();
    for _ in 0..rng.between(0, 3) {
        match rng.below(6) {
            0 => bytes.extend(random_bytes(rng, 12)),
            1 => {
                for _ in 0..rng.between(1, 12) {
                    bytes.push(rng.byte() | 0x80);
                }
                bytes.push(rng.byte() & 0x83);
            }
            _ => {
                let value = rng.number();
                values::varint(rng, value, &mut bytes);
            }
        }
    }
    if rng.once_in(8) {
        values::damage(rng, YsonFormat::Binary, &mut bytes);
    }
    if rng.once_in(8) {
        bytes.truncate(rng.below(bytes.len() + 1));
    }
    bytes
}

/// A short or middling byte string in a format: good, damaged, cut, or noise.
pub fn some_bytes(rng: &mut Rng, format: YsonFormat) -> Vec<u8> {
    let budget = [1, 3, 8, 30][rng.below(4)];
    let mut bytes = values::value(rng, format, budget);
    match rng.below(20) {
        0..=3 => {}
        4..=5 => {
            let tail = values::value(rng, format, 3);
            if rng.once_in(2) {
                bytes.push(b';');
            }
            bytes.extend(tail);
        }
        6..=10 => values::damage(rng, format, &mut bytes),
        11..=13 => bytes.truncate(rng.below(bytes.len() + 1)),
        14..=15 => {
            bytes.clear();
            for _ in 0..rng.between(1, 9) {
                bytes.extend(values::token(rng, format));
                if format == YsonFormat::Text && rng.once_in(2) {
                    bytes.push(b' ');
                }
            }
        }
        16 => bytes = deep_bytes(rng, format),
        17 => bytes = random_bytes(rng, 24),
        18 => {
            let alphabet = edges::alphabet(format);
            bytes = (0..rng.between(1, 16))
                .map(|_| rng.pick_byte(alphabet))
                .collect();
        }
        _ => {
            bytes = match format {
                YsonFormat::Text if rng.once_in(2) => {
                    let parts = rng.below(12);
                    values::quoted(rng, parts)
                }
                YsonFormat::Text => values::number_text(rng),
                YsonFormat::Binary => {
                    // a marker before varints of every sort
                    let mut bytes = vec![rng.pick_byte(b"\x01\x02\x06")];
                    bytes.extend(random_varints(rng));
                    bytes
                }
            };
            let before: &[u8] = match format {
                YsonFormat::Binary => {
                    rng.pick(&[b"".as_slice(), b"", b"[", b"{", b"{\x01\x02a=", b"<"])
                }
                YsonFormat::Text => rng.pick(&[b"".as_slice(), b"", b"[", b"{", b"{a=", b"<"]),
            };
            bytes.splice(0..0, before.iter().copied());
            if rng.once_in(2) {
                let after = rng.between(0, 3);
                for _ in 0..after {
                    bytes.push(values::a_byte(rng, format));
                }
            }
        }
    }
    bytes
}

/// A string token, good or damaged, with something behind it.
pub fn a_string(rng: &mut Rng, format: YsonFormat) -> Vec<u8> {
    let length = [0, 1, 3, 8, 20, 70][rng.below(6)];
    let mut bytes = values::string(rng, format, length);
    match rng.below(8) {
        0 => values::damage(rng, format, &mut bytes),
        1 => bytes.truncate(rng.below(bytes.len() + 1)),
        2..=4 => bytes.extend(values::token(rng, format)),
        _ => {}
    }
    bytes
}

/// Blocks open about as deep as they may be, in any mixture, then some tokens,
/// then sometimes all the ends.
pub fn deep_bytes(rng: &mut Rng, format: YsonFormat) -> Vec<u8> {
    let mut bytes = Vec::new();
    let mut ends: Vec<&[u8]> = Vec::new();
    let key: &[u8] = match format {
        YsonFormat::Binary => b"\x01\x02k=",
        YsonFormat::Text => b"k=",
    };
    let mixture = rng.below(4);
    for _ in 0..rng.between(120, 131) {
        if rng.once_in(12) {
            bytes.extend(b"<>");
        }
        match if mixture == 3 { rng.below(3) } else { mixture } {
            0 => {
                bytes.push(b'[');
                ends.push(b"]");
            }
            1 => {
                bytes.push(b'{');
                bytes.extend(key);
                ends.push(b"}");
            }
            _ => {
                // a value may have one attribute block only
                if bytes.ends_with(b"<>") {
                    bytes.truncate(bytes.len() - 2);
                }
                bytes.push(b'<');
                bytes.extend(key);
                ends.push(b">#");
            }
        }
    }
    for _ in 0..rng.between(1, 3) {
        bytes.extend(values::token(rng, format));
    }
    if rng.once_in(2) {
        bytes.extend(ends.iter().rev().copied().flatten());
    }
    if rng.once_in(6) {
        values::damage(rng, format, &mut bytes);
    }
    bytes
}

/// Up to as many bytes as there may be.
pub fn long_bytes(rng: &mut Rng, kind: u8) -> Vec<u8> {
    let format = format_of(kind);
    let length = match rng.below(4) {
        0 => MOST_BYTES,
        1 => MOST_BYTES - rng.below(4),
        2 => rng.between(1000, MOST_BYTES),
        _ => 1 << rng.between(8, 16),
    };
    if matches!(kind, 3 | 4) {
        let mut bytes = Vec::new();
        while bytes.len() < length {
            let value = rng.number();
            values::varint(rng, value, &mut bytes);
        }
        bytes.truncate(length);
        return bytes;
    }
    let mut bytes = match rng.below(5) {
        0 => {
            // one string that fills it, give or take a byte
            let mut bytes = match format {
                YsonFormat::Binary => {
                    let long = length.saturating_sub(rng.below(8));
                    values::string(rng, format, long)
                }
                YsonFormat::Text => {
                    let mut bytes = vec![b'"'];
                    bytes.resize(length - 1, b'q');
                    bytes.push(b'"');
                    bytes
                }
            };
            bytes.truncate(length);
            bytes
        }
        1 if format == YsonFormat::Text => {
            let parts = length / 2;
            values::quoted(rng, parts)
        }
        2 if format == YsonFormat::Text => {
            // blanks and comments, and a value at the end
            let mut bytes = Vec::new();
            while bytes.len() + 20 < length {
                bytes.extend(rng.pick(&[b"   ".as_slice(), b"\n\n", b"/* ** / */", b"// /*\n"]));
            }
            bytes.extend(b"%true");
            bytes
        }
        _ => {
            // a list of values
            let mut bytes = vec![b'['];
            loop {
                let budget = rng.between(1, 20);
                let item = values::value(rng, format, budget);
                if bytes.len() + item.len() + 2 > length {
                    break;
                }
                bytes.extend(item);
                bytes.push(b';');
            }
            bytes.push(b']');
            bytes
        }
    };
    if rng.once_in(3) {
        values::damage(rng, format, &mut bytes);
    }
    if rng.once_in(3) {
        bytes.truncate(rng.below(bytes.len() + 1));
    }
    bytes.truncate(MOST_BYTES);
    bytes
}
