//! The edges of every rule, and the worked examples, written down by rule.

use super::{
    frames::frame_payload,
    short::{BINARY_BYTES, TEXT_BYTES},
};
use crate::{
    ser::YsonFormat,
    varint::{write_uvarint, write_varint},
};

/// Numbers at and next to every power of two.
pub fn numbers() -> Vec<u64> {
    let mut all = vec![];
    for bits in 0..=64 {
        let top = if bits == 64 { 0 } else { 1u64 << bits };
        all.extend((0..7).map(|i| top.wrapping_add(i).wrapping_sub(3)));
    }
    all.sort_unstable();
    all.dedup();
    all
}

/// Varints alone: every length, padded forms, values next to powers of two, and
/// what may stand at the tenth and the eleventh place.
pub fn varints() -> Vec<Vec<u8>> {
    let mut all = vec![];
    for fill in [0x80, 0x81, 0xAA, 0xFF] {
        for length in 0..=11 {
            for last in b"\x00\x01\x02\x03\x7E\x7F\x80\x81\x82\x83\xFE\xFF" {
                for after in [
                    b"".as_slice(),
                    b"\x00",
                    b"\x01",
                    b"\x80",
                    b"\xFF",
                    b"\x80\x00",
                ] {
                    let mut bytes = vec![fill; length];
                    bytes.push(*last);
                    bytes.extend(after);
                    all.push(bytes);
                }
            }
        }
    }
    for value in numbers() {
        let mut bytes = vec![];
        write_uvarint(value, &mut bytes);
        for cut in 0..bytes.len() {
            all.push(bytes[..cut].into());
        }
        all.push(bytes.clone());
        // the same value with more bytes than it needs
        *bytes.last_mut().unwrap() |= 0x80;
        while bytes.len() < 11 {
            let mut padded = bytes.clone();
            padded.push(0);
            all.push(padded);
            bytes.push(0x80);
        }
    }
    all
}

/// The beginnings of deep values: `depth` blocks in several mixtures.
fn deep(format: YsonFormat) -> Vec<Vec<u8>> {
    let binary = format == YsonFormat::Binary;
    let key: &[u8] = if binary { b"\x01\x02k" } else { b"k" };
    let scalar: &[u8] = if binary { b"\x02\x02" } else { b"%true" };
    let unfinished: &[u8] = if binary { b"\x02\x80" } else { b"\"\\x" };
    let bad: &[u8] = if binary { b"\x0B" } else { b"!" };
    let entry = |open: u8, equals: &[u8]| [&[open], key, equals].concat();
    let list = b"[".to_vec();
    let map = entry(b'{', b"=");
    let attributes = entry(b'<', b"=");
    let end = |open: &[u8]| match open[0] {
        b'[' => b"]".as_slice(),
        b'{' => b"}",
        _ => b">#",
    };
    let mixtures: [&[&[u8]]; 6] = [
        &[&list],
        &[&map],
        &[&attributes],
        &[&list, &map, &attributes],
        &[b"<>[", &attributes],
        &[&map, &list],
    ];
    // the last block may be open at each place where something else is due
    let lasts = [
        list.clone(),
        b"{".to_vec(),
        entry(b'{', b""),
        map.clone(),
        b"<".to_vec(),
        entry(b'<', b""),
        attributes.clone(),
        b"<>".to_vec(),
    ];
    let tails: Vec<&[u8]> = vec![
        b"", b"#", b"[", b"{", b"<", b"]", b"}", b">", b"=", b";", key, scalar, unfinished, bad,
        b"[]", b"{}", b"<>#", b"<>[", b"[][", b";;[", b"#[", b"#<", b"#{",
    ];
    let mut all = vec![];
    for blocks in 126..=130 {
        for mixture in mixtures {
            let opens: Vec<&[u8]> = (1..blocks).map(|i| mixture[i % mixture.len()]).collect();
            for last in &lasts {
                for tail in &tails {
                    let mut bytes = opens.concat();
                    bytes.extend(last);
                    bytes.extend(*tail);
                    all.push(bytes);
                }
            }
            // closed again as far as it can be, and once opened anew
            let mut bytes = opens.concat();
            bytes.extend(b"[");
            bytes.extend(b"][]");
            let mut anew = bytes.clone();
            anew.extend(b"[[");
            all.push(anew);
            for open in opens.iter().rev() {
                // `<>[` is a list as far as closing goes
                let last = if open == b"<>[" { b"[" } else { *open };
                bytes.extend(end(last));
            }
            all.push(bytes);
        }
    }
    all
}

/// The edges of binary tokens and values.
pub fn binary() -> Vec<Vec<u8>> {
    let mut all = deep(YsonFormat::Binary);
    for varint in varints() {
        for marker in [1, 2, 6] {
            all.push([&[marker], varint.as_slice()].concat());
        }
        // after an open map: read whole before its place is judged
        all.push([b"{\x02", varint.as_slice()].concat());
        all.push([b"{\x01", varint.as_slice()].concat());
    }
    // strings with a byte less, as many, and a byte more than their length says
    for length in (0..=20).chain([62, 63, 64, 65, 127, 128, 8191, 8192]) {
        for there in length.max(1) - 1..=length + 1 {
            let mut bytes = vec![1];
            write_varint(length as i64, &mut bytes);
            bytes.extend(vec![b'['; there]);
            all.push(bytes.clone());
            bytes.insert(0, b'<');
            all.push(bytes);
        }
    }
    // lengths that no slice has, and lengths below zero
    for length in [
        1 << 16,
        1 << 31,
        (1 << 31) - 1,
        1 << 32,
        (1 << 32) - 1,
        1 << 62,
        i64::MAX - 1,
        i64::MAX,
        -1,
        -2,
        -64,
        -65,
        i64::MIN + 1,
        i64::MIN,
    ] {
        for before in [b"".as_slice(), b"[", b"{", b"[#;", b"<\x01\x02a="] {
            for after in [b"".as_slice(), b"a", b"]"] {
                let mut bytes = before.to_vec();
                bytes.push(1);
                write_varint(length, &mut bytes);
                bytes.extend(after);
                all.push(bytes);
            }
        }
    }
    // doubles: too few bytes, and bit patterns of every class
    for there in 0..=9 {
        all.push([b"\x03".as_slice(), &vec![0xC0; there]].concat());
        all.push([b"[\x03".as_slice(), &vec![b']'; there]].concat());
    }
    for bits in [
        0,
        1,
        1 << 63,
        0x000F_FFFF_FFFF_FFFF,
        0x0010_0000_0000_0000,
        0x3FF0_0000_0000_0000,
        0x7FEF_FFFF_FFFF_FFFF,
        0x7FF0_0000_0000_0000,
        0x7FF0_0000_0000_0001,
        0x7FF7_FFFF_FFFF_FFFF,
        0x7FF8_0000_0000_0000,
        0x7FF8_0000_0000_0001,
        0x7FFF_FFFF_FFFF_FFFF,
        0xFFF0_0000_0000_0000,
        0xFFF0_0000_0000_0001,
        0xFFF8_0000_0000_0000,
        u64::MAX,
    ] {
        all.push([b"\x03".as_slice(), &u64::to_le_bytes(bits)].concat());
    }
    // each byte where a value, an item, a key, `=`, a mapped value, or the value
    // of an attribute block is due
    for byte in 0..=255 {
        for before in [
            b"[".as_slice(),
            b"[#",
            b"{",
            b"{\x01\x02a",
            b"{\x01\x02a=",
            b"{\x01\x02a=#",
            b"<",
            b"<\x01\x02a",
            b"<\x01\x02a=",
            b"<\x01\x02a=#",
            b"<>",
            b"[<>",
            b"#",
        ] {
            for after in [b"".as_slice(), b"\x00", b"\x00}"] {
                all.push([before, &[byte], after].concat());
            }
        }
    }
    all
}

/// Number texts at the edges of int64, uint64 and of the float grammar.
fn number_texts() -> Vec<Vec<u8>> {
    const LIMITS: &str = "0 1 9 10 127 999999999999999999 1000000000000000000 9223372036854775806 \
        9223372036854775807 9223372036854775808 9223372036854775809 9223372036854775817 \
        9999999999999999999 10000000000000000000 18446744073709551614 18446744073709551615 \
        18446744073709551616 18446744073709551625 28446744073709551615 99999999999999999999 \
        100000000000000000000";
    const TEXTS: &str = "- + -- +- 1- 1+ 1-2 1+2 -1- 1. 1.5 -1.5 +1.5 1.. 1..5 1.5. 1.5.5 -. +. -.5 +.5 -5. \
        -e -e5 -.e5 +.e5 -.5e5 1e 1E 1e+ 1e- 1e5 1E5 1e+5 1e-5 1e+-5 1e--5 1e5e 1e5e5 1e5. \
        1e5.5 1.e5 1.e 1.5e5 1.5e+05 1e5+ 1e5- 1e5-1 00.5 00e00 0e0 -0.0 -0e-0 1e308 1e309 \
        1e400 -1e400 1e-400 1e99999999999999999999 1e-99999999999999999999 1.e+ 5e. 5.e. 5ee \
        5e5E5 0x10 1_000 1,5 1inf -inf +inf -nan infinity nan 1f 1n";
    let mut all: Vec<Vec<u8>> = vec![];
    for limit in LIMITS.split(' ') {
        for sign in ["", "-", "+", "--", "++", "+-", "-+"] {
            for zeros in [0, 1, 2, 20, 40] {
                all.push(format!("{sign}{}{limit}", "0".repeat(zeros)).into());
            }
        }
    }
    for text in TEXTS.split(' ') {
        all.push(text.into());
    }
    all.push("9".repeat(400).into());
    all.push(format!("0.{}1", "0".repeat(400)).into());
    all.push(format!("1{}.0e-400", "0".repeat(400)).into());
    all
}

/// The edges of text tokens and values.
pub fn text() -> Vec<Vec<u8>> {
    let mut all = deep(YsonFormat::Text);
    for number in number_texts() {
        for after in [
            "", "u", "uu", "u1", "u.", ".", ".0", "e", "e1", " ", ";", "]", "a", "_", "\"", "/",
            "/*", "//\n", "%", "=", "\u{80}", "\0",
        ] {
            all.push([&number, after.as_bytes()].concat());
        }
        all.push([b"[", number.as_slice(), b"]"].concat());
        all.push([b"{a=", number.as_slice(), b"=1}"].concat());
        all.push([b"{", number.as_slice(), b"=1}"].concat());
        all.push([b"[1 ", number.as_slice()].concat());
    }
    // words after `%`: each cut short, with each byte behind, in other letters
    for word in [
        "true", "false", "nan", "inf", "-inf", "+inf", "-nan", "TRUE", "Inf", "-", "",
    ] {
        for cut in 0..=word.len() {
            let begin = [b"%", &word.as_bytes()[..cut]].concat();
            for before in [b"".as_slice(), b" ", b"[", b"{a=", b"{"] {
                all.push([before, &begin].concat());
            }
            for byte in 0..=255 {
                all.push([begin.as_slice(), &[byte]].concat());
            }
            all.push([&begin, b"inity".as_slice()].concat());
            all.push([&begin, b"]".as_slice(), word.as_bytes()].concat());
        }
    }
    // escapes before the closing quote, and what stands behind it
    const PARTS: [&[u8]; 14] = [
        b"", b"a", b"\\", b"\\x", b"\\x4", b"\\x41", b"\\x+", b"\\x+4", b"\\xz", b"\\0", b"\\37",
        b"\\377", b"\\400", b"\\\"",
    ];
    for first in PARTS {
        for second in PARTS {
            for after in [
                b"".as_slice(),
                b"\"",
                b"\"4",
                b"\"41",
                b"\"\"",
                b"\"+4",
                b"\" ",
                b"\"\\",
            ] {
                all.push([b"\"", first, second, after].concat());
            }
        }
        for before in [
            b"[".as_slice(),
            b"{",
            b"{a",
            b"{a=",
            b"<",
            b"<>",
            b" ",
            b"/**/",
        ] {
            all.push([before, b"\"", first, b"\"", b"=1}"].concat());
        }
    }
    // comments and blanks, before each kind of token and unfinished
    const GAPS: [&[u8]; 26] = [
        b" ",
        b"\t",
        b"\n",
        b"\x0B",
        b"\x0C",
        b"\r",
        b"\x85",
        b"\xA0",
        b"\x00",
        b"/",
        b"//",
        b"/*",
        b"/**",
        b"/*/",
        b"/**/",
        b"/***/",
        b"/*/*/",
        b"/* * /*/",
        b"//\n",
        b"//\r",
        b"//\r\n",
        b"// /*\n",
        b"/*//*/",
        b"/ /",
        b"/\n/",
        b"//*\n",
    ];
    for gap in GAPS {
        for other in GAPS {
            all.push([gap, other].concat());
            all.push([gap, other, b"1"].concat());
        }
        for before in [
            "", "[", "[1", "[1;", "{", "{a", "{a=", "{a=1", "<", "<>", "<a=1>", "a", "\"a\"",
        ] {
            for after in ["", "1", "]", "}", "=1}", ">#", ";"] {
                all.push([before.as_bytes(), gap, after.as_bytes()].concat());
            }
        }
    }
    // each byte where something is due
    for byte in 0..=255 {
        for before in [
            "[", "[1 ", "{", "{a", "{a ", "{a=", "{a=# ", "<", "<a", "<a=", "<a=#", "<>", "[<>",
            "#", "a",
        ] {
            for after in ["", "a", "1}", "\"]"] {
                all.push([before.as_bytes(), &[byte], after.as_bytes()].concat());
            }
        }
    }
    all
}

/// The edges of framing: records as long as the buffer, a byte less and more,
/// whole and damaged, with separators and records before; streams that end
/// next to the last offset; buffer lengths next to those that open.
pub fn frames() -> Vec<Vec<u8>> {
    let mut all = vec![];
    let cuts = |all: &mut Vec<Vec<u8>>, n: u32, start: u64, stream: &[u8]| {
        for size in [stream.len().max(1), 1, n as usize, n as usize - 1, 7] {
            let pieces: Vec<&[u8]> = stream.chunks(size.min(65_535)).collect();
            all.push(frame_payload(n, start, &pieces));
        }
    };
    for n in [64, 65, 100, 128] {
        let long = n as usize;
        let mut streams: Vec<Vec<u8>> = vec![];
        for length in long - 2..=long + 2 {
            // a string, a list of separators, one left open, and a bad byte at
            // the last place, before it and behind it
            let mut string = vec![1];
            let bytes = length - if length < 66 { 2 } else { 3 };
            write_varint(bytes as i64, &mut string);
            string.resize(string.len() + bytes, b'x');
            streams.push(string.clone());
            streams.push(string[..string.len() - 1].into());
            let mut list = vec![b';'; length];
            list[0] = b'[';
            streams.push(list.clone());
            list[length - 1] = b']';
            streams.push(list.clone());
            list[length - 1] = 0xFF;
            streams.push(list.clone());
            list[length - 1] = b'=';
            streams.push(list.clone());
            list[length - 1] = 1;
            streams.push(list);
        }
        let gap = vec![b';'; long];
        for stream in &streams {
            for before in [
                b"".as_slice(),
                b";",
                b" \n\t",
                b"#;",
                b"#",
                b"<>#",
                &gap[1..],
                &gap,
            ] {
                for after in [b"".as_slice(), b";", b"#", b"["] {
                    cuts(&mut all, n, 0, &[before, stream, after].concat());
                }
            }
        }
    }
    // buffer lengths
    for n in [
        0,
        1,
        2,
        62,
        63,
        64,
        65,
        255,
        256,
        65_535,
        65_536,
        65_537,
        65_538,
        1 << 31,
        u32::MAX,
    ] {
        for pieces in [
            &[][..],
            &[b"".as_slice()],
            &[b"#"],
            &[b"#;", b"", b"[", b"]"],
        ] {
            all.push(frame_payload(n, 0, pieces));
            all.push(frame_payload(n, u64::MAX, pieces));
        }
    }
    // ends next to the last offset
    let streams: [&[&[u8]]; 12] = [
        &[],
        &[b""],
        &[b"", b"", b""],
        &[b"#"],
        &[b"##"],
        &[b"#", b"#"],
        &[b"#", b"", b"#"],
        &[b"[", b"#", b"]", b";"],
        &[b"[#]"],
        &[b"\xFF", b"#"],
        &[b"#", b"\x01\x0A", b"abc"],
        &[b"; ;", b"<>", b"#", b"5"],
    ];
    for before in 0..12 {
        for pieces in streams {
            all.push(frame_payload(64, u64::MAX - before, pieces));
        }
        let long = vec![b';'; 100];
        for size in [1, 30, 64, 100] {
            let pieces: Vec<&[u8]> = long.chunks(size).collect();
            all.push(frame_payload(64, u64::MAX - 94 - before, &pieces));
        }
        let open = [b"[".as_slice(), &long].concat();
        for size in [1, 30, 64, 101] {
            let pieces: Vec<&[u8]> = open.chunks(size).collect();
            all.push(frame_payload(64, u64::MAX - 58 - before, &pieces));
            all.push(frame_payload(64, u64::MAX - 95 - before, &pieces));
        }
    }
    // one value of every kind, cut at every place
    let value = b";[\x01\x04ab;\x02\x80\x00;\x03\0\0\0\0\0\0\0\0;\x04;\x05;\x06\x01;#;{\x01\x02k=<\x01\x02a=#>[]}]\n;<>#";
    for at in 0..=value.len() {
        for middle in [&[][..], &[b"".as_slice()], &[b"".as_slice(), b""]] {
            let pieces = [&[&value[..at]], middle, &[&value[at..]]].concat();
            all.push(frame_payload(64, 0, &pieces));
        }
        all.push(frame_payload(64, 1 << 40, &[&value[..at]]));
        let bytes: Vec<&[u8]> = value[..at].chunks(1).collect();
        all.push(frame_payload(64, 0, &bytes));
    }
    all
}

/// The worked examples and the facts that are easily missed, binary.
fn worked_binary() -> Vec<Vec<u8>> {
    let nines = |marker: &[u8], last: &[u8]| [marker, &[0x80; 9], last].concat();
    vec![
        b"\x01\x02a".to_vec(),
        b"\x01\x01".to_vec(),
        b"\x01\x81".to_vec(),
        [vec![b'['; 128], vec![b']'; 128]].concat(),
        vec![b'['; 129],
        [vec![b'['; 128], b"<".to_vec()].concat(),
        [vec![b'['; 127], b"{[".to_vec()].concat(),
        [vec![b'['; 127], b"{\x01\x02a[".to_vec()].concat(),
        b"{\x02\x80".to_vec(),
        nines(b"{\x02", b"\x02"),
        b"{\x02\x00".to_vec(),
        nines(b"\x02", b"\x82"),
        nines(b"\x02", b"\x81"),
        nines(b"\x02", b"\x81\x00"),
        nines(b"\x01", b"\x02"),
        nines(b"\x01", b"\x81\x01"),
        [b"\x01\xFE".as_slice(), &[0xFF; 8], b"\x01"].concat(),
        b"[<>]".to_vec(),
        b";#".to_vec(),
        b"<;>#".to_vec(),
        b"[\x20]".to_vec(),
        b"\x0B".to_vec(),
    ]
}

/// The worked examples and the facts that are easily missed, text.
fn worked_text() -> Vec<Vec<u8>> {
    [
        "[1 2]",
        "<a=1><b=2>#",
        r#""\777""#,
        "/*/",
        "12",
        "%tr",
        "-0u",
        "+5u",
        "5.",
        "1e",
        "-",
        "9223372036854775808",
        r#""\400""#,
        r#""\x+4""#,
        r#""\xzz"#,
        "[1-2]",
        "{a=1e=2}",
        "1.5u",
        "{a=1b=2}",
        "5uu",
        "%",
        "%t",
        "/",
        "%infinity",
        r#""\x""#,
        r#""\x" "#,
        r#""\xzz\x""#,
        r#""\u0041""#,
        r#""\0000""#,
        r#""\x-4""#,
        "\x0B1",
        "//\r1",
        "//\n1",
        "[<>]",
        ";1",
        "<;>#",
        "%nan",
        "%-inf",
    ]
    .iter()
    .map(|s| s.as_bytes().to_vec())
    .collect()
}

fn worked_varints() -> Vec<Vec<u8>> {
    vec![
        b"\x80\x00".to_vec(),
        [&[0xFF; 9], b"\x01".as_slice()].concat(),
        [&[0xFF; 9], b"\x02".as_slice()].concat(),
        vec![0x80; 10],
        [&[0x80; 10], b"\x00".as_slice()].concat(),
        [&[0x80; 9], b"\x82".as_slice()].concat(),
        [&[0x80; 9], b"\x81".as_slice()].concat(),
        b"\x96\x01".to_vec(),
        vec![],
    ]
}

fn worked_frames() -> Vec<Vec<u8>> {
    let program =
        b"\x7B\x01\x02\x61\x3D\x02\x02\x7D\x3B\x0A\x5B\x02\x02\x02\x04\x5D\x3B\x3C\x3E\x23";
    let mut open = vec![b';'; 65];
    open[0] = b'[';
    let mut bad_64 = open.clone();
    bad_64[63] = 0xFF;
    let mut bad_65 = open.clone();
    bad_65[64] = 0xFF;
    vec![
        frame_payload(65_536, 0, &[program]),
        frame_payload(64, 0, &program.chunks(1).collect::<Vec<_>>()),
        frame_payload(63, 0, &[program]),
        frame_payload(64, 0, &[]),
        frame_payload(64, 0, &[&open[..64]]),
        frame_payload(64, 0, &[&open[..63]]),
        frame_payload(64, 0, &[&bad_64]),
        frame_payload(64, 0, &[&bad_65]),
        frame_payload(64, u64::MAX, &[b"", b"#"]),
    ]
}

/// The worked payloads of a kind.
pub fn worked(kind: u8) -> Vec<Vec<u8>> {
    let with = |head: &[u8], all: Vec<Vec<u8>>| -> Vec<Vec<u8>> {
        all.into_iter()
            .map(|bytes| [head, &bytes].concat())
            .collect()
    };
    let value = |value: u64, room: u8| [&value.to_le_bytes(), [room].as_slice()].concat();
    match kind {
        1 => worked_binary(),
        2 => worked_text(),
        3 | 4 => with(&[0; 4], worked_varints()),
        5 | 6 => vec![
            value(0, 0),
            value(0, 1),
            value(150, 2),
            value(1 << 63, 10),
            value(u64::MAX, 10),
            value(u64::MAX, 9),
            value(i64::MAX as u64, 12),
        ],
        7 => with(&[0; 4], worked_binary()),
        8 => with(&[0; 4], worked_text()),
        9 => with(&[0, 0, 0, 0, 8, 0, 0, 0], worked_binary()),
        10 => with(&[0, 0, 0, 0, 8, 0, 0, 0], worked_text()),
        11 => worked_frames(),
        _ => vec![],
    }
}

/// Bytes that are picked for damage; kept here so that the lists above and the
/// random cases know the same alphabets.
pub fn alphabet(format: YsonFormat) -> &'static [u8] {
    match format {
        YsonFormat::Binary => BINARY_BYTES,
        YsonFormat::Text => TEXT_BYTES,
    }
}
