//! Worked examples, refusals one by one, and the edges of the call.

use onionsail::{
    scan,
    Format::{self, Binary, Text},
    Refusal,
    Scan::{self, Incomplete},
};

fn complete(len: usize) -> Result<Scan, Refusal> {
    Ok(Scan::Complete { len })
}

/// Every row is asked before the test fails, so that all that is wrong is seen.
fn check(rows: &[(Format, &[u8], Result<Scan, Refusal>)]) {
    let wrong: Vec<String> = rows
        .iter()
        .map(|(format, bytes, expected)| (format, bytes, expected, scan(*format, bytes)))
        .filter(|(_, _, expected, found)| *expected != found)
        .map(|(format, bytes, expected, found)| {
            format!("{format:?} {bytes:02x?}: expected {expected:?}, found {found:?}")
        })
        .collect();
    assert!(wrong.is_empty(), "{}", wrong.join("\n"));
}

fn opened(count: usize) -> Vec<u8> {
    vec![b'['; count]
}

#[test]
fn worked_examples() {
    check(&[
        (Binary, b"\x01\x02a", complete(3)),
        (Binary, b"\x01\x01", Err(Refusal::NegativeLength)),
        (Binary, b"\x01\x81", Ok(Incomplete)),
        (
            Binary,
            &[opened(128), vec![b']'; 128]].concat(),
            complete(256),
        ),
        (Binary, &opened(129), Err(Refusal::TooDeep)),
        (Text, b"[1 2]", complete(5)),
        (Text, b"<a=1><b=2>#", Err(Refusal::NotValue)),
        (Text, br#""\777""#, complete(6)),
        (Text, b"/*/", Ok(Incomplete)),
        (Text, b"12", complete(2)),
        (Text, b"%tr", Err(Refusal::UnknownWord)),
        (Text, b"-0u", Err(Refusal::BadUint64)),
        (Text, b"+5u", complete(3)),
        (Text, b"5.", complete(2)),
        (Text, b"1e", Err(Refusal::BadDouble)),
        (Text, b"-", Err(Refusal::BadInt64)),
        (Text, b"9223372036854775808", Err(Refusal::BadInt64)),
        (Text, br#""\400""#, complete(6)),
        (Text, br#""\x+4""#, complete(6)),
        (Text, br#""\xzz"#, Ok(Incomplete)),
    ]);
}

#[test]
fn each_refusal() {
    let varint = |last: &[u8]| [b"\x02", [0x80; 9].as_slice(), last].concat();
    check(&[
        (Binary, b"\x07", Err(Refusal::BadByte)),
        (Text, b"!", Err(Refusal::BadByte)),
        (Text, b"/", Err(Refusal::BadByte)),
        (Binary, b"\x01\x01", Err(Refusal::NegativeLength)),
        (Binary, &varint(b"\x81\x00"), Err(Refusal::LongVarint)),
        (Binary, &varint(b"\x81"), Ok(Incomplete)),
        (Binary, &varint(b"\x02"), Err(Refusal::WideVarint)),
        (Binary, &varint(b"\x82"), Err(Refusal::WideVarint)),
        (Text, br#""\xzz""#, Err(Refusal::BadHexEscape)),
        (Text, b"1.5u", Err(Refusal::BadUint64)),
        (Text, b"{a=1e=2}", Err(Refusal::BadDouble)),
        (Text, b"[1-2]", Err(Refusal::BadInt64)),
        (Text, b"%", Err(Refusal::UnknownWord)),
        (Binary, b";", Err(Refusal::NotValue)),
        (Text, b"[<>]", Err(Refusal::NotValue)),
        (Binary, b"{\x02\x00", Err(Refusal::NotKey)),
        (Text, b"{1=2}", Err(Refusal::NotKey)),
        (Text, b"{a;", Err(Refusal::NotEquals)),
        (
            Text,
            &[opened(128), b"<".to_vec()].concat(),
            Err(Refusal::TooDeep),
        ),
    ]);
}

#[test]
fn nothing_is_incomplete() {
    for format in [Binary, Text] {
        assert_eq!(scan(format, b""), Ok(Incomplete));
        assert_eq!(scan(format, &[]), Ok(Incomplete));
        // a slice of nothing whose pointer has no bytes behind it
        assert_eq!(scan(format, &Vec::new()), Ok(Incomplete));
        assert_eq!(scan(format, &b"\x01"[1..]), Ok(Incomplete));
    }
}

#[test]
fn the_formats_differ() {
    check(&[
        (Binary, b"\x02\x02", complete(2)),
        (Text, b"\x02\x02", Err(Refusal::BadByte)),
        (Text, b" 12", complete(3)),
        (Binary, b" 12", Err(Refusal::BadByte)),
        (Binary, b"[#;#]", complete(5)),
        (Text, b"[#;#]", complete(5)),
    ]);
}

#[test]
fn bytes_behind_a_value_are_not_judged() {
    check(&[
        (Binary, b"\x01\x02a\xFF", complete(3)),
        (Binary, b"{};{};", complete(2)),
        (Text, b"{a=1b=2}!", complete(8)),
        (Text, b"5uu", complete(2)),
    ]);
}
