//! The worked examples, and facts of the original that are easily missed, as
//! answers to cases.

use oracle::{answer::answer, error::YsonError, refusal};

fn ask(kind: u8, payload: &[u8]) -> String {
    let mut line = Vec::new();
    answer(kind, payload, &mut line);
    String::from_utf8(line).unwrap()
}

/// Asks with place 0, and room 8 where room is due.
fn ask_bytes(kind: u8, bytes: &[u8]) -> String {
    let head: &[u8] = match kind {
        3 | 4 | 7 | 8 => &[0; 4],
        9 | 10 => &[0, 0, 0, 0, 8, 0, 0, 0],
        _ => &[],
    };
    ask(kind, &[head, bytes].concat())
}

fn frame(n: u32, start: u64, pieces: &[&[u8]]) -> String {
    let mut payload = Vec::new();
    payload.extend(n.to_le_bytes());
    payload.extend(start.to_le_bytes());
    for piece in pieces {
        payload.extend((piece.len() as u16).to_le_bytes());
        payload.extend(*piece);
    }
    ask(11, &payload)
}

/// Every row is asked before the test fails, so that all that is wrong is seen.
fn check(rows: &[(u8, &[u8], &str)]) {
    let wrong: Vec<String> = rows
        .iter()
        .map(|(kind, bytes, expected)| (kind, bytes, expected, ask_bytes(*kind, bytes)))
        .filter(|(_, _, expected, found)| *expected != found)
        .map(|(kind, bytes, expected, found)| {
            format!("kind {kind} {bytes:02x?}: expected {expected}, found {found}")
        })
        .collect();
    assert!(wrong.is_empty(), "{}", wrong.join("\n"));
}

#[test]
fn worked_examples_that_are_proved() {
    let opened = |count: usize| vec![b'['; count];
    let nested = [opened(128), vec![b']'; 128]].concat();
    let nine = |last: &[u8]| [&[0xFF; 9], last].concat();
    check(&[
        (3, b"\x80\x00", "value 0 2"),
        (3, &nine(b"\x01"), "value 18446744073709551615 10"),
        (4, &nine(b"\x01"), "value -9223372036854775808 10"),
        (3, &nine(b"\x02"), "refused 4 0"),
        (3, &[0x80; 10], "more"),
        (
            3,
            &[&[0x80; 10], b"\x00".as_slice()].concat(),
            "refused 3 0",
        ),
        (1, b"\x01\x02a", "length 3"),
        (1, b"\x01\x01", "refused 2 0"),
        (1, b"\x01\x81", "more"),
        (1, &nested, "length 256"),
        (1, &opened(129), "refused 13 128"),
        (2, b"[1 2]", "length 5"),
        (2, b"<a=1><b=2>#", "refused 10 6"),
        (10, br#""\777""#, "string 2 end 6 3f37aaaaaaaaaaaa"),
        (2, b"/*/", "more"),
    ]);
}

#[test]
fn worked_examples_that_are_run() {
    check(&[
        (2, b"12", "length 2"),
        (2, b"%tr", "refused 9 0"),
        (2, b"-0u", "refused 6 0"),
        (2, b"+5u", "length 3"),
        (8, b"+5u", "uint64 5 at 0 end 3"),
        (2, b"5.", "length 2"),
        (8, b"5.", "decimal 0 2 at 0 end 2"),
        (2, b"1e", "refused 7 0"),
        (2, b"-", "refused 8 0"),
        (2, b"9223372036854775808", "refused 8 0"),
        (10, br#""\400""#, "string 2 end 6 2030aaaaaaaaaaaa"),
    ]);
    assert_eq!(frame(63, 0, &[]), "refused 23 readings 0 nexts 0");
    assert_eq!(frame(64, 0, &[]), "end 0 readings 0 nexts 0");
    assert_eq!(frame(65_536, 7, &[]), "end 7 readings 0 nexts 0");
    assert_eq!(frame(65_537, 0, &[]), "refused 23 readings 0 nexts 0");
}

#[test]
fn readings_that_come_out_wrong_easily() {
    check(&[
        (10, br#""\x+4""#, "string 1 end 6 04aaaaaaaaaaaaaa"),
        (2, br#""\xzz"#, "more"),
        (
            1,
            &[&[b'['; 128], b"<".as_slice()].concat(),
            "refused 13 128",
        ),
    ]);
}

#[test]
fn depth_is_judged_where_a_value_is_due() {
    let deep = |tail: &[u8]| [&[b'['; 127], tail].concat();
    check(&[
        (1, &deep(b"{["), "refused 11 129"),
        (1, &deep(b"{\x01\x02a["), "refused 12 132"),
        (1, &deep(b"{\x01\x02a=["), "refused 13 132"),
        (1, &deep(b"{\x01\x02a=<"), "refused 13 132"),
        (1, &deep(b"<>{"), "more"),
        (1, &deep(b"<>["), "more"),
        (1, &deep(b"<><"), "refused 10 130"),
        (1, &deep(b"[][["), "refused 13 130"),
        (2, &deep(b" [ /* */ ["), "refused 13 136"),
    ]);
}

#[test]
fn a_token_is_read_whole_before_its_place_is_judged() {
    let nine = |head: &[u8], last: &[u8]| [head, &[0x80; 9], last].concat();
    check(&[
        (1, b"{\x02\x80", "more"),
        (1, &nine(b"{\x02", b"\x02"), "refused 4 1"),
        (1, b"{\x02\x00", "refused 11 3"),
        (1, &nine(b"\x02", b"\x82"), "refused 4 0"),
        (1, &nine(b"\x02", b"\x81"), "more"),
        (1, &nine(b"\x02", b"\x81\x00"), "refused 3 0"),
        (1, &nine(b"\x02", b"\x81\xFF"), "refused 3 0"),
        // in a string length 4 and 3 come before 2
        (1, &nine(b"\x01\x81"[..1].as_ref(), b"\x02"), "refused 4 0"),
        (1, &nine(b"\x01", b"\x81\x01"), "refused 3 0"),
        (
            1,
            &[b"\x01", [0xFF; 9].as_slice(), b"\x01"].concat(),
            "refused 2 0",
        ),
        // length 2^63 - 1
        (
            1,
            &[b"\x01\xFE", [0xFF; 8].as_slice(), b"\x01"].concat(),
            "more",
        ),
        (
            1,
            &[b"\x01\xFE", [0xFF; 8].as_slice(), b"\x01abc"].concat(),
            "more",
        ),
        (
            7,
            &[b"\x01\xFE", [0xFF; 8].as_slice(), b"\x01"].concat(),
            "more",
        ),
    ]);
}

#[test]
fn text_facts() {
    check(&[
        (2, b"[1-2]", "refused 8 1"),
        (2, b"{a=1e=2}", "refused 7 3"),
        (2, b"1.5u", "refused 6 0"),
        (2, b"{a=1b=2}", "length 8"),
        (2, b"5uu", "length 2"),
        (2, b"%", "refused 9 0"),
        (2, b"%t", "refused 9 0"),
        (2, b"/", "refused 1 0"),
        (2, b" /", "refused 1 1"),
        (2, b"/a", "refused 1 0"),
        (2, b"%infinity", "length 4"),
        (2, br#""\x""#, "more"),
        (2, b"\"\\x\" ", "refused 5 0"),
        (2, br#" "\xzz\x""#, "refused 5 1"),
        (10, br#""\u0041""#, "string 5 end 8 7530303431aaaaaa"),
        (10, br#""\0000""#, "string 2 end 7 0030aaaaaaaaaaaa"),
        (2, br#""\x-4""#, "refused 5 0"),
        (2, b"\x0B1", "refused 1 0"),
        (2, b"//\r1", "more"),
        (2, b"//\r\n1", "length 5"),
        (2, b"[<>]", "refused 10 4"),
        (2, b";1", "refused 10 1"),
        (2, b"<;>#", "length 4"),
        (2, b"", "more"),
        (2, b"  12", "length 4"),
        (2, b"/* */12 ", "length 7"),
    ]);
}

#[test]
fn binary_has_separators_between_records_alone() {
    check(&[
        (1, b"[\x20]", "refused 1 1"),
        (1, b";#", "refused 10 1"),
        (1, b"\x0B", "refused 1 0"),
        (1, b"", "more"),
    ]);
    assert_eq!(
        frame(64, 0, &[b"\x0B"]),
        "refused 20 0 1 0 readings 1 nexts 1"
    );
    assert_eq!(
        frame(64, 0, &[b"#\x04\x05"]),
        "0 1 row; 1 1 row; 2 1 row; end 3 readings 3 nexts 0"
    );
}

#[test]
fn tokens() {
    check(&[
        (7, b"<", "< at 0 end 1"),
        (7, b"\x01\x04ab", "string 2 2 at 0 end 4"),
        (7, b"\x01\x00", "string 2 0 at 0 end 2"),
        (7, b"\x02\x03", "int64 -2 at 0 end 2"),
        (7, b"\x06\x03", "uint64 3 at 0 end 2"),
        (7, b"\x04", "false at 0 end 1"),
        (7, b"\x05", "true at 0 end 1"),
        (
            7,
            b"\x03\x00\x00\x00\x00\x00\x00\xF0\x3F",
            "double 3ff0000000000000 at 0 end 9",
        ),
        (
            7,
            b"\x03\x01\x00\x00\x00\x00\x00\xF0\x7F",
            "double 7ff0000000000001 at 0 end 9",
        ),
        (8, b" %nan", "double 7ff8000000000000 at 1 end 5"),
        (8, b"%inf", "double 7ff0000000000000 at 0 end 4"),
        (8, b"%-inf", "double fff0000000000000 at 0 end 5"),
        (8, b" -1.5e3;", "decimal 1 6 at 1 end 7"),
        (8, b" ab-c. ", "string 1 5 at 1 end 6"),
        (8, br#" "ab""#, "string 2 2 at 1 end 5"),
        (8, br#"/**/"\n\"" "#, "escaped 5 4 at 4 end 10"),
        (8, br#""""#, "string 1 0 at 0 end 2"),
        (8, b"-7u", "refused 6 0"),
        (8, b"\n!", "refused 1 1"),
        (8, b"// ", "more"),
    ]);
    // places count from the first of the bytes, whatever the place
    assert_eq!(ask(7, b"\x02\0\0\0##\x01\x02a"), "string 4 1 at 2 end 5");
    assert_eq!(ask(8, b"\x01\0\0\0[ \"\\\\\""), "escaped 3 2 at 2 end 6");
    assert_eq!(ask(8, b"\x01\0\0\0[ %x"), "refused 9 2");
    assert_eq!(ask(8, b"\x01\0\0\0[ !"), "refused 1 2");
    assert_eq!(ask(7, b"\x02\0\0\0##"), "more");
    assert_eq!(ask(7, b"\x03\0\0\0##"), "refused 26");
    assert_eq!(ask(3, b"\x01\0\0\0\x80\x96\x01"), "value 150 3");
    assert_eq!(ask(3, b"\x02\0\0\0\x00\x00"), "more");
    assert_eq!(ask(3, b"\x03\0\0\0\x00\x00"), "refused 26");
    let late = [b"\x01\0\0\0\0".as_slice(), &[0xFF; 9], b"\x7F"].concat();
    assert_eq!(ask(4, &late), "refused 4 1");
}

#[test]
fn string_bytes_in_order() {
    let ask_room = |kind, place: u32, room: u32, bytes: &[u8]| {
        ask(
            kind,
            &[&place.to_le_bytes(), &room.to_le_bytes(), bytes].concat(),
        )
    };
    assert_eq!(ask_room(9, 0, 3, b"\x01\x04ab"), "string 2 end 4 6162aa");
    assert_eq!(ask_room(9, 0, 1, b"\x01\x04ab"), "refused 27 aa");
    assert_eq!(ask_room(9, 0, 0, b"\x01\x04ab"), "refused 27 -");
    assert_eq!(ask_room(9, 0, 0, b"\x01\x00"), "string 0 end 2 -");
    assert_eq!(ask_room(9, 0, 1, b"\x01\x04a"), "more aa");
    assert_eq!(ask_room(9, 0, 1, b"\x01\x01a"), "refused 2 0 aa");
    assert_eq!(ask_room(9, 0, 1, b"#"), "refused 14 aa");
    assert_eq!(ask_room(9, 2, 1, b"#"), "refused 26 aa");
    assert_eq!(
        ask_room(10, 1, 4, br#" "\x41b""#),
        "string 2 end 8 4162aaaa"
    );
    assert_eq!(ask_room(10, 0, 0, b"\"\\xzz\""), "refused 5 0 -");
    assert_eq!(ask_room(10, 0, 2, b"%true"), "refused 14 aaaa");
    assert_eq!(ask_room(10, 0, 65_537, b"a"), "too long");
}

#[test]
fn writing() {
    let ask_value =
        |kind, value: u64, room: u8| ask(kind, &[&value.to_le_bytes(), [room].as_slice()].concat());
    assert_eq!(ask_value(5, 0, 1), "wrote 1 00");
    assert_eq!(ask_value(5, 0, 0), "refused 27 -");
    assert_eq!(ask_value(5, 300, 3), "wrote 2 ac02aa");
    assert_eq!(ask_value(5, 300, 1), "refused 27 aa");
    assert_eq!(ask_value(5, u64::MAX, 10), "wrote 10 ffffffffffffffffff01");
    assert_eq!(ask_value(6, u64::MAX, 2), "wrote 1 01aa");
    assert_eq!(ask_value(6, 1 << 63, 10), "wrote 10 ffffffffffffffffff01");
    assert_eq!(ask_value(6, 1, 1), "wrote 1 02");
}

#[test]
fn frames() {
    let program =
        b"\x7B\x01\x02\x61\x3D\x02\x02\x7D\x3B\x0A\x5B\x02\x02\x02\x04\x5D\x3B\x3C\x3E\x23";
    let records = "0 8 row; 10 6 row; 17 3 control; end 20";
    assert_eq!(
        frame(65_536, 0, &[program]),
        format!("{records} readings 12 nexts 0")
    );
    let bytes: Vec<&[u8]> = program.chunks(1).collect();
    // tokens cut inside: the key of three bytes waits twice, each number once
    assert_eq!(
        frame(64, 0, &bytes),
        format!("{records} readings 17 nexts 5")
    );

    // N = 64: `[` and 63 `;` is 22 even at the stream's end
    let mut open = vec![b';'; 66];
    open[0] = b'[';
    assert_eq!(
        frame(64, 0, &[&open[..64]]),
        "refused 22 0 64 readings 64 nexts 0"
    );
    assert_eq!(
        frame(64, 0, &[&open[..63]]),
        "refused 21 0 63 readings 63 nexts 0"
    );
    assert_eq!(
        frame(65, 0, &[&open[..64]]),
        "refused 21 0 64 readings 64 nexts 0"
    );
    // a bad byte as byte 64 is 20, as byte 65 it is 22
    let mut bad = open.clone();
    bad[63] = 0xFF;
    assert_eq!(
        frame(64, 5, &[&bad]),
        "refused 20 5 1 63 readings 64 nexts 1"
    );
    let mut bad = open.clone();
    bad[64] = 0xFF;
    assert_eq!(frame(64, 5, &[&bad]), "refused 22 5 64 readings 64 nexts 0");

    // an unfinished token is read again by each next
    assert_eq!(
        frame(64, 0, &[b"\x02\x80"]),
        "refused 21 0 2 readings 2 nexts 2"
    );
    assert_eq!(
        frame(64, 0, &[b"\x02\x80", b"", b"\x00"]),
        "0 3 row; end 3 readings 3 nexts 2"
    );
    // a token wrong for its place is refused and is not passed
    assert_eq!(
        frame(64, 9, &[b" {", b"#"]),
        "refused 20 10 11 2 readings 2 nexts 1"
    );
    // separators alone
    assert_eq!(frame(64, 1, &[b";; \n", b"\t"]), "end 6 readings 0 nexts 0");
    // a piece longer than the buffer is offered again
    let many = [b'#'; 200];
    assert!(frame(64, 0, &[&many]).ends_with("199 1 row; end 200 readings 200 nexts 0"));
}

#[test]
fn the_last_offset() {
    let max = u64::MAX;
    assert_eq!(frame(64, max, &[]), format!("end {max} readings 0 nexts 0"));
    assert_eq!(
        frame(64, max, &[b"", b""]),
        format!("end {max} readings 0 nexts 0")
    );
    assert_eq!(frame(64, max, &[b"#"]), "refused 25 readings 0 nexts 0");
    assert_eq!(
        frame(64, max - 1, &[b"#"]),
        format!("{} 1 row; end {max} readings 1 nexts 0", max - 1)
    );
    assert_eq!(
        frame(64, max - 2, &[b"#", b"[", b"]"]),
        format!("{} 1 row; refused 25 readings 2 nexts 0", max - 2)
    );
    // what stops before that piece is offered stops the run
    assert_eq!(
        frame(64, max - 1, &[b"\xFF", b"#"]),
        format!("refused 20 {} 1 0 readings 1 nexts 1", max - 1)
    );
    // the whole piece counts, not what there is room for
    assert_eq!(
        frame(64, max - 99, &[&[b';'; 100]]),
        "refused 25 readings 0 nexts 0"
    );
    assert_eq!(
        frame(64, max - 100, &[&[b';'; 100]]),
        format!("end {max} readings 0 nexts 0")
    );
}

#[test]
fn cases_that_are_none() {
    for kind in [0, 12, 255] {
        assert_eq!(ask(kind, b"abc"), "bad case");
    }
    assert_eq!(ask(3, b"\0\0\0"), "bad case");
    assert_eq!(ask(8, b""), "bad case");
    assert_eq!(ask(9, b"\0\0\0\0\0\0\0"), "bad case");
    assert_eq!(ask(5, &[0; 8]), "bad case");
    assert_eq!(ask(5, &[0; 10]), "bad case");
    assert_eq!(ask(11, &[64, 0, 0, 0, 0, 0, 0, 0, 0, 0, 0]), "bad case");
    assert_eq!(
        ask(11, &[64, 0, 0, 0, 0, 0, 0, 0, 0, 0, 0, 0, 1]),
        "bad case"
    );
    assert_eq!(
        ask(11, &[64, 0, 0, 0, 0, 0, 0, 0, 0, 0, 0, 0, 2, 0, 35]),
        "bad case"
    );

    assert_eq!(ask(1, &[4; 65_536]), "length 1");
    assert_eq!(ask(1, &[4; 65_537]), "too long");
    assert_eq!(ask(3, &[0; 65_540]), "value 0 1");
    assert_eq!(ask(3, &[0; 65_541]), "too long");
    assert_eq!(frame(65_538, 0, &[]), "too long");
}

#[test]
fn input_that_ends_inside_a_case() {
    let ask_all = |mut input: &[u8]| {
        let mut out = Vec::new();
        oracle::answer::answer_all(&mut input, &mut out).unwrap();
        String::from_utf8(out).unwrap()
    };
    assert_eq!(ask_all(b""), "");
    assert_eq!(ask_all(b"\x01\x01\0\0\0#"), "length 1\n");
    assert_eq!(ask_all(b"\x01\x01\0\0\0#\x01"), "length 1\ncut short\n");
    assert_eq!(ask_all(b"\x01\x01\0\0\0"), "cut short\n");
    assert_eq!(ask_all(b"\x00\x05\0\0\0#"), "cut short\n");
}

#[test]
#[should_panic(expected = "has no number")]
fn an_unknown_text_is_not_mapped() {
    refusal::number(&YsonError::Custom("Invalid int64: abc".into()));
}

#[test]
#[should_panic(expected = "cannot arise")]
fn an_unknown_variant_is_not_mapped() {
    refusal::number(&YsonError::MalformedVarint(0));
}
