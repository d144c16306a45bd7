//! The C call itself: the numbers of `include/onionsail.h`, and 29, which no safe
//! call can get.

use onionsail::Refusal;

extern "C" {
    fn yson_scan(format: u64, bytes: *const u8, length: usize) -> i64;
}

// What brings the archive into this test.
use onionsail as _;

const HEADER: &str = include_str!("../../include/onionsail.h");

#[test]
fn unknown_formats_are_refused() {
    for format in [2, 3, 255, 256, 1 << 32, (1 << 32) + 1, 1 << 63, u64::MAX] {
        // SAFETY: the pointer has as many bytes behind it as is said.
        let number = unsafe { yson_scan(format, b"#".as_ptr(), 1) };
        assert_eq!(number, -29, "format {format}");
    }
}

#[test]
fn too_many_bytes_are_refused_before_one_is_read() {
    for length in [1 << 63, usize::MAX] {
        for format in [0, 1, 2] {
            // No byte stands at this address, so that reading one would end the test.
            let nowhere = std::ptr::dangling::<u8>();
            // SAFETY: the call refuses such a length before it reads.
            let number = unsafe { yson_scan(format, nowhere, length) };
            assert_eq!(number, -29, "format {format}, length {length}");
        }
    }
}

#[test]
fn the_header_has_each_number() {
    let mut named = 0;
    for refusal in Refusal::ALL {
        let name = screaming(&format!("{refusal:?}"));
        let line = format!("#define YSON_{name} INT64_C({})", refusal.number());
        assert!(HEADER.contains(&line), "no line: {line}");
        named += 1;
    }
    let lines = HEADER.matches("INT64_C(").count() - HEADER.matches("UINT64_C(").count();
    // The one more is YSON_INCOMPLETE.
    assert_eq!(lines, named + 1);
}

/// `BadByte` as `BAD_BYTE`.
fn screaming(name: &str) -> String {
    let mut out = String::new();
    for (i, c) in name.char_indices() {
        if i > 0 && c.is_uppercase() {
            out.push('_');
        }
        out.push(c.to_ascii_uppercase());
    }
    out
}
