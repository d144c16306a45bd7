//! The generator: the same seed gives the same cases, and every answer that a
//! kind has comes out of them.

use std::collections::BTreeSet;

use oracle::{
    answer::answer_all,
    r#gen::{KINDS, Options, generate},
};

fn cases(options: &Options) -> Vec<u8> {
    let mut out = Vec::new();
    generate(options, &mut out).unwrap();
    out
}

fn answers(mut cases: &[u8]) -> Vec<String> {
    let mut out = Vec::new();
    answer_all(&mut cases, &mut out).unwrap();
    String::from_utf8(out)
        .unwrap()
        .lines()
        .map(String::from)
        .collect()
}

fn options(cases: u64, kinds: &[u8]) -> Options {
    Options {
        cases,
        seed: 1,
        kinds: kinds.into(),
        small: false,
        cut: false,
    }
}

#[test]
fn a_seed_decides_the_cases() {
    let one = options(3_000, &KINDS);
    let other = Options {
        seed: 2,
        ..one.clone()
    };
    assert_eq!(cases(&one), cases(&one));
    assert_ne!(cases(&one), cases(&other));
}

#[test]
fn each_case_has_one_line() {
    let whole = options(5_000, &KINDS);
    assert_eq!(answers(&cases(&whole)).len(), 5_000);
    for seed in 0..20 {
        let cut = Options {
            seed,
            cut: true,
            ..options(30, &KINDS[seed as usize % 11..])
        };
        let lines = answers(&cases(&cut));
        assert_eq!(lines.len(), 31);
        assert_eq!(lines[30], "cut short");
    }
}

#[test]
fn a_small_sample_is_small_and_ends_too_long() {
    let small = Options {
        small: true,
        cut: true,
        ..options(1_200, &KINDS)
    };
    let bytes = cases(&small);
    assert!(bytes.len() < 300_000);
    let lines = answers(&bytes);
    assert_eq!(lines[1_199..], ["too long", "cut short"]);
    assert!(lines.contains(&"bad case".into()));
}

/// The words that tell the answers of a kind apart: numbers of refusals with it,
/// and the inner number of 20.
fn told_apart(line: &str) -> String {
    // the records of a frame stand before its last answer
    let last = match line.starts_with(|c: char| c.is_ascii_digit()) {
        true => line.rsplit("; ").next().unwrap(),
        false => line,
    };
    let mut words = last.split(' ');
    match (words.next().unwrap(), words.next()) {
        ("refused", Some("20")) => format!("20:{}", words.nth(1).unwrap()),
        ("refused", Some(number)) => number.into(),
        (word, _) => word.into(),
    }
}

#[test]
fn every_answer_of_every_kind_comes_out() {
    const TOKENS: &str = "< > [ ] { } = ; # string int64 uint64 double true false more";
    let tokens = |more: &str| format!("{TOKENS} {more}");
    let expected: [(&[u8], String); 7] = [
        (&[1], "length more 1 2 3 4 10 11 12 13 bad".into()),
        (&[2], "length more 1 5 6 7 8 9 10 11 12 13 bad".into()),
        (&[3, 4], "value more 3 4 26 bad".into()),
        (&[5, 6], "wrote 27 bad".into()),
        (&[7], tokens("1 2 3 4 26 bad")),
        (&[8], tokens("escaped decimal 1 5 6 7 8 9 26 bad")),
        (
            &[11],
            "end 20:1 20:2 20:3 20:4 20:10 20:11 20:12 20:13 21 22 23 25 too bad".into(),
        ),
    ];
    for (kinds, words) in expected {
        let lines = answers(&cases(&options(40_000, kinds)));
        let found: BTreeSet<String> = lines.iter().map(|line| told_apart(line)).collect();
        for word in words.split(' ') {
            assert!(found.contains(word), "kinds {kinds:?} never answer {word}");
        }
    }
    for (kind, words) in [
        (9, "string more 1 2 3 4 14 26 27 too bad"),
        (10, "string more 1 5 6 7 8 9 14 26 27 too bad"),
    ] {
        let lines = answers(&cases(&options(40_000, &[kind])));
        let found: BTreeSet<String> = lines.iter().map(|line| told_apart(line)).collect();
        for word in words.split(' ') {
            assert!(found.contains(word), "kind {kind} never answers {word}");
        }
    }
}
