//! The job of examples/job.rs, run as a program.

use std::{
    env,
    io::Write,
    path::PathBuf,
    process::{Command, Output, Stdio},
};

/// Three records: two rows and one that is for the job.
const SAMPLE: &[u8; 20] = b"{\x01\x02a=\x02\x02};\n[\x02\x02\x02\x04];<>#";

/// Cargo builds the examples beside the tests.
fn program() -> PathBuf {
    let this = env::current_exe().unwrap();
    let built = this.parent().unwrap().parent().unwrap();
    let program = built.join("examples/job");
    assert!(program.exists(), "run all tests, not this file alone");
    program
}

fn run(pieces: &[&[u8]]) -> Output {
    let mut job = Command::new(program())
        .stdin(Stdio::piped())
        .stdout(Stdio::piped())
        .stderr(Stdio::piped())
        .spawn()
        .unwrap();
    let mut input = job.stdin.take().unwrap();
    for piece in pieces {
        // A job that refuses the stream stops reading it.
        let _ = input.write_all(piece);
    }
    drop(input);
    job.wait_with_output().unwrap()
}

#[test]
fn the_sample_stream() {
    let done = run(&[SAMPLE]);
    assert!(done.status.success(), "{done:?}");
    assert_eq!(done.stdout, b"{\x01\x02a=\x02\x02};[\x02\x02\x02\x04];");
}

#[test]
fn one_byte_at_a_time() {
    let pieces: Vec<&[u8]> = SAMPLE.chunks(1).collect();
    assert_eq!(run(&pieces).stdout, run(&[SAMPLE]).stdout);
}

#[test]
fn a_record_longer_than_the_first_buffer() {
    let mut long = b"\x01\x80\x80\x10".to_vec(); // a string of 131,072 bytes
    long.resize(4 + (1 << 17), b'x');
    let done = run(&[&long, b";", SAMPLE]);
    assert!(done.status.success());
    assert_eq!(done.stdout[..long.len()], long);
    assert_eq!(done.stdout.len(), long.len() + 1 + 16);
}

#[test]
fn nothing_is_no_record() {
    let done = run(&[b"; \n"]);
    assert!(done.status.success());
    assert_eq!(done.stdout, b"");
}

#[test]
fn a_bad_stream_is_refused_with_its_offset() {
    for (stream, words) in [
        (b"#;{=".as_slice(), "record at 2: a token that is no string"),
        (b"#;[#", "record at 2: cut short"),
    ] {
        let done = run(&[stream]);
        let said = String::from_utf8(done.stderr).unwrap();
        assert!(!done.status.success());
        assert!(said.contains(words), "{said}");
    }
}

#[test]
fn the_readme_shows_this_job() {
    let readme = include_str!("../README.md");
    let job = include_str!("../examples/job.rs");
    assert!(readme.contains(&format!("```rust\n{job}```")));
}
