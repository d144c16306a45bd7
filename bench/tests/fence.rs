//! The comparison notices what it is there for.

use std::process::{Command, Output};

fn differential(words: &[&str]) -> Output {
    Command::new(env!("CARGO_BIN_EXE_differential"))
        .args(words)
        .output()
        .unwrap()
}

#[test]
fn a_read_past_the_end_is_reported_with_its_input() {
    let done = differential(&["--touch-fence"]);
    assert_eq!(done.status.code(), Some(1));
    let said = String::from_utf8(done.stderr).unwrap();
    assert!(
        said.ends_with("was read. Format 0, bytes 01 02\n"),
        "{said}"
    );
}

#[test]
fn a_run_has_every_answer() {
    let done = differential(&["--cases", "200000", "--threads", "2"]);
    let said = String::from_utf8(done.stdout).unwrap();
    assert!(done.status.success(), "{said}");
    assert!(
        said.contains("200000 cases compared, 0 different"),
        "{said}"
    );
    for number in (1..=13).chain([29]) {
        assert!(
            said.contains(&format!(" {number}: ")),
            "none refused {number}: {said}"
        );
    }
}

#[test]
fn other_words_are_refused() {
    for words in [
        &["--cases"][..],
        &["--cases", "x"],
        &["--lots", "1"],
        &["--threads", "0"],
    ] {
        assert_eq!(differential(words).status.code(), Some(2), "{words:?}");
    }
}
