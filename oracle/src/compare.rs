//! Holds two files of answers to the same cases beside each other.

use std::io::{self, BufRead, Write};

use crate::answer::read_case;

/// Differences that are shown; the rest are only counted.
const SHOWN: u64 = 10;
/// What is shown of a case or of a line, at most.
const CUT: usize = 600;

/// What a comparison found.
#[derive(Debug, Default, PartialEq, Eq)]
pub struct Compared {
    /// Lines that both sides have.
    pub lines: u64,
    /// Lines that differ, and lines that only one side has.
    pub different: u64,
    /// Whether cases are left over for which neither side has a line.
    pub unanswered: bool,
}

impl Compared {
    /// Whether every case has its line on both sides and all lines are equal.
    pub fn equal(&self) -> bool {
        self.different == 0 && !self.unanswered
    }
}

/// Compares line for line and reports the first differences with their cases.
pub fn compare(
    cases: &mut impl BufRead,
    names: [&str; 2],
    left: &mut impl BufRead,
    right: &mut impl BufRead,
    report: &mut impl Write,
) -> io::Result<Compared> {
    let mut found = Compared::default();
    let mut payload = Vec::new();
    let mut lines = [Vec::new(), Vec::new()];
    for number in 1u64.. {
        lines.iter_mut().for_each(Vec::clear);
        left.read_until(b'\n', &mut lines[0])?;
        right.read_until(b'\n', &mut lines[1])?;
        match lines.iter().filter(|line| !line.is_empty()).count() {
            0 => break,
            1 => {}
            _ => found.lines += 1,
        }
        let case = read_case(cases, &mut payload)?;
        // A last line without its newline is a difference too.
        if lines[0] == lines[1] {
            continue;
        }
        found.different += 1;
        if found.different > SHOWN {
            continue;
        }
        match case {
            Some(kind) => writeln!(
                report,
                "line {number}: kind {kind}, payload of {} bytes {}",
                payload.len(),
                cut(&hex(&payload))
            )?,
            None => writeln!(report, "line {number}: no whole case belongs to it")?,
        }
        for (name, line) in names.iter().zip(&lines) {
            let text = match line.is_empty() {
                true => "(no line)".into(),
                false => cut(String::from_utf8_lossy(line).trim_end_matches('\n')),
            };
            writeln!(report, "  {name}: {text}")?;
        }
    }
    found.unanswered = !cases.fill_buf()?.is_empty();
    Ok(found)
}

fn hex(bytes: &[u8]) -> String {
    bytes.iter().take(CUT).map(|b| format!("{b:02x}")).collect()
}

fn cut(text: &str) -> String {
    match text.char_indices().nth(CUT) {
        Some((at, _)) => format!("{}..", &text[..at]),
        None => text.into(),
    }
}
