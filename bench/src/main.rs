//! How fast is the proved scan beside the Rust? Both go over the same bytes in one
//! process, by turns, and the best round of each counts.

mod corpora;

use std::{
    hint::black_box,
    process::ExitCode,
    time::{Duration, Instant},
};

use corpora::{all, by_length, Corpus};
use onionsail::Format;
use oracle::{
    answer::count_tokens,
    scan::{scan_value, Scan},
    ser::YsonFormat,
};

const USAGE: &str = "\
usage: bench [--rounds N] [--only CORPUS] [--alone old|new]
  --rounds: rounds of each corpus, of which the best counts (default 40)
  --only: the corpus of that name alone
  --alone: no table; that side alone goes over each corpus so many rounds, to be counted from outside, and what is printed is the
           corpus, its bytes and its tokens
";

/// What one side takes for a round, at least; a round repeats the corpus until then.
const ROUND: Duration = Duration::from_millis(4);

/// Finds the length of the first record.
type Length = fn(&[u8], Format) -> usize;

fn proved(bytes: &[u8], format: Format) -> usize {
    match onionsail::scan(format, bytes) {
        Ok(onionsail::Scan::Complete { len }) => len,
        other => panic!("no whole record: {other:?}"),
    }
}

fn yson(format: Format) -> YsonFormat {
    match format {
        Format::Binary => YsonFormat::Binary,
        Format::Text => YsonFormat::Text,
    }
}

fn original(bytes: &[u8], format: Format) -> usize {
    match scan_value(bytes, yson(format)) {
        Ok(Scan::Complete { len }) => len,
        other => panic!("no whole record: {other:?}"),
    }
}

/// Goes over all records and gives their number and a sum that differs where one
/// record's end does.
fn pass(corpus: &Corpus, length: Length) -> (u64, u64) {
    let (mut records, mut sum) = (0, 0u64);
    let mut rest = corpus.bytes.as_slice();
    loop {
        while let [b';' | b'\n', after @ ..] = rest {
            rest = after;
        }
        if rest.is_empty() {
            return (records, sum);
        }
        let len = length(rest, corpus.format);
        rest = &rest[len..];
        records += 1;
        sum = sum.wrapping_mul(31).wrapping_add(len as u64);
    }
}

/// The time of one pass, over `passes` of them.
fn time(corpus: &Corpus, length: Length, passes: u32) -> Duration {
    let begin = Instant::now();
    for _ in 0..passes {
        black_box(pass(black_box(corpus), length));
    }
    begin.elapsed() / passes
}

/// The best time of each side: the Rust's, and the proved scan's.
fn measure(corpus: &Corpus, rounds: u32) -> [Duration; 2] {
    let sides: [Length; 2] = [original, proved];
    let passes = sides.map(|side| {
        time(corpus, side, 1); // the first pass only warms up
        let once = time(corpus, side, 1).max(Duration::from_nanos(1));
        (ROUND.as_nanos() / once.as_nanos()).clamp(1, 1 << 20) as u32
    });
    let mut best = [Duration::MAX; 2];
    for round in 0..rounds {
        // by turns, and each side first in every second round
        for turn in 0..2 {
            let side = (turn + round as usize) % 2;
            best[side] = best[side].min(time(corpus, sides[side], passes[side]));
        }
    }
    best
}

fn megabytes_a_second(corpus: &Corpus, time: Duration) -> f64 {
    corpus.bytes.len() as f64 / 1e6 / time.as_secs_f64()
}

fn main() -> ExitCode {
    let mut rounds = 40;
    let mut only = None;
    let mut alone: Option<Length> = None;
    let mut words = std::env::args().skip(1);
    while let Some(word) = words.next() {
        match (word.as_str(), words.next()) {
            ("--rounds", Some(value)) if value.parse().is_ok_and(|n: u32| n > 0) => {
                rounds = value.parse().unwrap_or(rounds);
            }
            ("--only", Some(value)) => only = Some(value),
            ("--alone", Some(value)) if value == "old" => alone = Some(original),
            ("--alone", Some(value)) if value == "new" => alone = Some(proved),
            _ => {
                eprint!("bench: cannot make sense of: {word} ..\n{USAGE}");
                return ExitCode::from(2);
            }
        }
    }
    let mut corpora = all();
    let mut lengths = by_length();
    if let Some(name) = only {
        let names: Vec<&str> = corpora.iter().chain(&lengths).map(|c| c.name).collect();
        corpora.retain(|corpus| corpus.name == name);
        lengths.retain(|corpus| corpus.name == name);
        if corpora.is_empty() && lengths.is_empty() {
            eprintln!("bench: there is no corpus {name}: {}", names.join(", "));
            return ExitCode::from(2);
        }
    }

    if let Some(side) = alone {
        for corpus in corpora.iter().chain(&lengths) {
            for _ in 0..rounds {
                black_box(pass(black_box(corpus), side));
            }
            let tokens = count_tokens(&corpus.bytes, yson(corpus.format));
            println!("{}\t{}\t{tokens}", corpus.name, corpus.bytes.len());
        }
        return ExitCode::SUCCESS;
    }
    println!(
        "Machine: {}. Best of {rounds} rounds by turns; ratio is time of the proved scan by time of the Rust, below 1 is faster.",
        std::env::consts::ARCH
    );
    if !corpora.is_empty() {
        let Some(mean) = table("corpus", &corpora, rounds) else {
            return ExitCode::from(2);
        };
        println!("| geometric mean | | | | | {mean:.2} |");
    }
    if !lengths.is_empty() && table("quoted text by length", &lengths, rounds).is_none() {
        return ExitCode::from(2);
    }
    ExitCode::SUCCESS
}

/// Prints a table of some corpora and gives the ratios' geometric mean, or nothing where
/// the two sides do not find the same records.
fn table(title: &str, corpora: &[Corpus], rounds: u32) -> Option<f64> {
    println!("\n| {title} | records | bytes a record | Rust MB/s | proved MB/s | ratio |");
    println!("|---|---|---|---|---|---|");
    let mut logs = 0.0;
    for corpus in corpora {
        let (records, sum) = pass(corpus, original);
        if (records, sum) != pass(corpus, proved) {
            eprintln!("bench: the two sides differ on corpus {}", corpus.name);
            return None;
        }
        let [old, new] = measure(corpus, rounds);
        let ratio = new.as_secs_f64() / old.as_secs_f64();
        logs += ratio.ln();
        println!(
            "| {} | {records} | {} | {:.0} | {:.0} | {ratio:.2} |",
            corpus.name,
            corpus.bytes.len() as u64 / records,
            megabytes_a_second(corpus, old),
            megabytes_a_second(corpus, new),
        );
    }
    Some((logs / corpora.len() as f64).exp())
}
