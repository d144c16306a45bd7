//! How fast is the stream reader beside the Rust's framing? Program `records` against a twin on the oracle's framing, each a process of
//! its own over the same file; and the reader alone, by program `deliveries`, against the framing in this process.

#[allow(dead_code)] // the table by length is the other program's
#[path = "../corpora.rs"]
mod corpora;

use std::{
    fs::File,
    hint::black_box,
    io::{self, BufWriter, Read, Write},
    path::Path,
    process::{Command, ExitCode, Stdio},
    time::{Duration, Instant},
};

use corpora::{all, Corpus};
use onionsail::{scan, Format, Scan};
use oracle::framing::{JobError, JobReader};

const USAGE: &str = "\
usage: streams twin < FILE              the twin of program records
       streams measure FOLDER ROUNDS RECORDS.. -- DELIVERIES..
  FOLDER: where files may be written; RECORDS and DELIVERIES: the words that run these programs
";

/// Bytes of the buffer on both sides.
const N: usize = 65_536;

/// Bytes of a file that `records` and its twin read.
const FILE: usize = 64 << 20;

fn main() -> ExitCode {
    let words: Vec<String> = std::env::args().skip(1).collect();
    match words.first().map(String::as_str) {
        Some("twin") if words.len() == 1 => match twin() {
            Ok(()) => ExitCode::SUCCESS,
            Err(error) => {
                eprintln!("streams: {error}");
                ExitCode::from(2)
            }
        },
        Some("measure") => {
            let Some((folder, rounds, records, deliveries)) = parts(&words[1..]) else {
                eprint!("{USAGE}");
                return ExitCode::from(2);
            };
            match measure(Path::new(folder), rounds, records, deliveries) {
                Ok(()) => ExitCode::SUCCESS,
                Err(error) => {
                    eprintln!("streams: {error}");
                    ExitCode::from(2)
                }
            }
        }
        _ => {
            eprint!("{USAGE}");
            ExitCode::from(2)
        }
    }
}

fn parts(words: &[String]) -> Option<(&str, u32, &[String], &[String])> {
    let (folder, rest) = words.split_first()?;
    let (rounds, rest) = rest.split_first()?;
    let at = rest.iter().position(|word| word == "--")?;
    Some((folder, rounds.parse().ok()?, &rest[..at], &rest[at + 1..]))
}

/// Prints what program `records` prints, by the oracle's framing.
fn twin() -> io::Result<()> {
    let mut out = BufWriter::with_capacity(N, io::stdout().lock());
    writeln!(out, "offset length mark")?;
    let mut reader = JobReader::new(io::stdin().lock(), N, 0);
    let (mut records, mut end) = (0u64, 0u64);
    loop {
        match reader.next_record() {
            Ok(Some(record)) => {
                let mark = if record.bytes[0] == b'<' {
                    "control"
                } else {
                    "row"
                };
                end = record.offset + record.bytes.len() as u64;
                writeln!(out, "{} {} {mark}", record.offset, record.bytes.len())?;
                records += 1;
            }
            Ok(None) => break,
            Err(JobError::Yson { offset, .. }) => return last(out, 20, offset),
            Err(JobError::TruncatedRecord { offset, .. }) => return last(out, 21, offset),
            Err(JobError::RecordTooLarge { offset, .. }) => return last(out, 22, offset),
            Err(JobError::Read(error)) => return Err(error),
        }
    }
    // the framing does not say where the stream ends; the files end in one separator
    writeln!(out, "end {} records {records}", end + 1)?;
    out.flush()
}

fn last(mut out: impl Write, number: u32, offset: u64) -> io::Result<()> {
    writeln!(out, "refused {number} {offset}")?;
    out.flush()
}

/// The time of one run of a program over a file.
fn run(words: &[String], input: &Path, output: Option<&Path>) -> io::Result<Duration> {
    let stdout = match output {
        Some(path) => Stdio::from(File::create(path)?),
        None => Stdio::null(),
    };
    let begin = Instant::now();
    let status = Command::new(&words[0])
        .args(&words[1..])
        .stdin(File::open(input)?)
        .stdout(stdout)
        .status()?;
    let time = begin.elapsed();
    if !status.success() {
        return Err(io::Error::other(format!(
            "{} ended with {status}",
            words[0]
        )));
    }
    Ok(time)
}

fn measure(
    folder: &Path,
    rounds: u32,
    records: &[String],
    deliveries: &[String],
) -> io::Result<()> {
    let me = std::env::current_exe()?.to_string_lossy().into_owned();
    let twin = vec![me, "twin".to_owned()];
    println!("program records beside its twin, 64 MB, best of {rounds}");
    for corpus in all() {
        if corpus.format == Format::Binary {
            whole(folder, rounds, &corpus, records, &twin)?;
        }
    }
    println!("program records, time per byte of 1 MB, 4 MB, 16 MB and 64 MB, to that of 64 MB");
    for corpus in all() {
        if corpus.name.starts_with("flat") && corpus.format == Format::Binary {
            growth(folder, rounds, &corpus, records)?;
        }
    }
    println!("the reader beside the framing, deliveries of {N} bytes");
    for corpus in all() {
        if corpus.format == Format::Binary {
            let bytes = records_within(&corpus, N);
            let (new, old) = delivered(folder, rounds, bytes, N, deliveries)?;
            println!("{:24} {:5.2}", corpus.name, ratio(new, old));
        }
    }
    println!(
        "the reader, time per byte of one stream of 1 KB, 8 KB, 64 KB, 512 KB, 4 MB and 64 MB, to that of 64 MB; \
         every stream of a line is the same bytes over and over, as many as are named"
    );
    for corpus in all() {
        if corpus.format == Format::Binary {
            for length in [1 << 10, 8 << 10, N] {
                lengths(folder, rounds, &corpus, length, deliveries)?;
            }
        }
    }
    println!("the reader, time per token at depths 1, 16, 64 and 128, to that at 128");
    let rows = [1, 16, 64, 128].map(|depth| {
        let (bytes, units) = nested(depth);
        Row {
            bytes,
            times: 1,
            units,
        }
    });
    let times = by_turns(folder, rounds, &rows, deliveries)?;
    println!("{:24} {}", "integers in lists", to_last(&times));
    println!("one record of {N} bytes in deliveries: nanoseconds a delivery, and to the framing");
    let record = long_record();
    for size in [1, 16, 256, 4096, N] {
        let (new, old) = delivered(folder, rounds.min(3), &record, size, deliveries)?;
        let pieces = record.len().div_ceil(size) as f64;
        println!(
            "{size:6} bytes {:10.1} ns {:12.6}",
            new.as_secs_f64() * 1e9 / pieces,
            ratio(new, old)
        );
    }
    Ok(())
}

fn ratio(new: Duration, old: Duration) -> f64 {
    new.as_secs_f64() / old.as_secs_f64()
}

/// Each time to the last.
fn to_last(times: &[f64]) -> String {
    let last = times.last().copied().unwrap_or(1.0);
    let ratios: Vec<String> = times
        .iter()
        .map(|time| format!("{:.2}", time / last))
        .collect();
    ratios.join(" ")
}

/// How the reader's time per byte grows with the stream, where the first records of a corpus come over and over, as many as take at most
/// `length` bytes: so a line's streams differ in their length and in nothing else. A corpus with no such record has no line.
fn lengths(
    folder: &Path,
    rounds: u32,
    corpus: &Corpus,
    length: usize,
    deliveries: &[String],
) -> io::Result<()> {
    let content = records_within(corpus, length);
    if content.is_empty() {
        return Ok(());
    }
    let streams = [1 << 10, 8 << 10, N, 8 * N, 64 * N, FILE];
    let rows: Vec<Row> = streams
        .iter()
        .filter(|stream| **stream >= length)
        .map(|stream| {
            let bytes = content.repeat(N.min(*stream) / length);
            let times = (stream / N).max(1) as u32;
            let units = bytes.len() * times as usize;
            Row {
                bytes,
                times,
                units,
            }
        })
        .collect();
    let times = by_turns(folder, rounds, &rows, deliveries)?;
    println!(
        "{:24} {:6} bytes {}",
        corpus.name,
        content.len(),
        to_last(&times)
    );
    Ok(())
}

/// A list of integers inside so many lists, and how many tokens that is.
fn nested(depth: usize) -> (Vec<u8>, usize) {
    let mut bytes = vec![b'['; depth];
    let mut tokens = 2 * depth;
    while bytes.len() + depth + 3 <= N {
        bytes.extend_from_slice(b"\x02\x04;");
        tokens += 2;
    }
    bytes.extend(vec![b']'; depth]);
    (bytes, tokens)
}

/// The first records of a corpus, each with its separator, as many as take at most so many bytes.
fn records_within(corpus: &Corpus, length: usize) -> &[u8] {
    let mut end = 0;
    while let Ok(Scan::Complete { len }) = scan(corpus.format, &corpus.bytes[end..]) {
        if end + len + 1 > length {
            break;
        }
        end += len + 1;
    }
    &corpus.bytes[..end]
}

/// A list of integers, strings and maps that takes exactly N bytes.
fn long_record() -> Vec<u8> {
    let mut bytes = vec![b'['];
    while bytes.len() + 12 < N {
        bytes.extend_from_slice(b"{\x01\x02a=\x02\x04};");
    }
    bytes.resize(N - 1, b';');
    bytes.push(b']');
    bytes
}

fn repeated(corpus: &Corpus, length: usize) -> Vec<u8> {
    let mut bytes = Vec::with_capacity(length);
    while bytes.len() + corpus.bytes.len() <= length {
        bytes.extend_from_slice(&corpus.bytes);
    }
    if bytes.is_empty() {
        bytes.extend_from_slice(records_within(corpus, length));
    }
    bytes
}

/// Both programs over one file, by turns.
fn whole(
    folder: &Path,
    rounds: u32,
    corpus: &Corpus,
    records: &[String],
    twin: &[String],
) -> io::Result<()> {
    let input = folder.join("stream");
    std::fs::write(&input, repeated(corpus, FILE))?;
    let outputs = [folder.join("new"), folder.join("old")];
    run(records, &input, Some(&outputs[0]))?;
    run(twin, &input, Some(&outputs[1]))?;
    if std::fs::read(&outputs[0])? != std::fs::read(&outputs[1])? {
        return Err(io::Error::other(format!(
            "{}: records and its twin differ",
            corpus.name
        )));
    }
    let mut best = [Duration::MAX; 2];
    for round in 0..rounds {
        for turn in 0..2 {
            let side = (turn + round as usize) % 2;
            let words = if side == 0 { records } else { twin };
            best[side] = best[side].min(run(words, &input, None)?);
        }
    }
    println!("{:24} {:5.2}", corpus.name, ratio(best[0], best[1]));
    Ok(())
}

/// How the time per byte grows with the stream.
fn growth(folder: &Path, rounds: u32, corpus: &Corpus, records: &[String]) -> io::Result<()> {
    let input = folder.join("stream");
    let empty = folder.join("empty");
    std::fs::write(&empty, b"")?;
    let mut best = Vec::new();
    for length in [1 << 20, 4 << 20, 16 << 20, FILE] {
        let bytes = repeated(corpus, length);
        std::fs::write(&input, &bytes)?;
        let (mut time, mut start) = (Duration::MAX, Duration::MAX);
        for _ in 0..rounds * if length < FILE { 8 } else { 1 } {
            time = time.min(run(records, &input, None)?);
            start = start.min(run(records, &empty, None)?);
        }
        best.push(time.saturating_sub(start).as_secs_f64() / bytes.len() as f64);
    }
    println!("{:24} {}", corpus.name, to_last(&best));
    Ok(())
}

/// A stream that comes in pieces of one size.
struct Pieces<'a> {
    rest: &'a [u8],
    size: usize,
}

impl Read for Pieces<'_> {
    fn read(&mut self, to: &mut [u8]) -> io::Result<usize> {
        let n = self.size.min(to.len()).min(self.rest.len());
        to[..n].copy_from_slice(&self.rest[..n]);
        self.rest = &self.rest[n..];
        Ok(n)
    }
}

/// One pass of the framing, and the records that it hands out.
fn framed(bytes: &[u8], size: usize) -> u64 {
    let mut reader = JobReader::new(Pieces { rest: bytes, size }, N, 0);
    let mut records = 0;
    while let Ok(Some(record)) = reader.next_record() {
        black_box(record);
        records += 1;
    }
    records
}

/// What program `deliveries` reads: the bytes so many times in one stream, in pieces of one size, and that stream so many times.
fn write_input(path: &Path, bytes: &[u8], size: usize, passes: u32, times: u32) -> io::Result<()> {
    let mut all = (size as u32).to_le_bytes().to_vec();
    all.extend(passes.to_le_bytes());
    all.extend(times.to_le_bytes());
    all.extend_from_slice(bytes);
    std::fs::write(path, all)
}

/// A stream: some bytes so many times, and how many bytes or tokens that is.
struct Row {
    bytes: Vec<u8>,
    times: u32,
    units: usize,
}

/// The time per unit of each stream, whole deliveries. Each row is passed over until it has come to some 64 MB; the rows take turns, and
/// the best turn of each counts.
fn by_turns(folder: &Path, rounds: u32, rows: &[Row], words: &[String]) -> io::Result<Vec<f64>> {
    let mut files = Vec::new();
    for (index, row) in rows.iter().enumerate() {
        let passes = (FILE / (row.bytes.len() * row.times as usize)).max(1) as u32;
        let many = folder.join(format!("row-{index}"));
        let none = folder.join(format!("row-{index}-none"));
        write_input(&many, &row.bytes, N, passes, row.times)?;
        write_input(&none, &row.bytes, N, 0, row.times)?;
        files.push((many, none, passes));
    }
    let mut best = vec![[Duration::MAX; 2]; rows.len()];
    for _ in 0..rounds.max(3) {
        for (index, (many, none, _)) in files.iter().enumerate() {
            best[index][0] = best[index][0].min(run(words, many, None)?);
            best[index][1] = best[index][1].min(run(words, none, None)?);
        }
    }
    Ok(rows
        .iter()
        .zip(&files)
        .zip(&best)
        .map(|((row, (_, _, passes)), [time, start])| {
            time.saturating_sub(*start).as_secs_f64() / (f64::from(*passes) * row.units as f64)
        })
        .collect())
}

/// The time of one pass over a stream in memory: the reader's, and the framing's.
fn delivered(
    folder: &Path,
    rounds: u32,
    bytes: &[u8],
    size: usize,
    words: &[String],
) -> io::Result<(Duration, Duration)> {
    let input = |passes: u32| -> io::Result<std::path::PathBuf> {
        let path = folder.join(format!("deliveries-{passes}"));
        write_input(&path, bytes, size, passes, 1)?;
        Ok(path)
    };
    // Enough passes that the start of the process does not count.
    let few = input(0)?;
    let mut passes = 16;
    loop {
        let path = input(passes)?;
        if run(words, &path, None)?.saturating_sub(run(words, &few, None)?)
            > Duration::from_millis(40)
            || passes > 1 << 24
        {
            break;
        }
        passes *= 4;
    }
    let many = input(passes)?;
    let (mut new, mut start, mut old) = (Duration::MAX, Duration::MAX, Duration::MAX);
    let begin = Instant::now();
    let records = framed(bytes, size);
    let once = begin.elapsed();
    old = old.min(once);
    let repeats =
        (Duration::from_millis(20).as_nanos() / once.as_nanos().max(1)).clamp(1, 1 << 20) as u32;
    for _ in 0..rounds.max(3) {
        new = new.min(run(words, &many, None)?);
        start = start.min(run(words, &few, None)?);
        if once < Duration::from_secs(1) {
            let begin = Instant::now();
            for _ in 0..repeats {
                black_box(framed(black_box(bytes), size));
            }
            old = old.min(begin.elapsed() / repeats);
        }
    }
    black_box(records);
    Ok((new.saturating_sub(start) / passes, old))
}
