//! `oracle gen`, `oracle answer`, `oracle compare`.

use std::{
    fs::File,
    io::{self, BufReader, BufWriter, ErrorKind, Write},
    process::ExitCode,
};

use oracle::{
    answer::answer_all,
    compare::compare,
    r#gen::{self, Options},
};

const USAGE: &str = "\
usage:
  oracle gen --cases N --seed S [--kinds 3,4,5,6] [--small] [--cut]
      writes N cases to standard output; --kinds: only these (default: 1 to 11);
      --small: short payloads only; --cut: one more case, cut short by the end
  oracle answer
      reads cases from standard input, writes one answer line for each
  oracle compare CASES NAME ANSWERS NAME ANSWERS
      holds two files of answers to the same cases beside each other; prints the
      number of lines compared and the first differences; status 1 where one is
";

const BUFFER: usize = 1 << 18;

fn main() -> ExitCode {
    let words: Vec<String> = std::env::args().skip(1).collect();
    let words: Vec<&str> = words.iter().map(String::as_str).collect();
    let done = match words.as_slice() {
        ["gen", rest @ ..] => match options(rest) {
            Ok(options) => run_gen(&options),
            Err(why) => return usage(&why),
        },
        ["answer"] => run_answer(),
        ["compare", cases, left, a, right, b] => match run_compare(cases, [left, right], [a, b]) {
            Ok(true) => Ok(()),
            Ok(false) => return ExitCode::from(1),
            Err(error) => Err(error),
        },
        [] => return usage("a command is missing"),
        [word, ..] => return usage(&format!("cannot make sense of: {word} ..")),
    };
    match done {
        Ok(()) => ExitCode::SUCCESS,
        // Whoever reads the output has seen enough.
        Err(error) if error.kind() == ErrorKind::BrokenPipe => ExitCode::SUCCESS,
        Err(error) => {
            eprintln!("oracle: {error}");
            ExitCode::from(2)
        }
    }
}

fn usage(why: &str) -> ExitCode {
    eprint!("oracle: {why}\n{USAGE}");
    ExitCode::from(2)
}

fn options(words: &[&str]) -> Result<Options, String> {
    let mut cases = None;
    let mut seed = None;
    let mut kinds = r#gen::KINDS.to_vec();
    let mut small = false;
    let mut cut = false;
    let mut words = words.iter();
    while let Some(word) = words.next() {
        let mut value = || words.next().ok_or(format!("{word} needs a value"));
        match *word {
            "--cases" => cases = Some(parse(value()?, word)?),
            "--seed" => seed = Some(parse(value()?, word)?),
            "--kinds" => {
                kinds = value()?
                    .split(',')
                    .map(|kind| match kind.parse() {
                        Ok(kind) if r#gen::KINDS.contains(&kind) => Ok(kind),
                        _ => Err(format!("there is no kind {kind}")),
                    })
                    .collect::<Result<_, _>>()?;
            }
            "--small" => small = true,
            "--cut" => cut = true,
            _ => return Err(format!("there is no option {word}")),
        }
    }
    Ok(Options {
        cases: cases.ok_or("--cases is missing")?,
        seed: seed.ok_or("--seed is missing")?,
        kinds,
        small,
        cut,
    })
}

fn parse(value: &str, name: &str) -> Result<u64, String> {
    value
        .parse()
        .map_err(|_| format!("{name} needs a number below 2^64, not {value}"))
}

fn run_gen(options: &Options) -> io::Result<()> {
    let mut out = BufWriter::with_capacity(BUFFER, io::stdout().lock());
    r#gen::generate(options, &mut out)?;
    out.flush()
}

fn run_answer() -> io::Result<()> {
    let mut input = BufReader::with_capacity(BUFFER, io::stdin().lock());
    let mut out = BufWriter::with_capacity(BUFFER, io::stdout().lock());
    answer_all(&mut input, &mut out)?;
    out.flush()
}

fn run_compare(cases: &str, names: [&str; 2], files: [&str; 2]) -> io::Result<bool> {
    let open = |path: &str| {
        File::open(path)
            .map(|file| BufReader::with_capacity(BUFFER, file))
            .map_err(|error| io::Error::new(error.kind(), format!("{path}: {error}")))
    };
    let mut out = io::stdout().lock();
    let found = compare(
        &mut open(cases)?,
        names,
        &mut open(files[0])?,
        &mut open(files[1])?,
        &mut out,
    )?;
    if found.unanswered {
        writeln!(out, "cases are left over that neither side answered")?;
    }
    writeln!(
        out,
        "{} lines compared, {} different",
        found.lines, found.different
    )?;
    Ok(found.equal())
}
