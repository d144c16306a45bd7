//! Is the archive's answer the Rust's, on every case? Both are asked in one process,
//! and each input ends at a page that cannot be read.
//!
//! A case is some bytes in a format. The generator of `oracle` makes the bytes; each
//! input is asked in both formats, and in its own also cut twice and twice with one
//! byte changed. Between them stand calls that must be refused with 29, unknown
//! formats and lengths that there cannot be, with a pointer at which nothing can be
//! read.

mod fence;

use std::{
    io::{self, Write},
    process::ExitCode,
    thread,
};

use fence::Fenced;
use oracle::{
    r#gen::{generate, Options},
    refusal,
    scan::{scan_value, Scan},
    ser::YsonFormat,
};

// What brings the archive into this program.
use onionsail as _;

extern "C" {
    fn yson_scan(format: u64, bytes: *const u8, length: usize) -> i64;
}

const USAGE: &str = "\
usage: differential [--cases N] [--seed S] [--threads T]
  --cases: cases to compare (default 1000000); --seed: decides them (default 1)
  --threads: that many at once, each with cases of its own (default 1)
  differential --touch-fence
      reads a byte past an input on purpose: must report it and end with status 1
";

/// The longest input: what the generator makes at most, and some more.
const ROOM: usize = 1 << 17;
/// Differences that are shown in full.
const SHOWN: u64 = 5;
/// A call that must be refused with 29 comes once in so many inputs.
const BAD_CALL_ONCE_IN: usize = 16;
const BAD_CALL: i64 = -29;
/// The formats, with their numbers.
const BINARY: (u64, YsonFormat) = (0, YsonFormat::Binary);
const TEXT: (u64, YsonFormat) = (1, YsonFormat::Text);

/// One signed number from the Rust's answer, as the C call has it.
fn original(format: YsonFormat, bytes: &[u8]) -> i64 {
    match scan_value(bytes, format) {
        Ok(Scan::Complete { len }) => len as i64,
        Ok(Scan::Incomplete) => 0,
        Err(error) => -i64::from(refusal::number(&error).expect("an error of the scan")),
    }
}

/// What was compared.
#[derive(Default)]
struct Counts {
    cases: u64,
    different: u64,
    lengths: u64,
    incomplete: u64,
    /// By number.
    refused: [u64; 30],
}

impl Counts {
    fn add(&mut self, other: &Counts) {
        self.cases += other.cases;
        self.different += other.different;
        self.lengths += other.lengths;
        self.incomplete += other.incomplete;
        for (sum, count) in self.refused.iter_mut().zip(other.refused) {
            *sum += count;
        }
    }
}

/// Takes the generator's output and asks both sides.
struct Asker {
    most: u64,
    counts: Counts,
    /// Output that is no whole case yet.
    pending: Vec<u8>,
    memory: Fenced,
    changed: Vec<u8>,
    random: u64,
}

impl Asker {
    fn new(most: u64, seed: u64) -> Self {
        Self {
            most,
            counts: Counts::default(),
            pending: Vec::new(),
            memory: Fenced::new(ROOM),
            changed: Vec::new(),
            random: seed,
        }
    }

    fn done(&self) -> bool {
        self.counts.cases >= self.most
    }

    /// A number below `limit`, which is above 0.
    fn below(&mut self, limit: usize) -> usize {
        self.random = self
            .random
            .wrapping_mul(6_364_136_223_846_793_005)
            .wrapping_add(1_442_695_040_888_963_407);
        ((self.random >> 33) as usize) % limit
    }

    /// One input that was made for a kind of case: 2 is text, and the others binary.
    fn input(&mut self, kind: u8, bytes: &[u8]) {
        if self.below(BAD_CALL_ONCE_IN) == 0 {
            self.bad_call();
        }
        let (own, other) = match kind {
            2 => (TEXT, BINARY),
            _ => (BINARY, TEXT),
        };
        self.ask(own, bytes);
        self.ask(other, bytes);
        if bytes.is_empty() {
            return;
        }
        let mut changed = std::mem::take(&mut self.changed);
        for _ in 0..2 {
            let cut = self.below(bytes.len());
            self.ask(own, &bytes[..cut]);
            changed.clear();
            changed.extend_from_slice(bytes);
            let at = self.below(bytes.len());
            changed[at] = match self.below(4) {
                0 => changed[at] ^ (1 << self.below(8)),
                1 => self.below(256) as u8,
                _ => bytes[self.below(bytes.len())],
            };
            self.ask(own, &changed);
        }
        self.changed = changed;
    }

    fn ask(&mut self, (number, format): (u64, YsonFormat), bytes: &[u8]) {
        if self.done() {
            return;
        }
        let placed = self.memory.place(bytes);
        fence::note(number, placed);
        // SAFETY: the pointer has as many bytes behind it as is said.
        let found = unsafe { yson_scan(number, placed.as_ptr(), placed.len()) };
        let expected = original(format, placed);
        self.compare(number, bytes, bytes.len(), expected, found);
    }

    /// 29 comes before anything is read.
    fn bad_call(&mut self) {
        if self.done() {
            return;
        }
        let far = self.below(1 << 20);
        let (format, length) = match self.below(4) {
            0 => (2 + far as u64, 0),
            1 => (u64::MAX - far as u64, far),
            2 => (0, (1 << 63) + far),
            _ => (1, usize::MAX - far),
        };
        fence::note(format, &[]);
        // SAFETY: the call is refused before it reads.
        let found = unsafe { yson_scan(format, self.memory.fence(), length) };
        self.compare(format, &[], length, BAD_CALL, found);
    }

    fn compare(&mut self, format: u64, bytes: &[u8], length: usize, expected: i64, found: i64) {
        let counts = &mut self.counts;
        counts.cases += 1;
        match expected {
            1.. => counts.lengths += 1,
            0 => counts.incomplete += 1,
            _ => counts.refused[expected.unsigned_abs() as usize] += 1,
        }
        if expected != found {
            counts.different += 1;
            if counts.different <= SHOWN {
                println!(
                    "different: format {format}, {length} bytes, Rust {expected}, archive {found}: {bytes:02x?}"
                );
            }
        }
    }
}

impl Write for Asker {
    fn write(&mut self, output: &[u8]) -> io::Result<usize> {
        self.pending.extend_from_slice(output);
        // kind, length, payload
        let mut pending = std::mem::take(&mut self.pending);
        let mut rest = pending.as_slice();
        while let Some((head, after)) = rest.split_first_chunk::<5>() {
            let length = u32::from_le_bytes([head[1], head[2], head[3], head[4]]) as usize;
            let Some((payload, after)) = after.split_at_checked(length) else {
                break;
            };
            self.input(head[0], payload);
            rest = after;
        }
        let left = rest.len();
        let whole = pending.len() - left;
        pending.copy_within(whole.., 0);
        pending.truncate(left);
        self.pending = pending;
        match self.done() {
            true => Err(io::Error::other("enough")),
            false => Ok(output.len()),
        }
    }

    fn flush(&mut self) -> io::Result<()> {
        Ok(())
    }
}

fn run(cases: u64, seed: u64) -> Counts {
    let mut asker = Asker::new(cases, seed);
    let options = Options {
        cases: u64::MAX,
        seed,
        kinds: vec![1, 2],
        small: false,
        cut: false,
    };
    while !asker.done() {
        // Ends with the error that says that there were enough.
        let _ = generate(&options, &mut asker);
    }
    asker.counts
}

fn main() -> ExitCode {
    let (mut cases, mut seed, mut threads) = (1_000_000, 1, 1);
    let mut words = std::env::args().skip(1);
    while let Some(word) = words.next() {
        if word == "--touch-fence" {
            return touch_fence();
        }
        let Some(value) = words.next().and_then(|value| value.parse::<u64>().ok()) else {
            return usage(&format!("{word} needs a number"));
        };
        match word.as_str() {
            "--cases" => cases = value,
            "--seed" => seed = value,
            "--threads" if value > 0 => threads = value,
            _ => return usage(&format!("cannot make sense of: {word} {value}")),
        }
    }
    fence::report_crashes();
    let running: Vec<_> = (0..threads)
        .map(|i| {
            let share = cases / threads + u64::from(i < cases % threads);
            thread::spawn(move || run(share, seed.wrapping_add(i << 32)))
        })
        .collect();
    let mut counts = Counts::default();
    for thread in running {
        match thread.join() {
            Ok(one) => counts.add(&one),
            Err(_) => return ExitCode::from(2),
        }
    }
    let refused: Vec<String> = (counts.refused.iter().enumerate())
        .filter(|(_, count)| **count > 0)
        .map(|(number, count)| format!("{number}: {count}"))
        .collect();
    println!(
        "differential: {} lengths, {} incomplete, refused {}",
        counts.lengths,
        counts.incomplete,
        refused.join(", ")
    );
    println!(
        "{} cases compared, {} different (seed {seed}, threads {threads})",
        counts.cases, counts.different
    );
    match counts.different {
        0 => ExitCode::SUCCESS,
        _ => ExitCode::from(1),
    }
}

fn usage(why: &str) -> ExitCode {
    eprint!("differential: {why}\n{USAGE}");
    ExitCode::from(2)
}

/// Shows that the fence bites.
fn touch_fence() -> ExitCode {
    fence::report_crashes();
    let mut memory = Fenced::new(ROOM);
    let placed = memory.place(b"\x01\x02");
    fence::note(0, placed);
    // SAFETY: none: this reads past the end, which is what is tried.
    let byte = unsafe { placed.as_ptr().add(placed.len()).read_volatile() };
    println!("differential: the fence was read: {byte}");
    ExitCode::SUCCESS
}
