//! The cases that both sides are asked: deterministic from a seed.
//!
//! Each kind first gets its worked examples. Then every second case is made at
//! random, and between them stand cases that are fixed, by turns an edge of a
//! rule and something short. The fixed ones are gone through in an order that the
//! seed decides, none twice, so that a short run has an even choice of them and a
//! long one has them all.

use std::io::{self, Write};

mod edges;
mod frames;
mod random;
mod rng;
mod short;
mod values;

use crate::{answer::MOST_BYTES, lexer::YsonIterator, node::Token, ser::YsonFormat};
use frames::{CUTS, random_frame, short_frame};
use random::{a_string, long_bytes, random_bytes, random_varints, random_write, some_bytes};
use rng::Rng;
use short::Short;

/// Every kind that there is.
pub const KINDS: [u8; 11] = [1, 2, 3, 4, 5, 6, 7, 8, 9, 10, 11];
/// Kinds that there are not: answered as bad cases.
const UNKNOWN_KINDS: [u8; 3] = [0, 12, 255];
/// The longest payload of a small case.
const SMALL: usize = 700;

/// What is to be generated.
#[derive(Debug, Clone, PartialEq, Eq)]
pub struct Options {
    /// Whole cases to write.
    pub cases: u64,
    /// Decides all that is random.
    pub seed: u64,
    /// The kinds that are asked.
    pub kinds: Vec<u8>,
    /// Only cases with short payloads, for a sample that is kept in a file. The
    /// one exception is a last case that is too long.
    pub small: bool,
    /// Add a case that the end of the input cuts short.
    pub cut: bool,
}

/// Writes the cases.
pub fn generate(options: &Options, out: &mut impl Write) -> io::Result<()> {
    let mut rng = Rng::new(options.seed);
    let mut kinds: Vec<Kind> = options
        .kinds
        .iter()
        .map(|kind| Kind::new(*kind, &mut rng))
        .collect();
    let unknown_once_in = if options.small { 60 } else { 1000 };
    let last_is_too_long = options.small && options.kinds.iter().any(|kind| has_bytes(*kind));
    for number in 0..options.cases {
        if last_is_too_long && number + 1 == options.cases {
            let kind = *options.kinds.iter().find(|kind| has_bytes(**kind)).unwrap();
            let payload = vec![0; head_length(kind) + MOST_BYTES + 1];
            write_case(out, kind, &payload)?;
            continue;
        }
        if rng.once_in(unknown_once_in) {
            let kind = rng.pick_byte(&UNKNOWN_KINDS);
            let payload = random_bytes(&mut rng, 20);
            write_case(out, kind, &payload)?;
            continue;
        }
        let turn = (number % kinds.len() as u64) as usize;
        let kind = &mut kinds[turn];
        let payload = loop {
            let payload = kind.next(&mut rng, options.small);
            if !options.small || payload.len() <= SMALL {
                break payload;
            }
        };
        write_case(out, kind.kind, &payload)?;
    }
    if options.cut {
        write_cut(&mut rng, &options.kinds, out)?;
    }
    Ok(())
}

fn write_case(out: &mut impl Write, kind: u8, payload: &[u8]) -> io::Result<()> {
    out.write_all(&[kind])?;
    out.write_all(&(payload.len() as u32).to_le_bytes())?;
    out.write_all(payload)
}

/// A case that is cut, inside its first five bytes or inside its payload. But
/// for the cut it is of its kind's form; of a frame only the first five bytes
/// are cut, so `cut short` is all that it can be answered.
fn write_cut(rng: &mut Rng, kinds: &[u8], out: &mut impl Write) -> io::Result<()> {
    let kind = kinds[rng.below(kinds.len())];
    let mut case = Vec::new();
    write_case(&mut case, kind, &edges::worked(kind)[0])?;
    let most = if kind == 11 { 4 } else { case.len() - 1 };
    out.write_all(&case[..rng.between(1, most)])
}

/// The format of kinds that have one.
fn format_of(kind: u8) -> YsonFormat {
    match kind {
        2 | 8 | 10 => YsonFormat::Text,
        _ => YsonFormat::Binary,
    }
}

/// Whether a payload has bytes that can be too long.
fn has_bytes(kind: u8) -> bool {
    matches!(kind, 1..=4 | 7..=10)
}

/// What stands before the bytes: place, room.
fn head_length(kind: u8) -> usize {
    match kind {
        3 | 4 | 7 | 8 => 4,
        9 | 10 => 8,
        _ => 0,
    }
}

/// One kind's cases, handed out one by one.
struct Kind {
    kind: u8,
    worked: Vec<Vec<u8>>,
    /// Bytes, or whole payloads for kinds 5, 6 and 11.
    edges: Vec<Vec<u8>>,
    short: Option<Short>,
    /// Cases handed out.
    given: u64,
    edges_in_order: Order,
    short_in_order: Order,
}

/// Goes through all numbers below `count` in an order that looks random: the
/// next is `stride` further on, and that has no divisor in common with `count`.
struct Order {
    count: u64,
    given: u64,
    offset: u64,
    stride: u64,
}

impl Order {
    fn new(count: u64, rng: &mut Rng) -> Self {
        let offset = rng.next();
        let mut stride = rng.next();
        while count > 0 && gcd(stride, count) > 1 {
            stride = rng.next();
        }
        Self {
            count,
            given: 0,
            offset,
            stride,
        }
    }

    /// The next number, until each has been given.
    fn next(&mut self) -> Option<u64> {
        if self.given == self.count {
            return None;
        }
        let at = u128::from(self.given) * u128::from(self.stride) + u128::from(self.offset);
        self.given += 1;
        Some((at % u128::from(self.count)) as u64)
    }
}

impl Kind {
    fn new(kind: u8, rng: &mut Rng) -> Self {
        let (edges, short) = match kind {
            1 | 7 | 9 => (edges::binary(), Some(short::binary())),
            2 | 8 | 10 => (edges::text(), Some(short::text())),
            3 | 4 => (edges::varints(), Some(short::varint())),
            5 | 6 => (written(), None),
            11 => (edges::frames(), Some(short::frame())),
            _ => panic!("there is no kind {kind}"),
        };
        let cuts = if kind == 11 { CUTS } else { 1 };
        let short_count = short.as_ref().map_or(0, Short::count) * cuts;
        Self {
            kind,
            worked: edges::worked(kind),
            edges_in_order: Order::new(edges.len() as u64, rng),
            short_in_order: Order::new(short_count, rng),
            edges,
            short,
            given: 0,
        }
    }

    fn next(&mut self, rng: &mut Rng, small: bool) -> Vec<u8> {
        let number = self.given;
        self.given += 1;
        if let Some(payload) = self.worked.get(number as usize) {
            return payload.clone();
        }
        let fixed = match number % 4 {
            0 => self.next_edge(rng).or_else(|| self.next_short(rng)),
            2 => self.next_short(rng).or_else(|| self.next_edge(rng)),
            _ => None,
        };
        fixed.unwrap_or_else(|| self.random(rng, small))
    }

    fn next_edge(&mut self, rng: &mut Rng) -> Option<Vec<u8>> {
        let number = self.edges_in_order.next()?;
        let edge = &self.edges[number as usize];
        Some(match self.kind {
            5 | 6 | 11 => edge.clone(),
            _ => self.at_first_place(rng, edge),
        })
    }

    fn next_short(&mut self, rng: &mut Rng) -> Option<Vec<u8>> {
        let number = self.short_in_order.next()?;
        let short = self.short.as_ref()?;
        Some(match self.kind {
            11 => short_frame(&short.nth(number / CUTS), number % CUTS),
            _ => self.at_first_place(rng, &short.nth(number)),
        })
    }

    /// The payload that asks for the first of the bytes.
    fn at_first_place(&self, rng: &mut Rng, bytes: &[u8]) -> Vec<u8> {
        let mut payload = Vec::new();
        if head_length(self.kind) > 0 {
            payload.extend([0; 4]);
        }
        if head_length(self.kind) > 4 {
            // mostly room for all that can come out, so that it is seen
            let room = match rng.once_in(4) {
                true => rng.below(bytes.len() + 2),
                false => bytes.len(),
            };
            payload.extend((room as u32).to_le_bytes());
        }
        payload.extend(bytes);
        payload
    }

    fn random(&self, rng: &mut Rng, small: bool) -> Vec<u8> {
        let kind = self.kind;
        if kind > 2 && rng.once_in(if small { 40 } else { 300 }) {
            return bad_form(rng, kind);
        }
        match kind {
            5 | 6 => random_write(rng),
            11 => random_frame(rng, small),
            _ => {
                let bytes = if !small && rng.once_in(20_000) {
                    vec![rng.byte(); MOST_BYTES + 1 + rng.below(3)]
                } else if !small && rng.once_in(3_000) {
                    long_bytes(rng, kind)
                } else if matches!(kind, 3 | 4) {
                    random_varints(rng)
                } else if matches!(kind, 9 | 10) && rng.once_in(2) {
                    a_string(rng, format_of(kind))
                } else {
                    some_bytes(rng, format_of(kind))
                };
                with_head(rng, kind, bytes, small)
            }
        }
    }
}

fn gcd(a: u64, b: u64) -> u64 {
    if b == 0 { a } else { gcd(b, a % b) }
}

/// Values next to every power of two with every room that matters.
fn written() -> Vec<Vec<u8>> {
    let mut all = vec![];
    for value in edges::numbers() {
        for room in (0..=12).chain([16, 255]) {
            all.push([&value.to_le_bytes(), [room].as_slice()].concat());
        }
    }
    all
}

/// A payload that is not of its kind's form.
fn bad_form(rng: &mut Rng, kind: u8) -> Vec<u8> {
    let length = match kind {
        5 | 6 => [0, 1, 7, 8, 10, 11, 17][rng.below(7)],
        11 if rng.once_in(2) => {
            // pieces that do not come out even
            let mut payload = random_frame(rng, true);
            payload[..4].copy_from_slice(&64u32.to_le_bytes());
            match rng.below(3) {
                0 => payload.push(rng.byte()),
                1 => payload.extend([1, 0]),
                _ => payload.extend([5, 1, b'#', b'#', b'#', b'#']),
            }
            return payload;
        }
        11 => rng.below(12),
        _ => rng.below(head_length(kind)),
    };
    (0..length).map(|_| rng.byte()).collect()
}

/// Puts place and room before the bytes.
fn with_head(rng: &mut Rng, kind: u8, bytes: Vec<u8>, small: bool) -> Vec<u8> {
    let mut payload = Vec::new();
    let mut place = 0;
    if head_length(kind) > 0 {
        let long = bytes.len();
        place = match rng.below(8) {
            0..=4 => 0,
            5 | 6 => rng.below(long + 1),
            _ => match rng.below(6) {
                0 => long,
                1 => long + 1,
                2 => long + 2 + rng.below(70_000),
                3 => u32::MAX as usize - rng.below(2),
                4 => 1 << 31,
                _ => rng.below(long + 1),
            },
        };
        payload.extend((place as u32).to_le_bytes());
    }
    if head_length(kind) > 4 {
        let room = match rng.below(16) {
            0..=5 => exact_room(&bytes, place, format_of(kind)).saturating_sub(rng.below(3)),
            6..=9 => exact_room(&bytes, place, format_of(kind)) + rng.below(3),
            10..=14 => rng.below(24),
            _ if small => rng.below(40) + if rng.once_in(8) { MOST_BYTES + 1 } else { 0 },
            _ => match rng.below(60) {
                0 => MOST_BYTES,
                1 => MOST_BYTES + 1,
                2 => u32::MAX as usize,
                _ => rng.below(600),
            },
        };
        payload.extend((room as u32).to_le_bytes());
    }
    payload.extend(bytes);
    payload
}

/// The room that the string at a place needs, by a guess that is mostly right:
/// the answer decides, this only aims at its edge.
fn exact_room(bytes: &[u8], place: usize, format: YsonFormat) -> usize {
    let Some(rest) = bytes.get(place..) else {
        return 0;
    };
    let mut lexer = YsonIterator::new(rest, format == YsonFormat::Binary);
    match lexer.next_token() {
        Ok(Token::String(s)) => s.len(),
        _ => 4,
    }
}

#[cfg(test)]
mod tests {
    use super::*;

    #[test]
    fn an_order_gives_each_number_once() {
        let mut rng = Rng::new(1);
        for count in [0, 1, 2, 3, 10, 97, 1000, 65_793] {
            let mut order = Order::new(count, &mut rng);
            let mut given: Vec<u64> = std::iter::from_fn(|| order.next()).collect();
            given.sort_unstable();
            assert_eq!(given, (0..count).collect::<Vec<_>>());
        }
    }

    #[test]
    fn short_cases_are_all_different() {
        let short = short::varint();
        assert_eq!(short.nth(0), b"");
        assert_eq!(short.nth(1), [0]);
        assert_eq!(short.nth(257), [0, 0]);
        assert_eq!(short.nth(65_792), [255, 255]);
    }
}
