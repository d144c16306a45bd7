//! Frames: streams of records, good, damaged or cut, and their pieces.

use super::{random::deep_bytes, rng::Rng, values};
use crate::{answer::MOST_N, ser::YsonFormat};

/// The payload of a frame.
pub fn frame_payload(n: u32, start: u64, pieces: &[&[u8]]) -> Vec<u8> {
    let mut payload = Vec::new();
    payload.extend(n.to_le_bytes());
    payload.extend(start.to_le_bytes());
    for piece in pieces {
        let length = u16::try_from(piece.len()).expect("a piece has at most 65,535 bytes");
        payload.extend(length.to_le_bytes());
        payload.extend(*piece);
    }
    payload
}

/// Ways to cut a short stream: whole, in bytes, in bytes with empty pieces
/// between, and at one of the first places.
pub const CUTS: u64 = 8;

/// A short stream, cut in one of a few ways.
pub fn short_frame(stream: &[u8], cut: u64) -> Vec<u8> {
    let empty: &[u8] = b"";
    let pieces: Vec<&[u8]> = match cut {
        0 => vec![stream],
        1 => stream.chunks(1).collect(),
        2 => stream
            .chunks(1)
            .flat_map(|byte| [empty, byte])
            .chain([empty])
            .collect(),
        _ => {
            let at = (cut as usize - 2).min(stream.len());
            vec![&stream[..at], &stream[at..]]
        }
    };
    frame_payload(64, 0, &pieces)
}

/// A stream of records, good, damaged or cut, and its pieces.
pub fn random_frame(rng: &mut Rng, small: bool) -> Vec<u8> {
    let long = !small && rng.once_in(2_000);
    let middle = !small && !long && rng.once_in(40);
    let n = match rng.below(40) {
        _ if long => [300, 4096, 65_535, 65_536][rng.below(4)],
        _ if middle => [64, 65, 127, 128, 4096][rng.below(5)],
        0 => rng.pick(&[&0, &1, &63, &65_537, &MOST_N]).to_owned(),
        1 => rng.pick(&[&(MOST_N + 1), &100_000, &u32::MAX]).to_owned(),
        2..=3 => 65_536,
        4..=5 => rng.between(64, 65_536) as u32,
        6..=15 => rng.between(64, 200) as u32,
        16..=20 => [65, 127, 128, 4096][rng.below(4)],
        _ => 64,
    };
    let most = match (long, middle) {
        (true, _) => 150_000,
        (_, true) => 3 * n as usize,
        _ => 400,
    };
    let stream = stream(rng, most, n as usize);
    let room = u64::MAX - stream.len() as u64;
    let start = match rng.below(10) {
        0..=5 => 0,
        6..=7 => rng.next().min(room),
        // the end comes next to the last offset, on either side of it
        _ => room
            .saturating_add(rng.below(8) as u64)
            .saturating_sub(rng.below(8) as u64),
    };
    let pieces = pieces(rng, &stream, n as usize);
    frame_payload(n, start, &pieces)
}

fn stream(rng: &mut Rng, most: usize, n: usize) -> Vec<u8> {
    let mut stream = Vec::new();
    let length = rng.below(most + 1);
    // What is likely to stop the run is seldom in a stream of many records.
    let stop_once_in = 1 + most / 200;
    while stream.len() < length {
        for _ in 0..[1, 1, 1, 1, 0, 2, 5][rng.below(7)] {
            stream.push(rng.pick_byte(b";;;;\n \t\r\x0C"));
        }
        match rng.below(12) {
            // a string about as long as the buffer
            0 if (64..=most).contains(&n) && rng.once_in(stop_once_in) => {
                let long = n - 8 + rng.below(9);
                stream.extend(values::string(rng, YsonFormat::Binary, long));
            }
            1 => stream.extend(values::string(rng, YsonFormat::Binary, 20)),
            2..=4 => {
                // a control record
                stream.extend(b"<\x01\x02t=\x02\x02>#");
            }
            5 if rng.once_in(6 * stop_once_in) => {
                stream.extend(deep_bytes(rng, YsonFormat::Binary))
            }
            _ => {
                // small enough for the buffer, most of the time
                let budget = [1, 3, n / 16][rng.below(3)].min(30);
                stream.extend(values::value(rng, YsonFormat::Binary, budget));
            }
        }
    }
    match rng.below(8) {
        0..=1 => values::damage(rng, YsonFormat::Binary, &mut stream),
        2..=3 => stream.truncate(rng.below(stream.len() + 1)),
        _ => {}
    }
    stream
}

/// Cuts a stream: whole, in bytes, at random, with empty pieces.
fn pieces<'a>(rng: &mut Rng, stream: &'a [u8], n: usize) -> Vec<&'a [u8]> {
    let way = rng.below(8);
    let mut pieces = Vec::new();
    let mut rest = stream;
    while !rest.is_empty() {
        if (way == 6 || way == 7) && rng.once_in(3) {
            pieces.push(&rest[..0]);
        }
        let size = match way {
            0 => rest.len(),
            1 => 1,
            2 => n.max(1),
            3 => 1 + rng.below(3),
            4 | 6 => 1 + rng.below(40),
            5 => 1 + rng.below(n.max(1) * 2),
            _ => 1 + rng.below(300),
        };
        let (piece, after) = rest.split_at(size.min(rest.len()).min(65_535));
        pieces.push(piece);
        rest = after;
    }
    if rng.once_in(10) {
        pieces.push(&[]);
    }
    pieces
}
