//! The calling protocol of promise 3, counted plainly.
//!
//! The kept place and the count of readings are not in the original, so they
//! are worked out here, from the paper's chapter "The stream" and by other means
//! than [`crate::framing`]: one token at a time over a stack of open blocks.
//! Tokens come from the original's lexer. `answer.rs` asks both for the records
//! and the last answer, and stops where they differ.
//!
//! No buffer is moved about: the buffered bytes are the part of the whole stream
//! from `first` to `taken`.

use crate::{
    lexer::YsonIterator,
    node::Token,
    refusal::{self, Refusal},
};

/// Blocks that may be open at once.
const MOST_OPEN: usize = 128;

/// A record as it is handed out.
#[derive(Debug, Clone, Copy, PartialEq, Eq)]
pub struct Record {
    /// Offset of its first byte in the stream.
    pub offset: u64,
    /// Its length.
    pub length: usize,
    /// Whether its first byte is `<`.
    pub control: bool,
}

/// The answer that ends a run.
#[derive(Debug, Clone, Copy, PartialEq, Eq)]
pub enum Last {
    /// Start plus bytes taken.
    End { offset: u64 },
    /// 20
    Malformed { offset: u64, inner: Refusal },
    /// 21
    Truncated { offset: u64, buffered: usize },
    /// 22
    TooLarge { offset: u64, n: usize },
    /// 25
    PastTheEnd,
}

/// What a run gives.
#[derive(Debug, PartialEq, Eq)]
pub struct Run {
    /// The records, in order.
    pub records: Vec<Record>,
    /// The answer that ended it.
    pub last: Last,
    /// Readings of all calls of next.
    pub readings: u64,
    /// Calls of next that handed out no record and left a buffered byte unpassed.
    pub nexts: u64,
}

/// An open block.
#[derive(Clone, Copy, PartialEq)]
enum Block {
    List,
    Map,
    Attributes,
}

/// What is due at the kept place.
#[derive(Clone, Copy)]
enum Due {
    /// A value, attributes allowed.
    Value,
    /// The value that an attribute block belongs to.
    Object,
    /// In a list: a value, `;` or the end.
    Item,
    /// In a map or an attribute block: a key, `;` or the end.
    Key,
    /// `=`.
    Equals,
}

/// What passing a token leads to.
enum Passed {
    /// More of the record is to come.
    Inside,
    /// The record is whole.
    Whole,
}

/// One answer of next.
enum Next {
    Record(Record),
    MoreNeeded,
    Stop(Last),
}

struct Reader<'a> {
    /// The whole stream; only the bytes before `taken` have been offered.
    stream: &'a [u8],
    start: u64,
    n: usize,
    closed: bool,
    /// Bytes taken so far.
    taken: usize,
    /// The first byte that is neither handed out nor skipped.
    first: usize,
    /// The kept place: the end of the last token passed.
    place: usize,
    due: Due,
    open: Vec<Block>,
    /// Counts of the run.
    readings: u64,
    nexts: u64,
    passed: u64,
}

/// Runs the protocol over `pieces`, whose concatenation is `stream`.
pub fn run(stream: &[u8], pieces: &[&[u8]], n: usize, start: u64) -> Run {
    let mut reader = Reader {
        stream,
        start,
        n,
        closed: false,
        taken: 0,
        first: 0,
        place: 0,
        due: Due::Value,
        open: Vec::new(),
        readings: 0,
        nexts: 0,
        passed: 0,
    };
    let mut records = Vec::new();
    let last = reader.drive(pieces, &mut records);
    // The count that the tender asks for, said in its own words.
    assert_eq!(
        reader.readings,
        reader.passed + reader.nexts,
        "readings are one for each token passed and one for each such next"
    );
    Run {
        records,
        last,
        readings: reader.readings,
        nexts: reader.nexts,
    }
}

impl Reader<'_> {
    /// Each piece, an empty one too, is offered at least once and until it is
    /// wholly taken; next is called after each offer until it wants more; after
    /// the last piece the stream is closed and next is called again.
    fn drive(&mut self, pieces: &[&[u8]], records: &mut Vec<Record>) -> Last {
        for piece in pieces {
            let mut left = piece.len();
            loop {
                let Some(count) = self.offer(left) else {
                    return Last::PastTheEnd;
                };
                left -= count;
                if let Some(last) = self.nexts_until_more(records) {
                    return last;
                }
                if left == 0 {
                    break;
                }
            }
        }
        self.closed = true;
        self.nexts_until_more(records)
            .expect("next wants no more of a closed stream")
    }

    /// Takes what there is room for, or refuses 25. The piece that is judged is
    /// the one offered: what is left of it where it is offered again.
    fn offer(&mut self, length: usize) -> Option<usize> {
        let after = u128::from(self.start) + self.taken as u128 + length as u128;
        if after > u128::from(u64::MAX) {
            return None;
        }
        let room = self.n - (self.taken - self.first);
        let count = length.min(room);
        self.taken += count;
        Some(count)
    }

    /// Calls next until it wants more (`None`) or stops.
    fn nexts_until_more(&mut self, records: &mut Vec<Record>) -> Option<Last> {
        loop {
            match self.next() {
                Next::Record(record) => records.push(record),
                Next::MoreNeeded => return None,
                Next::Stop(last) => return Some(last),
            }
        }
    }

    /// One call of next, counted.
    fn next(&mut self) -> Next {
        let answer = self.answer();
        if !matches!(answer, Next::Record(_)) && self.place < self.taken {
            self.nexts += 1;
        }
        answer
    }

    fn answer(&mut self) -> Next {
        if self.place == self.first {
            while self.first < self.taken
                && matches!(
                    self.stream[self.first],
                    b';' | 0x09 | 0x0A | 0x0C | 0x0D | 0x20
                )
            {
                self.first += 1;
            }
            self.place = self.first;
        }
        let refused = loop {
            if self.place == self.taken {
                break None;
            }
            self.readings += 1;
            match self.step() {
                Ok(Some(Passed::Inside)) => self.passed += 1,
                Ok(Some(Passed::Whole)) => {
                    self.passed += 1;
                    let record = Record {
                        offset: self.offset(),
                        length: self.place - self.first,
                        control: self.stream[self.first] == b'<',
                    };
                    self.first = self.place;
                    self.due = Due::Value;
                    return Next::Record(record);
                }
                Ok(None) => break None,
                Err(refusal) => break Some(refusal),
            }
        };
        let offset = self.offset();
        let buffered = self.taken - self.first;
        if let Some(inner) = refused {
            Next::Stop(Last::Malformed { offset, inner })
        } else if buffered >= self.n {
            Next::Stop(Last::TooLarge { offset, n: self.n })
        } else if self.closed && buffered == 0 {
            let offset = self.start + self.taken as u64;
            Next::Stop(Last::End { offset })
        } else if self.closed {
            Next::Stop(Last::Truncated { offset, buffered })
        } else {
            Next::MoreNeeded
        }
    }

    /// Stream offset of the first buffered byte.
    fn offset(&self) -> u64 {
        self.start + self.first as u64
    }

    /// One reading: passes a token, finds it unfinished (`None`), or refuses it.
    /// Places count from the record's first byte.
    fn step(&mut self) -> Result<Option<Passed>, Refusal> {
        let at = self.place - self.first;
        let mut lexer = YsonIterator::new(&self.stream[self.place..self.taken], true);
        let token = match lexer.next_token() {
            Ok(token) => token,
            Err(error) => {
                return match refusal::of_token(0, &error) {
                    None => Ok(None),
                    Some(Refusal { number, place }) => Err(Refusal {
                        number,
                        place: at + place,
                    }),
                };
            }
        };
        let length = lexer.pos();
        let wrong = |number| Refusal {
            number,
            place: at + length,
        };
        let passed = match (self.due, &token) {
            (Due::Item | Due::Key, Token::ItemSeparator) => Passed::Inside,
            (Due::Item, Token::EndList) => self.close(),
            (Due::Key, Token::EndMap) if self.innermost() == Some(Block::Map) => self.close(),
            (Due::Key, Token::EndAttributes) if self.innermost() == Some(Block::Attributes) => {
                self.close()
            }
            (Due::Key, Token::String(_)) => self.wait_for(Due::Equals),
            (Due::Key, _) => return Err(wrong(11)),
            (Due::Equals, Token::KeyValueSeparator) => self.wait_for(Due::Value),
            (Due::Equals, _) => return Err(wrong(12)),
            (Due::Value | Due::Item, Token::BeginAttributes) => {
                self.open(Block::Attributes, Due::Key, at)?
            }
            (Due::Value | Due::Item | Due::Object, token) => match token {
                Token::BeginList => self.open(Block::List, Due::Item, at)?,
                Token::BeginMap => self.open(Block::Map, Due::Key, at)?,
                Token::String(_)
                | Token::Int64(_)
                | Token::Uint64(_)
                | Token::Double(_)
                | Token::Boolean(_)
                | Token::Entity => self.value_is_whole(),
                _ => return Err(wrong(10)),
            },
        };
        self.place += length;
        Ok(Some(passed))
    }

    fn innermost(&self) -> Option<Block> {
        self.open.last().copied()
    }

    fn wait_for(&mut self, due: Due) -> Passed {
        self.due = due;
        Passed::Inside
    }

    fn open(&mut self, block: Block, due: Due, at: usize) -> Result<Passed, Refusal> {
        if self.open.len() == MOST_OPEN {
            return Err(Refusal {
                number: 13,
                place: at,
            });
        }
        self.open.push(block);
        Ok(self.wait_for(due))
    }

    fn close(&mut self) -> Passed {
        match self.open.pop() {
            Some(Block::Attributes) => self.wait_for(Due::Object),
            _ => self.value_is_whole(),
        }
    }

    fn value_is_whole(&mut self) -> Passed {
        match self.innermost() {
            None => Passed::Whole,
            Some(Block::List) => self.wait_for(Due::Item),
            Some(Block::Map | Block::Attributes) => self.wait_for(Due::Key),
        }
    }
}
