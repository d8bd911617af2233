//! Step, answer and order records as types, and their bytes.
//!
//! A record is an array of bytes by `into`, and an array of bytes a record by `try_into`, which
//! fails where the bytes are no record. [`bytes_of`] and [`records_of`] do so for lists.

use std::error::Error;
use std::fmt;

/// What an operation is: a put or a take.
#[derive(Clone, Copy, PartialEq, Eq, Hash, Debug)]
pub enum Kind {
    Put,
    Take,
}

/// What a step record has its process do.
#[derive(Clone, Copy, PartialEq, Eq, Hash, Debug)]
pub enum Act {
    /// One step of the operation that it is inside of.
    Step,
    /// Begins a put of this value.
    Put(u32),
    /// Begins a take.
    Take,
}

/// A step record. The process may be any that its byte has room for.
#[derive(Clone, Copy, PartialEq, Eq, Hash, Debug)]
pub struct Step {
    pub process: u8,
    pub act: Act,
}

/// How an operation ended.
#[derive(Clone, Copy, PartialEq, Eq, Hash, Debug)]
pub enum Outcome {
    /// A put.
    Done,
    /// A take of this value.
    Value(u32),
    /// A take that found the queue empty.
    Nothing,
}

/// An answer record.
///
/// Process 0 stops after its first step, and process 1 moves the head of process 0's leaf:
///
/// ```
/// use otq::{Act, Answer, Step};
/// let put = |process| vec![Step { process, act: Act::Put(9) }];
/// let steps = |process, count| vec![Step { process, act: Act::Step }; count];
/// let list = [put(0), steps(0, 1), put(1), steps(1, 20), steps(0, 14)].concat();
/// let played = otq::play(2, 24, &otq::bytes_of(list));
/// let answers: Vec<Answer> = otq::records_of(&played.answers).unwrap();
/// let counts = answers.iter().map(|answer| (answer.process, answer.steps, answer.helps));
/// assert!(counts.eq([(1, 20, 1), (0, 15, 0)]));
/// ```
#[derive(Clone, Copy, PartialEq, Eq, Hash, Debug)]
pub struct Answer {
    pub process: u8,
    pub outcome: Outcome,
    /// Own steps of the operation, A to Q: at most 41, 81 or 121 with p = 2, 4 or 8.
    pub steps: u8,
    /// Helps of the operation, at most its steps: how often its V3 raised a child's head in an
    /// advance begun by R3 or R5, past a block that it found there. One that found the head raised
    /// already is no help, and neither is the advance of the own leaf or of the refreshed node
    /// (docs/RULES.md, 5.3).
    pub helps: u8,
    /// The operation's number among those of its process, from 1.
    pub serial: u32,
    pub root_block: u32,
}

/// An order record.
#[derive(Clone, Copy, PartialEq, Eq, Hash, Debug)]
pub struct Order {
    pub process: u8,
    pub kind: Kind,
    pub serial: u16,
    pub root_block: u32,
}

/// Bytes that are no record of the wanted sort.
#[derive(Clone, Copy, PartialEq, Eq, Debug)]
pub struct NoRecord {
    /// The byte, from 0, at which no record stands.
    pub at: usize,
}

impl fmt::Display for NoRecord {
    fn fmt(&self, f: &mut fmt::Formatter) -> fmt::Result {
        write!(f, "no record stands at byte {}", self.at)
    }
}

impl Error for NoRecord {}

impl Step {
    pub const BYTES: usize = 8;
}

impl Answer {
    pub const BYTES: usize = 16;
}

impl Order {
    pub const BYTES: usize = 8;
}

impl Outcome {
    /// The kind of the operation that ended so.
    pub fn kind(self) -> Kind {
        match self {
            Outcome::Done => Kind::Put,
            Outcome::Value(_) | Outcome::Nothing => Kind::Take,
        }
    }
}

/// ```
/// use otq::{Act, Step};
/// let bytes = [1, 1, 0, 0, 7, 0, 0, 0];
/// let step: Step = bytes.try_into().unwrap();
/// assert_eq!(step, Step { process: 1, act: Act::Put(7) });
/// assert_eq!(<[u8; 8]>::from(step), bytes);
/// assert!(Step::try_from([1, 2, 0, 0, 7, 0, 0, 0]).is_err());
/// ```
impl TryFrom<[u8; Step::BYTES]> for Step {
    type Error = NoRecord;

    fn try_from(bytes: [u8; Step::BYTES]) -> Result<Step, NoRecord> {
        let [process, kind, 0, 0, value @ ..] = bytes else {
            return Err(NoRecord { at: 0 });
        };
        let act = match (kind, u32::from_le_bytes(value)) {
            (0, 0) => Act::Step,
            (1, value) => Act::Put(value),
            (2, 0) => Act::Take,
            _ => return Err(NoRecord { at: 0 }),
        };
        Ok(Step { process, act })
    }
}

impl From<Step> for [u8; Step::BYTES] {
    fn from(step: Step) -> [u8; Step::BYTES] {
        let (kind, value) = match step.act {
            Act::Step => (0, 0),
            Act::Put(value) => (1, value),
            Act::Take => (2, 0),
        };
        let [v0, v1, v2, v3] = value.to_le_bytes();
        [step.process, kind, 0, 0, v0, v1, v2, v3]
    }
}

/// ```
/// use otq::{Answer, Outcome};
/// let bytes = [1, 2, 20, 1, 7, 0, 0, 0, 1, 0, 0, 0, 2, 0, 0, 0];
/// let answer: Answer = bytes.try_into().unwrap();
/// assert_eq!((answer.process, answer.outcome), (1, Outcome::Value(7)));
/// assert_eq!((answer.steps, answer.helps), (20, 1));
/// assert_eq!((answer.serial, answer.root_block), (1, 2));
/// assert_eq!(<[u8; 16]>::from(answer), bytes);
/// ```
impl TryFrom<[u8; Answer::BYTES]> for Answer {
    type Error = NoRecord;

    fn try_from(bytes: [u8; Answer::BYTES]) -> Result<Answer, NoRecord> {
        let [process, kind, steps, helps, words @ ..] = bytes;
        let word =
            |at| u32::from_le_bytes([words[at], words[at + 1], words[at + 2], words[at + 3]]);
        let outcome = match (kind, word(0)) {
            (1, 0) => Outcome::Done,
            (2, value) => Outcome::Value(value),
            (3, 0) => Outcome::Nothing,
            _ => return Err(NoRecord { at: 0 }),
        };
        Ok(Answer {
            process,
            outcome,
            steps,
            helps,
            serial: word(4),
            root_block: word(8),
        })
    }
}

impl From<Answer> for [u8; Answer::BYTES] {
    fn from(answer: Answer) -> [u8; Answer::BYTES] {
        let (kind, value) = match answer.outcome {
            Outcome::Done => (1, 0),
            Outcome::Value(value) => (2, value),
            Outcome::Nothing => (3, 0),
        };
        let mut bytes = [0; Answer::BYTES];
        bytes[..4].copy_from_slice(&[answer.process, kind, answer.steps, answer.helps]);
        bytes[4..8].copy_from_slice(&value.to_le_bytes());
        bytes[8..12].copy_from_slice(&answer.serial.to_le_bytes());
        bytes[12..].copy_from_slice(&answer.root_block.to_le_bytes());
        bytes
    }
}

/// ```
/// use otq::{Kind, Order};
/// let bytes = [3, 2, 44, 1, 9, 0, 0, 0];
/// let order: Order = bytes.try_into().unwrap();
/// assert_eq!((order.process, order.kind), (3, Kind::Take));
/// assert_eq!((order.serial, order.root_block), (300, 9));
/// assert_eq!(<[u8; 8]>::from(order), bytes);
/// ```
impl TryFrom<[u8; Order::BYTES]> for Order {
    type Error = NoRecord;

    fn try_from(bytes: [u8; Order::BYTES]) -> Result<Order, NoRecord> {
        let [process, kind, s0, s1, root_block @ ..] = bytes;
        let kind = match kind {
            1 => Kind::Put,
            2 => Kind::Take,
            _ => return Err(NoRecord { at: 0 }),
        };
        Ok(Order {
            process,
            kind,
            serial: u16::from_le_bytes([s0, s1]),
            root_block: u32::from_le_bytes(root_block),
        })
    }
}

impl From<Order> for [u8; Order::BYTES] {
    fn from(order: Order) -> [u8; Order::BYTES] {
        let kind = match order.kind {
            Kind::Put => 1,
            Kind::Take => 2,
        };
        let ([s0, s1], root_block) = (order.serial.to_le_bytes(), order.root_block.to_le_bytes());
        let [b0, b1, b2, b3] = root_block;
        [order.process, kind, s0, s1, b0, b1, b2, b3]
    }
}

/// The bytes of records that follow each other.
///
/// ```
/// use otq::{Act, Step};
/// let put = Step { process: 0, act: Act::Put(7) };
/// let step = Step { process: 0, act: Act::Step };
/// let mut list = vec![put];
/// list.extend([step; 17]);
/// let played = otq::play(2, 24, &otq::bytes_of(list));
/// assert_eq!(played.run.answers, 1);
/// ```
pub fn bytes_of<R: Into<[u8; N]>, const N: usize>(records: impl IntoIterator<Item = R>) -> Vec<u8> {
    records.into_iter().flat_map(R::into).collect()
}

/// The records of bytes that are whole records, each of them one of the wanted sort.
///
/// ```
/// use otq::{records_of, Answer, Order};
/// let order: Vec<Order> = records_of(&[0, 1, 1, 0, 1, 0, 0, 0]).unwrap();
/// assert_eq!(order[0].serial, 1);
/// let torn = records_of::<Order, 8>(&[0, 1, 1, 0, 1, 0, 0, 0, 0]);
/// assert_eq!(torn.unwrap_err().at, 8);
/// let no_answer = records_of::<Answer, 16>(&[9; 16]);
/// assert_eq!(no_answer.unwrap_err().at, 0);
/// ```
pub fn records_of<R, const N: usize>(bytes: &[u8]) -> Result<Vec<R>, NoRecord>
where
    R: TryFrom<[u8; N], Error = NoRecord>,
{
    let (whole, torn) = bytes.as_chunks();
    let read = |(index, &bytes): (usize, &[u8; N])| {
        R::try_from(bytes).map_err(|NoRecord { at }| NoRecord { at: N * index + at })
    };
    let records = whole.iter().enumerate().map(read).collect();
    match torn {
        [] => records,
        _ => records.and(Err(NoRecord {
            at: N * whole.len(),
        })),
    }
}
