//! Step, answer and order records: their bytes and what is ill-formed.

pub const STEP_RECORD_BYTES: usize = 8;
pub const ANSWER_RECORD_BYTES: usize = 16;
pub const ORDER_RECORD_BYTES: usize = 8;

/// The whole records of a list, each with its number in the list, from 1.
pub fn numbered(list: &[u8]) -> impl Iterator<Item = (u32, &[u8])> {
    (1..).zip(list.chunks_exact(STEP_RECORD_BYTES))
}

#[derive(Clone, Copy, PartialEq, Eq, Hash, Debug)]
pub enum Kind {
    Put,
    Take,
}

#[derive(Clone, Copy, PartialEq, Eq, Hash, Debug)]
pub enum Operation {
    Put(u32),
    Take,
}

impl Operation {
    pub fn kind(self) -> Kind {
        match self {
            Operation::Put(_) => Kind::Put,
            Operation::Take => Kind::Take,
        }
    }
}

#[derive(Clone, Copy, PartialEq, Eq, Hash, Debug)]
pub enum Act {
    Step,
    Begin(Operation),
}

#[derive(Clone, Copy, PartialEq, Eq, Hash, Debug)]
pub struct StepRecord {
    pub process: u32,
    pub act: Act,
}

impl StepRecord {
    /// Reads one record of 8 bytes; `None` if it is ill-formed for p processes.
    pub fn read(bytes: &[u8], p: u32) -> Option<StepRecord> {
        let process = u32::from(bytes[0]);
        let value = low_first_32(&bytes[4..8]);
        if process >= p || bytes[2] != 0 || bytes[3] != 0 {
            return None;
        }
        let act = match (bytes[1], value) {
            (0, 0) => Act::Step,
            (1, value) => Act::Begin(Operation::Put(value)),
            (2, 0) => Act::Begin(Operation::Take),
            _ => return None,
        };
        Some(StepRecord { process, act })
    }

    pub fn bytes(self) -> [u8; STEP_RECORD_BYTES] {
        let (kind, value) = match self.act {
            Act::Step => (0, 0),
            Act::Begin(Operation::Put(value)) => (1, value),
            Act::Begin(Operation::Take) => (2, 0),
        };
        let mut bytes = [0; STEP_RECORD_BYTES];
        bytes[0] = byte_of(self.process);
        bytes[1] = kind;
        bytes[4..8].copy_from_slice(&value.to_le_bytes());
        bytes
    }
}

#[derive(Clone, Copy, PartialEq, Eq, Hash, Debug)]
pub enum Outcome {
    PutDone,
    Value(u32),
    Nothing,
}

#[derive(Clone, Copy, PartialEq, Eq, Hash, Debug)]
pub struct Answer {
    pub process: u32,
    pub outcome: Outcome,
    /// Own steps of the operation, A to Q.
    pub steps: u8,
    /// Heads of children that it moved inside refreshes.
    pub helps: u8,
    pub serial: u32,
    pub root_block: u32,
}

impl Answer {
    pub fn bytes(self) -> [u8; ANSWER_RECORD_BYTES] {
        let (kind, value) = match self.outcome {
            Outcome::PutDone => (1, 0),
            Outcome::Value(value) => (2, value),
            Outcome::Nothing => (3, 0),
        };
        let mut bytes = [0; ANSWER_RECORD_BYTES];
        bytes[0] = byte_of(self.process);
        bytes[1] = kind;
        bytes[2] = self.steps;
        bytes[3] = self.helps;
        bytes[4..8].copy_from_slice(&value.to_le_bytes());
        bytes[8..12].copy_from_slice(&self.serial.to_le_bytes());
        bytes[12..16].copy_from_slice(&self.root_block.to_le_bytes());
        bytes
    }

    /// Reads one record of 16 bytes; `None` for an unknown kind or for a value
    /// where none may stand.
    pub fn read(bytes: &[u8]) -> Option<Answer> {
        let outcome = match (bytes[1], low_first_32(&bytes[4..8])) {
            (1, 0) => Outcome::PutDone,
            (2, value) => Outcome::Value(value),
            (3, 0) => Outcome::Nothing,
            _ => return None,
        };
        Some(Answer {
            process: u32::from(bytes[0]),
            outcome,
            steps: bytes[2],
            helps: bytes[3],
            serial: low_first_32(&bytes[8..12]),
            root_block: low_first_32(&bytes[12..16]),
        })
    }
}

#[derive(Clone, Copy, PartialEq, Eq, Hash, Debug)]
pub struct OrderRecord {
    pub process: u32,
    pub kind: Kind,
    pub serial: u16,
    pub root_block: u32,
}

impl OrderRecord {
    pub fn bytes(self) -> [u8; ORDER_RECORD_BYTES] {
        let mut bytes = [0; ORDER_RECORD_BYTES];
        bytes[0] = byte_of(self.process);
        bytes[1] = match self.kind {
            Kind::Put => 1,
            Kind::Take => 2,
        };
        bytes[2..4].copy_from_slice(&self.serial.to_le_bytes());
        bytes[4..8].copy_from_slice(&self.root_block.to_le_bytes());
        bytes
    }
}

fn byte_of(process: u32) -> u8 {
    u8::try_from(process).expect("process numbers are below 8")
}

/// The number that four bytes hold.
pub fn low_first_32(bytes: &[u8]) -> u32 {
    u32::from_le_bytes([bytes[0], bytes[1], bytes[2], bytes[3]])
}
