//! A builder of step record lists.

use crate::records::{Act, Operation, StepRecord, STEP_RECORD_BYTES};

#[derive(Clone, Default, PartialEq, Eq, Debug)]
pub struct List {
    bytes: Vec<u8>,
}

impl List {
    pub fn new() -> List {
        List::default()
    }

    pub fn record(mut self, process: u32, act: Act) -> List {
        self.bytes.extend(StepRecord { process, act }.bytes());
        self
    }

    pub fn put(self, process: u32, value: u32) -> List {
        self.record(process, Act::Begin(Operation::Put(value)))
    }

    pub fn take(self, process: u32) -> List {
        self.record(process, Act::Begin(Operation::Take))
    }

    pub fn steps(mut self, process: u32, count: usize) -> List {
        for _ in 0..count {
            self = self.record(process, Act::Step);
        }
        self
    }

    /// Begins of puts and takes, so many of each process, all processes in turn.
    pub fn begins_in_turn(p: u32, each: u32) -> List {
        (0..each * p).fold(List::new(), |list, turn| match turn % 3 {
            0 => list.take(turn % p),
            _ => list.put(turn % p, turn),
        })
    }

    /// Puts of 1, 2 and so on by a process alone, each with all its steps.
    pub fn whole_puts(self, process: u32, count: u32, steps: usize) -> List {
        (1..=count).fold(self, |list, value| {
            list.put(process, value).steps(process, steps)
        })
    }

    /// How many records it has, which is the number of the last one.
    pub fn count(&self) -> u32 {
        (self.bytes.len() / STEP_RECORD_BYTES) as u32
    }

    pub fn bytes(self) -> Vec<u8> {
        self.bytes
    }
}
