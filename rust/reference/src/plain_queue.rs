//! The plain queue: a list of values, empty at first.

use crate::records::{Operation, Outcome};

#[derive(Clone, Default, PartialEq, Eq, Debug)]
pub struct PlainQueue {
    /// The front value first.
    values: Vec<u32>,
}

impl PlainQueue {
    /// A put adds at the back; a take removes the front value and answers it,
    /// or answers none from an empty list and changes nothing.
    pub fn feed(&mut self, operation: Operation) -> Outcome {
        match operation {
            Operation::Put(value) => {
                self.values.push(value);
                Outcome::PutDone
            }
            Operation::Take if self.values.is_empty() => Outcome::Nothing,
            Operation::Take => Outcome::Value(self.values.remove(0)),
        }
    }

    pub fn values(&self) -> &[u32] {
        &self.values
    }
}
