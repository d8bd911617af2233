//! Checker of growth: what a list leaves of the past is the beginning of what a longer one leaves.

use crate::order::{root_order, Standing};
use crate::tree::{Shape, Tree};

/// The past as the calls tell it after a list that runs without refusal.
#[derive(Clone, PartialEq, Eq, Debug)]
pub struct Past {
    /// The root order in the table that Run leaves.
    pub order: Vec<Standing>,
    /// The bytes that listing the order writes.
    pub output: Vec<u8>,
}

/// The first part of an earlier past that is not in its place in a later one.
#[derive(Clone, Copy, PartialEq, Eq, Debug)]
pub enum Departure {
    Order { entry: usize },
    Output { byte: usize },
}

impl Past {
    pub fn left(shape: Shape, table: &[u32], output: &[u8]) -> Past {
        Past {
            order: root_order(&Tree::from_words(shape, table)),
            output: output.to_vec(),
        }
    }
}

/// Checks that the earlier past is the beginning of the later one, in order and in output.
pub fn grows(earlier: &Past, later: &Past) -> Result<(), Departure> {
    if let Some(entry) = departs(&earlier.order, &later.order) {
        return Err(Departure::Order { entry });
    }
    match departs(&earlier.output, &later.output) {
        Some(byte) => Err(Departure::Output { byte }),
        None => Ok(()),
    }
}

/// Index of the first entry of the earlier list that is not there in the later one.
pub fn departs<T: PartialEq>(earlier: &[T], later: &[T]) -> Option<usize> {
    (0..earlier.len()).find(|&index| later.get(index) != Some(&earlier[index]))
}
