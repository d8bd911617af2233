//! Checker of what the desk claims of the order of its terms, on the table and the terms that it leaves
//! of a list that it takes whole.

use crate::account::root_operations;
use crate::demand3::{replay, Told};
use crate::desk::{is_entry, FIRST_ENTRY};
use crate::plain_queue::PlainQueue;
use crate::records::{Operation, Outcome};
use crate::tree::{Shape, Tree};

/// A take that stands in the root, and the put that a plain queue gives it.
#[derive(Clone, PartialEq, Eq, Debug)]
pub struct Received {
    pub take: Told,
    pub put: Told,
    /// The put's number among all puts in root order, from 1.
    pub number: u32,
    pub value: u32,
}

impl Received {
    /// Whether the desk delivers it.
    pub fn is_term(&self) -> bool {
        self.take.end.is_some() && is_entry(self.value)
    }
}

#[derive(Clone, Copy, PartialEq, Eq, Debug)]
pub enum Misdelivered {
    /// A term, by its index, that is of no put later in root order than the put of the term before.
    NotRising { term: usize },
    /// Not one term for each finished take that received an entry.
    Count { received: usize, terms: usize },
    /// A term, by its index, that is not of the put that its take received.
    Term { term: usize, number: u32 },
}

/// The k-th term is the value of put number j(k) in root order, less 2^31, and j rises strictly. With a
/// plain queue that is fed put numbers in the place of values, the finished takes that get entries get
/// just the puts j(1), j(2) and so on.
pub fn terms_in_order(
    shape: Shape,
    records: &[u8],
    table: &[u32],
    terms: &[u32],
) -> Result<(), Misdelivered> {
    let order = in_root_order(shape, records, table);
    let puts: Vec<u32> = puts_of(&order).map(|(_, value)| value).collect();
    rising(&puts, terms)?;
    let mut received = by_plain_queue(&order);
    received.retain(Received::is_term);
    if received.len() != terms.len() {
        return Err(Misdelivered::Count {
            received: received.len(),
            terms: terms.len(),
        });
    }
    for (term, (received, &delivered)) in received.iter().zip(terms).enumerate() {
        if received.value - FIRST_ENTRY != delivered {
            let number = received.number;
            return Err(Misdelivered::Term { term, number });
        }
    }
    Ok(())
}

/// The takes in root order, finished or not, with what they get from the plain queue; those that get
/// none are left out.
pub fn takes_received(shape: Shape, records: &[u8], table: &[u32]) -> Vec<Received> {
    by_plain_queue(&in_root_order(shape, records, table))
}

/// The operations that stand in the root, as the records tell them.
fn in_root_order(shape: Shape, records: &[u8], table: &[u32]) -> Vec<Told> {
    let told = replay(shape, records).expect("a list that the desk takes whole");
    let order = root_operations(&Tree::from_words(shape, table));
    let found = order
        .iter()
        .map(|name| told.iter().find(|t| t.name == *name));
    found
        .map(|told| told.expect("an operation of the list").clone())
        .collect()
}

/// The puts with their values, in root order.
fn puts_of(order: &[Told]) -> impl Iterator<Item = (&Told, u32)> {
    order.iter().filter_map(|told| match told.operation {
        Operation::Put(value) => Some((told, value)),
        Operation::Take => None,
    })
}

/// Whether the terms can be found among the puts, each in a later put than the one before. Of the puts
/// with its value the first that is left is as good as any, as it leaves the most for those after it.
fn rising(puts: &[u32], terms: &[u32]) -> Result<(), Misdelivered> {
    let mut left = puts.iter();
    for (term, &delivered) in terms.iter().enumerate() {
        let is_its_put = |value: &u32| value.checked_sub(FIRST_ENTRY) == Some(delivered);
        if !left.any(is_its_put) {
            return Err(Misdelivered::NotRising { term });
        }
    }
    Ok(())
}

/// A plain queue fed put numbers, from 1, in the place of values: the takes that get one.
fn by_plain_queue(order: &[Told]) -> Vec<Received> {
    let puts: Vec<(&Told, u32)> = puts_of(order).collect();
    let mut queue = PlainQueue::default();
    let mut received = Vec::new();
    let mut fed = 0;
    for told in order {
        let operation = match told.operation {
            Operation::Put(_) => {
                fed += 1;
                Operation::Put(fed)
            }
            Operation::Take => Operation::Take,
        };
        if let Outcome::Value(number) = queue.feed(operation) {
            let (put, value) = puts[number as usize - 1];
            received.push(Received {
                take: told.clone(),
                put: put.clone(),
                number,
                value,
            });
        }
    }
    received
}
