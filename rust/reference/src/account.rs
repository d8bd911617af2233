//! The terms of demand 3 one by one: what a list that Run took says of an operation, where a table
//! has it stand, and what the plain queue answers to it.

use crate::demand3::{replay, Name, Told, Violation};
use crate::order::{open, root_order, Standing};
use crate::plain_queue::PlainQueue;
use crate::records::{Answer, Kind, Operation, Outcome, ANSWER_RECORD_BYTES, STEP_RECORD_BYTES};
use crate::tree::{Shape, Tree, ROOT};

/// What a record that is taken does.
#[derive(Clone, Copy, PartialEq, Eq, Debug)]
pub enum Event {
    Opens(Name, Operation),
    /// A step of the operation that is not its Q; whether it moved a child's head inside a refresh.
    Moves(Name, bool),
    Finishes(Name),
}

/// What the records of a list say of its operations.
#[derive(Clone, PartialEq, Eq, Debug)]
pub struct Account {
    /// The operations in the order of their begins.
    told: Vec<Told>,
    /// The process of each record.
    processes: Vec<u32>,
}

impl Account {
    /// Of a list that Run takes whole.
    pub fn of(shape: Shape, records: &[u8]) -> Result<Account, Violation> {
        let told = replay(shape, records)?;
        let records = records.chunks_exact(STEP_RECORD_BYTES);
        let processes = records.map(|record| u32::from(record[0])).collect();
        Ok(Account { told, processes })
    }

    fn find(&self, x: Name) -> Option<&Told> {
        self.told.iter().find(|told| told.name == x)
    }

    /// The operations in the order of their begins.
    pub fn opening(&self) -> Vec<Name> {
        self.told.iter().map(|told| told.name).collect()
    }

    pub fn is_opened(&self, x: Name) -> bool {
        self.find(x).is_some()
    }

    pub fn is_finished(&self, x: Name) -> bool {
        self.find(x).is_some_and(|told| told.end.is_some())
    }

    /// The record that does the Q of x comes earlier in the list than the one that opens y.
    pub fn finished_before(&self, x: Name, y: Name) -> bool {
        match (self.find(x).and_then(|told| told.end), self.find(y)) {
            (Some(end), Some(later)) => end < later.begin,
            _ => false,
        }
    }

    /// An operation that no record opened has none.
    pub fn own_steps(&self, x: Name) -> u32 {
        self.find(x).map_or(0, |told| told.steps)
    }

    /// Heads of children that it moved inside refreshes, finished or not.
    pub fn own_helps(&self, x: Name) -> u32 {
        self.find(x).map_or(0, |told| told.helps.len() as u32)
    }

    /// The kind and value of the begin record.
    pub fn does(&self, x: Name) -> Option<Operation> {
        self.find(x).map(|told| told.operation)
    }

    /// The operations that finished, in the order of their Qs.
    pub fn finishing(&self) -> Vec<Name> {
        let mut finished: Vec<&Told> = self.told.iter().filter(|t| t.end.is_some()).collect();
        finished.sort_by_key(|told| told.end);
        finished.iter().map(|told| told.name).collect()
    }

    /// What each record does, in list order.
    pub fn events(&self) -> Vec<Event> {
        (0..self.processes.len())
            .map(|record| self.event(record))
            .collect()
    }

    fn event(&self, record: usize) -> Event {
        let process = self.processes[record];
        let mut so_far = self.told.iter().filter(|told| told.begin <= record);
        let own = so_far.rfind(|told| told.name.process == process);
        let own = own.expect("a record that is taken has its operation");
        if own.begin == record {
            Event::Opens(own.name, own.operation)
        } else if own.end == Some(record) {
            Event::Finishes(own.name)
        } else {
            Event::Moves(own.name, own.helps.contains(&record))
        }
    }

    /// What the plain queue answers to x, if x is among the operations that it is fed.
    pub fn queue_answer(&self, x: Name, held: &[u32], order: &[Name]) -> Option<Outcome> {
        let mut queue = holding(held);
        for &y in order {
            let answer = queue.feed(self.does(y).expect("the queue is fed operations"));
            if x == y {
                return Some(answer);
            }
        }
        None
    }

    /// The values that the plain queue holds after an order.
    pub fn queue_after(&self, held: &[u32], order: &[Name]) -> Vec<u32> {
        let mut queue = holding(held);
        for &y in order {
            queue.feed(self.does(y).expect("the queue is fed operations"));
        }
        queue.values().to_vec()
    }
}

/// A plain queue that holds these values.
fn holding(values: &[u32]) -> PlainQueue {
    let mut queue = PlainQueue::default();
    for &value in values {
        queue.feed(Operation::Put(value));
    }
    queue
}

/// The operations in the root order of a table.
pub fn root_operations(tree: &Tree) -> Vec<Name> {
    let name = |standing: &Standing| Name {
        process: standing.given.process,
        serial: standing.given.place,
    };
    root_order(tree).iter().map(name).collect()
}

/// How often x is in an order.
pub fn times(x: Name, order: &[Name]) -> usize {
    order.iter().filter(|&&y| y == x).count()
}

/// How often x stands in root block b: once for each time that opening the block's puts or takes
/// gives its place. Block 0 gives none.
pub fn stands_in(tree: &Tree, x: Name, b: u32) -> usize {
    let kinds = [Kind::Put, Kind::Take].into_iter().filter(|_| b > 0);
    let given = kinds.flat_map(|kind| open(tree, ROOT, b, kind));
    given
        .filter(|given| (given.process, given.place) == (x.process, x.serial))
        .count()
}

/// The first root block that x stands in.
pub fn block_of(tree: &Tree, x: Name) -> Option<u32> {
    (1..=tree.last_present(ROOT)).find(|&b| stands_in(tree, x, b) > 0)
}

/// x stands before y in an order.
pub fn precedes(x: Name, y: Name, order: &[Name]) -> bool {
    let first = order.iter().position(|&z| z == x);
    let last = order.iter().rposition(|&z| z == y);
    matches!((first, last), (Some(first), Some(last)) if first < last)
}

/// What the answer record of x in a log says, if it has one.
pub fn response(log: &[u8], x: Name) -> Option<Outcome> {
    log.chunks_exact(ANSWER_RECORD_BYTES)
        .map(|record| Answer::read(record).expect("a log that Run wrote"))
        .find(|answer| (answer.process, answer.serial) == (x.process, x.serial))
        .map(|answer| answer.outcome)
}
