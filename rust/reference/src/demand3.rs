//! Checker of demand 3 on what a run leaves: records taken, answer bytes, table words.

use crate::helps::play_watched;
use crate::machine::Machine;
use crate::order::{root_order, Standing};
use crate::plain_queue::PlainQueue;
use crate::records::{numbered, Act, Answer, Operation, Outcome, ANSWER_RECORD_BYTES};
use crate::refusal::Refusal;
use crate::run::{accept, test_record, Room};
use crate::tree::{Shape, Tree, ROOT};

/// An operation's process and serial.
#[derive(Clone, Copy, PartialEq, Eq, Debug)]
pub struct Name {
    pub process: u32,
    pub serial: u32,
}

#[derive(Clone, Copy, PartialEq, Eq, Debug)]
pub enum Violation {
    /// The call itself is turned down, so that there is nothing to claim.
    Call(Refusal),
    /// A record that Run doesn't take.
    NotTaken { record: usize, refusal: Refusal },
    /// More own steps than 40H + 1.
    TooManySteps(Name),
    /// A finished operation outside the root order.
    Missing(Name),
    /// An operation that stands in the root order twice.
    Repeated(Name),
    /// A place in the root order that is no operation's.
    Stranger(Name),
    /// An operation that stands among those of the other kind.
    OtherKind(Name),
    /// Finished before the other began, but not in an earlier root block.
    NotEarlier { first: Name, later: Name },
    /// Not one answer record for each finished operation.
    AnswerCount { finished: usize, bytes: usize },
    /// An answer with an unknown kind, or a value where none may stand.
    AnswerForm { answer: usize },
    /// An answer of another process or serial than the Q in its turn.
    AnswerName { answer: usize },
    /// An answer whose own steps are not those counted.
    AnswerSteps { answer: usize, counted: u32 },
    /// An answer whose helps are not those counted.
    AnswerHelps { answer: usize, counted: u32 },
    /// An answer with another root block than the one it stands in.
    AnswerBlock { answer: usize },
    /// An answer that the plain queue doesn't give.
    AnswerOutcome { answer: usize, plain: Outcome },
    /// The plain queue ends with another number of values than the last root block's size.
    LastSize { held: usize, size: u32 },
}

/// An operation as the records tell it.
#[derive(Clone, PartialEq, Eq, Debug)]
pub struct Told {
    pub name: Name,
    pub operation: Operation,
    /// The record that opens it, by its index in the list.
    pub begin: usize,
    /// The record that does its Q.
    pub end: Option<usize>,
    /// Own steps.
    pub steps: u32,
    /// Those of its records that moved a child's head inside a refresh.
    pub helps: Vec<usize>,
}

/// The order of the operations in the root, by index in the list of those told.
struct Root {
    order: Vec<usize>,
    /// For each operation told, its root block.
    block: Vec<Option<u32>>,
}

/// Most own steps of an operation, 40H + 1.
pub fn step_limit(shape: Shape) -> u32 {
    40 * shape.root_height() + 1
}

/// Checks demand 3. The records are those that Run took.
pub fn check(
    p: u32,
    l: u32,
    records: &[u8],
    answers: &[u8],
    table: &[u32],
) -> Result<(), Violation> {
    let shape = accept(p, l, records, table).map_err(Violation::Call)?;
    check_within(shape, records, answers, table, step_limit(shape))
}

/// Demand 3 with another limit of own steps, so that tests can see it broken.
pub fn check_within(
    shape: Shape,
    records: &[u8],
    answers: &[u8],
    table: &[u32],
    most_steps: u32,
) -> Result<(), Violation> {
    let tree = Tree::from_words(shape, table);
    let told = replay(shape, records)?;
    check_steps(&told, most_steps)?;
    let root = check_root(&told, &root_order(&tree))?;
    check_precedence(&told, &root)?;
    let (outcomes, queue) = feed(&told, &root);
    check_answers(&told, &root, &outcomes, answers)?;
    let (held, size) = (
        queue.values().len(),
        tree.block(ROOT, tree.last_present(ROOT)).size,
    );
    if held != size as usize {
        return Err(Violation::LastSize { held, size });
    }
    Ok(())
}

/// Plays the step rules to learn which record does each Q and which moves a child's head inside a
/// refresh. Own steps are counted from the records.
pub fn replay(shape: Shape, records: &[u8]) -> Result<Vec<Told>, Violation> {
    let mut machine = Machine::start(shape);
    let mut told: Vec<Told> = Vec::new();
    for (index, (number, bytes)) in numbered(records).enumerate() {
        let record = test_record(&machine, bytes, 0, Room::Unlimited).map_err(|refusal| {
            Violation::NotTaken {
                record: index,
                refusal,
            }
        })?;
        let process = record.process;
        let (answer, v3) = play_watched(&mut machine, number, record);
        match record.act {
            Act::Begin(operation) => {
                let serial = 1 + told.iter().filter(|t| t.name.process == process).count() as u32;
                told.push(Told {
                    name: Name { process, serial },
                    operation,
                    begin: index,
                    end: None,
                    steps: 0,
                    helps: Vec::new(),
                });
            }
            Act::Step => {
                let own = told.iter_mut().rfind(|t| t.name.process == process);
                let own = own.expect("a step that is taken has its operation");
                own.steps += 1;
                if v3.is_some_and(|v3| v3.moved) {
                    own.helps.push(index);
                }
                own.end = answer.map(|_| index);
            }
        }
    }
    Ok(told)
}

fn check_steps(told: &[Told], most: u32) -> Result<(), Violation> {
    match told.iter().find(|t| t.steps > most) {
        Some(t) => Err(Violation::TooManySteps(t.name)),
        None => Ok(()),
    }
}

/// Each finished operation exactly once, any other at most once, nothing else.
fn check_root(told: &[Told], order: &[Standing]) -> Result<Root, Violation> {
    let mut root = Root {
        order: Vec::new(),
        block: vec![None; told.len()],
    };
    for standing in order {
        let name = Name {
            process: standing.given.process,
            serial: standing.given.place,
        };
        let index = told.iter().position(|t| t.name == name);
        let index = index.ok_or(Violation::Stranger(name))?;
        if told[index].operation.kind() != standing.kind {
            return Err(Violation::OtherKind(name));
        }
        if root.block[index].is_some() {
            return Err(Violation::Repeated(name));
        }
        root.block[index] = Some(standing.root_block);
        root.order.push(index);
    }
    for (index, t) in told.iter().enumerate() {
        if t.end.is_some() && root.block[index].is_none() {
            return Err(Violation::Missing(t.name));
        }
    }
    Ok(root)
}

/// What finished before another began stands in an earlier root block.
fn check_precedence(told: &[Told], root: &Root) -> Result<(), Violation> {
    for (first, first_block) in told.iter().zip(&root.block) {
        let Some(end) = first.end else { continue };
        for (later, later_block) in told.iter().zip(&root.block) {
            let stands_too_early = later_block.is_some() && first_block >= later_block;
            if end < later.begin && stands_too_early {
                let (first, later) = (first.name, later.name);
                return Err(Violation::NotEarlier { first, later });
            }
        }
    }
    Ok(())
}

/// The plain queue fed the root order: its answers by operation, and its end state.
fn feed(told: &[Told], root: &Root) -> (Vec<Option<Outcome>>, PlainQueue) {
    let mut queue = PlainQueue::default();
    let mut outcomes = vec![None; told.len()];
    for &index in &root.order {
        outcomes[index] = Some(queue.feed(told[index].operation));
    }
    (outcomes, queue)
}

/// The own steps and the helps of an answer.
fn check_counts(told: &Told, read: Answer, answer: usize) -> Result<(), Violation> {
    let counted = told.steps;
    if u32::from(read.steps) != counted {
        return Err(Violation::AnswerSteps { answer, counted });
    }
    let counted = told.helps.len() as u32;
    if u32::from(read.helps) != counted {
        return Err(Violation::AnswerHelps { answer, counted });
    }
    Ok(())
}

/// One answer for each Q, in the order of the Qs, each as counted and as the
/// plain queue gives it.
fn check_answers(
    told: &[Told],
    root: &Root,
    outcomes: &[Option<Outcome>],
    bytes: &[u8],
) -> Result<(), Violation> {
    let mut finished: Vec<usize> = (0..told.len()).filter(|&t| told[t].end.is_some()).collect();
    finished.sort_by_key(|&t| told[t].end);
    if bytes.len() != finished.len() * ANSWER_RECORD_BYTES {
        return Err(Violation::AnswerCount {
            finished: finished.len(),
            bytes: bytes.len(),
        });
    }
    for (answer, record) in bytes.chunks_exact(ANSWER_RECORD_BYTES).enumerate() {
        let t = finished[answer];
        let read = Answer::read(record).ok_or(Violation::AnswerForm { answer })?;
        if (read.process, read.serial) != (told[t].name.process, told[t].name.serial) {
            return Err(Violation::AnswerName { answer });
        }
        check_counts(&told[t], read, answer)?;
        if Some(read.root_block) != root.block[t] {
            return Err(Violation::AnswerBlock { answer });
        }
        let plain = outcomes[t].expect("a finished operation stands in the root order");
        if read.outcome != plain {
            return Err(Violation::AnswerOutcome { answer, plain });
        }
    }
    Ok(())
}
