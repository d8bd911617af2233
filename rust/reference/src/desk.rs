//! The legal dictionary's delivery desk: the terms that the finished takes of a list received.

use crate::machine::Machine;
use crate::order::{root_order, Given};
use crate::records::{Act, Operation, Outcome, StepRecord};
use crate::refusal::{number, Refusal};
use crate::run::{accept, play_by, test_record, Played, Room};
use crate::tree::Shape;
use std::collections::HashMap;

/// A value from here on is a dictionary entry; what it is above this is the term number.
pub const FIRST_ENTRY: u32 = 1 << 31;

pub const TERM_BYTES: usize = 4;

#[derive(Clone, Copy, PartialEq, Eq, Debug)]
pub struct DeskResult {
    /// The paper's number, 0 for none.
    pub refusal: u32,
    /// Terms delivered, 0 on a refusal.
    pub count: u64,
}

/// Why the desk turns a call or a record down. The queue knows nothing of licences.
#[derive(Clone, Copy, PartialEq, Eq, Hash, Debug)]
enum DeskRefusal {
    /// Numbers 1 to 8, as in listing the order.
    Queue(Refusal),
    /// The terms exceed the output.
    OutputShort,
    /// The licensed process is not below p.
    Licence,
    /// An entry put by another process than the licensed one.
    ForeignEntry,
}

impl From<Refusal> for DeskRefusal {
    fn from(refusal: Refusal) -> DeskRefusal {
        DeskRefusal::Queue(refusal)
    }
}

/// The paper's number; 0 stands for no refusal.
fn desk_number(refusal: Option<DeskRefusal>) -> u32 {
    match refusal {
        None => 0,
        Some(DeskRefusal::Queue(refusal)) => number(Some(refusal)),
        Some(DeskRefusal::OutputShort) => 10,
        Some(DeskRefusal::Licence) => 13,
        Some(DeskRefusal::ForeignEntry) => 14,
    }
}

pub fn deliver(
    p: u32,
    l: u32,
    licensed: u32,
    records: &[u8],
    table: &mut [u32],
    output: &mut [u8],
) -> DeskResult {
    let (refusal, count) = match terms_into(p, l, licensed, records, table, output) {
        Ok(count) => (None, count as u64),
        Err(refusal) => (Some(refusal), 0),
    };
    DeskResult {
        refusal: desk_number(refusal),
        count,
    }
}

fn terms_into(
    p: u32,
    l: u32,
    licensed: u32,
    records: &[u8],
    table: &mut [u32],
    output: &mut [u8],
) -> Result<usize, DeskRefusal> {
    let shape = accept_licensed(p, l, licensed, records, table)?;
    let played = play_licensed(shape, licensed, records);
    played.machine.memory.tree.write_words(table);
    if let Some(refusal) = played.refusal {
        return Err(refusal);
    }
    let terms = terms_of(&played);
    let bytes = term_bytes(&terms);
    if bytes.len() > output.len() {
        return Err(DeskRefusal::OutputShort);
    }
    output[..bytes.len()].copy_from_slice(&bytes);
    Ok(terms.len())
}

/// Tests 1, 2, 13, 3 and 4, in that order.
fn accept_licensed(
    p: u32,
    l: u32,
    licensed: u32,
    records: &[u8],
    table: &[u32],
) -> Result<Shape, DeskRefusal> {
    if licensed >= Shape::new(p, l)?.p() {
        return Err(DeskRefusal::Licence);
    }
    Ok(accept(p, l, records, table)?)
}

/// Plays up to the first record that the desk refuses, with room for every answer.
fn play_licensed(shape: Shape, licensed: u32, records: &[u8]) -> Played<DeskRefusal> {
    play_by(shape, records, |machine, bytes, _| {
        test_licensed(machine, licensed, bytes)
    })
}

/// The tests of one record: those of listing the order, then 14.
fn test_licensed(
    machine: &Machine,
    licensed: u32,
    bytes: &[u8],
) -> Result<StepRecord, DeskRefusal> {
    let record = test_record(machine, bytes, 0, Room::Unlimited)?;
    match record.act {
        Act::Begin(Operation::Put(value)) if is_entry(value) && record.process != licensed => {
            Err(DeskRefusal::ForeignEntry)
        }
        _ => Ok(record),
    }
}

pub fn is_entry(value: u32) -> bool {
    value >= FIRST_ENTRY
}

/// The terms that finished takes received, in root order of the takes. An operation without an answer
/// is not finished.
fn terms_of(played: &Played<DeskRefusal>) -> Vec<u32> {
    let answered = played.answers.iter().map(|answer| {
        let (process, place) = (answer.process, answer.serial);
        (Given { process, place }, answer.outcome)
    });
    let outcomes: HashMap<Given, Outcome> = answered.collect();
    let order = root_order(&played.machine.memory.tree);
    let finished = order.iter().filter_map(|x| outcomes.get(&x.given));
    finished.filter_map(|&outcome| term_of(outcome)).collect()
}

/// The term of an answer, if it tells an entry.
pub fn term_of(outcome: Outcome) -> Option<u32> {
    match outcome {
        Outcome::Value(value) if is_entry(value) => Some(value - FIRST_ENTRY),
        _ => None,
    }
}

/// Terms as the desk sends them.
pub fn term_bytes(terms: &[u32]) -> Vec<u8> {
    terms.iter().flat_map(|term| term.to_le_bytes()).collect()
}

/// The terms that the desk sent.
pub fn terms_sent(bytes: &[u8]) -> Vec<u32> {
    let terms = bytes.chunks_exact(TERM_BYTES);
    terms
        .map(|term| u32::from_le_bytes([term[0], term[1], term[2], term[3]]))
        .collect()
}
