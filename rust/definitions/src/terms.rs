//! Operations, events and answers as text of the rows' file.

use reference::account::Event;
use reference::demand3::Name;
use reference::records::{Answer, Operation, Outcome, ANSWER_RECORD_BYTES};
use reference::tree::Shape;

pub fn list(items: impl Iterator<Item = String>) -> String {
    items.map(|item| item + " ∷ ").collect::<String>() + "[]"
}

pub fn numbers(items: impl IntoIterator<Item = impl ToString>) -> String {
    list(items.into_iter().map(|item| item.to_string()))
}

pub fn shape(shape: Shape) -> String {
    format!("(shape_for {} {})", shape.p(), shape.l())
}

pub fn name(x: Name) -> String {
    format!("op {} {}", x.process, x.serial)
}

pub fn names(list_of: &[Name]) -> String {
    list(list_of.iter().map(|&x| name(x)))
}

/// What an operation does. The paper says nothing of one that no record opened; the definitions
/// say a take there.
pub fn operation(does: Option<Operation>) -> String {
    match does {
        Some(Operation::Put(value)) => format!("Put {value}"),
        Some(Operation::Take) | None => "Take".to_string(),
    }
}

/// An answer. The paper says nothing of an operation that has none; the definitions say none there.
pub fn reply(outcome: Option<Outcome>) -> String {
    match outcome {
        Some(Outcome::PutDone) => "Done".to_string(),
        Some(Outcome::Value(value)) => format!("Value {value}"),
        Some(Outcome::Nothing) | None => "Nothing".to_string(),
    }
}

/// The answer records of a log.
pub fn answers(log: &[u8]) -> String {
    let records = log.chunks_exact(ANSWER_RECORD_BYTES);
    list(records.map(|bytes| answer(Answer::read(bytes).expect("a well-formed answer"))))
}

pub fn answer(answer: Answer) -> String {
    let (process, serial) = (answer.process, answer.serial);
    let (steps, helps) = (answer.steps, answer.helps);
    let reply = reply(Some(answer.outcome));
    format!(
        "answer {process} {serial} {steps} {helps} {} ({reply})",
        answer.root_block
    )
}

/// Those that pass a test, as a number: the first has the lowest bit.
pub fn bits(names: &[Name], mut passes: impl FnMut(Name) -> bool) -> u64 {
    let bit = |bits, &x| 2 * bits + u64::from(passes(x));
    names.iter().rev().fold(0, bit)
}

pub fn events(events: &[Event]) -> String {
    let runs = events.chunk_by(|a, b| a == b && matches!(a, Event::Moves(..)));
    let text = runs.map(|run| match run[0] {
        Event::Opens(x, operation_of) => {
            format!("opens ({}) ({}) ∷ ", name(x), operation(Some(operation_of)))
        }
        Event::Moves(x, helps) => format!("moved {} ({}) {helps} ++ ", run.len(), name(x)),
        Event::Finishes(x) => format!("finishes ({}) ∷ ", name(x)),
    });
    text.collect::<String>() + "[]"
}
