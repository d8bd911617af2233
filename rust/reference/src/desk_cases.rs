//! What a list that the desk takes whole can show, so that tests can tell what they met.

use crate::desk::{is_entry, FIRST_ENTRY};
use crate::desk_order::Received;

#[derive(Clone, Copy, PartialEq, Eq, Hash, Debug)]
pub enum DeskCase {
    Term,
    /// The first and the last value that are entries.
    FirstEntry,
    LastEntry,
    /// The last value that is no entry, received.
    JustBelow,
    /// By the order of the answers the terms would be others.
    OutOfOrder,
    /// An entry that a take received which is not finished.
    UnfinishedTake,
    /// A term whose put is not finished.
    UnfinishedPut,
    /// A term that another process than that of its put received.
    OtherTakes,
}

pub const DESK_CASES: [DeskCase; 8] = [
    DeskCase::Term,
    DeskCase::FirstEntry,
    DeskCase::LastEntry,
    DeskCase::JustBelow,
    DeskCase::OutOfOrder,
    DeskCase::UnfinishedTake,
    DeskCase::UnfinishedPut,
    DeskCase::OtherTakes,
];

impl DeskCase {
    /// The case in plain words.
    pub fn name(self) -> &'static str {
        match self {
            DeskCase::Term => "a term",
            DeskCase::FirstEntry => "the first entry",
            DeskCase::LastEntry => "the last entry",
            DeskCase::JustBelow => "just below the entries",
            DeskCase::OutOfOrder => "takes finish in another order",
            DeskCase::UnfinishedTake => "an entry of an unfinished take",
            DeskCase::UnfinishedPut => "a term of an unfinished put",
            DeskCase::OtherTakes => "a term taken by another process",
        }
    }

    /// Whether these takes, in root order, show it.
    pub fn is_shown(self, received: &[Received]) -> bool {
        let terms: Vec<&Received> = received.iter().filter(|x| x.is_term()).collect();
        let is_value = |value| terms.iter().any(|x| x.value == value);
        match self {
            DeskCase::Term => !terms.is_empty(),
            DeskCase::FirstEntry => is_value(FIRST_ENTRY),
            DeskCase::LastEntry => is_value(u32::MAX),
            DeskCase::JustBelow => received
                .iter()
                .any(|x| x.take.end.is_some() && x.value == FIRST_ENTRY - 1),
            DeskCase::OutOfOrder => answered(&terms) != values(&terms),
            DeskCase::UnfinishedTake => received
                .iter()
                .any(|x| x.take.end.is_none() && is_entry(x.value)),
            DeskCase::UnfinishedPut => terms.iter().any(|x| x.put.end.is_none()),
            DeskCase::OtherTakes => terms
                .iter()
                .any(|x| x.take.name.process != x.put.name.process),
        }
    }
}

fn values(terms: &[&Received]) -> Vec<u32> {
    terms.iter().map(|x| x.value).collect()
}

/// The values in the order of the answers.
fn answered(terms: &[&Received]) -> Vec<u32> {
    let mut terms = terms.to_vec();
    terms.sort_by_key(|x| x.take.end);
    values(&terms)
}
