//! List the order: the root order that a list of step records leaves.

use crate::order::root_order;
use crate::refusal::{number, Refusal};
use crate::run::{accept, play_into};

#[derive(Clone, Copy, PartialEq, Eq, Debug)]
pub struct ListResult {
    /// The paper's number, 0 for none.
    pub refusal: u32,
    /// Length of the list in bytes, 0 on a refusal.
    pub length: u64,
}

pub fn list_order(
    p: u32,
    l: u32,
    records: &[u8],
    table: &mut [u32],
    output: &mut [u8],
) -> ListResult {
    let (refusal, length) = match list(p, l, records, table, output) {
        Ok(length) => (None, length as u64),
        Err(refusal) => (Some(refusal), 0),
    };
    ListResult {
        refusal: number(refusal),
        length,
    }
}

fn list(
    p: u32,
    l: u32,
    records: &[u8],
    table: &mut [u32],
    output: &mut [u8],
) -> Result<usize, Refusal> {
    let shape = accept(p, l, records, table)?;
    let played = play_into(shape, records, table);
    if let Some(refusal) = played.refusal {
        return Err(refusal);
    }
    let order = root_order(&played.machine.memory.tree);
    let list: Vec<u8> = order
        .iter()
        .flat_map(|standing| standing.record().bytes())
        .collect();
    if list.len() > output.len() {
        return Err(Refusal::OutputShort);
    }
    output[..list.len()].copy_from_slice(&list);
    Ok(list.len())
}
