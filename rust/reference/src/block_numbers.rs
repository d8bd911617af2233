//! Checker of block numbers on what a run leaves: block 0 has 0, in each node they rise with the place,
//! a block's is above those of its subblocks, and each is the number of the record that wrote the block.

use crate::machine::Machine;
use crate::records::{numbered, StepRecord};
use crate::run::play_record;
use crate::superblocks::all_subblocks;
use crate::tree::{parent, Shape, Tree, ROOT};

/// A place of a node.
#[derive(Clone, Copy, PartialEq, Eq, Debug)]
pub struct At {
    pub node: u32,
    pub place: u32,
}

#[derive(Clone, Copy, PartialEq, Eq, Debug)]
pub enum Misnumbered {
    /// A block 0 whose number is not 0.
    Zero(At),
    /// A present block whose number is not above that of the one before it in its node.
    NotRising(At),
    /// A present block whose number is not above that of this subblock.
    NotAbove { block: At, subblock: At },
    /// A present block that has not the number of the record that wrote it; `None` if none did.
    NotWritten { block: At, record: Option<u32> },
}

/// Checks all the claims. The records are those that Run took.
pub fn numbers_hold(shape: Shape, records: &[u8], table: &[u32]) -> Result<(), Misnumbered> {
    numbers_rise(shape, table)?;
    numbers_above(shape, table)?;
    numbers_written(shape, records, table)
}

/// Block 0 of each node has 0, and from there on the numbers of its present blocks rise strictly.
pub fn numbers_rise(shape: Shape, table: &[u32]) -> Result<(), Misnumbered> {
    let tree = Tree::from_words(shape, table);
    for node in ROOT..=shape.last_node() {
        let mut last = tree.block(node, 0).number;
        if last != 0 {
            return Err(Misnumbered::Zero(At { node, place: 0 }));
        }
        for at in present_in(&tree, node) {
            let number = number_at(&tree, at);
            if number <= last {
                return Err(Misnumbered::NotRising(at));
            }
            last = number;
        }
    }
    Ok(())
}

/// The number of each present block is above those of all its subblocks.
pub fn numbers_above(shape: Shape, table: &[u32]) -> Result<(), Misnumbered> {
    let tree = Tree::from_words(shape, table);
    for found in all_subblocks(shape, table) {
        let (node, place) = (found.node, found.place);
        let subblock = At { node, place };
        let (node, place) = (parent(found.node), found.above);
        let block = At { node, place };
        if number_at(&tree, block) <= number_at(&tree, subblock) {
            return Err(Misnumbered::NotAbove { block, subblock });
        }
    }
    Ok(())
}

/// Each present block with number n is absent after the first n - 1 records and present after the
/// first n.
pub fn numbers_written(shape: Shape, records: &[u8], table: &[u32]) -> Result<(), Misnumbered> {
    let tree = Tree::from_words(shape, table);
    let written = written_by(shape, records);
    for node in ROOT..=shape.last_node() {
        for block in present_in(&tree, node) {
            let record = written[node as usize].get(block.place as usize - 1);
            if record != Some(&number_at(&tree, block)) {
                let record = record.copied();
                return Err(Misnumbered::NotWritten { block, record });
            }
        }
    }
    Ok(())
}

/// By node, of places 1, 2 and so on the number of records after which the place was first present.
/// It is found by looking for present places after each record, and not by the steps that write.
pub fn written_by(shape: Shape, records: &[u8]) -> Vec<Vec<u32>> {
    let mut machine = Machine::start(shape);
    let mut written = vec![Vec::new(); shape.last_node() as usize + 1];
    for (number, bytes) in numbered(records) {
        let record = StepRecord::read(bytes, shape.p()).expect("a record that is taken");
        play_record(&mut machine, number, record);
        for node in ROOT..=shape.last_node() {
            let written = &mut written[node as usize];
            let next = written.len() as u32 + 1;
            if machine.memory.tree.block(node, next).present() {
                written.push(number);
            }
        }
    }
    written
}

fn number_at(tree: &Tree, at: At) -> u32 {
    tree.block(at.node, at.place).number
}

/// The present places of a node, rising.
fn present_in(tree: &Tree, node: u32) -> impl Iterator<Item = At> + '_ {
    let places = (1..=tree.shape().last_place(node)).map(move |place| At { node, place });
    places.filter(|at| tree.block(at.node, at.place).present())
}
