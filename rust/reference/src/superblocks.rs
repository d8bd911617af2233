//! Checker of superblocks on what a run leaves: each stands at its subblock's super or one later.

use crate::order::end_in;
use crate::tree::{parent, Shape, Tree, ROOT};

/// A block below the root with a block of the parent that has it as a subblock.
#[derive(Clone, Copy, PartialEq, Eq, Debug)]
pub struct Subblock {
    pub node: u32,
    pub place: u32,
    /// The place of the parent's block.
    pub above: u32,
    /// The block's own super.
    pub super_word: u32,
}

impl Subblock {
    /// Whether super is set and the superblock stands there or one place later.
    pub fn near(self) -> bool {
        let set = self.super_word != 0;
        set && [self.above, self.above - 1].contains(&self.super_word)
    }
}

/// Each subblock of each present block, by node, then by place of the superblock.
pub fn all_subblocks(shape: Shape, table: &[u32]) -> Vec<Subblock> {
    let tree = Tree::from_words(shape, table);
    let mut found = Vec::new();
    for node in ROOT + 1..=shape.last_node() {
        let places = 1..=shape.last_place(parent(node));
        for above in places.filter(|&b| tree.block(parent(node), b).present()) {
            found.extend(subblocks_in(&tree, node, above));
        }
    }
    found
}

/// The subblocks in a node of its parent's block. Of places that the node lacks the first stands
/// for all: it is absent, so its super is not set.
fn subblocks_in(tree: &Tree, node: u32, above: u32) -> impl Iterator<Item = Subblock> + '_ {
    let end = end_in(tree, parent(node), above, node);
    let before = end_in(tree, parent(node), above - 1, node);
    let one_past = tree.shape().last_place(node) + 1;
    (before..end.min(one_past)).map(move |place_before| Subblock {
        node,
        place: place_before + 1,
        above,
        super_word: tree.block(node, place_before + 1).superblock,
    })
}

/// Checks that every superblock is near its subblock's super; else the first that is not.
pub fn supers_near(shape: Shape, table: &[u32]) -> Result<(), Subblock> {
    let subblocks = all_subblocks(shape, table);
    match subblocks.into_iter().find(|block| !block.near()) {
        Some(misplaced) => Err(misplaced),
        None => Ok(()),
    }
}
