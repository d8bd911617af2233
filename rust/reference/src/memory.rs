//! The memory that all processes share: blocks and heads.

use crate::tree::{Block, Shape, Tree};

/// The blocks and the heads that all processes share.
#[derive(Clone, PartialEq, Eq, Hash, Debug)]
pub struct Memory {
    pub tree: Tree,
    /// By node number; entry 0 is not used.
    pub heads: Vec<u32>,
}

impl Memory {
    pub fn start(shape: Shape) -> Memory {
        Memory {
            tree: Tree::cleared(shape),
            heads: vec![1; shape.last_node() as usize + 1],
        }
    }

    pub fn head(&self, node: u32) -> u32 {
        self.heads[node as usize]
    }

    /// Whether the head was at that place, so that it was raised.
    pub fn raise_head(&mut self, node: u32, from: u32) -> bool {
        let moved = self.head(node) == from;
        if moved {
            self.heads[node as usize] = from + 1;
        }
        moved
    }

    pub fn set_super(&mut self, node: u32, place: u32, superblock: u32) {
        let block = self.tree.block(node, place);
        if block.superblock == 0 {
            let block = Block {
                superblock,
                ..block
            };
            self.tree.write(node, place, block);
        }
    }

    /// Whether the place was absent, so that the block was written.
    pub fn write_if_absent(&mut self, node: u32, place: u32, block: Block) -> bool {
        let absent = !self.tree.block(node, place).present();
        if absent {
            self.tree.write(node, place, block);
        }
        absent
    }
}
