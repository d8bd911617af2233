//! The blocks in the work table that a call left, by node and place.

use crate::sizes::table_words;
use std::ops::RangeInclusive;

/// The number of the root.
pub const ROOT: u32 = 1;

/// A block: seven words of the work table.
#[derive(Clone, Copy, Default, PartialEq, Eq, Hash, Debug)]
pub struct Block {
    /// Puts of the node up to and including this block.
    pub puts: u32,
    /// Takes of the node up to and including this block.
    pub takes: u32,
    /// The parent's head as an advance read it; 0 while it is not set, and always in the root. The
    /// rules call it super.
    pub superblock: u32,
    /// Place of the last block of the left child in it; in a leaf a put's value, 0 for a take.
    pub end_left: u32,
    /// Place of the last block of the right child in it; 0 in a leaf.
    pub end_right: u32,
    /// In the root by the rule of sizes, which in the last block gives the queue's length; else 0.
    pub size: u32,
    /// The number in the list, from 1, of the record that wrote it; 0 in block 0.
    pub number: u32,
}

impl Block {
    /// Words of a block.
    pub const WORDS: usize = settings::BLOCK_WORDS;

    /// Whether a block stands at a place from 1 on: it has puts or takes.
    pub fn is_present(self) -> bool {
        self.puts != 0 || self.takes != 0
    }
}

impl From<[u32; Block::WORDS]> for Block {
    fn from(words: [u32; Block::WORDS]) -> Block {
        let [puts, takes, superblock, end_left, end_right, size, number] = words;
        Block {
            puts,
            takes,
            superblock,
            end_left,
            end_right,
            size,
            number,
        }
    }
}

/// The blocks of a work table, by node and place.
///
/// Node [`ROOT`] is the root, nodes 2v and 2v + 1 are the children of node v, and node p + k is the leaf of
/// process k. A node's blocks are one unbroken part of the table; the parts stand in node order, and
/// places rise within a part.
///
/// A put of 7 by process 0, played to its end. Its A, which writes the leaf's block, is record 2, and
/// the C4 that writes the root's is record 16:
///
/// ```
/// use otq::{Block, Table};
/// let mut records = vec![0, 1, 0, 0, 7, 0, 0, 0];
/// records.extend([0; 8].repeat(17));
/// let words = otq::play(2, 1, &records).table;
///
/// let table = Table::new(2, 1, &words).unwrap();
/// assert_eq!((table.nodes(), table.last_place(1)), (1..=3, Some(2)));
/// let root = Block { puts: 1, end_left: 1, size: 1, number: 16, ..Block::default() };
/// assert_eq!(table.present(1).collect::<Vec<_>>(), [(1, root)]);
/// let leaf = Block { puts: 1, superblock: 1, end_left: 7, number: 2, ..Block::default() };
/// assert_eq!(table.block(2, 1), Some(leaf));
/// assert_eq!(table.process_of_leaf(2), Some(0));
/// assert_eq!(table.present(3).count(), 0);
/// ```
#[derive(Clone, Copy, Debug)]
pub struct Table<'a> {
    p: u32,
    l: u32,
    blocks: &'a [[u32; Block::WORDS]],
}

impl<'a> Table<'a> {
    /// The blocks of a table that a call with this p and l left. `None` if p or l is turned down or the
    /// table is too short, since then no call fills it.
    ///
    /// Words past those needed are not read. A call turned down with 1 to 4, or 11, leaves the table as
    /// it was lent, and then its words are no blocks.
    ///
    /// ```
    /// let words = vec![0; otq::table_words(2, 1).unwrap()];
    /// assert!(otq::Table::new(2, 1, &words).is_some());
    /// assert!(otq::Table::new(2, 1, &words[1..]).is_none());
    /// assert!(otq::Table::new(3, 1, &words).is_none());
    /// ```
    pub fn new(p: u32, l: u32, words: &'a [u32]) -> Option<Table<'a>> {
        let needed = words.get(..table_words(p, l)?)?;
        let (blocks, _) = needed.as_chunks();
        Some(Table { p, l, blocks })
    }

    /// The numbers of the nodes: the root is the first, the leaf of the last process the last.
    pub fn nodes(self) -> RangeInclusive<u32> {
        ROOT..=2 * self.p - 1
    }

    /// The process whose leaf the node is; `None` if it is no leaf.
    pub fn process_of_leaf(self, node: u32) -> Option<u8> {
        let leaves = self.p..2 * self.p;
        leaves.contains(&node).then(|| (node - self.p) as u8)
    }

    /// The height of a node, that of a leaf being 0; `None` if there is no such node.
    pub fn height(self, node: u32) -> Option<u32> {
        let exists = self.nodes().contains(&node);
        exists.then(|| self.p.ilog2() - node.ilog2())
    }

    /// The last place of a node, whose places are from 0; `None` if there is no such node.
    pub fn last_place(self, node: u32) -> Option<u32> {
        // A node has place 0, and l places for each leaf below it, a leaf itself counted.
        self.height(node).map(|height| self.l << height)
    }

    /// The block at a place of a node, present or not; `None` if the tree has no such place.
    pub fn block(self, node: u32, place: u32) -> Option<Block> {
        let part = self.part(node);
        part.get(place as usize).copied().map(Block::from)
    }

    /// The present blocks of a node with their places, from 1; none of a node that the tree lacks.
    pub fn present(self, node: u32) -> impl Iterator<Item = (u32, Block)> + 'a {
        let blocks = self.part(node).iter().copied().map(Block::from);
        (0..)
            .zip(blocks)
            .skip(1)
            .filter(|(_, block)| block.is_present())
    }

    /// The words of a node's blocks; none of a node that the tree lacks.
    fn part(self, node: u32) -> &'a [[u32; Block::WORDS]] {
        let places = |node| self.last_place(node).map_or(0, |last| last as usize + 1);
        let start = (ROOT..node.min(2 * self.p)).map(places).sum::<usize>();
        &self.blocks[start..start + places(node)]
    }
}

#[cfg(test)]
mod tests {
    use super::{Block, Table};
    use crate::table_words;

    /// Each word of the table is that of one block: its index is told by node, place and name.
    #[test]
    fn every_word_is_of_one_block() {
        for p in [2, 4, 8] {
            for l in [1, 3, 500] {
                let needed = table_words(p, l).unwrap() as u32;
                let words: Vec<u32> = (0..needed + 5).collect();
                let table = Table::new(p, l, &words).unwrap();
                let mut next = 0;
                for node in table.nodes() {
                    for place in 0..=table.last_place(node).unwrap() {
                        let block = Block {
                            puts: next,
                            takes: next + 1,
                            superblock: next + 2,
                            end_left: next + 3,
                            end_right: next + 4,
                            size: next + 5,
                            number: next + 6,
                        };
                        assert_eq!(table.block(node, place), Some(block));
                        next += 7;
                    }
                }
                assert_eq!(next, needed);
            }
        }
    }

    #[test]
    fn heights_places_and_leaves() {
        let words = vec![0; table_words(4, 3).unwrap()];
        let table = Table::new(4, 3, &words).unwrap();
        let heights = (0..10).map(|node| table.height(node));
        let expected = [2, 1, 1, 0, 0, 0, 0].map(Some);
        let all = [&[None][..], &expected, &[None, None]].concat();
        assert_eq!(heights.collect::<Vec<_>>(), all);
        let last = (0..10).map(|node| table.last_place(node));
        let expected = [12, 6, 6, 3, 3, 3, 3].map(Some);
        let all = [&[None][..], &expected, &[None, None]].concat();
        assert_eq!(last.collect::<Vec<_>>(), all);
        let leaves = (0..10).map(|node| table.process_of_leaf(node));
        let expected = [0, 1, 2, 3].map(Some);
        let all = [&[None; 4][..], &expected, &[None, None]].concat();
        assert_eq!(leaves.collect::<Vec<_>>(), all);
    }

    #[test]
    fn nodes_and_places_that_the_tree_lacks() {
        let words = vec![1; table_words(2, 1).unwrap() + 7];
        let table = Table::new(2, 1, &words).unwrap();
        for (node, place) in [
            (0, 0),
            (1, 3),
            (2, 2),
            (3, 2),
            (4, 0),
            (u32::MAX, 0),
            (3, u32::MAX),
        ] {
            assert_eq!(table.block(node, place), None, "{node} {place}");
        }
        assert_eq!(
            [0, 1, 2, 3, 4].map(|node| table.present(node).count()),
            [0, 2, 1, 1, 0]
        );
        assert_eq!(table.present(u32::MAX).count(), 0);
    }

    #[test]
    fn present_by_totals_alone() {
        assert!(Block::from([1, 0, 0, 0, 0, 0, 0]).is_present());
        assert!(Block::from([0, 1, 0, 0, 0, 0, 0]).is_present());
        assert!(!Block::from([0, 0, 1, 1, 1, 1, 1]).is_present());
    }
}
