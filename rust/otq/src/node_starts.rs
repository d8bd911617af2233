//! Where each node's part of the work table starts, as constants for a viewer.

/// The most operations of one process that [`NODE_STARTS`] is for.
pub const NODE_STARTS_L: u32 = 24;

/// The first word of each node's part of the work table with l = [`NODE_STARTS_L`]: a row for p = 2,
/// 4 and 8, and in it, as entry v - 1, the first word of node v.
///
/// A node that the tree lacks, from 2p on, has 0, which is no start: at word 0 the root starts, node 1.
/// The numbers are those of `crates/node_starts`, where it is proved that each start is that of the
/// layout, and that the parts of a row don't overlap and end within the words needed.
///
/// The value of a put by process 3, read in the first block of its leaf:
///
/// ```
/// use otq::{Block, NODE_STARTS, NODE_STARTS_L};
/// let records = [3, 1, 0, 0, 7, 0, 0, 0, 3, 0, 0, 0, 0, 0, 0, 0];
/// let table = otq::play(4, NODE_STARTS_L, &records).table;
///
/// let (row_of_4, leaf_of_3, place) = (1, 4 + 3, 1);
/// let start = NODE_STARTS[row_of_4][leaf_of_3 - 1] as usize;
/// let block = table[start + Block::WORDS * place..].first_chunk().unwrap();
/// assert_eq!(Block::from(*block).end_left, 7);
/// ```
pub const NODE_STARTS: [[u32; 15]; 3] = [
    [0, 343, 518, 0, 0, 0, 0, 0, 0, 0, 0, 0, 0, 0, 0],
    [0, 679, 1022, 1365, 1540, 1715, 1890, 0, 0, 0, 0, 0, 0, 0, 0],
    [
        0, 1351, 2030, 2709, 3052, 3395, 3738, 4081, 4256, 4431, 4606, 4781, 4956, 5131, 5306,
    ],
];

#[cfg(test)]
mod tests {
    use super::{NODE_STARTS, NODE_STARTS_L};
    use crate::{table_words, Table, ROOT};

    #[test]
    fn where_the_table_has_them() {
        for (p, row) in [2, 4, 8].into_iter().zip(NODE_STARTS) {
            // Each word is its own index, so that the first word of block 0 is where its node starts.
            let needed = table_words(p, NODE_STARTS_L).unwrap() as u32;
            let words: Vec<u32> = (0..needed).collect();
            let table = Table::new(p, NODE_STARTS_L, &words).unwrap();
            for (node, start) in (ROOT..).zip(row) {
                let first = table.block(node, 0).map_or(0, |block| block.puts);
                assert_eq!(start, first, "p {p}, node {node}");
            }
        }
    }
}
