//! The tree of nodes, its blocks, and their layout in the work table.

use crate::refusal::Refusal;

/// Words of one block. `Block::words` and `Block::from_words` give their order.
pub const BLOCK_WORDS: usize = 7;
/// Where these stand among them.
pub const PUTS_WORD: usize = 0;
pub const TAKES_WORD: usize = 1;
pub const SIZE_WORD: usize = 5;
pub const ROOT: u32 = 1;
pub const MOST_OPERATIONS: u32 = 500;

#[derive(Clone, Copy, Default, PartialEq, Eq, Hash, Debug)]
pub struct Block {
    /// Puts up to and including this block.
    pub puts: u32,
    /// Takes up to and including this block.
    pub takes: u32,
    /// Place given by an advance; 0 means not set. The paper's `super`.
    pub superblock: u32,
    /// In a leaf the put's value, 0 for a take.
    pub end_left: u32,
    pub end_right: u32,
    /// Values held after this block; 0 except in the root.
    pub size: u32,
    /// The number, from 1, of the record that wrote the block; 0 in block 0.
    pub number: u32,
}

impl Block {
    pub fn words(self) -> [u32; BLOCK_WORDS] {
        [
            self.puts,
            self.takes,
            self.superblock,
            self.end_left,
            self.end_right,
            self.size,
            self.number,
        ]
    }

    pub fn from_words(words: &[u32]) -> Block {
        let words: [u32; BLOCK_WORDS] = words.try_into().expect("the words of one block");
        let [puts, takes, superblock, end_left, end_right, size, number] = words;
        Block {
            puts,
            takes,
            superblock,
            end_left,
            end_right,
            size,
            number,
        }
    }

    /// Whether a block at a place from 1 on is present: by its totals alone.
    pub fn present(self) -> bool {
        self.puts != 0 || self.takes != 0
    }
}

/// Puts and takes up to and including a block.
#[derive(Clone, Copy, Default, PartialEq, Eq, Hash, Debug)]
pub struct Totals {
    pub puts: u32,
    pub takes: u32,
}

impl Totals {
    pub fn plus(self, other: Totals) -> Totals {
        Totals {
            puts: self.puts + other.puts,
            takes: self.takes + other.takes,
        }
    }
}

/// p processes, height H of the root, and L operations a process.
#[derive(Clone, Copy, PartialEq, Eq, Hash, Debug)]
pub struct Shape {
    p: u32,
    height: u32,
    l: u32,
}

impl Shape {
    /// Tests 1 and 2.
    pub fn new(p: u32, l: u32) -> Result<Shape, Refusal> {
        let height = match p {
            2 => 1,
            4 => 2,
            8 => 3,
            _ => return Err(Refusal::Processes),
        };
        if !(1..=MOST_OPERATIONS).contains(&l) {
            return Err(Refusal::Operations);
        }
        Ok(Shape { p, height, l })
    }

    pub fn p(self) -> u32 {
        self.p
    }

    pub fn l(self) -> u32 {
        self.l
    }

    /// H, the height of the root.
    pub fn root_height(self) -> u32 {
        self.height
    }

    /// Node numbers run from 1 to this one.
    pub fn last_node(self) -> u32 {
        2 * self.p - 1
    }

    pub fn leaf(self, process: u32) -> u32 {
        self.p + process
    }

    pub fn process_of_leaf(self, leaf: u32) -> u32 {
        leaf - self.p
    }

    pub fn height(self, node: u32) -> u32 {
        self.height - node.ilog2()
    }

    /// The node's last place; places run from 0.
    pub fn last_place(self, node: u32) -> u32 {
        self.l << self.height(node)
    }

    pub fn node_words(self, node: u32) -> usize {
        BLOCK_WORDS * (self.last_place(node) as usize + 1)
    }

    /// First word of the node's part of the work table.
    pub fn node_start(self, node: u32) -> usize {
        (ROOT..node).map(|before| self.node_words(before)).sum()
    }

    pub fn words_needed(self) -> usize {
        let (height, p, l) = (self.height as usize, self.p as usize, self.l as usize);
        BLOCK_WORDS * ((height + 1) * p * l + 2 * p - 1)
    }
}

/// The blocks of every node.
#[derive(Clone, PartialEq, Eq, Hash, Debug)]
pub struct Tree {
    shape: Shape,
    /// By node number; entry 0 is empty, since nodes count from 1.
    nodes: Vec<Vec<Block>>,
}

impl Tree {
    /// Every word zero.
    pub fn cleared(shape: Shape) -> Tree {
        let mut nodes = vec![Vec::new()];
        for node in ROOT..=shape.last_node() {
            let places = shape.last_place(node) as usize + 1;
            nodes.push(vec![Block::default(); places]);
        }
        Tree { shape, nodes }
    }

    /// Reads the blocks from the needed words of a work table.
    pub fn from_words(shape: Shape, table: &[u32]) -> Tree {
        let mut tree = Tree::cleared(shape);
        for node in ROOT..=shape.last_node() {
            let start = shape.node_start(node);
            let part = &table[start..start + shape.node_words(node)];
            for (place, words) in part.chunks_exact(BLOCK_WORDS).enumerate() {
                tree.nodes[node as usize][place] = Block::from_words(words);
            }
        }
        tree
    }

    /// The needed words of a work table.
    pub fn words(&self) -> Vec<u32> {
        let blocks = self.nodes.iter().flatten();
        blocks.flat_map(|block| block.words()).collect()
    }

    /// Writes the needed words of a work table and no others.
    pub fn write_words(&self, table: &mut [u32]) {
        let words = self.words();
        table[..words.len()].copy_from_slice(&words);
    }

    pub fn shape(&self) -> Shape {
        self.shape
    }

    /// A place past the node's last reads as absent.
    pub fn block(&self, node: u32, place: u32) -> Block {
        let blocks = &self.nodes[node as usize];
        blocks.get(place as usize).copied().unwrap_or_default()
    }

    /// Two words of a block alone; the node must have the place.
    pub fn totals(&self, node: u32, place: u32) -> Totals {
        let Block { puts, takes, .. } = self.nodes[node as usize][place as usize];
        Totals { puts, takes }
    }

    /// The size of a root block alone; the root must have the place.
    pub fn root_size(&self, place: u32) -> u32 {
        self.nodes[ROOT as usize][place as usize].size
    }

    pub fn write(&mut self, node: u32, place: u32, block: Block) {
        self.nodes[node as usize][place as usize] = block;
    }

    /// The last present place of the node, or 0 where no later one is.
    pub fn last_present(&self, node: u32) -> u32 {
        (1..=self.shape.last_place(node))
            .rev()
            .find(|&place| self.block(node, place).present())
            .unwrap_or(0)
    }
}

pub fn left_child(node: u32) -> u32 {
    2 * node
}

pub fn right_child(node: u32) -> u32 {
    2 * node + 1
}

pub fn parent(node: u32) -> u32 {
    node / 2
}
