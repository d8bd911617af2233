//! Where each node's part of the work table starts, as the table of constants for the viewer; and a
//! checker of the rule on any such table.

use crate::tree::{Block, Shape, Tree, BLOCK_WORDS, ROOT};
use std::ops::Range;

/// The p of each row.
pub const PROCESSES: [u32; 3] = [2, 4, 8];

/// Entries of a row: nodes 1 to 15, which the largest tree has.
pub const NODES: usize = 15;

/// The L of the table that is printed.
pub const L: u32 = 24;

/// The first word of each node; 0 for a node that the tree lacks.
pub type StartRow = [u32; NODES];

pub type StartTable = [StartRow; PROCESSES.len()];

pub fn start_row(shape: Shape) -> StartRow {
    let mut row = [0; NODES];
    for node in ROOT..=shape.last_node() {
        row[entry(node)] = shape.node_start(node) as u32;
    }
    row
}

/// A row for each p, at a proper L.
pub fn start_table(l: u32) -> StartTable {
    PROCESSES.map(|p| start_row(shape_of(p, l)))
}

/// A line for each row, with one space between numbers.
pub fn print_starts(table: &StartTable) -> String {
    let line = |row: &StartRow| row.map(|start| start.to_string()).join(" ") + "\n";
    table.iter().map(line).collect()
}

/// An entry that breaks the rule, by its row and node.
#[derive(Clone, Copy, PartialEq, Eq, Debug)]
pub struct Misplaced {
    pub p: u32,
    pub node: u32,
    pub wrong: Wrong,
}

#[derive(Clone, Copy, PartialEq, Eq, Debug)]
pub enum Wrong {
    /// Not the word at which the node's part starts.
    Start { counted: usize },
    /// Not 0, though the tree lacks the node.
    Lacking,
    /// The part that starts there has a word of the part of this earlier node.
    Overlap { earlier: u32 },
    /// The part that starts there ends past the words needed.
    Past,
}

/// Checks the whole rule on a table for this L, row by row. That parts are apart and within follows from
/// right starts, but it is asked of the row all the same, as the paper does.
pub fn starts_hold(l: u32, table: &StartTable) -> Result<(), Misplaced> {
    for (p, row) in PROCESSES.into_iter().zip(table) {
        let shape = shape_of(p, l);
        starts_counted(shape, row)?;
        lacking_are_zero(shape, row)?;
        parts_apart(shape, row)?;
        parts_within(shape, row)?;
    }
    Ok(())
}

/// Each node of the tree has as many words before its part as its entry says.
pub fn starts_counted(shape: Shape, row: &StartRow) -> Result<(), Misplaced> {
    for (node, part) in parts(shape, row) {
        let counted = words_before(shape, node);
        if part.start != counted {
            return misplaced(shape, node, Wrong::Start { counted });
        }
    }
    Ok(())
}

/// Each node that the tree lacks has 0.
pub fn lacking_are_zero(shape: Shape, row: &StartRow) -> Result<(), Misplaced> {
    let mut lacking = shape.last_node() + 1..=NODES as u32;
    match lacking.find(|&node| row[entry(node)] != 0) {
        Some(node) => misplaced(shape, node, Wrong::Lacking),
        None => Ok(()),
    }
}

/// No two parts that start where the row says have a word in common.
pub fn parts_apart(shape: Shape, row: &StartRow) -> Result<(), Misplaced> {
    for (node, part) in parts(shape, row) {
        let mut before = parts(shape, row).take_while(|&(earlier, _)| earlier < node);
        let meets = |other: &Range<usize>| other.start < part.end && part.start < other.end;
        if let Some((earlier, _)) = before.find(|(_, other)| meets(other)) {
            return misplaced(shape, node, Wrong::Overlap { earlier });
        }
    }
    Ok(())
}

/// Each part that starts where the row says ends within the words needed.
pub fn parts_within(shape: Shape, row: &StartRow) -> Result<(), Misplaced> {
    match parts(shape, row).find(|(_, part)| part.end > shape.words_needed()) {
        Some((node, _)) => misplaced(shape, node, Wrong::Past),
        None => Ok(()),
    }
}

fn misplaced(shape: Shape, node: u32, wrong: Wrong) -> Result<(), Misplaced> {
    let p = shape.p();
    Err(Misplaced { p, node, wrong })
}

/// The words of each node of the tree, from the start that the row says.
fn parts(shape: Shape, row: &StartRow) -> impl Iterator<Item = (u32, Range<usize>)> + '_ {
    (ROOT..=shape.last_node()).map(move |node| {
        let start = row[entry(node)] as usize;
        (node, start..start + shape.node_words(node))
    })
}

/// Counted in a table in which only the node's first block is other than zero.
fn words_before(shape: Shape, node: u32) -> usize {
    let mut tree = Tree::cleared(shape);
    tree.write(node, 0, Block::from_words(&[1; BLOCK_WORDS]));
    let words = tree.words();
    words.iter().take_while(|&&word| word == 0).count()
}

fn entry(node: u32) -> usize {
    (node - ROOT) as usize
}

fn shape_of(p: u32, l: u32) -> Shape {
    Shape::new(p, l).expect("a proper p and L")
}
