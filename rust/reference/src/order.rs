//! Order in a block, root order, and the answer of a take.

use crate::records::{Kind, OrderRecord, Outcome};
use crate::tree::{left_child, parent, right_child, Tree, ROOT};

/// One operation as the blocks give it: a place in the leaf of a process.
#[derive(Clone, Copy, PartialEq, Eq, Hash, Debug)]
pub struct Given {
    pub process: u32,
    pub place: u32,
}

/// An operation of the root order.
#[derive(Clone, Copy, PartialEq, Eq, Hash, Debug)]
pub struct Standing {
    pub given: Given,
    pub kind: Kind,
    pub root_block: u32,
}

impl Standing {
    pub fn record(self) -> OrderRecord {
        OrderRecord {
            process: self.given.process,
            kind: self.kind,
            serial: u16::try_from(self.given.place).expect("places of a leaf are at most 500"),
            root_block: self.root_block,
        }
    }
}

/// The end of a node's block in its left or right child.
pub fn end_in(tree: &Tree, node: u32, place: u32, child: u32) -> u32 {
    let block = tree.block(node, place);
    if child == left_child(node) {
        block.end_left
    } else {
        block.end_right
    }
}

/// Places of the child after the end in block `place - 1`, up to the end in
/// block `place`. Places that the child lacks are absent and left out.
fn subblocks(tree: &Tree, node: u32, place: u32, child: u32) -> std::ops::RangeInclusive<u32> {
    let before = end_in(tree, node, place - 1, child);
    let last = tree.shape().last_place(child);
    let end = end_in(tree, node, place, child).min(last);
    before.saturating_add(1)..=end
}

/// What a leaf's block gives: the kind its totals add, read from the totals alone.
fn leaf_gives(tree: &Tree, leaf: u32, place: u32) -> Option<Kind> {
    let (block, before) = (tree.block(leaf, place), tree.block(leaf, place - 1));
    let puts = i64::from(block.puts) - i64::from(before.puts);
    let takes = i64::from(block.takes) - i64::from(before.takes);
    match (puts, takes) {
        (1, 0) => Some(Kind::Put),
        (0, 1) => Some(Kind::Take),
        _ => None,
    }
}

/// The puts or the takes of a block, opened down to the leaves.
pub fn open(tree: &Tree, node: u32, place: u32, kind: Kind) -> Vec<Given> {
    if tree.shape().height(node) == 0 {
        let process = tree.shape().process_of_leaf(node);
        let gives = leaf_gives(tree, node, place) == Some(kind);
        return gives
            .then_some(Given { process, place })
            .into_iter()
            .collect();
    }
    let mut list = Vec::new();
    for child in [left_child(node), right_child(node)] {
        for below in subblocks(tree, node, place, child) {
            list.extend(open(tree, child, below, kind));
        }
    }
    list
}

/// Block 1's puts, its takes, block 2's puts, and so on, over all present root blocks.
pub fn root_order(tree: &Tree) -> Vec<Standing> {
    let mut order = Vec::new();
    for root_block in 1..=tree.shape().last_place(ROOT) {
        if !tree.block(ROOT, root_block).present() {
            continue;
        }
        for kind in [Kind::Put, Kind::Take] {
            for given in open(tree, ROOT, root_block, kind) {
                order.push(Standing {
                    given,
                    kind,
                    root_block,
                });
            }
        }
    }
    order
}

/// The root block in which a leaf's place stands, found level by level: the
/// parent's first present block whose end reaches the place.
pub fn root_block_of(tree: &Tree, given: Given) -> Option<u32> {
    let mut node = tree.shape().leaf(given.process);
    let mut place = given.place;
    while node != ROOT {
        let above = parent(node);
        place = (1..=tree.shape().last_place(above))
            .take_while(|&b| tree.block(above, b).present())
            .find(|&b| end_in(tree, above, b, node) >= place)?;
        node = above;
    }
    Some(place)
}

/// Size of root block b - 1, plus the puts of b alone, minus i.
pub fn margin(tree: &Tree, b: u32, i: u32) -> i64 {
    let (block, before) = (tree.block(ROOT, b), tree.block(ROOT, b - 1));
    i64::from(before.size) + (i64::from(block.puts) - i64::from(before.puts)) - i64::from(i)
}

/// The value of put number n, from 1, in root order: opens only the block that holds it.
pub fn put_value(tree: &Tree, n: u32) -> Option<u32> {
    let b = (1..=tree.shape().last_place(ROOT)).find(|&b| tree.block(ROOT, b).puts >= n)?;
    let before = tree.block(ROOT, b - 1).puts;
    let puts = open(tree, ROOT, b, Kind::Put);
    let given = puts.get((n - before) as usize - 1)?;
    Some(leaf_value(tree, *given))
}

/// The value that a put's leaf block holds.
fn leaf_value(tree: &Tree, given: Given) -> u32 {
    let leaf = tree.shape().leaf(given.process);
    tree.block(leaf, given.place).end_left
}

/// The answer of the i-th take, from 1, of root block b.
fn take_outcome(tree: &Tree, b: u32, i: u32) -> Outcome {
    if margin(tree, b, i) < 0 {
        return Outcome::Nothing;
    }
    let before = tree.block(ROOT, b - 1);
    let value = put_value(tree, i + before.puts - before.size);
    Outcome::Value(value.expect("a take with margin 0 or more has its put"))
}

/// The answer of an operation that stands in root block b.
pub fn outcome(tree: &Tree, given: Given, kind: Kind, b: u32) -> Outcome {
    match kind {
        Kind::Put => Outcome::PutDone,
        Kind::Take => {
            let takes = open(tree, ROOT, b, Kind::Take);
            let index = takes.iter().position(|&take| take == given);
            let index = index.expect("the take stands in its root block");
            take_outcome(tree, b, index as u32 + 1)
        }
    }
}
