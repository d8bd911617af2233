//! The step rules: what each named step does and which step follows it.

use crate::memory::Memory;
use crate::process::{Advance, Attempt, Built, Ends, Refresh, Step, Then};
use crate::records::Operation;
use crate::tree::{left_child, parent, right_child, Block, Totals, Tree, ROOT};

/// The first step of an advance; at the root V3 only.
fn begin_advance(node: u32, place: u32, then: Then) -> Step {
    let advance = Advance { node, place, then };
    if node == ROOT {
        Step::V3 { advance }
    } else {
        Step::V1 { advance }
    }
}

fn begin_refresh(node: u32, attempt: Attempt) -> Step {
    let refresh = Refresh { node, attempt };
    Step::R1 { refresh }
}

/// A failed first refresh is done again; any other goes on to the parent, or to Q.
fn end_refresh(refresh: Refresh, success: bool) -> Step {
    if !success && refresh.attempt == Attempt::First {
        begin_refresh(refresh.node, Attempt::Second)
    } else if refresh.node == ROOT {
        Step::Q
    } else {
        begin_refresh(parent(refresh.node), Attempt::First)
    }
}

fn end_advance(advance: Advance) -> Step {
    match advance.then {
        Then::RefreshParent => begin_refresh(parent(advance.node), Attempt::First),
        Then::R4 { refresh, h } => Step::R4 { refresh, h },
        Then::C1 { refresh, h } => Step::C1 { refresh, h },
        Then::EndRefresh { refresh, success } => end_refresh(refresh, success),
    }
}

/// What one step comes to.
#[derive(Clone, Copy, PartialEq, Eq, Debug)]
pub struct Stepped {
    /// The step that follows.
    pub next: Step,
    /// Whether it moved the head of a child inside a refresh.
    pub helped: bool,
}

/// Does one named step other than Q, by the record with this number: what A and C4 write has it.
pub fn one_step(
    memory: &mut Memory,
    process: u32,
    operation: Operation,
    step: Step,
    number: u32,
) -> Stepped {
    let mut helped = false;
    let next = match step {
        Step::A => append(memory, process, operation, number),
        Step::V1 { advance } => {
            let parent_head = memory.head(parent(advance.node));
            Step::V2 {
                advance,
                parent_head,
            }
        }
        Step::V2 {
            advance,
            parent_head,
        } => {
            memory.set_super(advance.node, advance.place, parent_head);
            Step::V3 { advance }
        }
        Step::V3 { advance } => {
            let moved = memory.raise_head(advance.node, advance.place);
            helped = moved && advance.then.of_child();
            end_advance(advance)
        }
        refreshing => refresh_step(memory, refreshing, number),
    };
    Stepped { next, helped }
}

/// A: the new block in the own leaf at its head.
fn append(memory: &mut Memory, process: u32, operation: Operation, number: u32) -> Step {
    let leaf = memory.tree.shape().leaf(process);
    let h = memory.head(leaf);
    let before = memory.tree.block(leaf, h - 1);
    let (puts, takes, value) = match operation {
        Operation::Put(value) => (1, 0, value),
        Operation::Take => (0, 1, 0),
    };
    let block = Block {
        puts: before.puts + puts,
        takes: before.takes + takes,
        end_left: value,
        number,
        ..Block::default()
    };
    memory.tree.write(leaf, h, block);
    begin_advance(leaf, h, Then::RefreshParent)
}

/// R1 to R5 and C1 to C4.
fn refresh_step(memory: &mut Memory, step: Step, number: u32) -> Step {
    match step {
        Step::R1 { refresh } => {
            let h = memory.head(refresh.node);
            Step::R2 { refresh, h }
        }
        Step::R2 { refresh, h } => {
            let c = memory.head(left_child(refresh.node));
            Step::R3 { refresh, h, c }
        }
        Step::R4 { refresh, h } => {
            let c = memory.head(right_child(refresh.node));
            Step::R5 { refresh, h, c }
        }
        Step::R3 { refresh, h, c } => {
            help(memory, left_child(refresh.node), c, Then::R4 { refresh, h })
        }
        Step::R5 { refresh, h, c } => help(
            memory,
            right_child(refresh.node),
            c,
            Then::C1 { refresh, h },
        ),
        creating => create_step(memory, creating, number),
    }
}

/// R3 and R5: advance the child's block if it is present, else go on at once.
fn help(memory: &Memory, child: u32, c: u32, then: Then) -> Step {
    if memory.tree.block(child, c).present() {
        begin_advance(child, c, then)
    } else {
        let (node, place) = (child, c);
        end_advance(Advance { node, place, then })
    }
}

/// C1, C2 and C4.
fn create_step(memory: &mut Memory, step: Step, number: u32) -> Step {
    match step {
        Step::C1 { refresh, h } => {
            let end_left = memory.head(left_child(refresh.node)) - 1;
            Step::C2 {
                refresh,
                h,
                end_left,
            }
        }
        Step::C2 {
            refresh,
            h,
            end_left,
        } => {
            let ends = Ends {
                left: end_left,
                right: memory.head(right_child(refresh.node)) - 1,
            };
            Step::C3L { refresh, h, ends }
        }
        Step::C4 { refresh, h, built } => {
            let node = refresh.node;
            let success = memory.write_if_absent(node, h, built.block(number));
            begin_advance(node, h, Then::EndRefresh { refresh, success })
        }
        summing => sum_step(&memory.tree, summing),
    }
}

/// C3L, C3R and C3N. Of the table each takes the puts and takes of one block, C3N in the root also
/// its size; no other word.
fn sum_step(tree: &Tree, step: Step) -> Step {
    match step {
        // The left child's block at the left end.
        Step::C3L { refresh, h, ends } => {
            let left = tree.totals(left_child(refresh.node), ends.left);
            Step::C3R {
                refresh,
                h,
                ends,
                left,
            }
        }
        // The right child's block at the right end, added to the left one.
        Step::C3R {
            refresh,
            h,
            ends,
            left,
        } => {
            let totals = left.plus(tree.totals(right_child(refresh.node), ends.right));
            Step::C3N {
                refresh,
                h,
                ends,
                totals,
            }
        }
        // The node's own block h - 1, and what follows from it.
        Step::C3N {
            refresh,
            h,
            ends,
            totals,
        } => decide(tree, refresh, h, ends, totals),
        other => unreachable!("{other:?} is done elsewhere"),
    }
}

/// Builds a block with these totals; if those of block h - 1 are equal, the refresh ends with success,
/// without C4 and without an advance.
fn decide(tree: &Tree, refresh: Refresh, h: u32, ends: Ends, totals: Totals) -> Step {
    let before = tree.totals(refresh.node, h - 1);
    if totals == before {
        return end_refresh(refresh, true);
    }
    let size = match refresh.node {
        ROOT => size_after(tree.root_size(h - 1), before, totals),
        _ => 0,
    };
    let built = Built { totals, ends, size };
    Step::C4 { refresh, h, built }
}

/// The size of a root block, from the size and the totals of the one before it and its own totals.
fn size_after(size: u32, before: Totals, totals: Totals) -> u32 {
    let puts = i64::from(totals.puts - before.puts);
    let takes = i64::from(totals.takes - before.takes);
    let held = i64::from(size) + puts - takes;
    u32::try_from(held.max(0)).expect("a size is at most all puts")
}
