//! What a step finds, as the branches of the rules name it: told from what is there before the step is
//! done, of a Q from its answer.

use crate::branches::Found;
use crate::machine::Machine;
use crate::memory::Memory;
use crate::order::{end_in, margin, open, Given};
use crate::process::{Activity, Advance, Attempt, Built, Refresh, Step, Then};
use crate::records::{Answer, Kind, Outcome};
use crate::tree::{left_child, parent, right_child, Totals, Tree, ROOT};

/// Tells what a step other than Q finds, which this process is about to do.
pub fn found_by_step(machine: &Machine, process: u32, step: Step, mut tell: impl FnMut(Found)) {
    let memory = &machine.memory;
    let found = match step {
        Step::A => (kind_of(machine, process), before_a(machine, process)),
        Step::V1 { advance } => (advanced(memory, advance), head_read(memory, advance)),
        Step::V2 {
            advance,
            parent_head,
        } => {
            let block = memory.tree.block(advance.node, advance.place);
            let finds = super_found(block.superblock, parent_head);
            (advanced(memory, advance), finds)
        }
        Step::V3 { advance } => {
            if let Then::EndRefresh { refresh, success } = advance.then {
                let ends = either(success, "ends with success", "ends without");
                tell((refreshed(refresh), ends));
            }
            let raises = memory.head(advance.node) == advance.place;
            let finds = either(raises, "raises the head", "finds it raised");
            (advanced(memory, advance), finds)
        }
        Step::C4 { refresh, h, built } => {
            let writes = !memory.tree.block(refresh.node, h).present();
            if writes {
                tell_superblocks(&memory.tree, refresh.node, h, built, &mut tell);
            }
            let finds = either(writes, "writes", "finds a block");
            (refreshed(refresh), finds)
        }
        Step::Q => return,
        reading => found_by_reading(memory, reading, &mut tell),
    };
    tell(found);
}

/// R1 to R5 and C1 to C3N.
fn found_by_reading(memory: &Memory, step: Step, tell: &mut impl FnMut(Found)) -> Found {
    let end = |child| either(memory.head(child) == 1, "ends at 0", "ends later");
    match step {
        Step::R1 { refresh } => (refreshed(refresh), "reads the head"),
        Step::R2 { refresh, .. } => (left(memory, refresh), "reads the head"),
        Step::R3 { refresh, c, .. } => {
            let finds = looked_at(memory, left_child(refresh.node), c);
            (left(memory, refresh), finds)
        }
        Step::R4 { refresh, .. } => (right(memory, refresh), "reads the head"),
        Step::R5 { refresh, c, .. } => {
            let finds = looked_at(memory, right_child(refresh.node), c);
            (right(memory, refresh), finds)
        }
        Step::C1 { refresh, .. } => (left(memory, refresh), end(left_child(refresh.node))),
        Step::C2 { refresh, .. } => (right(memory, refresh), end(right_child(refresh.node))),
        Step::C3L { refresh, ends, .. } => (left(memory, refresh), block_at(ends.left)),
        Step::C3R { refresh, ends, .. } => (right(memory, refresh), block_at(ends.right)),
        Step::C3N {
            refresh, h, totals, ..
        } => {
            let before = memory.tree.totals(refresh.node, h - 1);
            let equal = totals == before;
            if !equal && refresh.node == ROOT {
                let size = memory.tree.root_size(h - 1);
                tell(("size", size_found(size, before, totals)));
            }
            let finds = either(equal, "finds equal totals", "finds more");
            (refreshed(refresh), finds)
        }
        other => unreachable!("{other:?} is told elsewhere"),
    }
}

/// Tells what the Q found that gave this answer.
pub fn found_by_q(tree: &Tree, answer: Answer, mut tell: impl FnMut(Found)) {
    let (process, place, b) = (answer.process, answer.serial, answer.root_block);
    match answer.outcome {
        Outcome::PutDone => tell(("put", "done")),
        Outcome::Nothing => tell(("take", "none")),
        Outcome::Value(_) => {
            let takes = open(tree, ROOT, b, Kind::Take);
            let own = takes.iter().position(|&x| x == Given { process, place });
            let i = 1 + own.expect("the take stands in its root block") as u32;
            let at_0 = margin(tree, b, i) == 0;
            let margin = either(at_0, "value at margin 0", "value above margin 0");
            tell(("take", margin));
            // What block b - 1 held is taken first.
            let earlier = i <= tree.root_size(b - 1);
            let put = either(
                earlier,
                "put in an earlier root block",
                "put in the same one",
            );
            tell(("value", put));
        }
    }
}

fn either(is_so: bool, then: &'static str, otherwise: &'static str) -> &'static str {
    match is_so {
        true => then,
        false => otherwise,
    }
}

fn kind_of(machine: &Machine, process: u32) -> &'static str {
    match machine.process(process).activity {
        Activity::Busy { operation, .. } => either(operation.kind() == Kind::Put, "put", "take"),
        Activity::Idle => unreachable!("an idle process has no step"),
    }
}

fn before_a(machine: &Machine, process: u32) -> &'static str {
    let h = machine.memory.head(machine.shape().leaf(process));
    block_at(h - 1)
}

fn block_at(place: u32) -> &'static str {
    either(place == 0, "reads block 0", "reads a later block")
}

/// What an advance is of.
fn advanced(memory: &Memory, advance: Advance) -> &'static str {
    match advance.then {
        Then::RefreshParent => "own leaf",
        Then::R4 { refresh, .. } => left(memory, refresh),
        Then::C1 { refresh, .. } => right(memory, refresh),
        Then::EndRefresh { success, .. } if advance.node == ROOT => {
            either(success, "root after C4 wrote", "root after C4 failed")
        }
        Then::EndRefresh { success, .. } => either(
            success,
            "inner node after C4 wrote",
            "inner node after C4 failed",
        ),
    }
}

fn left(memory: &Memory, refresh: Refresh) -> &'static str {
    let is_leaf = memory.tree.shape().height(refresh.node) == 1;
    either(is_leaf, "left leaf", "left inner node")
}

fn right(memory: &Memory, refresh: Refresh) -> &'static str {
    let is_leaf = memory.tree.shape().height(refresh.node) == 1;
    either(is_leaf, "right leaf", "right inner node")
}

fn refreshed(refresh: Refresh) -> &'static str {
    match (refresh.attempt, refresh.node) {
        (Attempt::First, ROOT) => "first refresh of the root",
        (Attempt::First, _) => "first refresh of an inner node",
        (Attempt::Second, ROOT) => "second refresh of the root",
        (Attempt::Second, _) => "second refresh of an inner node",
    }
}

/// V1: of a child, the head that R1 read of the same node, or a later one.
fn head_read(memory: &Memory, advance: Advance) -> &'static str {
    let head = memory.head(parent(advance.node));
    match advance.then {
        Then::R4 { h, .. } | Then::C1 { h, .. } => {
            either(head == h, "reads the head of R1", "reads a later head")
        }
        Then::RefreshParent | Then::EndRefresh { .. } => "reads the head",
    }
}

/// V2.
fn super_found(found: u32, parent_head: u32) -> &'static str {
    match found {
        0 => "sets super",
        _ => either(found == parent_head, "finds what V1 read", "finds another"),
    }
}

/// R3 and R5.
fn looked_at(memory: &Memory, child: u32, c: u32) -> &'static str {
    match memory.tree.block(child, c).present() {
        true => "finds a block",
        false if c > memory.tree.shape().last_place(child) => "looks past the last place",
        false => "finds none",
    }
}

/// C3N in the root: what the size and the new puts and takes come to.
fn size_found(size: u32, before: Totals, totals: Totals) -> &'static str {
    let puts = i64::from(totals.puts) - i64::from(before.puts);
    let takes = i64::from(totals.takes) - i64::from(before.takes);
    match i64::from(size) + puts - takes {
        0 => "0",
        held => either(held > 0, "above 0", "kept from falling below 0"),
    }
}

/// C4: of each subblock of what it writes, where this superblock stands.
fn tell_superblocks(tree: &Tree, node: u32, h: u32, built: Built, tell: &mut impl FnMut(Found)) {
    let of = match tree.shape().height(node) {
        1 => "superblock of a leaf's block",
        _ => "superblock of an inner node's block",
    };
    for (child, end) in [
        (left_child(node), built.ends.left),
        (right_child(node), built.ends.right),
    ] {
        for place in end_in(tree, node, h - 1, child) + 1..=end {
            let at_super = tree.block(child, place).superblock == h;
            tell((of, either(at_super, "at super", "one place later")));
        }
    }
}
