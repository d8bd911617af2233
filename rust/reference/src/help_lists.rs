//! Lists in which a refresh advances a child's block, with the helps that each answer then tells.

use crate::known_runs::m6;
use crate::lists::List;
use crate::machine::Machine;
use crate::process::Step;
use crate::records::{Act, Operation, StepRecord};
use crate::run::play_record;
use crate::tree::{left_child, right_child, Shape};

/// A list that Run takes whole.
#[derive(Clone, PartialEq, Eq, Debug)]
pub struct HelpList {
    pub about: &'static str,
    pub p: u32,
    pub l: u32,
    pub list: List,
    /// Of each answer in turn, its process and helps.
    pub helps: Vec<(u32, u8)>,
}

impl HelpList {
    fn new(p: u32, l: u32, about: &'static str, list: List) -> HelpList {
        HelpList {
            about,
            p,
            l,
            list,
            helps: Vec::new(),
        }
    }

    fn helps(self, helps: &[(u32, u8)]) -> HelpList {
        let helps = helps.to_vec();
        HelpList { helps, ..self }
    }
}

/// Helps of leaves and of inner nodes, on both sides, in which the head is moved or found moved; and
/// the head of the refreshed node moved after a refresh that failed, which is none.
pub fn help_lists() -> [HelpList; 9] {
    let then_none = m6(0, 1).put(1, 7).steps(1, 17);
    [
        HelpList::new(2, 1, "a left leaf", m6(0, 1)).helps(&[(1, 1), (0, 0)]),
        HelpList::new(2, 1, "a right leaf", m6(1, 0)).helps(&[(0, 1), (1, 0)]),
        HelpList::new(2, 1, "a left leaf, found moved", leaf_moved(0, 1, 9))
            .helps(&[(1, 0), (0, 0)]),
        HelpList::new(2, 1, "a right leaf, found moved", leaf_moved(1, 0, 11))
            .helps(&[(0, 0), (1, 0)]),
        HelpList::new(2, 2, "a leaf, and none in the next operation", then_none).helps(&[
            (1, 1),
            (0, 0),
            (1, 0),
        ]),
        HelpList::new(2, 2, "a leaf in both refreshes", in_both_refreshes()).helps(&[
            (0, 0),
            (1, 2),
            (0, 0),
        ]),
        HelpList::new(4, 1, "both inner nodes", inner_waiting().steps(0, 19)).helps(&[(0, 2)]),
        HelpList::new(4, 1, "both inner nodes, found moved", inner_moved()).helps(&[(0, 0)]),
        HelpList::new(2, 1, "none after a refresh that failed", failed_moves())
            .helps(&[(1, 0), (0, 0)]),
    ]
}

/// A put that stops after its A. The other process comes to the V3 of its help, so many steps on,
/// but the first raises its head before that.
fn leaf_moved(slow: u32, helper: u32, before: usize) -> List {
    let begun = List::new().put(slow, 9).steps(slow, 1);
    let at_v3 = begun.put(helper, 8).steps(helper, before);
    let moved = at_v3.steps(slow, 3).steps(helper, 20 - before);
    moved.steps(slow, 11)
}

/// Process 1 helps the first put of 0 and stops before its C4. Process 0 writes that block, begins
/// another put and does its A; so the first refresh of 1 fails, and its second helps again.
fn in_both_refreshes() -> List {
    let helped = List::new().put(0, 9).steps(0, 1).put(1, 8).steps(1, 17);
    let again = helped.steps(0, 16).put(0, 7).steps(0, 1);
    again.steps(1, 18).steps(0, 14)
}

/// Process 0 writes a root block that 1 comes too late for, and stops before its V3. So the advance
/// after 1's failed refresh moves the root's head, which is no help.
fn failed_moves() -> List {
    let built = List::new().put(0, 9).steps(0, 14).put(1, 8).steps(1, 14);
    built.steps(0, 1).steps(1, 15).steps(0, 2)
}

/// Process 0 is about to refresh the root of p = 4. Then 1 writes a block in the left child and 2
/// one in the right child, and neither has advanced it.
fn inner_waiting() -> List {
    let own = List::new().put(0, 7).steps(0, 18);
    own.put(1, 8).steps(1, 15).put(2, 9).steps(2, 15)
}

/// Before each V3 of 0's helps the process that wrote the block does its own.
fn inner_moved() -> List {
    let left = inner_waiting().steps(0, 5).steps(1, 3);
    left.steps(0, 5).steps(2, 3).steps(0, 9)
}

/// A list, of L = 2H, in which process 0 puts once and helps as often as an operation can. It
/// refreshes each node twice, and each time every child but its own leaf has a block that another
/// process has just written.
pub fn most_helped(p: u32) -> List {
    let shape = Shape::new(p, 2 * p.ilog2()).expect("a proper p and L");
    let mut maker = Maker {
        machine: Machine::start(shape),
        list: List::new(),
    };
    maker.record(0, Act::Begin(Operation::Put(9)));
    for height in 1..=shape.root_height() {
        let node = p >> height;
        // The first process below the right child; and 1, which is below every left one but a leaf.
        let mut others = vec![(1 << (height - 1), right_child(node))];
        if height > 1 {
            others.push((1, left_child(node)));
        }
        maker.refresh_twice(&others);
    }
    (0..p).for_each(|process| maker.finish(process));
    maker.list
}

/// Makes a list by playing it.
struct Maker {
    machine: Machine,
    list: List,
}

impl Maker {
    fn record(&mut self, process: u32, act: Act) {
        self.list = std::mem::take(&mut self.list).record(process, act);
        let record = StepRecord { process, act };
        play_record(&mut self.machine, self.list.count(), record);
    }

    /// Steps of the process until it comes to such a step, or is idle.
    fn steps_to(&mut self, process: u32, is_there: impl Fn(Step) -> bool) {
        while !self.machine.next_step(process).is_none_or(&is_there) {
            self.record(process, Act::Step);
        }
    }

    fn finish(&mut self, process: u32) {
        self.steps_to(process, |_| false);
    }

    /// Both refreshes of a node by process 0, where others write in its children. As they finish
    /// what they wrote for the first, one of them writes the node's block, so that it fails.
    fn refresh_twice(&mut self, others: &[(u32, u32)]) {
        self.steps_to(0, |step| matches!(step, Step::R1 { .. }));
        for _ in 0..2 {
            self.write(others);
            // R1, or the C4 that fails.
            self.record(0, Act::Step);
            self.steps_to(0, |step| matches!(step, Step::C4 { .. }));
        }
    }

    /// A put by each of the others, up to the advance of the block that it writes in the child.
    fn write(&mut self, others: &[(u32, u32)]) {
        others.iter().for_each(|&(other, _)| self.finish(other));
        for &(other, child) in others {
            self.record(other, Act::Begin(Operation::Put(other)));
            let wrote = |step| matches!(step, Step::V1 { advance } if advance.node == child);
            self.steps_to(other, wrote);
        }
    }
}
