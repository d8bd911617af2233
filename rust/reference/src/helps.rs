//! The V3s of advances begun in R3 or R5, of a child's block inside a refresh. Those that move the
//! head are the helps.

use crate::machine::Machine;
use crate::process::Step;
use crate::records::{numbered, Answer, StepRecord};
use crate::run::play_record;
use crate::tree::Shape;

/// The V3 of an advance begun in R3 or R5.
#[derive(Clone, Copy, PartialEq, Eq, Hash, Debug)]
pub struct ChildV3 {
    /// The child whose head it looked at.
    pub child: u32,
    /// Whether it moved the head, which is a help; else another had moved it.
    pub moved: bool,
}

impl ChildV3 {
    /// Left children have the even numbers.
    pub fn is_left(self) -> bool {
        self.child.is_multiple_of(2)
    }
}

/// Most helps of an operation, 4H - 2. It refreshes each node at most twice, and a node has two
/// children to help; but the own leaf is advanced before its parent is refreshed.
pub fn help_limit(shape: Shape) -> u32 {
    4 * shape.root_height() - 2
}

/// Plays a record that has passed its tests: the answer if it is a Q, what it did if it is the V3 of
/// a child. That is told by the step that follows and by the heads, not by the rule that counts.
pub fn play_watched(
    machine: &mut Machine,
    number: u32,
    record: StepRecord,
) -> (Option<Answer>, Option<ChildV3>) {
    let process = record.process;
    let head = match machine.next_step(process) {
        Some(Step::V3 { advance }) => Some((advance.node, machine.memory.head(advance.node))),
        _ => None,
    };
    let answer = play_record(machine, number, record);
    let next = machine.next_step(process);
    let in_refresh = matches!(next, Some(Step::R4 { .. } | Step::C1 { .. }));
    let v3 = head.filter(|_| in_refresh).map(|(child, head)| ChildV3 {
        child,
        moved: machine.memory.head(child) != head,
    });
    (answer, v3)
}

/// The V3s of children in a list that Run takes whole, in list order.
pub fn child_v3s(shape: Shape, records: &[u8]) -> Vec<ChildV3> {
    let mut machine = Machine::start(shape);
    let v3s = numbered(records).filter_map(|(number, bytes)| {
        let record = StepRecord::read(bytes, shape.p()).expect("a record that is taken");
        play_watched(&mut machine, number, record).1
    });
    v3s.collect()
}
