//! A process: idle, or inside an operation at one named step with its registers.

use crate::records::Operation;
use crate::tree::{Block, Totals};

#[derive(Clone, Copy, PartialEq, Eq, Hash, Debug)]
pub enum Attempt {
    First,
    Second,
}

/// The refresh of a node.
#[derive(Clone, Copy, PartialEq, Eq, Hash, Debug)]
pub struct Refresh {
    pub node: u32,
    pub attempt: Attempt,
}

/// What follows an advance.
#[derive(Clone, Copy, PartialEq, Eq, Hash, Debug)]
pub enum Then {
    /// The advance of the own leaf after A.
    RefreshParent,
    /// The help begun in R3.
    R4 { refresh: Refresh, h: u32 },
    /// The help begun in R5.
    C1 { refresh: Refresh, h: u32 },
    /// The advance of the refreshed node after C4.
    EndRefresh { refresh: Refresh, success: bool },
}

impl Then {
    /// Whether the advance is of a child's block inside a refresh; to move that head is a help.
    pub fn of_child(self) -> bool {
        matches!(self, Then::R4 { .. } | Then::C1 { .. })
    }
}

/// The advance of a node's block at a place.
#[derive(Clone, Copy, PartialEq, Eq, Hash, Debug)]
pub struct Advance {
    pub node: u32,
    pub place: u32,
    pub then: Then,
}

/// The children's places that C1 and C2 found.
#[derive(Clone, Copy, PartialEq, Eq, Hash, Debug)]
pub struct Ends {
    pub left: u32,
    pub right: u32,
}

/// What C3N builds of a block. C4 adds the number of its own record, and super is 0.
#[derive(Clone, Copy, PartialEq, Eq, Hash, Debug)]
pub struct Built {
    pub totals: Totals,
    pub ends: Ends,
    pub size: u32,
}

impl Built {
    /// The block that the record with this number writes.
    pub fn block(self, number: u32) -> Block {
        Block {
            puts: self.totals.puts,
            takes: self.totals.takes,
            superblock: 0,
            end_left: self.ends.left,
            end_right: self.ends.right,
            size: self.size,
            number,
        }
    }
}

/// The step that a busy process does next, with that step's own registers.
#[derive(Clone, Copy, PartialEq, Eq, Hash, Debug)]
pub enum Step {
    A,
    V1 {
        advance: Advance,
    },
    V2 {
        advance: Advance,
        parent_head: u32,
    },
    V3 {
        advance: Advance,
    },
    R1 {
        refresh: Refresh,
    },
    R2 {
        refresh: Refresh,
        h: u32,
    },
    R3 {
        refresh: Refresh,
        h: u32,
        c: u32,
    },
    R4 {
        refresh: Refresh,
        h: u32,
    },
    R5 {
        refresh: Refresh,
        h: u32,
        c: u32,
    },
    C1 {
        refresh: Refresh,
        h: u32,
    },
    C2 {
        refresh: Refresh,
        h: u32,
        end_left: u32,
    },
    C3L {
        refresh: Refresh,
        h: u32,
        ends: Ends,
    },
    C3R {
        refresh: Refresh,
        h: u32,
        ends: Ends,
        /// Those of the left child's block.
        left: Totals,
    },
    C3N {
        refresh: Refresh,
        h: u32,
        ends: Ends,
        /// The sums of both children's.
        totals: Totals,
    },
    C4 {
        refresh: Refresh,
        h: u32,
        built: Built,
    },
    Q,
}

#[derive(Clone, Copy, PartialEq, Eq, Hash, Debug)]
pub enum Activity {
    Idle,
    Busy {
        operation: Operation,
        step: Step,
        /// Own steps of the operation so far.
        steps: u8,
        /// Heads of children that it has moved inside refreshes.
        helps: u8,
    },
}

#[derive(Clone, Copy, PartialEq, Eq, Hash, Debug)]
pub struct Process {
    /// Operations begun, which is the serial of the last one.
    pub begun: u32,
    pub activity: Activity,
}

impl Process {
    pub fn start() -> Process {
        Process {
            begun: 0,
            activity: Activity::Idle,
        }
    }
}

/// The names of the steps, in the paper's order.
#[derive(Clone, Copy, PartialEq, Eq, PartialOrd, Ord, Hash, Debug)]
pub enum StepName {
    A,
    V1,
    V2,
    V3,
    R1,
    R2,
    R3,
    R4,
    R5,
    C1,
    C2,
    C3L,
    C3R,
    C3N,
    C4,
    Q,
}

pub const STEP_NAMES: [StepName; 16] = [
    StepName::A,
    StepName::V1,
    StepName::V2,
    StepName::V3,
    StepName::R1,
    StepName::R2,
    StepName::R3,
    StepName::R4,
    StepName::R5,
    StepName::C1,
    StepName::C2,
    StepName::C3L,
    StepName::C3R,
    StepName::C3N,
    StepName::C4,
    StepName::Q,
];

impl Step {
    pub fn name(self) -> StepName {
        match self {
            Step::A => StepName::A,
            Step::V1 { .. } => StepName::V1,
            Step::V2 { .. } => StepName::V2,
            Step::V3 { .. } => StepName::V3,
            Step::R1 { .. } => StepName::R1,
            Step::R2 { .. } => StepName::R2,
            Step::R3 { .. } => StepName::R3,
            Step::R4 { .. } => StepName::R4,
            Step::R5 { .. } => StepName::R5,
            Step::C1 { .. } => StepName::C1,
            Step::C2 { .. } => StepName::C2,
            Step::C3L { .. } => StepName::C3L,
            Step::C3R { .. } => StepName::C3R,
            Step::C3N { .. } => StepName::C3N,
            Step::C4 { .. } => StepName::C4,
            Step::Q => StepName::Q,
        }
    }
}
