//! Lists in which another process goes on between two steps of a refresh. What the refresh reads after
//! that stands at the places that it read before.

use crate::lists::List;

/// Lists of p = 2 in which each process puts once, with what comes between which steps.
pub fn between_reads() -> [(&'static str, List); 5] {
    [
        ("the left head rises between C1 and C2", interrupted(1, 10)),
        (
            "the right head rises between C2 and C3L",
            interrupted(0, 11),
        ),
        ("the left head rises between C2 and C3L", interrupted(1, 11)),
        (
            "the right head rises between C3L and C3R",
            interrupted(0, 12),
        ),
        (
            "the root's head rises between C3R and C3N",
            stopped(0, 4)
                .put(1, 5)
                .steps(1, 4)
                .steps(0, 9)
                .steps(1, 13)
                .steps(0, 14),
        ),
    ]
}

/// A put whose process stops after so many steps.
fn stopped(process: u32, steps: usize) -> List {
    List::new().put(process, 7).steps(process, steps)
}

/// A put of 17 steps, after so many of which the other process raises the head of its leaf.
fn interrupted(process: u32, steps: usize) -> List {
    let other = 1 - process;
    let raised = stopped(process, steps).put(other, 5).steps(other, 4);
    raised.steps(process, 17 - steps).steps(other, 13)
}
