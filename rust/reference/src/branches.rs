//! The branches of the step rules, and how often lists come to each.

use crate::found::{found_by_q, found_by_step};
use crate::machine::Machine;
use crate::process::StepName;
use crate::records::{numbered, StepRecord};
use crate::run::play_record;
use crate::tree::Shape;
use std::collections::BTreeMap;
use StepName::{A, C1, C2, C3L, C3N, C3R, C4, Q, R1, R2, R3, R4, R5, V1, V2, V3};

const LEFT: [&str; 2] = ["left leaf", "left inner node"];
const RIGHT: [&str; 2] = ["right leaf", "right inner node"];
const CHILDREN: [&str; 4] = [LEFT[0], LEFT[1], RIGHT[0], RIGHT[1]];

/// What an advance below the root is of if not of a child: the own leaf after A, or the refreshed node
/// after a C4 that wrote or one that failed.
const OWN: [&str; 3] = [
    "own leaf",
    "inner node after C4 wrote",
    "inner node after C4 failed",
];

const REFRESHES: [&str; 4] = [
    "first refresh of an inner node",
    "second refresh of an inner node",
    "first refresh of the root",
    "second refresh of the root",
];

const HEAD: [&str; 1] = ["reads the head"];
const HEADS: [&str; 2] = ["reads the head of R1", "reads a later head"];
const SUPERS: [&str; 3] = ["sets super", "finds what V1 read", "finds another"];
const RAISED: [&str; 2] = ["raises the head", "finds it raised"];
const LOOKS: [&str; 3] = ["finds a block", "finds none", "looks past the last place"];
const ENDS: [&str; 2] = ["ends at 0", "ends later"];
const BLOCKS: [&str; 2] = ["reads block 0", "reads a later block"];
const SIZES: [&str; 3] = ["above 0", "0", "kept from falling below 0"];
/// Of the subblocks of what C4 writes.
const SUPERBLOCKS: [&str; 2] = [
    "superblock of a leaf's block",
    "superblock of an inner node's block",
];
const STANDS: [&str; 2] = ["at super", "one place later"];
const TAKES: [&str; 3] = ["none", "value at margin 0", "value above margin 0"];
const PUTS: [&str; 2] = ["put in an earlier root block", "put in the same one"];

/// All branches: a step, whose it can be, and what each of these can find.
const BRANCHES: [(StepName, &[&str], &[&str]); 25] = [
    (A, &["put", "take"], &BLOCKS),
    (V1, &OWN, &HEAD),
    (V1, &CHILDREN, &HEADS),
    (V2, &OWN, &SUPERS),
    (V2, &CHILDREN, &SUPERS),
    (V3, &OWN, &RAISED),
    (V3, &CHILDREN, &RAISED),
    (
        V3,
        &["root after C4 wrote", "root after C4 failed"],
        &RAISED,
    ),
    (V3, &REFRESHES, &["ends with success", "ends without"]),
    (R1, &REFRESHES, &HEAD),
    (R2, &LEFT, &HEAD),
    (R3, &LEFT, &LOOKS),
    (R4, &RIGHT, &HEAD),
    (R5, &RIGHT, &LOOKS),
    (C1, &LEFT, &ENDS),
    (C2, &RIGHT, &ENDS),
    (C3L, &LEFT, &BLOCKS),
    (C3R, &RIGHT, &BLOCKS),
    (C3N, &REFRESHES, &["finds equal totals", "finds more"]),
    (C3N, &["size"], &SIZES),
    (C4, &REFRESHES, &["writes", "finds a block"]),
    (C4, &SUPERBLOCKS, &STANDS),
    (Q, &["put"], &["done"]),
    (Q, &["take"], &TAKES),
    (Q, &["value"], &PUTS),
];

/// Whose a step is, and what it finds.
pub type Found = (&'static str, &'static str);

/// How often each branch was met.
#[derive(Clone, PartialEq, Eq, Debug)]
pub struct Branches {
    times: BTreeMap<(StepName, Found), u64>,
}

impl Default for Branches {
    fn default() -> Branches {
        let mut times = BTreeMap::new();
        for (step, whose, finds) in lines() {
            times.extend(finds.iter().map(|&finds| ((step, (whose, finds)), 0)));
        }
        Branches { times }
    }
}

/// Each step with one of those whose it can be, and all that it can find there.
fn lines() -> impl Iterator<Item = (StepName, &'static str, &'static [&'static str])> {
    let all = BRANCHES.into_iter();
    all.flat_map(|(step, whose, finds)| whose.iter().map(move |&whose| (step, whose, finds)))
}

impl Branches {
    /// Counts the steps of a list that Run takes whole.
    pub fn count_list(&mut self, shape: Shape, records: &[u8]) {
        let mut machine = Machine::start(shape);
        for (number, bytes) in numbered(records) {
            let record = StepRecord::read(bytes, shape.p()).expect("a record that is taken");
            if let Some(step) = machine.next_step(record.process) {
                let count = |found| self.count(step.name(), found);
                found_by_step(&machine, record.process, step, count);
            }
            if let Some(answer) = play_record(&mut machine, number, record) {
                found_by_q(&machine.memory.tree, answer, |found| self.count(Q, found));
            }
        }
    }

    fn count(&mut self, step: StepName, found: Found) {
        let times = self.times.get_mut(&(step, found));
        *times.unwrap_or_else(|| panic!("{step:?} has no branch {found:?}")) += 1;
    }

    /// A step and whose it is; then each that it can find, and how often it did.
    pub fn by_step(&self) -> impl Iterator<Item = (String, Vec<(&'static str, u64)>)> + '_ {
        lines().map(|(step, whose, finds)| {
            let times = |&finds| (finds, self.times[&(step, (whose, finds))]);
            (
                format!("{step:?} {whose}"),
                finds.iter().map(times).collect(),
            )
        })
    }
}
