//! Each step alone: what it changes in the memory, what it reads into registers and what it counts.

use reference::machine::Machine;
use reference::process::{Activity, Ends, Step, STEP_NAMES};
use reference::records::{numbered, Act, Operation, StepRecord};
use reference::run::play_record;
use reference::schedules::{schedule, Ending, Pace, Plan};
use reference::tree::{left_child, parent, right_child, Block, Shape, Totals, ROOT};

/// A block that is not what it was: node, place, and what stands there now.
type BlockChange = (u32, u32, Block);
/// A head that is not what it was: node and the head now.
type HeadChange = (u32, u32);

fn changes(before: &Machine, after: &Machine) -> (Vec<BlockChange>, Vec<HeadChange>) {
    let (mut blocks, mut heads) = (Vec::new(), Vec::new());
    let shape = before.shape();
    for node in ROOT..=shape.last_node() {
        for place in 0..=shape.last_place(node) {
            let now = after.memory.tree.block(node, place);
            if before.memory.tree.block(node, place) != now {
                blocks.push((node, place, now));
            }
        }
        if before.memory.head(node) != after.memory.head(node) {
            heads.push((node, after.memory.head(node)));
        }
    }
    (blocks, heads)
}

/// The block that A writes, with its node and place.
fn appended(before: &Machine, process: u32, operation: Operation, number: u32) -> BlockChange {
    let leaf = before.shape().leaf(process);
    let head = before.memory.head(leaf);
    let last = before.memory.tree.block(leaf, head - 1);
    let words = match operation {
        Operation::Put(value) => [last.puts + 1, last.takes, 0, value, 0, 0, number],
        Operation::Take => [last.puts, last.takes + 1, 0, 0, 0, 0, number],
    };
    (leaf, head, Block::from_words(&words))
}

/// What the step must change. A and C4 write the number of their record; V2 keeps the block's.
fn expected(
    before: &Machine,
    process: u32,
    operation: Operation,
    step: Step,
    number: u32,
) -> (Vec<BlockChange>, Vec<HeadChange>) {
    let (tree, none) = (&before.memory.tree, (Vec::new(), Vec::new()));
    match step {
        Step::A => {
            let block = appended(before, process, operation, number);
            (vec![block], Vec::new())
        }
        Step::V2 {
            advance,
            parent_head,
        } => {
            let mut block = tree.block(advance.node, advance.place);
            if block.superblock != 0 {
                return none;
            }
            block.superblock = parent_head;
            (vec![(advance.node, advance.place, block)], Vec::new())
        }
        Step::V3 { advance } if before.memory.head(advance.node) == advance.place => {
            (Vec::new(), vec![(advance.node, advance.place + 1)])
        }
        Step::C4 { refresh, h, built } if !tree.block(refresh.node, h).present() => {
            let Totals { puts, takes } = built.totals;
            let Ends { left, right } = built.ends;
            let words = [puts, takes, 0, left, right, built.size, number];
            (
                vec![(refresh.node, h, Block::from_words(&words))],
                Vec::new(),
            )
        }
        _ => none,
    }
}

/// What the step must have read into registers, and what is there.
fn read(before: &Machine, step: Step, next: Step) -> Option<(Vec<u32>, Vec<u32>)> {
    let head = |node| vec![before.memory.head(node)];
    let totals = |node, place| before.memory.tree.block(node, place).words()[..2].to_vec();
    Some(match (step, next) {
        (Step::V1 { advance }, Step::V2 { parent_head, .. }) => {
            (head(parent(advance.node)), vec![parent_head])
        }
        (Step::R1 { refresh }, Step::R2 { h, .. }) => (head(refresh.node), vec![h]),
        (Step::R2 { refresh, .. }, Step::R3 { c, .. }) => (head(left_child(refresh.node)), vec![c]),
        (Step::R4 { refresh, .. }, Step::R5 { c, .. }) => {
            (head(right_child(refresh.node)), vec![c])
        }
        (Step::C1 { refresh, .. }, Step::C2 { end_left, .. }) => {
            (head(left_child(refresh.node)), vec![end_left + 1])
        }
        (
            Step::C2 {
                refresh, end_left, ..
            },
            Step::C3L { ends, .. },
        ) => {
            let met = [head(right_child(refresh.node)), vec![end_left]].concat();
            (met, vec![ends.right + 1, ends.left])
        }
        (
            Step::C3L { refresh, ends, .. },
            Step::C3R {
                ends: kept, left, ..
            },
        ) => {
            let read = totals(left_child(refresh.node), ends.left);
            let met = [read, vec![ends.left, ends.right]].concat();
            (met, vec![left.puts, left.takes, kept.left, kept.right])
        }
        (
            Step::C3R {
                refresh,
                ends,
                left,
                ..
            },
            Step::C3N {
                ends: kept,
                totals: sums,
                ..
            },
        ) => {
            let read = totals(right_child(refresh.node), ends.right);
            let met = [read, vec![ends.left, ends.right]].concat();
            let added = [sums.puts - left.puts, sums.takes - left.takes];
            (met, [added, [kept.left, kept.right]].concat())
        }
        _ => return None,
    })
}

/// C3N: C4 follows with the sums and the ends, unless block h - 1 has the same totals.
fn assert_decision(before: &Machine, step: Step, next: Step) {
    let Step::C3N {
        refresh,
        h,
        ends,
        totals,
    } = step
    else {
        return;
    };
    let old = before.memory.tree.block(refresh.node, h - 1);
    let more = match next {
        Step::C4 {
            h: place, built, ..
        } => {
            assert_eq!((place, built.totals, built.ends), (h, totals, ends));
            true
        }
        _ => false,
    };
    let Totals { puts, takes } = totals;
    assert_eq!(more, (old.puts, old.takes) != (puts, takes), "{step:?}");
}

/// One step more, and one help more if it raised a head and its refresh goes on with R4 or C1; both
/// are 0 after a begin.
fn assert_counts(before: &Machine, after: &Machine, process: u32, raised: bool) {
    let counts = |machine: &Machine| match machine.process(process).activity {
        Activity::Busy { steps, helps, .. } => Some((steps, helps)),
        Activity::Idle => None,
    };
    let next = after.next_step(process);
    let helped = raised && matches!(next, Some(Step::R4 { .. } | Step::C1 { .. }));
    let expected = match counts(before) {
        None => Some((0, 0)),
        Some((steps, helps)) => next.map(|_| (steps + 1, helps + u8::from(helped))),
    };
    assert_eq!(counts(after), expected);
}

/// One record: its effect on the memory, its reads and counts, and nothing in other processes.
fn assert_effect(
    before: &Machine,
    after: &Machine,
    operation: Operation,
    number: u32,
    record: StepRecord,
) {
    let process = record.process;
    for other in (0..before.shape().p()).filter(|&other| other != process) {
        assert_eq!(before.process(other), after.process(other));
    }
    let Some(step) = before.next_step(process) else {
        assert_eq!(before.memory, after.memory);
        assert_counts(before, after, process, false);
        return;
    };
    let effect = expected(before, process, operation, step, number);
    assert_eq!(changes(before, after), effect, "{step:?}");
    assert_counts(before, after, process, !effect.1.is_empty());
    let Some(next) = after.next_step(process) else {
        return;
    };
    if let Some((read, registers)) = read(before, step, next) {
        assert_eq!(registers, read, "{step:?}");
    }
    assert_decision(before, step, next);
}

fn assert_effects(plan: &Plan) {
    let mut machine = Machine::start(Shape::new(plan.p, plan.l).unwrap());
    let mut operations = vec![Operation::Take; plan.p as usize];
    for (number, bytes) in numbered(&schedule(plan)) {
        let record = StepRecord::read(bytes, plan.p).unwrap();
        if let Act::Begin(operation) = record.act {
            operations[record.process as usize] = operation;
        }
        let before = machine.clone();
        play_record(&mut machine, number, record);
        let operation = operations[record.process as usize];
        assert_effect(&before, &machine, operation, number, record);
    }
}

#[test]
fn every_step_of_mixed_lists() {
    for p in [2, 4, 8] {
        for seed in 0..6 {
            assert_effects(&Plan::new(p, 3, Pace::Uniform, seed));
            for step in STEP_NAMES {
                let after = seed % 2 == 0;
                let plan = Plan::new(p, 3, Pace::Stalls { step, after }, seed);
                assert_effects(&plan.ending(Ending::Abandoned));
                assert_effects(&plan);
            }
        }
    }
}
