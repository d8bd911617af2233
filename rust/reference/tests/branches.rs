//! The generated lists reach every branch of the step rules, and blocks keep their form.

use reference::branches::Branches;
use reference::help_lists::help_lists;
use reference::known_runs::{m3, m4, m6};
use reference::lists::List;
use reference::process::STEP_NAMES;
use reference::run::{play, Room};
use reference::schedules::{schedule, Pace, Plan};
use reference::tree::{Shape, Tree, ROOT};

fn plans(p: u32) -> Vec<Plan> {
    let mut plans = Vec::new();
    for seed in 0..20 {
        plans.push(Plan::new(p, 5, Pace::Uniform, seed));
        plans.push(Plan::new(p, 5, Pace::OneAtATime, seed));
        for (index, step) in STEP_NAMES.into_iter().enumerate() {
            let after = index % 2 == 0;
            plans.push(Plan::new(p, 5, Pace::Stalls { step, after }, seed));
        }
    }
    plans
}

/// With two processes the root is the only node that has children.
#[test]
fn every_branch_is_reached() {
    for p in [2, 4, 8] {
        let mut branches = Branches::default();
        for plan in plans(p) {
            branches.count_list(Shape::new(p, plan.l).unwrap(), &schedule(&plan));
        }
        for (step, met) in branches.by_step() {
            for (finds, times) in met {
                let possible = p > 2 || !step.contains("inner node");
                assert_eq!(times > 0, possible, "p {p}: {step} {finds} x{times}");
            }
        }
    }
}

/// The branches that a list comes to, each with how often.
fn met(p: u32, l: u32, list: &[u8]) -> Vec<String> {
    let mut branches = Branches::default();
    branches.count_list(Shape::new(p, l).unwrap(), list);
    let mut met = Vec::new();
    for (step, finds) in branches.by_step() {
        let finds = finds.into_iter().filter(|&(_, times)| times > 0);
        met.extend(finds.map(|(finds, times)| format!("{step}: {finds} x{times}")));
    }
    met
}

/// M6, worked by hand: process 1 helps the put of 0 into its own root block.
#[test]
fn branches_of_a_known_run() {
    let expected = [
        "A put: reads block 0 x2",
        "V1 own leaf: reads the head x2",
        "V1 left leaf: reads the head of R1 x1",
        "V2 own leaf: sets super x1",
        "V2 own leaf: finds another x1",
        "V2 left leaf: sets super x1",
        "V3 own leaf: raises the head x1",
        "V3 own leaf: finds it raised x1",
        "V3 left leaf: raises the head x1",
        "V3 root after C4 wrote: raises the head x1",
        "V3 first refresh of the root: ends with success x1",
        "R1 first refresh of the root: reads the head x2",
        "R2 left leaf: reads the head x2",
        "R3 left leaf: finds a block x1",
        "R3 left leaf: finds none x1",
        "R4 right leaf: reads the head x2",
        "R5 right leaf: finds none x2",
        "C1 left leaf: ends later x2",
        "C2 right leaf: ends later x2",
        "C3L left leaf: reads a later block x2",
        "C3R right leaf: reads a later block x2",
        "C3N first refresh of the root: finds equal totals x1",
        "C3N first refresh of the root: finds more x1",
        "C3N size: above 0 x1",
        "C4 first refresh of the root: writes x1",
        "C4 superblock of a leaf's block: at super x2",
        "Q put: done x2",
    ];
    assert_eq!(met(2, 24, &m6(0, 1).bytes()), expected);
}

/// A few branches of other lists, worked by hand: M4, M3, and helps on the right and of inner nodes.
#[test]
fn branches_of_other_lists() {
    let two_before = List::new().whole_puts(0, 2, 17).take(1).steps(1, 17);
    let [.., both_inner, _, _] = help_lists();
    for (p, list, expected) in [
        (2, m4(), "C3N size: kept from falling below 0 x1"),
        (2, m4(), "Q take: none x1"),
        (2, m3(), "Q take: value at margin 0 x1"),
        (2, m3(), "Q value: put in the same one x1"),
        (2, two_before.clone(), "Q take: value above margin 0 x1"),
        (2, two_before, "Q value: put in an earlier root block x1"),
        (2, m6(1, 0), "V3 right leaf: raises the head x1"),
        (
            4,
            both_inner.list.clone(),
            "V3 left inner node: raises the head x1",
        ),
        (
            4,
            both_inner.list,
            "V3 right inner node: raises the head x1",
        ),
    ] {
        let met = met(p, 24, &list.bytes());
        assert!(met.iter().any(|met| met == expected), "{expected}: {met:?}");
    }
}

/// A node's blocks: present up to a place, totals rising, sizes in the root alone.
fn assert_form(tree: &Tree, node: u32) {
    let (shape, leaf) = (tree.shape(), tree.shape().height(node) == 0);
    assert_eq!(tree.block(node, 0), Default::default());
    for place in 1..=shape.last_place(node) {
        let (block, before) = (tree.block(node, place), tree.block(node, place - 1));
        if place > tree.last_present(node) {
            assert_eq!(block, Default::default());
            continue;
        }
        assert!(block.puts + block.takes > before.puts + before.takes);
        assert!(block.puts >= before.puts && block.takes >= before.takes);
        assert!(node == ROOT || block.size == 0);
        assert!(node != ROOT || block.superblock == 0);
        assert!(!leaf || block.end_right == 0);
        assert!(leaf || (block.end_left >= before.end_left && block.end_right >= before.end_right));
    }
}

#[test]
fn blocks_keep_their_form() {
    for p in [2, 4, 8] {
        for plan in plans(p) {
            let shape = Shape::new(p, plan.l).unwrap();
            let machine = play(shape, &schedule(&plan), Room::Unlimited).machine;
            for node in ROOT..=machine.shape().last_node() {
                assert_form(&machine.memory.tree, node);
                let head = machine.memory.head(node);
                let last = machine.memory.tree.last_present(node);
                assert!(head == last + 1, "all finished: node {node} of {plan:?}");
            }
        }
    }
}
