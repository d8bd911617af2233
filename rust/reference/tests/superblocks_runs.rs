//! Superblocks near their subblocks' super: by hand, on random, hostile and refused lists.

use crate::support::{
    check_known_runs, check_plans, check_refused, every_shape, every_stall, needed, run_with,
    subblock_at, Met, ZERO,
};
use reference::lists::List;
use reference::schedules::{Pace, Plan};
use reference::superblocks::{all_subblocks, supers_near, Subblock};
use reference::tree::Shape;

/// The words that a run of p = 2, L = 1 leaves, and what stands where in them.
fn by_hand(list: List) -> (Vec<u32>, Vec<Subblock>) {
    let after = run_with(2, 1, &list.bytes(), needed(2, 1), 32);
    assert_eq!(after.result.refusal, 0);
    let shape = Shape::new(2, 1).unwrap();
    assert_eq!(supers_near(shape, &after.table), Ok(()));
    let found = all_subblocks(shape, &after.table);
    (after.table, found)
}

#[test]
fn the_superblock_at_super() {
    let (table, found) = by_hand(List::new().put(0, 5).steps(0, 17));
    assert_eq!(found, [subblock_at(2, 1, 1, 1)]);
    let root = [ZERO, [1, 0, 0, 1, 0, 1, 16], ZERO].concat();
    let leaf_of_0 = [ZERO, [1, 0, 1, 5, 0, 0, 2]].concat();
    assert_eq!(table, [root, leaf_of_0, [ZERO; 2].concat()].concat());
}

/// Process 0 reads the root's head, 1, before process 1 writes root block 1 without its block.
#[test]
fn the_superblock_one_later() {
    let begun = List::new().put(1, 7).steps(1, 10).put(0, 5).steps(0, 2);
    let (table, found) = by_hand(begun.steps(1, 7).steps(0, 15));
    assert_eq!(found, [subblock_at(2, 1, 2, 1), subblock_at(3, 1, 1, 1)]);
    let root = [ZERO, [1, 0, 0, 0, 1, 1, 19], [2, 0, 0, 1, 1, 2, 34]].concat();
    let leaf_of_0 = [ZERO, [1, 0, 1, 5, 0, 0, 13]].concat();
    let leaf_of_1 = [ZERO, [1, 0, 1, 7, 0, 0, 2]].concat();
    assert_eq!(table, [root, leaf_of_0, leaf_of_1].concat());
}

/// The superblocks of what the plans' lists leave.
fn met_in(plans: &[Plan]) -> Met {
    let mut met = Met::default();
    check_plans(plans, |left| met.assert_left(left));
    met
}

#[test]
fn known_runs_and_their_refusals() {
    let mut met = Met::default();
    check_known_runs(|left| met.assert_left(left));
    let found = (met.at_super, met.one_later);
    assert_eq!(found, ([14, 5, 0], [0; 3]));
}

#[test]
fn uniform() {
    met_in(&every_shape(Pace::Uniform, 6)).assert_both(0..3);
}

#[test]
fn bursts() {
    met_in(&every_shape(Pace::Bursts(5), 2)).assert_both(0..3);
    met_in(&every_shape(Pace::Bursts(60), 2)).assert_both(0..3);
}

#[test]
fn in_turn() {
    met_in(&every_shape(Pace::Lockstep, 2)).assert_both(0..3);
    // Nobody moves the parent's head between its reading and the parent's next block.
    let alone = met_in(&every_shape(Pace::OneAtATime, 2));
    assert_eq!(alone.one_later, [0; 3]);
    assert!(alone.at_super.iter().all(|&met| met > 0));
}

#[test]
fn stops_at_each_step() {
    met_in(&every_stall()).assert_both(0..3);
}

#[test]
fn the_largest_shape() {
    let plan = Plan::new(8, 500, Pace::Uniform, 1);
    met_in(&[plan]).assert_both(0..3);
}

#[test]
fn lists_that_end_with_a_refusal() {
    let mut met = Met::default();
    check_refused(|left| met.assert_left(left));
    met.assert_both(0..3);
}
