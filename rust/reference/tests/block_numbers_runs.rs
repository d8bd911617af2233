//! Block numbers: by hand, on random, hostile and refused lists, and the same of all three calls.

use crate::support::{
    ample, check_known_runs, check_list, check_plans, check_refused, check_with, every_shape,
    every_stall, list_with, mixed_list, needed, run_with, unnumbered, written, Left,
};
use reference::block_numbers::{numbers_hold, written_by};
use reference::hostile::harm_list;
use reference::known_runs::{m2, m3, m5, m6};
use reference::lists::List;
use reference::machine::Machine;
use reference::random::Random;
use reference::records::{numbered, StepRecord};
use reference::run::{play, play_record, Room};
use reference::schedules::{schedule, Pace, Plan};
use reference::superblocks::all_subblocks;
use reference::tree::{Shape, Tree, ROOT};

/// The numbers in a node's blocks from 1 on, as long as they are present.
fn numbers(tree: &Tree, node: u32) -> Vec<u32> {
    let places = 1..=tree.last_present(node);
    places.map(|place| tree.block(node, place).number).collect()
}

/// The numbers by node, from the root on.
fn numbers_of(p: u32, list: List) -> Vec<Vec<u32>> {
    let shape = Shape::new(p, 2).unwrap();
    let played = play(shape, &list.bytes(), Room::Unlimited);
    assert_eq!(played.refusal, None);
    let tree = played.machine.memory.tree;
    let nodes = ROOT..=shape.last_node();
    nodes.map(|node| numbers(&tree, node)).collect()
}

/// The put begins with record 1. Its A is record 2, the C4 of node 2 its 15th step, the C4 of the
/// root its 29th; the take is 32 records later.
#[test]
fn m2_by_hand() {
    let by_node: [&[u32]; 7] = [&[30, 62], &[16, 48], &[], &[2], &[34], &[], &[]];
    assert_eq!(numbers_of(4, m2()), by_node);
}

/// Both begin, with records 1 and 2; process 0 has records 3 to 6, process 1 has 7 to 10. Then 0 goes
/// on with R1, and its C4 comes ten records later.
#[test]
fn m3_by_hand() {
    assert_eq!(numbers_of(2, m3()), [[21], [3], [7]]);
}

/// Process 1 stops after the V3 of node 2, its record 19. Process 0 has records 21 to 51, process 2
/// 64 to 94.
#[test]
fn m5_by_hand() {
    let by_node: [&[u32]; 7] = [&[49, 92], &[16, 35], &[78], &[21], &[2], &[64], &[]];
    assert_eq!(numbers_of(4, m5()), by_node);
}

/// Process 0 stops after A, its record 2. Process 1 has records 4 to 23, three of them to help. What
/// 0 sets and raises after it leaves the numbers as they are.
#[test]
fn m6_by_hand() {
    assert_eq!(numbers_of(2, m6(0, 1)), [[21], [2], [4]]);
}

/// Records that write nothing count too: begins, steps that read, and a C4 that finds a block there.
#[test]
fn a_c4_that_fails_writes_no_number() {
    // Both come to C4 with a block for place 1: 0 with record 31, 1 with record 32.
    let begun = List::new().put(0, 5).put(1, 6).steps(0, 4).steps(1, 4);
    let list = begun.steps(0, 10).steps(1, 10).steps(0, 1).steps(1, 1);
    assert_eq!(numbers_of(2, list), [[31], [3], [7]]);
}

/// Blocks met, and pairs of a block with a subblock.
#[derive(Default, Debug)]
struct Met {
    /// By height.
    blocks: [u64; 4],
    pairs: u64,
}

impl Met {
    /// Checks the claims on what a run left.
    fn assert_left(&mut self, left: Left) {
        let Left {
            shape,
            taken,
            table,
            told,
        } = left;
        assert_eq!(numbers_hold(shape, taken, table), Ok(()), "{told:?}");
        let tree = Tree::from_words(shape, table);
        let most = taken.len() as u32 / 8;
        for node in ROOT..=shape.last_node() {
            let numbers = numbers(&tree, node);
            let within = numbers.iter().all(|number| (1..=most).contains(number));
            assert!(within, "{told:?}: {numbers:?}");
            self.blocks[shape.height(node) as usize] += numbers.len() as u64;
        }
        self.pairs += all_subblocks(shape, table).len() as u64;
    }

    fn assert_every_height(&self) {
        assert!(self.blocks.iter().all(|&met| met > 0), "{self:?}");
        assert!(self.pairs > 0, "{self:?}");
    }
}

/// Checks what the plans' lists leave.
fn assert_plans(plans: &[Plan]) {
    let mut met = Met::default();
    check_plans(plans, |left| met.assert_left(left));
    met.assert_every_height();
}

#[test]
fn known_runs_and_their_refusals() {
    let mut met = Met::default();
    check_known_runs(|left| met.assert_left(left));
    assert_eq!(met.blocks, [14, 12, 4, 0]);
}

#[test]
fn uniform() {
    assert_plans(&every_shape(Pace::Uniform, 4));
}

#[test]
fn bursts() {
    assert_plans(&every_shape(Pace::Bursts(5), 2));
    assert_plans(&every_shape(Pace::Bursts(60), 2));
}

#[test]
fn in_turn() {
    assert_plans(&every_shape(Pace::Lockstep, 2));
    assert_plans(&every_shape(Pace::OneAtATime, 2));
}

#[test]
fn stops_at_each_step() {
    assert_plans(&every_stall());
}

#[test]
fn the_largest_shape() {
    assert_plans(&[Plan::new(8, 500, Pace::Uniform, 1)]);
}

#[test]
fn lists_that_end_with_a_refusal() {
    let mut met = Met::default();
    check_refused(|left| met.assert_left(left));
    met.assert_every_height();
}

#[test]
fn lists_with_something_wrong() {
    let (mut met, mut random, mut refused) = (Met::default(), Random::new(3), 0);
    for plan in every_shape(Pace::Uniform, 4) {
        let mut list = schedule(&plan);
        harm_list(&mut random, plan.p, &mut list);
        // The claim is not of a torn list, which leaves the words that it was lent.
        list.truncate(list.len() / 8 * 8);
        let check = &mut |left: Left| met.assert_left(left);
        refused += u32::from(check_list(&plan, &list, ample(&plan), check) != 0);
    }
    assert!(refused > 20, "{refused} refused");
    met.assert_every_height();
}

/// The words are those of Run on the first n - 1 and the first n records, for each number n.
#[test]
fn absent_before_its_record_and_present_after_it() {
    for (p, l, seed) in [(2, 2, 1), (4, 1, 2), (8, 1, 3)] {
        let shape = Shape::new(p, l).unwrap();
        let list = mixed_list(p, l, seed);
        let tables: Vec<Tree> = (0..=list.len() / 8)
            .map(|taken| {
                let after = run_with(
                    p,
                    l,
                    &list[..8 * taken],
                    needed(p, l),
                    16 * (p * l) as usize,
                );
                Tree::from_words(shape, &after.table)
            })
            .collect();
        let written = written_by(shape, &list);
        for node in ROOT..=shape.last_node() {
            let found = numbers(tables.last().unwrap(), node);
            assert_eq!(found, written[node as usize]);
            for (place, number) in (1..).zip(found) {
                let present = |taken: u32| tables[taken as usize].block(node, place).present();
                assert!(!present(number - 1) && present(number), "{node} {place}");
            }
        }
    }
}

/// With any others in their place a list leaves the same answers, processes, heads and other words.
#[test]
fn no_step_goes_by_them() {
    let mut random = Random::new(7);
    for plan in every_shape(Pace::Bursts(20), 1) {
        let shape = Shape::new(plan.p, plan.l).unwrap();
        let (mut right, mut other) = (Machine::start(shape), Machine::start(shape));
        for (number, bytes) in numbered(&schedule(&plan)) {
            let record = StepRecord::read(bytes, plan.p).unwrap();
            let answer = play_record(&mut right, number, record);
            let any = random.next() as u32;
            assert_eq!(play_record(&mut other, any, record), answer, "{plan:?}");
        }
        assert_ne!(right.memory.tree, other.memory.tree, "{plan:?}");
        let [blocks, others] = [&right, &other].map(|machine| unnumbered(&machine.memory.tree));
        assert!(blocks.eq(others), "{plan:?}");
        assert_eq!(right.memory.heads, other.memory.heads, "{plan:?}");
        assert_eq!(right.processes, other.processes, "{plan:?}");
    }
}

/// Listing the order and checking a log leave Run's table, numbers and all.
#[test]
fn the_same_of_all_three_calls() {
    for plan in every_shape(Pace::Bursts(20), 1) {
        let (p, l, list) = (plan.p, plan.l, schedule(&plan));
        let words = needed(p, l);
        let ran = run_with(p, l, &list, words, ample(&plan));
        let listed = list_with(p, l, &list, words, 8 * (p * l) as usize);
        let checked = check_with(p, l, &list, written(&ran), words);
        assert_eq!(listed.table, ran.table, "{plan:?}");
        assert_eq!(checked.table, ran.table, "{plan:?}");
        assert_eq!((listed.result.refusal, checked.result.verdict), (0, 0));
    }
}
