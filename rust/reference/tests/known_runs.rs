//! The known runs M1 to M11 with every fact that the paper states of them.

use crate::support::{needed, run_with, written, ZERO};
use reference::known_runs::{known_runs, m3, m4, m5, m6};
use reference::lists::List;
use reference::order::{margin, open, root_order, Given};
use reference::records::Kind;
use reference::run::{play, Played, Room};
use reference::tree::{Block, Shape, BLOCK_WORDS, ROOT};

fn played(p: u32, l: u32, list: List) -> Played {
    let played = play(Shape::new(p, l).unwrap(), &list.bytes(), Room::Unlimited);
    assert_eq!(played.refusal, None);
    played
}

/// Puts, takes, super, ends, size and number of a block.
fn block(words: [u32; BLOCK_WORDS]) -> Block {
    Block::from_words(&words)
}

fn given(process: u32) -> Given {
    Given { process, place: 1 }
}

#[test]
fn results_and_answers() {
    for known in known_runs() {
        let after = run_with(known.p, known.l, &known.list, known.words, known.bytes);
        assert_eq!(after.result, known.result, "{}", known.name);
        let answers = known.answers.iter().flat_map(|answer| answer.bytes());
        let answers: Vec<u8> = answers.collect();
        assert_eq!(written(&after), answers, "{}", known.name);
    }
}

#[test]
fn m1_clears_the_words() {
    let words = needed(2, 24);
    assert_eq!(run_with(2, 24, &[], words, 0).table, vec![0; words]);
}

#[test]
fn m3_both_in_one_block() {
    let tree = played(2, 24, m3()).machine.memory.tree;
    assert_eq!(open(&tree, ROOT, 1, Kind::Put), [given(0)]);
    assert_eq!(open(&tree, ROOT, 1, Kind::Take), [given(1)]);
    assert_eq!(margin(&tree, 1, 1), 0);
}

#[test]
fn m3_words_of_the_table() {
    let after = run_with(2, 1, &m3().bytes(), 49, 32);
    let root = [ZERO, [1, 1, 0, 1, 1, 0, 21], ZERO];
    let leaf_of_0 = [ZERO, [1, 0, 1, 5, 0, 0, 3]];
    let leaf_of_1 = [ZERO, [0, 1, 1, 0, 0, 0, 7]];
    let words = [root.concat(), leaf_of_0.concat(), leaf_of_1.concat()].concat();
    assert_eq!(after.table, words);
}

#[test]
fn m4_take_alone() {
    assert_eq!(margin(&played(2, 24, m4()).machine.memory.tree, 1, 1), -1);
    let after = run_with(2, 1, &m4().bytes(), 49, 16);
    let root = [ZERO, [0, 1, 0, 1, 0, 0, 16], ZERO].concat();
    let leaf_of_0 = [ZERO, [0, 1, 1, 0, 0, 0, 2]].concat();
    assert_eq!(after.table, [root, leaf_of_0, [ZERO; 2].concat()].concat());
}

#[test]
fn m5_order_in_a_block_is_not_by_process() {
    let tree = played(4, 24, m5()).machine.memory.tree;
    assert_eq!(tree.block(2, 1), block([1, 0, 1, 0, 1, 0, 16]));
    assert_eq!(tree.block(2, 2), block([2, 0, 1, 1, 1, 0, 35]));
    assert_eq!(open(&tree, ROOT, 1, Kind::Put), [given(1), given(0)]);
}

#[test]
fn m6_words_of_the_table() {
    let after = run_with(2, 1, &m6(0, 1).bytes(), 49, 32);
    let root = [ZERO, [2, 0, 0, 1, 1, 2, 21], ZERO];
    // Process 0 reads the root's head as 2, but its helper has set super to 1.
    let leaf_of_0 = [ZERO, [1, 0, 1, 9, 0, 0, 2]];
    let leaf_of_1 = [ZERO, [1, 0, 1, 8, 0, 0, 4]];
    let words = [root.concat(), leaf_of_0.concat(), leaf_of_1.concat()].concat();
    assert_eq!(after.table, words);
}

/// A help's V1 reads the head anew: it differs here from the one R1 has read.
#[test]
fn a_help_reads_the_head_of_its_own_time() {
    let list = List::new().put(1, 1).steps(1, 5).put(0, 2).steps(0, 17);
    let list = list.put(0, 3).steps(0, 1).steps(1, 5);
    let memory = played(2, 2, list).machine.memory;
    assert_eq!(memory.tree.block(2, 2), block([2, 0, 2, 3, 0, 0, 26]));
    assert_eq!((memory.head(ROOT), memory.head(2)), (2, 3));
}

#[test]
fn m6_helped_leaf() {
    let memory = played(2, 24, m6(0, 1)).machine.memory;
    assert_eq!(memory.head(2), 2);
    assert_eq!((memory.head(3), memory.head(ROOT)), (2, 2));
    assert_eq!(memory.tree.block(ROOT, 1), block([2, 0, 0, 1, 1, 2, 21]));
    let order: Vec<_> = root_order(&memory.tree).iter().map(|s| s.given).collect();
    assert_eq!(order, [given(0), given(1)]);
}

/// M6 with the processes exchanged: the help is begun in R5 instead of R3.
#[test]
fn m6_exchanged() {
    let played = played(2, 24, m6(1, 0));
    let answers = played.answers.iter();
    let answers: Vec<_> = answers
        .map(|a| (a.process, a.steps, a.helps, a.root_block))
        .collect();
    assert_eq!(answers, [(0, 20, 1, 1), (1, 15, 0, 1)]);
    assert_eq!(played.machine.memory.head(3), 2);
}
