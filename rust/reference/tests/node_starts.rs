//! Where each node starts: the table as it is printed, the blocks that stand there in a played table, and
//! the checker, which tells wrong tables; its parts are judged one by one.

use crate::support::{mixed_list, needed, places, run_amply, PAPER_BLOCK_WORDS};
use reference::node_starts::{
    lacking_are_zero, parts_apart, parts_within, print_starts, start_row, start_table,
    starts_counted, starts_hold, Misplaced, StartRow, StartTable, Wrong, L, NODES, PROCESSES,
};
use reference::run::{play, Room};
use reference::tree::{Shape, ROOT};

fn shape(p: u32, l: u32) -> Shape {
    Shape::new(p, l).unwrap()
}

fn misplaced(p: u32, node: u32, wrong: Wrong) -> Result<(), Misplaced> {
    Err(Misplaced { p, node, wrong })
}

/// What the checker says of a table for L = 24.
fn check(table: StartTable) -> Result<(), Misplaced> {
    starts_hold(L, &table)
}

/// Nodes of height 0, 1, 2 and 3 have 25, 49, 97 and 193 blocks: 175, 343, 679 and 1,351 words.
#[test]
fn the_printed_table() {
    let lines = [
        "0 343 518 0 0 0 0 0 0 0 0 0 0 0 0\n",
        "0 679 1022 1365 1540 1715 1890 0 0 0 0 0 0 0 0\n",
        "0 1351 2030 2709 3052 3395 3738 4081 4256 4431 4606 4781 4956 5131 5306\n",
    ];
    assert_eq!(print_starts(&start_table(24)), lines.concat());
    assert_eq!(L, 24);
}

#[test]
fn the_rule_holds() {
    for l in [1, 2, 3, 23, 24, 25, 250, 499, 500] {
        assert_eq!(starts_hold(l, &start_table(l)), Ok(()), "L = {l}");
    }
}

/// In what Run leaves of a list in which every node gets blocks.
#[test]
fn blocks_stand_there() {
    for p in PROCESSES {
        let list = mixed_list(p, 1, 5);
        for l in [1, 24, 500] {
            let shape = shape(p, l);
            let (row, table) = (start_row(shape), run_amply(p, l, &list).table);
            let tree = play(shape, &list, Room::Unlimited).machine.memory.tree;
            let mut present = [false; NODES];
            for (node, place) in places(shape) {
                let entry = (node - ROOT) as usize;
                let first = row[entry] as usize + PAPER_BLOCK_WORDS * place as usize;
                let block = tree.block(node, place);
                assert_eq!(table[first..first + PAPER_BLOCK_WORDS], block.words());
                present[entry] |= block.present();
            }
            let nodes = shape.last_node() as usize;
            assert_eq!(present, std::array::from_fn(|entry| entry < nodes));
        }
    }
}

#[test]
fn an_entry_one_off() {
    let good = start_table(L);
    for (at, p) in PROCESSES.into_iter().enumerate() {
        for (node, entry) in (ROOT..).zip(0..NODES) {
            let counted = good[at][entry] as usize;
            let wrong = match node < 2 * p {
                true => Wrong::Start { counted },
                false => Wrong::Lacking,
            };
            for by in [1, u32::MAX] {
                let mut table = good;
                table[at][entry] = table[at][entry].wrapping_add(by);
                assert_eq!(check(table), misplaced(p, node, wrong));
            }
        }
    }
}

#[test]
fn rows_exchanged() {
    for (one, other, p, counted) in [(0, 1, 2, 343), (0, 2, 2, 343), (1, 2, 4, 679)] {
        let mut table = start_table(L);
        table.swap(one, other);
        assert_eq!(check(table), misplaced(p, 2, Wrong::Start { counted }));
    }
}

#[test]
fn the_table_of_another_l() {
    let start = misplaced(2, 2, Wrong::Start { counted: 343 });
    for l in [1, 23, 25, 500] {
        assert_eq!(check(start_table(l)), start, "L = {l}");
    }
}

#[test]
fn blocks_of_six_words() {
    let six = start_table(L).map(|row| row.map(|start| start / 7 * 6));
    assert_eq!(six[0][..3], [0, 294, 444]);
    let start = Wrong::Start { counted: 343 };
    assert_eq!(check(six), misplaced(2, 2, start));
    // The root's blocks, which have seven words, run into the part of node 2.
    for (p, row) in PROCESSES.into_iter().zip(&six) {
        let overlap = Wrong::Overlap { earlier: 1 };
        assert_eq!(parts_apart(shape(p, L), row), misplaced(p, 2, overlap));
        assert_eq!(parts_within(shape(p, L), row), Ok(()));
    }
}

/// Likeliest the word after the last part, where a further one would start.
#[test]
fn a_number_for_a_node_that_the_tree_lacks() {
    for (at, p) in [(0, 2), (1, 4)] {
        for node in 2 * p..=NODES as u32 {
            let mut table = start_table(L);
            table[at][node as usize - 1] = needed(p, L) as u32;
            assert_eq!(check(table), misplaced(p, node, Wrong::Lacking));
            // It is the start of no part.
            assert_eq!(parts_apart(shape(p, L), &table[at]), Ok(()));
            assert_eq!(parts_within(shape(p, L), &table[at]), Ok(()));
        }
    }
}

/// Entries for nodes 0 to 14.
#[test]
fn a_first_entry_for_a_node_0() {
    let from_0 = start_table(L).map(|mut row| {
        row.rotate_right(1);
        row[0] = 0;
        row
    });
    assert_eq!(from_0[0][..5], [0, 0, 343, 518, 0]);
    let start = Wrong::Start { counted: 343 };
    assert_eq!(check(from_0), misplaced(2, 2, start));
    // Where the tree has fewer than 15 nodes, its last is entered for one that it lacks.
    let lacking = lacking_are_zero(shape(2, L), &from_0[0]);
    assert_eq!(lacking, misplaced(2, 4, Wrong::Lacking));
}

/// The row of p = 4 with another start for one node.
fn with_start(node: usize, start: u32) -> StartRow {
    let mut row = start_row(shape(4, L));
    row[node - 1] = start;
    row
}

#[test]
fn parts_with_a_word_in_common() {
    let apart = |row| parts_apart(shape(4, L), &row);
    let overlap = |node, earlier| misplaced(4, node, Wrong::Overlap { earlier });
    // Node 5 has words 1,540 to 1,714: one before them is node 4's, one after them is node 6's.
    assert_eq!(apart(with_start(5, 1539)), overlap(5, 4));
    assert_eq!(apart(with_start(5, 1541)), overlap(6, 5));
    assert_eq!(apart(with_start(1, 1)), overlap(2, 1));
    // All words of another leaf, and words inside the root's part.
    assert_eq!(apart(with_start(7, 1365)), overlap(7, 4));
    assert_eq!(apart(with_start(4, 100)), overlap(4, 1));
    // Apart, though node 7 starts elsewhere.
    assert_eq!(apart(with_start(7, 1891)), Ok(()));
    assert_eq!(apart(with_start(7, u32::MAX)), Ok(()));
}

#[test]
fn parts_past_the_words_needed() {
    let within = |row| parts_within(shape(4, L), &row);
    let past = |node| misplaced(4, node, Wrong::Past);
    assert_eq!(within(with_start(7, 1891)), past(7));
    assert_eq!(within(with_start(7, 1889)), Ok(()));
    // The root has 679 words of 2,065.
    assert_eq!(within(with_start(1, 1386)), Ok(()));
    assert_eq!(within(with_start(1, 1387)), past(1));
    assert_eq!(within(with_start(3, u32::MAX)), past(3));
}

/// Apart and within, but not in node order.
#[test]
fn two_leaves_exchanged() {
    let mut row = start_row(shape(4, L));
    row.swap(4, 6);
    assert_eq!(parts_apart(shape(4, L), &row), Ok(()));
    assert_eq!(parts_within(shape(4, L), &row), Ok(()));
    let start = Wrong::Start { counted: 1540 };
    assert_eq!(starts_counted(shape(4, L), &row), misplaced(4, 5, start));
}

/// Whether no word is in two parts, and whether all are words needed, found by marking them.
fn marked(starts: [u32; 3]) -> (bool, bool) {
    // p = 2, L = 1: three blocks in the root and two in each leaf.
    let mut marks = [0; 100];
    for (start, blocks) in starts.into_iter().zip([3, 2, 2]) {
        let part = &mut marks[start as usize..][..PAPER_BLOCK_WORDS * blocks];
        part.iter_mut().for_each(|mark| *mark += 1);
    }
    let (words, past) = marks.split_at(needed(2, 1));
    let apart = [words, past].concat().iter().all(|&mark| mark <= 1);
    (apart, past.iter().all(|&mark| mark == 0))
}

#[test]
fn every_row_of_the_smallest_tree() {
    let shape = shape(2, 1);
    let (mut both, mut right) = (0, 0);
    for number in 0..51_u32.pow(3) {
        let starts = [number % 51, number / 51 % 51, number / 51 / 51];
        let mut row = [0; NODES];
        row[..3].copy_from_slice(&starts);
        let found = (
            parts_apart(shape, &row).is_ok(),
            parts_within(shape, &row).is_ok(),
        );
        assert_eq!(found, marked(starts), "{starts:?}");
        both += u32::from(found == (true, true));
        right += u32::from(starts_counted(shape, &row).is_ok());
    }
    // All words are needed, so that three parts have room in their six orders, one of them by node.
    assert_eq!((both, right), (6, 1));
}
