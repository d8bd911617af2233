//! Shape of the tree and layout of the work table.

use crate::support::{mixed_list, needed, run_amply, PAPER_BLOCK_WORDS};
use reference::refusal::Refusal;
use reference::run::{play, Room};
use reference::tree::{left_child, parent, right_child, Block, Shape, Tree, BLOCK_WORDS, ROOT};

#[test]
fn words_needed_by_the_paper() {
    assert_eq!(needed(2, 1), 49);
    assert_eq!(needed(4, 24), 2065);
    assert_eq!(needed(8, 500), PAPER_BLOCK_WORDS * (4 * 8 * 500 + 15));
}

#[test]
fn accepted_shapes() {
    for p in [0, 1, 3, 5, 6, 7, 9, 16, 501, u32::MAX] {
        assert_eq!(Shape::new(p, 0), Err(Refusal::Processes));
    }
    for p in [2, 4, 8] {
        for l in [0, 501, u32::MAX] {
            assert_eq!(Shape::new(p, l), Err(Refusal::Operations));
        }
        for l in [1, 500] {
            let shape = Shape::new(p, l).unwrap();
            assert_eq!((shape.p(), shape.l()), (p, l));
            assert_eq!(p, 1 << shape.root_height());
        }
    }
}

#[test]
fn node_parts_follow_each_other() {
    for p in [2, 4, 8] {
        for l in [1, 2, 24, 500] {
            let shape = Shape::new(p, l).unwrap();
            let mut next = 0;
            for node in ROOT..=shape.last_node() {
                assert_eq!(shape.node_start(node), next);
                next += PAPER_BLOCK_WORDS * (l as usize * (1 << shape.height(node)) + 1);
            }
            assert_eq!(next, shape.words_needed());
        }
    }
}

#[test]
fn nodes_of_eight_processes() {
    let shape = Shape::new(8, 3).unwrap();
    assert_eq!((left_child(3), right_child(3)), (6, 7));
    assert_eq!((parent(6), parent(7)), (3, 3));
    let heights: Vec<u32> = (1..=15).map(|node| shape.height(node)).collect();
    assert_eq!(heights, [3, 2, 2, 1, 1, 1, 1, 0, 0, 0, 0, 0, 0, 0, 0]);
    assert_eq!((shape.leaf(0), shape.leaf(7)), (8, 15));
    assert_eq!(shape.process_of_leaf(15), 7);
    assert_eq!((shape.last_place(1), shape.last_place(15)), (24, 3));
}

#[test]
fn words_and_blocks_agree() {
    let words = [1, 2, 3, 4, 5, 6, 7];
    let block = Block {
        puts: 1,
        takes: 2,
        superblock: 3,
        end_left: 4,
        end_right: 5,
        size: 6,
        number: 7,
    };
    assert_eq!(block.words(), words);
    assert_eq!(Block::from_words(&words), block);
    let present = |words: [u32; BLOCK_WORDS]| Block::from_words(&words).present();
    assert!(present([1, 0, 0, 0, 0, 0, 0]) && present([0, 1, 0, 0, 0, 0, 0]));
    // A number makes no block present.
    assert!(!present([0, 0, 1, 1, 1, 1, 1]));
}

#[test]
fn one_past_the_end_is_absent() {
    let shape = Shape::new(2, 1).unwrap();
    let full = vec![1; shape.words_needed()];
    let tree = Tree::from_words(shape, &full);
    assert!(tree.block(ROOT, 2).present());
    assert_eq!(tree.block(ROOT, 3), Block::default());
    assert_eq!(tree.block(3, 2), Block::default());
}

#[test]
fn every_block_lies_at_its_words() {
    let list = mixed_list(4, 3, 5);
    let table = run_amply(4, 3, &list).table;
    let shape = Shape::new(4, 3).unwrap();
    let tree = play(shape, &list, Room::Unlimited).machine.memory.tree;
    let mut word = 0;
    for node in ROOT..=shape.last_node() {
        for place in 0..=shape.last_place(node) {
            let words = &table[word..word + BLOCK_WORDS];
            assert_eq!(words, tree.block(node, place).words());
            word += BLOCK_WORDS;
        }
    }
    assert_eq!(tree, Tree::from_words(shape, &table));
}
