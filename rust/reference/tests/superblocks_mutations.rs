//! The checker of superblocks can fail: a wrong super or a moved superblock is named rightly.

use crate::support::{block_words, mixed_list, run_amply, subblock_at};
use reference::lists::List;
use reference::superblocks::{all_subblocks, supers_near, Subblock};
use reference::tree::{Shape, ROOT};

const P: u32 = 2;
const L: u32 = 4;
/// Where these words stand in a block.
const SUPER: usize = 2;
const END_LEFT: usize = 3;
const END_RIGHT: usize = 4;

/// A good run's table that the tests change.
#[derive(Clone)]
struct Left {
    shape: Shape,
    table: Vec<u32>,
}

impl Left {
    fn of(p: u32, l: u32, records: &[u8]) -> Left {
        let after = run_amply(p, l, records);
        assert_eq!(after.result.refusal, 0);
        Left {
            shape: Shape::new(p, l).unwrap(),
            table: after.table,
        }
    }

    /// Root blocks 1 to 4 hold a block each: of leaf 2, leaf 3, leaf 2 and leaf 3. The third
    /// has its super from before root block 2.
    fn good() -> Left {
        let first = List::new().put(0, 5).steps(0, 17);
        let begun = first.put(1, 7).steps(1, 10).put(0, 6).steps(0, 2);
        let records = begun.steps(1, 7).steps(0, 15).take(1).steps(1, 17).bytes();
        Left::of(P, L, &records)
    }

    fn word(&mut self, node: u32, place: u32, word: usize) -> &mut u32 {
        &mut block_words(self.shape, &mut self.table, node, place)[word]
    }

    fn subblocks(&self) -> Vec<Subblock> {
        all_subblocks(self.shape, &self.table)
    }

    fn check(&self) -> Result<(), Subblock> {
        supers_near(self.shape, &self.table)
    }
}

#[test]
fn the_unchanged_run_and_the_empty_run_hold() {
    let good = Left::good();
    let leaf_2 = [subblock_at(2, 1, 1, 1), subblock_at(2, 2, 3, 2)];
    let leaf_3 = [subblock_at(3, 1, 2, 2), subblock_at(3, 2, 4, 4)];
    assert_eq!(good.subblocks(), [leaf_2, leaf_3].concat());
    assert_eq!(good.check(), Ok(()));
    let empty = Left::of(P, L, &[]);
    assert_eq!((empty.subblocks(), empty.check()), (vec![], Ok(())));
}

/// The good run with another super in one block.
fn with_super(node: u32, place: u32, super_word: u32) -> Result<(), Subblock> {
    let mut left = Left::good();
    *left.word(node, place, SUPER) = super_word;
    left.check()
}

#[test]
fn a_super_one_down() {
    assert_eq!(with_super(2, 2, 1), Err(subblock_at(2, 2, 3, 1)));
    // From the superblock's place itself the claim leaves room.
    assert_eq!(with_super(3, 2, 3), Ok(()));
}

#[test]
fn a_super_one_up() {
    assert_eq!(with_super(3, 1, 3), Err(subblock_at(3, 1, 2, 3)));
    assert_eq!(with_super(2, 2, 3), Ok(()));
}

#[test]
fn a_super_two_off() {
    assert_eq!(with_super(2, 2, 4), Err(subblock_at(2, 2, 3, 4)));
    assert_eq!(with_super(3, 2, 2), Err(subblock_at(3, 2, 4, 2)));
}

#[test]
fn a_super_not_set() {
    // Root block 1 is no place later than a super that is not set.
    assert_eq!(with_super(2, 1, 0), Err(subblock_at(2, 1, 1, 0)));
    assert_eq!(with_super(3, 2, 0), Err(subblock_at(3, 2, 4, 0)));
}

#[test]
fn two_supers_swapped() {
    let mut left = Left::good();
    *left.word(3, 1, SUPER) = 4;
    *left.word(3, 2, SUPER) = 2;
    assert_eq!(left.check(), Err(subblock_at(3, 1, 2, 4)));
}

/// At every height, every other super than the two allowed is reported, and at its block.
#[test]
fn each_wrong_super_of_a_large_tree() {
    let good = Left::of(8, 3, &mixed_list(8, 3, 6));
    let mut wrong = [0; 3];
    for found in good.subblocks() {
        let words = 0..=found.above + 2;
        for super_word in words.chain([u32::MAX]) {
            let mut left = good.clone();
            *left.word(found.node, found.place, SUPER) = super_word;
            let allowed = found.above.max(2) - 1..=found.above;
            if allowed.contains(&super_word) {
                assert_eq!(left.check(), Ok(()), "{found:?}");
                continue;
            }
            let (node, place, above) = (found.node, found.place, found.above);
            let named = subblock_at(node, place, above, super_word);
            assert_eq!(left.check(), Err(named));
            wrong[good.shape.height(node) as usize] += 1;
        }
    }
    assert!(wrong.iter().all(|&count| count > 50), "{wrong:?}");
}

#[test]
fn a_superblock_moved_down() {
    let mut left = Left::good();
    *left.word(ROOT, 1, END_LEFT) = 2;
    assert_eq!(left.check(), Err(subblock_at(2, 2, 1, 2)));
    let mut left = Left::good();
    *left.word(ROOT, 1, END_RIGHT) = 1;
    assert_eq!(left.check(), Err(subblock_at(3, 1, 1, 2)));
}

#[test]
fn a_superblock_moved_up() {
    let mut left = Left::good();
    *left.word(ROOT, 1, END_LEFT) = 0;
    // One place later than its super, which the claim allows.
    assert_eq!(left.subblocks()[0], subblock_at(2, 1, 2, 1));
    assert_eq!(left.check(), Ok(()));
    *left.word(ROOT, 2, END_LEFT) = 0;
    assert_eq!(left.check(), Err(subblock_at(2, 1, 3, 1)));
}

/// Every end of the root changed: the checker's verdict is the claim read block by block.
#[test]
fn each_moved_superblock_is_reported() {
    let mut moved = 0;
    for place in 1..=4 {
        for word in [END_LEFT, END_RIGHT] {
            for change in [1, 2, u32::MAX, 1 << 31] {
                let mut left = Left::good();
                let end = left.word(ROOT, place, word);
                *end = end.wrapping_add(change);
                let holds = holds_by_words(&mut left);
                assert_eq!(left.check().is_ok(), holds, "place {place} word {word}");
                moved += usize::from(!holds);
            }
        }
    }
    assert_eq!(moved, 27);
}

/// The claim of p = 2 for each place of each leaf and each present root block, from the words.
fn holds_by_words(left: &mut Left) -> bool {
    let mut holds = true;
    for (leaf, end) in [(2, END_LEFT), (3, END_RIGHT)] {
        for place in 1..=L + 1 {
            // A place that the leaf lacks is absent.
            let super_word = if place > L {
                0
            } else {
                *left.word(leaf, place, SUPER)
            };
            for b in 1..=P * L {
                let (after, to) = (*left.word(ROOT, b - 1, end), *left.word(ROOT, b, end));
                let present = *left.word(ROOT, b, 0) + *left.word(ROOT, b, 1) > 0;
                if present && after < place && place <= to {
                    holds &= super_word > 0 && (super_word == b || super_word + 1 == b);
                }
            }
        }
    }
    holds
}

#[test]
fn a_subblock_that_is_absent() {
    let mut left = Left::good();
    *left.word(ROOT, 4, END_RIGHT) = 3;
    assert_eq!(left.check(), Err(subblock_at(3, 3, 4, 0)));
}

#[test]
fn a_subblock_past_the_last_place() {
    for end in [2, 3, u32::MAX] {
        let mut left = Left::of(2, 1, &List::new().put(0, 5).steps(0, 17).bytes());
        *left.word(ROOT, 1, END_LEFT) = end;
        assert_eq!(left.check(), Err(subblock_at(2, 2, 1, 0)));
    }
}

#[test]
fn superblocks_that_are_absent() {
    let mut left = Left::good();
    *left.word(ROOT, 4, 0) = 0;
    *left.word(ROOT, 4, 1) = 0;
    assert_eq!(left.subblocks().len(), 3);
    *left.word(3, 2, SUPER) = 0;
    assert_eq!(left.check(), Ok(()));
    // With block 2 gone, block 3's subblocks in leaf 2 start at place 1.
    block_words(left.shape, &mut left.table, ROOT, 2).fill(0);
    assert_eq!(left.check(), Err(subblock_at(2, 1, 3, 1)));
}
