//! The checker of block numbers can fail: a wrong number is named rightly, by the claim that it breaks.

use crate::support::{block_at as at, block_words, mixed_list, one_by_one, run_amply, NUMBER_WORD};
use reference::block_numbers::{
    numbers_above, numbers_hold, numbers_rise, numbers_written, At, Misnumbered,
};
use reference::tree::{Shape, Tree, PUTS_WORD, ROOT, TAKES_WORD};

const P: u32 = 2;
const L: u32 = 4;

fn not_rising(node: u32, place: u32) -> Result<(), Misnumbered> {
    Err(Misnumbered::NotRising(at(node, place)))
}

fn not_above(block: At, subblock: At) -> Result<(), Misnumbered> {
    Err(Misnumbered::NotAbove { block, subblock })
}

fn not_written(block: At, record: Option<u32>) -> Result<(), Misnumbered> {
    Err(Misnumbered::NotWritten { block, record })
}

/// A good run whose table the tests change.
#[derive(Clone)]
struct Left {
    shape: Shape,
    records: Vec<u8>,
    table: Vec<u32>,
}

impl Left {
    fn of(p: u32, l: u32, records: Vec<u8>) -> Left {
        let after = run_amply(p, l, &records);
        assert_eq!(after.result.refusal, 0);
        Left {
            shape: Shape::new(p, l).unwrap(),
            records,
            table: after.table,
        }
    }

    /// Operations of 18 records each: an A is the second of them, a C4 the 16th. The leaves have
    /// 2 and 38, and 20 and 56; the root 16, 34, 52 and 70.
    fn good() -> Left {
        Left::of(P, L, one_by_one())
    }

    fn word(&mut self, at: At, word: usize) -> &mut u32 {
        &mut block_words(self.shape, &mut self.table, at.node, at.place)[word]
    }

    fn with(mut self, at: At, number: u32) -> Left {
        *self.word(at, NUMBER_WORD) = number;
        self
    }

    fn rise(&self) -> Result<(), Misnumbered> {
        numbers_rise(self.shape, &self.table)
    }

    fn above(&self) -> Result<(), Misnumbered> {
        numbers_above(self.shape, &self.table)
    }

    fn written(&self) -> Result<(), Misnumbered> {
        numbers_written(self.shape, &self.records, &self.table)
    }

    fn check(&self) -> Result<(), Misnumbered> {
        numbers_hold(self.shape, &self.records, &self.table)
    }
}

#[test]
fn the_unchanged_run_and_the_empty_run_hold() {
    assert_eq!(Left::good().check(), Ok(()));
    assert_eq!(Left::of(P, L, Vec::new()).check(), Ok(()));
}

#[test]
fn a_block_0_with_a_number() {
    for node in 1..=3 {
        let left = Left::good().with(at(node, 0), 1);
        assert_eq!(left.check(), Err(Misnumbered::Zero(at(node, 0))));
    }
}

#[test]
fn numbers_that_do_not_rise() {
    for number in [0, 33, 34] {
        let left = Left::good().with(at(ROOT, 3), number);
        assert_eq!(left.rise(), not_rising(ROOT, 3), "{number}");
    }
    // The next one is passed.
    for number in [70, 71, u32::MAX] {
        let left = Left::good().with(at(ROOT, 3), number);
        assert_eq!(left.rise(), not_rising(ROOT, 4), "{number}");
    }
    // A first block is above block 0.
    assert_eq!(Left::good().with(at(3, 1), 0).rise(), not_rising(3, 1));
    let exchanged = Left::good().with(at(2, 1), 38).with(at(2, 2), 2);
    assert_eq!(exchanged.rise(), not_rising(2, 2));
    let equal = Left::good().with(at(2, 1), 38);
    assert_eq!(equal.rise(), not_rising(2, 2));
}

#[test]
fn a_number_that_is_not_above_a_subblock() {
    // The second root block has the first of leaf 3, which has 20, as its subblock.
    for number in [17, 19, 20] {
        let left = Left::good().with(at(ROOT, 2), number);
        assert_eq!(left.rise(), Ok(()));
        assert_eq!(left.above(), not_above(at(ROOT, 2), at(3, 1)), "{number}");
    }
    assert_eq!(Left::good().with(at(ROOT, 2), 21).above(), Ok(()));
    for number in [52, 53] {
        let left = Left::good().with(at(2, 2), number);
        assert_eq!(left.rise(), Ok(()));
        assert_eq!(left.above(), not_above(at(ROOT, 3), at(2, 2)), "{number}");
    }
    assert_eq!(Left::good().with(at(2, 2), 51).above(), Ok(()));
}

/// Both other claims hold: only the records tell that the number is another's.
#[test]
fn the_number_of_another_record() {
    for (block, record, others) in [
        (at(ROOT, 2), 34, [33, 35]),
        (at(2, 2), 38, [37, 39]),
        // 19 is the begin, 69 the C3N.
        (at(3, 1), 20, [19, 21]),
        (at(ROOT, 4), 70, [69, u32::MAX]),
    ] {
        for number in others {
            let left = Left::good().with(block, number);
            assert_eq!((left.rise(), left.above()), (Ok(()), Ok(())));
            assert_eq!(left.check(), not_written(block, Some(record)), "{number}");
        }
    }
}

#[test]
fn a_block_that_no_record_wrote() {
    let mut left = Left::good().with(at(3, 3), 72);
    // Absent by its totals, it has no number to claim anything of.
    assert_eq!(left.check(), Ok(()));
    *left.word(at(3, 3), PUTS_WORD) = 2;
    assert_eq!((left.rise(), left.above()), (Ok(()), Ok(())));
    assert_eq!(left.check(), not_written(at(3, 3), None));
    // After fewer records the last root block is not there.
    let mut left = Left::good();
    left.records.truncate(8 * 69);
    assert_eq!(left.written(), not_written(at(ROOT, 4), None));
}

#[test]
fn an_absent_block_in_between() {
    let mut left = Left::good();
    *left.word(at(ROOT, 2), PUTS_WORD) = 0;
    *left.word(at(ROOT, 2), TAKES_WORD) = 0;
    // Its number plays no part; those of 1 and 3 do.
    for number in [0, 34, 99] {
        assert_eq!(left.clone().with(at(ROOT, 2), number).rise(), Ok(()));
    }
    let left = left.with(at(ROOT, 3), 16);
    assert_eq!(left.rise(), not_rising(ROOT, 3));
}

/// At every height each other number of a present block is reported, and of the others none.
#[test]
fn each_wrong_number_of_a_large_tree() {
    let good = Left::of(8, 3, mixed_list(8, 3, 6));
    let tree = Tree::from_words(good.shape, &good.table);
    let mut wrong = [0; 4];
    for node in ROOT..=good.shape.last_node() {
        for place in 0..=good.shape.last_place(node) {
            let block = tree.block(node, place);
            for change in [1, u32::MAX, 1 << 31] {
                let number = block.number.wrapping_add(change);
                let left = good.clone().with(at(node, place), number);
                let has_number = place == 0 || block.present();
                assert_eq!(left.check().is_err(), has_number, "{node} {place} {number}");
                wrong[good.shape.height(node) as usize] += usize::from(has_number);
            }
        }
    }
    assert!(wrong.iter().all(|&count| count > 20), "{wrong:?}");
}
