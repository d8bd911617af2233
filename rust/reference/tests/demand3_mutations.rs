//! The checker of demand 3 can fail: each change of a good run is named rightly.

use crate::support::{block_words, one_by_one, run_amply, written};
use reference::demand3::{check, check_within, step_limit, Name, Violation};
use reference::known_runs::m6;
use reference::order::root_order;
use reference::records::Outcome;
use reference::refusal::Refusal;
use reference::tree::{Shape, Tree};

const P: u32 = 2;
const L: u32 = 4;

/// A good run that the tests change.
#[derive(Clone)]
struct Left {
    records: Vec<u8>,
    answers: Vec<u8>,
    table: Vec<u32>,
}

impl Left {
    fn good() -> Left {
        Left::of(one_by_one())
    }

    fn of(records: Vec<u8>) -> Left {
        let after = run_amply(P, L, &records);
        let answers = written(&after).to_vec();
        let table = after.table;
        Left {
            records,
            answers,
            table,
        }
    }

    fn check(&self) -> Result<(), Violation> {
        check(P, L, &self.records, &self.answers, &self.table)
    }

    fn block(&mut self, node: u32, place: u32) -> &mut [u32] {
        block_words(Shape::new(P, L).unwrap(), &mut self.table, node, place)
    }

    fn answer(&mut self, index: usize) -> &mut [u8] {
        &mut self.answers[16 * index..16 * index + 16]
    }
}

fn name(process: u32, serial: u32) -> Name {
    Name { process, serial }
}

fn assert_violation(left: &Left, violation: Violation) {
    assert_eq!(left.check(), Err(violation));
}

#[test]
fn the_unchanged_run_and_the_empty_run_hold() {
    assert_eq!(Left::good().check(), Ok(()));
    let table = vec![0; Shape::new(P, L).unwrap().words_needed()];
    assert_eq!(check(P, L, &[], &[], &table), Ok(()));
}

#[test]
fn values_of_two_answers_swapped() {
    let mut left = Left::good();
    left.answer(2)[4] = 6;
    left.answer(3)[4] = 5;
    let plain = Outcome::Value(5);
    assert_violation(&left, Violation::AnswerOutcome { answer: 2, plain });
}

#[test]
fn every_take_none() {
    let mut left = Left::good();
    for answer in [2, 3] {
        left.answer(answer)[1] = 3;
        left.answer(answer)[4] = 0;
    }
    let plain = Outcome::Value(5);
    assert_violation(&left, Violation::AnswerOutcome { answer: 2, plain });
}

#[test]
fn a_put_answered_as_a_take() {
    let mut left = Left::good();
    left.answer(1)[1] = 3;
    let plain = Outcome::PutDone;
    assert_violation(&left, Violation::AnswerOutcome { answer: 1, plain });
}

#[test]
fn a_changed_step_count() {
    let mut left = Left::good();
    left.answer(1)[2] = 16;
    assert_violation(
        &left,
        Violation::AnswerSteps {
            answer: 1,
            counted: 17,
        },
    );
}

/// M6, where process 1 answers first, after 20 steps and 1 help.
#[test]
fn a_changed_help_count() {
    let helped = || Left::of(m6(0, 1).bytes());
    assert_eq!(helped().check(), Ok(()));
    for (answer, helps, counted) in [(0, 0, 1), (0, 2, 1), (1, 1, 0)] {
        let mut left = helped();
        left.answer(answer)[3] = helps;
        assert_violation(&left, Violation::AnswerHelps { answer, counted });
    }
    let mut left = helped();
    left.answer(0).swap(2, 3);
    let (answer, counted) = (0, 20);
    assert_violation(&left, Violation::AnswerSteps { answer, counted });
}

#[test]
fn answers_dropped_added_and_torn() {
    for bytes in [0, 16, 48, 63, 65, 80] {
        let mut left = Left::good();
        left.answers.resize(bytes, 0);
        assert_violation(&left, Violation::AnswerCount { finished: 4, bytes });
    }
}

#[test]
fn two_answers_in_the_wrong_turn() {
    let mut left = Left::good();
    let first = left.answer(0).to_vec();
    left.answers.drain(..16);
    left.answers.splice(16..16, first);
    assert_violation(&left, Violation::AnswerName { answer: 0 });
}

#[test]
fn bytes_that_are_no_answer() {
    for (byte, value) in [(1, 4), (1, 0), (5, 1)] {
        let mut left = Left::good();
        left.answer(0)[byte] = value;
        assert_violation(&left, Violation::AnswerForm { answer: 0 });
    }
}

#[test]
fn another_root_block_in_an_answer() {
    let mut left = Left::good();
    left.answer(3)[12] = 3;
    assert_violation(&left, Violation::AnswerBlock { answer: 3 });
}

#[test]
fn each_changed_answer_byte_is_reported() {
    for byte in 0..64 {
        for change in [1, 2, 128] {
            let mut left = Left::good();
            left.answers[byte] ^= change;
            assert!(left.check().is_err(), "byte {byte} change {change}");
        }
    }
}

#[test]
fn zeroed_root_blocks() {
    let mut left = Left::good();
    left.block(1, 4).fill(0);
    assert_violation(&left, Violation::Missing(name(1, 2)));
    let mut left = Left::good();
    left.block(1, 2).fill(0);
    assert_violation(&left, Violation::Repeated(name(0, 1)));
}

#[test]
fn a_cleared_table() {
    let mut left = Left::good();
    left.table.fill(0);
    assert_violation(&left, Violation::Missing(name(0, 1)));
}

#[test]
fn a_changed_size() {
    let mut left = Left::good();
    left.block(1, 4)[5] = 1;
    assert_violation(&left, Violation::LastSize { held: 0, size: 1 });
}

#[test]
fn the_last_two_root_blocks_made_one() {
    let mut left = Left::good();
    let last = left.block(1, 4).to_vec();
    left.block(1, 3).copy_from_slice(&last);
    left.block(1, 4).fill(0);
    let (first, later) = (name(0, 2), name(1, 2));
    assert_violation(&left, Violation::NotEarlier { first, later });
}

#[test]
fn the_last_two_operations_turned_round() {
    let mut left = Left::good();
    left.block(1, 3)[3] = 1;
    left.block(1, 3)[4] = 2;
    let (first, later) = (name(0, 2), name(1, 2));
    assert_violation(&left, Violation::NotEarlier { first, later });
}

#[test]
fn each_other_root_order_is_reported() {
    let order = |left: &Left| root_order(&Tree::from_words(Shape::new(P, L).unwrap(), &left.table));
    let good = order(&Left::good());
    let mut others = 0;
    for place in 1..=4 {
        for word in [3, 4] {
            for change in [1, 2, u32::MAX] {
                let mut left = Left::good();
                let end = &mut left.block(1, place)[word];
                *end = end.wrapping_add(change);
                let same = order(&left) == good;
                others += usize::from(!same);
                assert_eq!(left.check().is_ok(), same, "place {place} word {word}");
            }
        }
    }
    assert_eq!(others, 17);
}

#[test]
fn a_leaf_block_of_the_other_kind() {
    let mut left = Left::good();
    left.block(2, 2)[..2].copy_from_slice(&[2, 0]);
    assert_violation(&left, Violation::OtherKind(name(0, 2)));
}

#[test]
fn a_leaf_block_that_nobody_began() {
    let mut left = Left::good();
    left.block(3, 3)[..2].copy_from_slice(&[1, 2]);
    left.block(1, 4)[4] = 3;
    assert_violation(&left, Violation::Stranger(name(1, 3)));
}

#[test]
fn records_that_run_does_not_take() {
    let mut left = Left::good();
    left.records.extend([1, 0, 0, 0, 0, 0, 0, 0]);
    let refusal = Refusal::StepWhileIdle;
    assert_violation(
        &left,
        Violation::NotTaken {
            record: 72,
            refusal,
        },
    );
    left.records.pop();
    assert_violation(&left, Violation::Call(Refusal::RecordsTorn));
}

#[test]
fn an_unfinished_operation_may_stand_once_or_not_at_all() {
    // The last operation stops after C4, its 15th step, or just before it.
    for (dropped, standing) in [(2, true), (3, false)] {
        let mut left = Left::good();
        left.records.truncate(8 * (72 - dropped));
        left.answers.truncate(48);
        let table = run_amply(P, L, &left.records).table;
        assert_eq!(table == left.table, standing);
        left.table = table;
        assert_eq!(left.check(), Ok(()));
    }
}

#[test]
fn more_own_steps_than_the_limit() {
    let limit_of = |p| step_limit(Shape::new(p, 1).unwrap());
    assert_eq!([2, 4, 8].map(limit_of), [41, 81, 121]);
    let shape = Shape::new(P, L).unwrap();
    let within = |left: &Left, most| {
        let Left {
            records,
            answers,
            table,
        } = left;
        check_within(shape, records, answers, table, most)
    };
    let mut left = Left::good();
    assert_eq!(within(&left, 17), Ok(()));
    assert_eq!(within(&left, 16), Err(Violation::TooManySteps(name(0, 1))));
    // Own steps of an operation without its Q count too.
    left.records = left.records[..8 * 12].to_vec();
    left.answers.clear();
    left.table = run_amply(P, L, &left.records).table;
    assert_eq!(within(&left, 11), Ok(()));
    assert_eq!(within(&left, 10), Err(Violation::TooManySteps(name(0, 1))));
}
