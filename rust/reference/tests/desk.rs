//! The desk on lists worked by hand, each number at its edge, and the order of the tests.

use crate::support::{
    deliver_amply, desk_with, mixed_list, needed, pattern_bytes, pattern_words, run_amply,
    then_pattern_bytes, After, SPARE,
};
use reference::desk::{term_bytes, term_of, DeskResult, FIRST_ENTRY};
use reference::desk_calls::DeskCall;
use reference::desk_lists::{entry, refused, taken, DeskList};
use reference::lists::List;
use reference::machine::Machine;
use reference::records::{Act, Operation, StepRecord};
use reference::run::{play, Room};
use reference::tree::Shape;

fn call(p: u32, l: u32, licensed: u32, records: &[u8]) -> DeskCall {
    DeskCall {
        p,
        l,
        licensed,
        records: records.to_vec(),
    }
}

fn call_of(list: &DeskList) -> DeskCall {
    call(list.p, list.l, list.licensed, &list.records)
}

fn delivered(refusal: u32, count: usize) -> DeskResult {
    let count = count as u64;
    DeskResult { refusal, count }
}

/// No term, and the table as Run leaves it after so many records.
fn assert_stopped(call: &DeskCall, after: &After<DeskResult>, number: u32, taken: usize) {
    let told = format!("{call:?}");
    assert_eq!(after.result, delivered(number, 0), "{told}");
    assert_eq!(after.bytes, pattern_bytes(after.bytes.len()), "{told}");
    let before = run_amply(call.p, call.l, &call.records[..8 * taken]);
    assert_eq!(before.result.refusal, 0, "{told}");
    assert_eq!(after.table, before.table, "{told}");
}

#[test]
fn lists_that_are_taken() {
    for list in taken() {
        let after = deliver_amply(&call_of(&list));
        assert_eq!(after.result, delivered(0, list.terms.len()), "{list:?}");
        let bytes = then_pattern_bytes(&term_bytes(&list.terms), after.bytes.len());
        assert_eq!(after.bytes, bytes, "{list:?}");
        let ran = run_amply(list.p, list.l, &list.records);
        assert_eq!(after.table, ran.table, "{list:?}");
    }
}

#[test]
fn terms_have_their_low_byte_first() {
    let put = List::new().put(0, 0x8403_0201).steps(0, 17);
    let after = deliver_amply(&call(2, 1, 0, &put.take(1).steps(1, 17).bytes()));
    assert_eq!(after.bytes[..4], [1, 2, 3, 4]);
}

#[test]
fn lists_that_are_refused() {
    for list in refused() {
        let call = call_of(&list);
        assert_stopped(&call, &deliver_amply(&call), list.refusal, list.taken);
    }
}

/// Three of the lists show it: by their answers the terms would come the other way round.
#[test]
fn terms_are_not_in_the_order_of_the_answers() {
    let terms_answered = |list: &DeskList| -> Vec<u32> {
        let shape = Shape::new(list.p, list.l).unwrap();
        let answers = play(shape, &list.records, Room::Unlimited).answers;
        answers.iter().filter_map(|a| term_of(a.outcome)).collect()
    };
    let others = taken()
        .into_iter()
        .filter(|list| terms_answered(list) != list.terms);
    let terms: Vec<_> = others
        .map(|list| (terms_answered(&list), list.terms))
        .collect();
    assert_eq!(terms, vec![(vec![4, 3], vec![3, 4]); 3]);
}

/// One term at each step of its take: delivered with the last, its Q.
#[test]
fn a_take_is_finished_with_its_q() {
    for steps in 0..=17 {
        let put = List::new().put(0, entry(8)).steps(0, 17);
        let records = put.take(1).steps(1, steps).bytes();
        let count = usize::from(steps == 17);
        let after = deliver_amply(&call(2, 1, 0, &records));
        assert_eq!(after.result, delivered(0, count), "{steps} steps");
    }
}

#[test]
fn every_output_length() {
    for list in taken() {
        let (call, ample) = (call_of(&list), deliver_amply(&call_of(&list)));
        let terms = term_bytes(&list.terms);
        for length in 0..=terms.len() + SPARE {
            let after = desk_with(&call, ample.table.len(), length);
            let (result, bytes) = if length < terms.len() {
                (delivered(10, 0), pattern_bytes(length))
            } else {
                (ample.result, then_pattern_bytes(&terms, length))
            };
            assert_eq!(
                (after.result, after.bytes),
                (result, bytes),
                "{length}, {list:?}"
            );
            assert_eq!(after.table, ample.table, "{length}, {list:?}");
        }
    }
}

/// Where there is no output, a refused record still gives the number, though a term was received.
#[test]
fn every_record_refusal_before_10() {
    let received = List::new()
        .put(0, entry(3))
        .steps(0, 17)
        .take(1)
        .steps(1, 17);
    let last = [
        (10, vec![]),
        (5, vec![9; 8]),
        (6, List::new().put(1, 1).put(1, 1).bytes()),
        (7, List::new().steps(1, 1).bytes()),
        (
            8,
            List::new()
                .put(1, 1)
                .steps(1, 17)
                .take(1)
                .steps(1, 17)
                .take(1)
                .bytes(),
        ),
        (14, List::new().put(1, entry(0)).bytes()),
    ];
    for (number, last) in last {
        let records = [received.clone().bytes(), last].concat();
        let after = desk_with(&call(2, 3, 0, &records), needed(2, 3), 0);
        assert_eq!(after.result, delivered(number, 0), "{number}");
    }
}

/// The call is turned down and nothing is changed.
fn assert_refuses(number: u32, call: &DeskCall, words: usize) {
    let after = desk_with(call, words, 64);
    let told = format!("{call:?}, {words} words");
    assert_eq!(after.result, delivered(number, 0), "{told}");
    assert_eq!(after.table, pattern_words(words), "{told}");
    assert_eq!(after.bytes, pattern_bytes(64), "{told}");
}

/// What the tests of records find, whole and torn, and what none finds.
const LISTS: [&[u8]; 6] = [
    &[],
    &[1],
    &[255; 9],
    &[255; 8],
    &[1, 1, 0, 0, 0, 0, 0, 128],
    &[1, 1, 0, 0, 0, 0, 0, 128, 0],
];

#[test]
fn numbers_1_and_2_before_all_others() {
    for licensed in [0, 1, 2, 8, u32::MAX] {
        for records in LISTS {
            for words in [0, needed(8, 1)] {
                for p in [0, 1, 3, 5, 6, 7, 9, 16, 501, 1 << 31, u32::MAX] {
                    for l in [0, 1, 501] {
                        assert_refuses(1, &call(p, l, licensed, records), words);
                    }
                }
                for l in [0, 501, 1 << 31, u32::MAX] {
                    for p in [2, 4, 8] {
                        assert_refuses(2, &call(p, l, licensed, records), words);
                    }
                }
            }
        }
    }
}

/// 13 at p and past it, with tables too short and torn lists too; below p the later numbers.
#[test]
fn number_13_before_3_and_later() {
    for p in [2, 4, 8] {
        let words = needed(p, 1);
        for records in LISTS {
            for licensed in [p, p + 1, 8, 255, 256, 1 << 31, u32::MAX] {
                for words in [0, words - 1, words, words + 1] {
                    assert_refuses(13, &call(p, 1, licensed, records), words);
                }
            }
            for licensed in [0, p - 1] {
                let call = call(p, 1, licensed, records);
                assert_refuses(3, &call, words - 1);
                if records.len() % 8 != 0 {
                    assert_refuses(4, &call, words);
                }
            }
        }
        let none = call(p, 1, p - 1, &[]);
        assert_eq!(desk_with(&none, words, 0).result, delivered(0, 0));
    }
}

#[test]
fn number_4_for_each_torn_length() {
    let list = taken().swap_remove(0);
    for length in (0..list.records.len()).filter(|length| length % 8 != 0) {
        let torn = &list.records[..length];
        let call = call(list.p, list.l, list.licensed, torn);
        assert_refuses(4, &call, needed(list.p, list.l));
    }
}

/// The number of a put of an entry in this state.
fn number_here(machine: &Machine, process: u32, licensed: u32) -> u32 {
    if machine.process(process).begun == machine.shape().l() {
        8
    } else if !machine.idle(process) {
        6
    } else if process != licensed {
        14
    } else {
        0
    }
}

/// A put of an entry by each process at every place of lists, and puts of the value below: that process
/// is licensed, and from place to place each of the others in turn.
#[test]
fn an_entry_at_every_place() {
    let mut seen = [0; 15];
    for (p, l, seed) in [(2, 1, 1), (2, 3, 2), (4, 2, 3), (8, 1, 4)] {
        let list = below_entries(mixed_list(p, l, seed));
        let shape = Shape::new(p, l).unwrap();
        for place in 0..=list.len() / 8 {
            let (before, after) = list.split_at(8 * place);
            let machine = play(shape, before, Room::Unlimited).machine;
            let turn = 1 + place as u32 % (p - 1);
            let each =
                (0..p).flat_map(|process| [(process, process), (process, (process + turn) % p)]);
            for (process, licensed) in each {
                let with = |value| {
                    let act = Act::Begin(Operation::Put(value));
                    let record = StepRecord { process, act }.bytes();
                    call(p, l, licensed, &[before, &record, after].concat())
                };
                let number = number_here(&machine, process, licensed);
                for value in [FIRST_ENTRY, u32::MAX] {
                    let call = with(value);
                    let after = deliver_amply(&call);
                    if number > 0 {
                        assert_stopped(&call, &after, number, place);
                    }
                    seen[number as usize] += 1;
                }
                let no_entry = deliver_amply(&with(FIRST_ENTRY - 1));
                assert_ne!(no_entry.result.refusal, 14);
            }
        }
    }
    for number in [0, 6, 8, 14] {
        assert!(seen[number] > 0, "number {number}");
    }
}

/// The list with the highest bit of each value cleared.
fn below_entries(mut list: Vec<u8>) -> Vec<u8> {
    list.chunks_exact_mut(8).for_each(|record| record[7] &= 127);
    list
}
