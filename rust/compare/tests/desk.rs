//! The desk: lists worked by hand, each number at its edge, entries at every place, long lists and random
//! ones, and the claim of the order on the terms that it sends.

use crate::support::{desk_list, needed};
use compare::calls::Input;
use compare::desk::Deliveries;
use dictionary::{most_output_bytes, table_words, TERM_BYTES};
use reference::desk_calls::DeskCall;
use reference::desk_lists::{entry, refused, taken, DeskList};
use reference::random::Random;
use reference::schedules::{Ending, Pace, Plan};

/// The number of a call with room for 64 bytes.
fn number(p: u32, l: u32, licensed: u32, words: usize, records: &[u8]) -> u32 {
    let sent = Input { p, l, records }.deliver(licensed, words, 64);
    sent.result.refusal
}

#[test]
fn lists_worked_by_hand() {
    for list in [taken(), refused()].concat() {
        let DeskList { p, l, licensed, .. } = list;
        let records = &list.records[..];
        let bytes = TERM_BYTES * list.terms.len() + 3;
        let sent = Input { p, l, records }.deliver(licensed, needed(p, l) + 1, bytes);
        let found = (sent.result.refusal, sent.terms);
        assert_eq!(found, (list.refusal, list.terms), "{}", list.about);
    }
}

/// Of two tests that fail the one that comes first.
#[test]
fn numbers_in_their_order() {
    let foreign = [1, 1, 0, 0, 7, 0, 0, 128];
    let torn = &foreign[..7];
    let value = [1, 1, 0, 0, 7, 0, 0, 0];
    let busy = [value, foreign].concat();
    for (expected, p, l, licensed, words, records) in [
        (0, 2, 1, 1, 49, &foreign[..]),
        (1, 3, 0, 9, 0, torn),
        (1, 3, 1, 3, 49, &[]),
        (2, 2, 0, 9, 0, torn),
        (2, 2, 501, 2, 49, &[]),
        (13, 2, 1, 2, 0, torn),
        (13, 2, 1, u32::MAX, 49, &foreign),
        (3, 2, 1, 1, 48, torn),
        (4, 2, 1, 0, 49, torn),
        (4, 2, 1, 0, 49, &[&foreign[..], torn].concat()),
        (5, 2, 1, 0, 49, &[1, 1, 1, 0, 7, 0, 0, 128]),
        (8, 2, 1, 0, 49, &busy),
        (6, 2, 2, 0, 77, &busy),
        (14, 2, 1, 0, 49, &[foreign, [9; 8]].concat()),
        (14, 2, 2, 0, 77, &foreign),
    ] {
        let found = number(p, l, licensed, words, records);
        assert_eq!(
            found, expected,
            "p {p}, l {l}, {licensed} licensed, {records:?}"
        );
    }
}

const NUMBERS: [u32; 10] = [0, 1, 2, 3, 4, 8, 9, 500, 501, u32::MAX];
const LICENSED: [u32; 9] = [0, 1, 2, 3, 4, 7, 8, 256, u32::MAX];

/// p, L and the licensed process within their limits, at them and past them.
#[test]
fn every_licence() {
    let lists: [&[u8]; 4] = [&[], &[1, 1, 0, 0, 7, 0, 0, 128], &[255; 8], &[0; 7]];
    for (p, l) in NUMBERS.into_iter().flat_map(|p| NUMBERS.map(|l| (p, l))) {
        let needed = table_words(p, l).unwrap_or(49);
        for licensed in LICENSED {
            for words in [needed - 1, needed] {
                for records in lists {
                    let found = number(p, l, licensed, words, records);
                    let proper = table_words(p, l).is_some();
                    assert_eq!(found == 13, proper && licensed >= p);
                }
            }
        }
    }
}

/// Puts of entries by each process, and ill-formed records with entries, put in at every place: each number
/// that a record can have, and none.
#[test]
fn an_entry_at_every_place() {
    let mut met = [0; 15];
    for (p, l) in [(2, 1), (2, 2), (4, 1), (8, 1)] {
        let call = desk_list(p, l, 7);
        let last = p as u8 - 1;
        let mut records = vec![
            [p as u8, 1, 0, 0, 0, 0, 0, 128],
            [last, 1, 0, 64, 0, 0, 0, 128],
            [last, 2, 0, 0, 0, 0, 0, 128],
            [last, 0, 0, 0, 0, 0, 0, 128],
        ];
        for process in 0..=last {
            let values = [entry(0), entry(0) - 1, u32::MAX].map(u32::to_le_bytes);
            let put = |[a, b, c, d]: [u8; 4]| [process, 1, 0, 0, a, b, c, d];
            records.extend(values.map(put));
            records.push([process, 0, 0, 0, 0, 0, 0, 0]);
        }
        for place in (0..=call.records.len()).step_by(8) {
            let (before, after) = call.records.split_at(place);
            for record in &records {
                let longer = [before, record, after].concat();
                met[number(p, l, call.licensed, needed(p, l), &longer) as usize] += 1;
            }
        }
    }
    let numbers: Vec<usize> = (0..15).filter(|&number| met[number] > 0).collect();
    assert_eq!(numbers, [0, 5, 6, 7, 8, 14], "{met:?}");
}

#[test]
fn each_bit_changed() {
    let mut foreign = 0;
    for (p, l) in [(2, 2), (4, 1)] {
        let DeskCall {
            licensed,
            mut records,
            ..
        } = desk_list(p, l, 8);
        for bit in 0..8 * records.len() {
            records[bit / 8] ^= 1 << (bit % 8);
            let found = number(p, l, licensed, needed(p, l), &records);
            foreign += u32::from(found == 14);
            records[bit / 8] ^= 1 << (bit % 8);
        }
    }
    assert!(foreign > 0, "no put became a foreign entry");
}

/// Lists at the largest L: every place of every node is filled. Just the bytes of the terms are enough.
#[test]
fn whole_lists() {
    let (mut deliveries, mut random) = (Deliveries::default(), Random::new(9));
    for (p, pace) in [
        (2, Pace::Uniform),
        (2, Pace::OneAtATime),
        (4, Pace::Bursts(30)),
        (8, Pace::Uniform),
        (8, Pace::Lockstep),
        (8, Pace::Bursts(50)),
    ] {
        let call = DeskCall::proper(&mut random, &Plan::new(p, 500, pace, 5));
        let all = deliveries.compare_amply(&call);
        let bytes = TERM_BYTES * all.terms.len();
        assert!(bytes > 0, "p {p}, {pace:?}: no term");
        let records = &call.records[..];
        let input = Input { p, l: 500, records };
        let refusal = |bytes| {
            input
                .deliver(call.licensed, needed(p, 500), bytes)
                .result
                .refusal
        };
        assert_eq!((refusal(bytes), refusal(bytes - 1)), (0, 10));
    }
}

/// As many terms as there can be: each operation of the licensed process.
#[test]
fn as_many_terms_as_there_can_be() {
    for (p, steps) in [(2, 17), (4, 31), (8, 45)] {
        let operation = |process: u8, kind: u8, value: u32| {
            let begin = [[process, kind, 0, 0], value.to_le_bytes()].concat();
            [begin, [process, 0, 0, 0, 0, 0, 0, 0].repeat(steps)].concat()
        };
        let both = |term| [operation(0, 1, entry(term)), operation(1, 2, 0)].concat();
        let records: Vec<u8> = (0..500).flat_map(both).collect();
        let (l, records) = (500, &records[..]);
        let most = most_output_bytes(p, l).unwrap();
        let sent = Input { p, l, records }.deliver(0, needed(p, l), most);
        assert_eq!(sent.terms, (0..500).collect::<Vec<u32>>());
    }
}

#[test]
fn lists_of_every_pace_and_ending() {
    let (mut deliveries, mut random) = (Deliveries::default(), Random::new(10));
    for pace in [Pace::Uniform, Pace::Lockstep, Pace::Bursts(30)] {
        for (p, seed) in [2, 4, 8]
            .into_iter()
            .flat_map(|p| (0..40).map(move |s| (p, s)))
        {
            let plan = Plan::new(p, 6, pace, seed);
            for ending in [Ending::AllFinish, Ending::Cut(40 + 5 * seed as usize)] {
                let call = DeskCall::proper(&mut random, &plan.ending(ending));
                assert_eq!(deliveries.compare_amply(&call).result.refusal, 0);
            }
        }
    }
    let cases = deliveries
        .met()
        .filter(|(what, _)| what.starts_with("desk: "));
    for (case, times) in cases {
        assert!(times > 5, "{case} x{times}");
    }
}

#[test]
fn random_and_hostile_lists() {
    let (mut deliveries, mut random) = (Deliveries::default(), Random::new(11));
    for _ in 0..400 {
        deliveries.compare_short(&mut random);
    }
    for (what, times) in deliveries.met() {
        assert!(times > 5, "{what} x{times}");
    }
}
