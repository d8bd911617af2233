//! Refusals 5 to 8 at every place of a list: exactly what the records before it left.

use crate::support::{check_with, list_with, mixed_list, needed, pattern_bytes, run_amply, SPARE};
use reference::hostile::ill_formed;
use reference::lists::List;
use reference::machine::Machine;
use reference::records::{Act, Operation, StepRecord};
use reference::run::{play, Room};
use reference::tree::Shape;

/// Every record that must be refused in this state, with its number.
fn refused_here(machine: &Machine) -> Vec<(u32, [u8; 8])> {
    let shape = machine.shape();
    let ill = ill_formed(shape.p()).into_iter();
    let mut refused: Vec<(u32, [u8; 8])> = ill.map(|bytes| (5, bytes)).collect();
    let begins = [Act::Begin(Operation::Put(3)), Act::Begin(Operation::Take)];
    for process in 0..shape.p() {
        let begun_all = machine.process(process).begun == shape.l();
        // In a busy process that has begun L, 8 comes before 6.
        let begin_number = match (begun_all, machine.idle(process)) {
            (true, _) => 8,
            (false, false) => 6,
            (false, true) => 0,
        };
        if machine.idle(process) {
            refused.push((
                7,
                StepRecord {
                    process,
                    act: Act::Step,
                }
                .bytes(),
            ));
        }
        if begin_number != 0 {
            refused.extend(begins.map(|act| (begin_number, StepRecord { process, act }.bytes())));
        }
    }
    refused
}

/// The three calls on a list whose record number `place` is refused.
fn assert_refused_at(p: u32, l: u32, list: &[u8], place: usize, number: u32) {
    let before = run_amply(p, l, &list[..8 * place]);
    let ran = run_amply(p, l, list);
    let told = format!("p {p} l {l} place {place} number {number}");
    assert_eq!(before.result.refusal, 0, "{told}");
    assert_eq!(
        (ran.result.refusal, ran.result.taken),
        (number, place as u64),
        "{told}"
    );
    assert_eq!(ran.result.answers, before.result.answers, "{told}");
    assert_eq!(
        (&ran.table, &ran.bytes),
        (&before.table, &before.bytes),
        "{told}"
    );
    let words = needed(p, l) + SPARE;
    let listed = list_with(p, l, list, words, 4000);
    assert_eq!(
        (listed.result.refusal, listed.result.length),
        (number, 0),
        "{told}"
    );
    assert_eq!(
        (&listed.table, listed.bytes),
        (&before.table, pattern_bytes(4000)),
        "{told}"
    );
    let checked = check_with(p, l, list, &[], words);
    let verdict = (
        checked.result.refusal,
        checked.result.verdict,
        checked.result.index,
    );
    assert_eq!(verdict, (number, 2, 0), "{told}");
    assert_eq!(checked.table, before.table, "{told}");
}

/// Puts every refusable record at every place of the list; how often each number came.
fn assert_each_place(p: u32, l: u32, list: &[u8]) -> [usize; 9] {
    let shape = Shape::new(p, l).unwrap();
    let mut seen = [0; 9];
    for place in 0..=list.len() / 8 {
        let (before, after) = list.split_at(8 * place);
        let machine = play(shape, before, Room::Unlimited).machine;
        for (number, bytes) in refused_here(&machine) {
            let with_bad = [before, &bytes, after].concat();
            assert_refused_at(p, l, &with_bad, place, number);
            seen[number as usize] += 1;
        }
    }
    seen
}

#[test]
fn at_every_place_of_mixed_lists() {
    for (p, l, seed) in [(2, 1, 1), (2, 3, 2), (4, 2, 3), (8, 1, 4)] {
        let seen = assert_each_place(p, l, &mixed_list(p, l, seed));
        for (number, count) in seen.iter().enumerate().skip(5) {
            // A process that is inside an operation has begun it, so with L = 1 there is no 6.
            let can_come = number != 6 || l > 1;
            assert_eq!(*count > 0, can_come, "number {number} at p {p} l {l}");
        }
    }
}

#[test]
fn ill_formed_comes_before_the_other_numbers() {
    // A begin by a busy process that has begun L, and a step by an idle one, ill-formed.
    let busy = [0, 1, 0, 0, 1, 0, 0, 0];
    for bad in [
        [0, 1, 9, 0, 1, 0, 0, 0],
        [0, 2, 0, 0, 1, 0, 0, 0],
        [1, 0, 0, 9, 0, 0, 0, 0],
    ] {
        assert_refused_at(2, 1, &[busy, bad].concat(), 1, 5);
    }
}

/// Begins inside the last operation of L; with one more to begin, the same lists stop with 6.
#[test]
fn begun_all_comes_before_not_idle() {
    for l in [1, 2, 24, 500] {
        for steps in [0, 1, 16] {
            let ended = List::new().whole_puts(0, l - 1, 17);
            let inside = ended.put(0, 1).steps(0, steps);
            let place = 18 * (l as usize - 1) + 1 + steps;
            for list in [inside.clone().put(0, 2), inside.take(0)] {
                let list = list.bytes();
                assert_refused_at(2, l, &list, place, 8);
                if l < 500 {
                    assert_refused_at(2, l + 1, &list, place, 6);
                }
            }
        }
    }
}
