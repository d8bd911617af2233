//! Which runs the order 8 before 6 changed: just those that stopped with 6 at a begin of a process
//! that is not idle and has begun L, and these in nothing but the number.

use crate::support::{mixed_list, run_amply};
use reference::machine::Machine;
use reference::random::Random;
use reference::records::{numbered, Act, StepRecord};
use reference::refusal::{number, Refusal};
use reference::run::{play_record, test_record, Room};
use reference::tree::Shape;

/// A list in which all operations finish, with a record more somewhere, of any kind or of none.
fn one_more(p: u32, l: u32, seed: u64) -> Vec<u8> {
    let list = mixed_list(p, l, seed);
    let mut random = Random::new(seed);
    let at = 8 * random.below(list.len() as u32 / 8 + 1) as usize;
    let (process, kind) = (random.below(p) as u8, random.below(4) as u8);
    let more = [process, kind, 0, 0, 0, 0, 0, 0];
    [&list[..at], &more, &list[at..]].concat()
}

/// Where a list stops by the former order, 6 before 8: the number, the records before it, and
/// whether the refused record is such a begin.
fn former_stop(shape: Shape, records: &[u8]) -> (u32, u64, bool) {
    let mut machine = Machine::start(shape);
    for (nth, bytes) in numbered(records) {
        let stop = |refusal, such| (number(Some(refusal)), u64::from(nth) - 1, such);
        if let Some(StepRecord {
            process,
            act: Act::Begin(_),
        }) = StepRecord::read(bytes, shape.p())
        {
            if !machine.idle(process) {
                let such = machine.process(process).begun == shape.l();
                return stop(Refusal::BeginWhileBusy, such);
            }
        }
        match test_record(&machine, bytes, 0, Room::Unlimited) {
            Ok(record) => play_record(&mut machine, nth, record),
            Err(refusal) => return stop(refusal, false),
        };
    }
    (0, records.len() as u64 / 8, false)
}

#[test]
fn just_the_runs_that_stopped_inside_the_last_operation() {
    let (mut moved, mut kept) = (0, [0; 9]);
    for (p, l) in [(2, 1), (2, 2), (2, 3), (4, 1), (4, 2), (8, 1)] {
        let shape = Shape::new(p, l).unwrap();
        for seed in 0..400 {
            let list = one_more(p, l, seed);
            let ran = run_amply(p, l, &list);
            let (former, taken, such) = former_stop(shape, &list);
            let told = format!("p {p} l {l} seed {seed}");
            assert_eq!(ran.result.taken, taken, "{told}");
            if such {
                assert_eq!((former, ran.result.refusal), (6, 8), "{told}");
                moved += 1;
            } else {
                assert_eq!(ran.result.refusal, former, "{told}");
                kept[former as usize] += 1;
            }
            // What is left is what the records before left.
            let before = run_amply(p, l, &list[..8 * taken as usize]);
            assert_eq!(before.result.refusal, 0, "{told}");
            assert_eq!(
                (ran.result.answers, ran.table, ran.bytes),
                (before.result.answers, before.table, before.bytes),
                "{told}"
            );
        }
    }
    assert!(moved > 0, "no run changed");
    for number in [5, 6, 7, 8] {
        assert!(kept[number] > 0, "no run kept {number}");
    }
}
