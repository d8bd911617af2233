//! The desk on random and hostile lists, beside what Run and list the order leave of them.

use crate::support::{
    deliver_amply, every_shape, every_stall, list_with, order_of, pattern_bytes, pattern_words,
    run_amply, then_pattern_bytes, written, After,
};
use reference::desk::{term_bytes, DeskResult, FIRST_ENTRY};
use reference::desk_calls::DeskCall;
use reference::desk_cases::DESK_CASES;
use reference::desk_order::{takes_received, terms_in_order};
use reference::random::Random;
use reference::records::{Answer, Outcome, ANSWER_RECORD_BYTES, STEP_RECORD_BYTES};
use reference::schedules::{Pace, Plan};
use reference::tree::Shape;

/// How often each case and each number came up.
#[derive(Default, Debug)]
struct Met {
    /// In the order of `DESK_CASES`.
    cases: [u64; DESK_CASES.len()],
    /// By number; entry 0 counts the calls that refused nothing.
    refusals: [u64; 15],
}

/// The terms by the other calls alone: each take of the order list that the log answers with an entry.
fn terms_by_calls(call: &DeskCall) -> Vec<u32> {
    let ran = run_amply(call.p, call.l, &call.records);
    let log = written(&ran).chunks_exact(ANSWER_RECORD_BYTES);
    let answers: Vec<Answer> = log.map(|bytes| Answer::read(bytes).unwrap()).collect();
    let order = order_of(call.p, call.l, &call.records);
    let takes = order.chunks_exact(8).filter(|record| record[1] == 2);
    let outcome = |take: &[u8]| {
        let (process, serial) = (
            take[0].into(),
            u16::from_le_bytes([take[2], take[3]]).into(),
        );
        let of_take = |answer: &&Answer| (answer.process, answer.serial) == (process, serial);
        answers.iter().find(of_take).map(|answer| answer.outcome)
    };
    let terms = takes.filter_map(|take| match outcome(take) {
        Some(Outcome::Value(value)) => value.checked_sub(FIRST_ENTRY),
        _ => None,
    });
    terms.collect()
}

impl Met {
    /// A call that the desk takes: the terms by the other calls, the claim of their order, and the table
    /// of Run.
    fn assert_delivered(&mut self, call: &DeskCall, after: &After<DeskResult>) {
        let told = format!("{call:?}");
        let terms = terms_by_calls(call);
        let count = terms.len() as u64;
        assert_eq!(after.result, DeskResult { refusal: 0, count }, "{told}");
        let bytes = then_pattern_bytes(&term_bytes(&terms), after.bytes.len());
        assert_eq!(after.bytes, bytes, "{told}");
        let ran = run_amply(call.p, call.l, &call.records);
        assert_eq!(after.table, ran.table, "{told}");
        let shape = Shape::new(call.p, call.l).unwrap();
        let in_order = terms_in_order(shape, &call.records, &after.table, &terms);
        assert_eq!(in_order, Ok(()), "{told}");
        let received = takes_received(shape, &call.records, &after.table);
        for (times, case) in self.cases.iter_mut().zip(DESK_CASES) {
            *times += u64::from(case.is_shown(&received));
        }
    }

    /// A call that is refused with this number after so many records; `None` if it changes nothing.
    fn assert_refused(&self, call: &DeskCall, after: &After<DeskResult>, expected: Stop) {
        let told = format!("{call:?}");
        let refusal = expected.number;
        assert_eq!(after.result, DeskResult { refusal, count: 0 }, "{told}");
        assert_eq!(after.bytes, pattern_bytes(after.bytes.len()), "{told}");
        let table = match expected.taken {
            None => pattern_words(after.table.len()),
            Some(taken) => {
                let before = &call.records[..STEP_RECORD_BYTES * taken];
                run_amply(call.p, call.l, before).table
            }
        };
        assert_eq!(after.table, table, "{told}");
    }

    fn assert_call(&mut self, call: &DeskCall) {
        let after = deliver_amply(call);
        match stop_by_calls(call) {
            None => self.assert_delivered(call, &after),
            Some(stop) => self.assert_refused(call, &after, stop),
        }
        self.refusals[after.result.refusal as usize] += 1;
    }
}

/// Why a call with room for everything is refused, and the records taken before that, if any could be.
struct Stop {
    number: u32,
    taken: Option<usize>,
}

/// Told by the other calls. A begin put changes no word, so the list up to the first foreign entry, told
/// by the bytes of its record, is refused as the desk refuses it; or it is not, which is 14.
fn stop_by_calls(call: &DeskCall) -> Option<Stop> {
    let DeskCall { p, l, licensed, .. } = *call;
    let before_records = |number| {
        Some(Stop {
            number,
            taken: None,
        })
    };
    let Ok(shape) = Shape::new(p, l) else {
        return before_records(list_with(p, l, &call.records, 0, 0).result.refusal);
    };
    if licensed >= p {
        return before_records(13);
    }
    if !call.records.len().is_multiple_of(STEP_RECORD_BYTES) {
        return before_records(4);
    }
    let records = call.records.chunks_exact(STEP_RECORD_BYTES);
    let is_foreign = |r: &[u8]| r[1] == 1 && u32::from(r[0]) != licensed && r[7] >= 128;
    let foreign = records.clone().position(is_foreign);
    let played = foreign.map_or(records.len(), |place| place + 1);
    let played = &call.records[..STEP_RECORD_BYTES * played];
    let ran = run_amply(p, l, played).result;
    let listed = list_with(p, l, played, shape.words_needed(), played.len()).result;
    assert_eq!(ran.refusal, listed.refusal);
    let (number, taken) = match (listed.refusal, foreign) {
        (0, None) => return None,
        (0, Some(place)) => (14, place),
        (number, _) => (number, ran.taken as usize),
    };
    let taken = Some(taken);
    Some(Stop { number, taken })
}

/// Of each plan a list with values for the desk.
fn assert_proper(plans: &[Plan]) -> Met {
    let (mut met, mut random) = (Met::default(), Random::new(5));
    for plan in plans {
        met.assert_call(&DeskCall::proper(&mut random, plan));
    }
    let mut none_refused = [0; 15];
    none_refused[0] = plans.len() as u64;
    assert_eq!(met.refusals, none_refused);
    met
}

#[test]
fn lists_of_every_pace() {
    let paces = [
        Pace::Uniform,
        Pace::Bursts(30),
        Pace::Lockstep,
        Pace::OneAtATime,
    ];
    let plans: Vec<Plan> = paces
        .into_iter()
        .flat_map(|pace| every_shape(pace, 4))
        .collect();
    let met = assert_proper(&plans);
    assert!(met.cases.iter().all(|&times| times > 10), "{met:?}");
}

/// Every seventh plan, which leaves some of each step, before and after it, for each p.
#[test]
fn stalls_at_every_step() {
    let plans: Vec<Plan> = every_stall().into_iter().step_by(7).collect();
    let met = assert_proper(&plans);
    assert!(met.cases.iter().all(|&times| times > 10), "{met:?}");
}

#[test]
fn hostile_lists() {
    let (mut met, mut random) = (Met::default(), Random::new(6));
    for pace in [Pace::Uniform, Pace::Bursts(9)] {
        for plan in every_shape(pace, 40).iter().filter(|plan| plan.l <= 5) {
            met.assert_call(&DeskCall::hostile(&mut random, plan));
        }
    }
    for number in [0, 1, 2, 4, 5, 6, 7, 8, 13, 14] {
        assert!(met.refusals[number] > 5, "{number} of {met:?}");
    }
}
