//! Demand 3 on random and hostile lists.

use crate::support::{every_shape, needed, pattern_bytes, pattern_words, stalls};
use reference::demand3::check;
use reference::process::STEP_NAMES;
use reference::run::run;
use reference::schedules::{schedule, Pace, Plan};

/// Records played, operations finished, how many of them helped, and operations left unfinished.
#[derive(Default)]
struct Met {
    records: u64,
    finished: u64,
    helping: u64,
    unfinished: u64,
}

/// Plays the plan's list and checks demand 3 on what the run leaves.
fn assert_demand3(plan: &Plan, met: &mut Met) {
    let (p, l) = (plan.p, plan.l);
    let list = schedule(plan);
    let mut table = pattern_words(needed(p, l));
    let mut answers = pattern_bytes(16 * (p * l) as usize);
    let result = run(p, l, &list, &mut table, &mut answers);
    assert_eq!(result.refusal, 0, "{plan:?}");
    let written = &answers[..16 * result.answers as usize];
    assert_eq!(check(p, l, &list, written, &table), Ok(()), "{plan:?}");
    met.records += result.taken;
    met.finished += result.answers;
    met.helping += written.chunks_exact(16).filter(|a| a[3] != 0).count() as u64;
    let begun = list.chunks_exact(8).filter(|record| record[1] != 0).count() as u64;
    met.unfinished += begun - result.answers;
}

/// The pace with every p, L and mix.
fn assert_every_shape(pace: Pace, seeds: u64) -> Met {
    let mut met = Met::default();
    for plan in every_shape(pace, seeds) {
        assert_demand3(&plan, &mut met);
    }
    assert!(met.finished > 0 && met.unfinished > 0);
    met
}

#[test]
fn uniform() {
    let met = assert_every_shape(Pace::Uniform, 40);
    assert!(met.records > 2_000_000 && met.helping > 0);
}

#[test]
fn bursts() {
    assert!(assert_every_shape(Pace::Bursts(5), 4).helping > 0);
    assert!(assert_every_shape(Pace::Bursts(60), 4).helping > 0);
}

#[test]
fn lockstep() {
    assert_every_shape(Pace::Lockstep, 4);
}

#[test]
fn one_at_a_time() {
    assert_eq!(assert_every_shape(Pace::OneAtATime, 4).helping, 0);
}

/// Stops at each named step.
fn assert_stalls(p: u32) {
    for step in STEP_NAMES {
        let mut met = Met::default();
        for plan in stalls(p, step) {
            assert_demand3(&plan, &mut met);
        }
        assert!(met.finished > 0 && met.unfinished > 0, "{step:?}");
        assert!(met.helping > 0, "{step:?}");
    }
}

#[test]
fn stalls_of_two() {
    assert_stalls(2);
}

#[test]
fn stalls_of_four() {
    assert_stalls(4);
}

#[test]
fn stalls_of_eight() {
    assert_stalls(8);
}

#[test]
fn the_largest_shape() {
    let mut met = Met::default();
    let paces = [Pace::Uniform, Pace::Bursts(30), Pace::Lockstep];
    for (seed, pace) in paces.into_iter().enumerate() {
        let plan = Plan::new(8, 500, pace, seed as u64).puts_of_8(3 + seed as u32);
        assert_demand3(&plan, &mut met);
    }
    assert_eq!(met.finished, 12_000);
}

#[test]
fn fewer_operations_than_the_table_holds() {
    let mut met = Met::default();
    for seed in 0..40 {
        let each = 1 + seed as u32 % 5;
        let plan = Plan {
            each,
            ..Plan::new(4, 30, Pace::Uniform, seed)
        };
        assert_demand3(&plan, &mut met);
    }
    assert_eq!(met.unfinished, 0);
}
