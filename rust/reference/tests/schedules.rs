//! The generator itself: its lists are taken whole and are of the sort asked for.

use reference::process::{Activity, StepName, STEP_NAMES};
use reference::records::{Act, Operation, StepRecord};
use reference::run::{play, Played, Room};
use reference::schedules::{schedule, Ending, Pace, Plan};
use reference::tree::Shape;

const PLAN: Plan = Plan {
    p: 4,
    l: 6,
    each: 6,
    puts_of_8: 4,
    pace: Pace::Uniform,
    ending: Ending::AllFinish,
    seed: 1,
};

fn played(plan: &Plan) -> Played {
    let shape = Shape::new(plan.p, plan.l).unwrap();
    let played = play(shape, &schedule(plan), Room::Unlimited);
    assert_eq!(played.refusal, None, "{plan:?}");
    played
}

fn unfinished(played: &Played) -> usize {
    let busy = |p: &&reference::process::Process| p.activity != Activity::Idle;
    played.machine.processes.iter().filter(busy).count()
}

#[test]
fn the_same_seed_gives_the_same_list() {
    assert_eq!(schedule(&PLAN), schedule(&PLAN));
    assert_ne!(schedule(&PLAN), schedule(&Plan { seed: 2, ..PLAN }));
}

#[test]
fn all_finish_when_asked() {
    let paces = [
        Pace::Uniform,
        Pace::Bursts(40),
        Pace::Lockstep,
        Pace::OneAtATime,
    ];
    for pace in paces {
        let played = played(&Plan { pace, ..PLAN });
        assert_eq!((played.answers.len(), unfinished(&played)), (24, 0));
    }
    for step in STEP_NAMES {
        let pace = Pace::Stalls { step, after: true };
        assert_eq!(played(&Plan { pace, ..PLAN }).answers.len(), 24);
    }
}

#[test]
fn abandoned_processes_stay_at_the_step() {
    for step in STEP_NAMES {
        let pace = Pace::Stalls { step, after: false };
        let ending = Ending::Abandoned;
        let mut stopped = 0;
        for seed in 0..20 {
            let played = played(&Plan {
                pace,
                ending,
                seed,
                ..PLAN
            });
            stopped += unfinished(&played);
            for process in 0..4 {
                let at = played.machine.next_step(process).map(|step| step.name());
                assert!(at.is_none() || at == Some(step), "seed {seed} {step:?}");
            }
        }
        assert!(stopped > 0, "{step:?}");
    }
}

#[test]
fn cuts_leave_operations_unfinished() {
    let played = played(&Plan {
        ending: Ending::Cut(100),
        ..PLAN
    });
    assert_eq!(played.taken, 100);
    assert!(unfinished(&played) > 0);
}

#[test]
fn one_at_a_time_never_interleaves() {
    let list = schedule(&Plan {
        pace: Pace::OneAtATime,
        ..PLAN
    });
    let mut current = None;
    for bytes in list.chunks_exact(8) {
        let record = StepRecord::read(bytes, 4).unwrap();
        match record.act {
            Act::Begin(_) => current = Some(record.process),
            Act::Step => assert_eq!(current, Some(record.process)),
        }
    }
}

#[test]
fn the_mix_follows_the_plan() {
    for puts_of_8 in [0, 1, 4, 7, 8] {
        let list = schedule(&Plan {
            l: 100,
            each: 100,
            puts_of_8,
            ..PLAN
        });
        let acts = list
            .chunks_exact(8)
            .map(|bytes| StepRecord::read(bytes, 4).unwrap().act);
        let puts = acts
            .filter(|act| matches!(act, Act::Begin(Operation::Put(_))))
            .count() as u32;
        assert!(
            puts.abs_diff(50 * puts_of_8) < 40,
            "{puts_of_8} of 8 gave {puts} of 400"
        );
    }
}

#[test]
fn names_are_in_the_order_of_the_paper() {
    let names: Vec<String> = STEP_NAMES.iter().map(|name| format!("{name:?}")).collect();
    let order = "A V1 V2 V3 R1 R2 R3 R4 R5 C1 C2 C3L C3R C3N C4 Q";
    assert_eq!(names.join(" "), order);
    assert_eq!(STEP_NAMES[15], StepName::Q);
}
