//! Helps: fixed lists with their counts, and how often each case comes up in generated ones.

use crate::support::{run_amply, written};
use reference::help_lists::{help_lists, most_helped};
use reference::helps::{child_v3s, help_limit, ChildV3};
use reference::process::StepName;
use reference::records::{Answer, ANSWER_RECORD_BYTES};
use reference::schedules::{schedule, Ending, Pace, Plan};
use reference::tree::Shape;

/// The answers of a list that Run takes whole.
fn answers(p: u32, l: u32, list: &[u8]) -> Vec<Answer> {
    let after = run_amply(p, l, list);
    assert_eq!(after.result.refusal, 0);
    let records = written(&after).chunks_exact(ANSWER_RECORD_BYTES);
    records.map(|bytes| Answer::read(bytes).unwrap()).collect()
}

#[test]
fn counts_of_fixed_lists() {
    for fixed in help_lists() {
        let answers = answers(fixed.p, fixed.l, &fixed.list.bytes());
        let helps: Vec<_> = answers.iter().map(|a| (a.process, a.helps)).collect();
        assert_eq!(helps, fixed.helps, "{}", fixed.about);
    }
}

#[test]
fn heads_of_fixed_lists() {
    let moved = |child| ChildV3 { child, moved: true };
    let found = |child| ChildV3 {
        child,
        moved: false,
    };
    let expected = [
        vec![moved(2)],
        vec![moved(3)],
        vec![found(2)],
        vec![found(3)],
        vec![moved(2)],
        vec![moved(2), moved(2)],
        vec![moved(2), moved(3)],
        vec![found(2), found(3)],
        vec![],
    ];
    assert_eq!(help_lists().len(), expected.len());
    for (fixed, expected) in help_lists().into_iter().zip(expected) {
        let shape = Shape::new(fixed.p, fixed.l).unwrap();
        let v3s = child_v3s(shape, &fixed.list.bytes());
        assert_eq!(v3s, expected, "{}", fixed.about);
    }
}

/// What lists of one p met.
#[derive(Default, Debug)]
struct Met {
    /// Answers with 0, 1, 2 and more helps.
    answers: [u64; 4],
    most: u32,
    /// Heads of leaves and of inner nodes: on the left, on the right.
    moved: [[u64; 2]; 2],
    found: [[u64; 2]; 2],
}

impl Met {
    fn count(&mut self, plan: &Plan) {
        let list = schedule(plan);
        let answers = answers(plan.p, plan.l, &list);
        for answer in &answers {
            self.answers[answer.helps.min(3) as usize] += 1;
            self.most = self.most.max(answer.helps.into());
        }
        let v3s = child_v3s(Shape::new(plan.p, plan.l).unwrap(), &list);
        for v3 in &v3s {
            let heads = match v3.moved {
                true => &mut self.moved,
                false => &mut self.found,
            };
            let inner = v3.child < plan.p;
            heads[usize::from(inner)][usize::from(!v3.is_left())] += 1;
        }
        // Where all finish, each head that is moved for a refresh is in one answer.
        if plan.ending == Ending::AllFinish {
            let told: u32 = answers.iter().map(|answer| u32::from(answer.helps)).sum();
            let moved = v3s.iter().filter(|v3| v3.moved).count();
            assert_eq!(told as usize, moved, "{plan:?}");
        }
    }
}

fn limit(p: u32) -> u32 {
    help_limit(Shape::new(p, 1).unwrap())
}

fn met(p: u32) -> Met {
    let stalls = |step| Pace::Stalls { step, after: false };
    let paces = [
        Pace::Uniform,
        Pace::Lockstep,
        Pace::Bursts(9),
        Pace::Bursts(40),
        stalls(StepName::V1),
        stalls(StepName::V3),
        stalls(StepName::C4),
    ];
    let mut met = Met::default();
    for pace in paces {
        for seed in 0..30 {
            let plan = Plan::new(p, 6, pace, seed);
            met.count(&plan);
            met.count(&plan.ending(Ending::Abandoned));
        }
    }
    met
}

#[test]
fn each_case_of_two_processes() {
    let met = met(2);
    assert!(met.answers[..3].iter().all(|&times| times > 0), "{met:?}");
    assert!(met.most <= limit(2), "{met:?}");
    for leaves in [met.moved[0], met.found[0]] {
        assert!(leaves.iter().all(|&times| times > 0), "{met:?}");
    }
    assert_eq!([met.moved[1], met.found[1]], [[0; 2]; 2]);
}

#[test]
fn each_case_of_more_processes() {
    for p in [4, 8] {
        let met = met(p);
        assert!(met.answers.iter().all(|&times| times > 0), "{met:?}");
        assert!(met.most <= limit(p), "{met:?}");
        for heads in [met.moved, met.found].concat().concat() {
            assert!(heads > 0, "{met:?}");
        }
    }
}

/// Process 0 comes to the limit, and the others have none to help.
#[test]
fn as_many_as_there_can_be() {
    for (p, most) in [(2, 2), (4, 6), (8, 10)] {
        assert_eq!(limit(p), most);
        let answers = answers(p, 2 * p.ilog2(), &most_helped(p).bytes());
        assert!(answers.iter().any(|answer| answer.process == 0));
        for answer in answers {
            let helps = if answer.process == 0 { most } else { 0 };
            assert_eq!(u32::from(answer.helps), helps, "{answer:?}");
        }
    }
}
