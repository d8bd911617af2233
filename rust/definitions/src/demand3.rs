//! Rows of the terms of demand 3: what the reference says of lists that Run takes whole.

use crate::fixed_bytes::WIDE;
use crate::row::Row;
use crate::taken::Taken;
use reference::help_lists::help_lists;
use reference::known_runs::{m3, m5, m6};
use reference::lists::List;
use reference::process::StepName;
use reference::schedules::{schedule, Ending, Pace, Plan};

/// The terms on lists of the known runs, and their like; and on those in which there are helps.
pub fn rows() -> Vec<Row> {
    let unfinished = List::new().put(0, WIDE).steps(0, 17).take(1).steps(1, 16);
    let unfinished = unfinished.put(0, 6).steps(0, 2);
    let helped = List::new().put(0, 9).steps(0, 1).put(1, 8).steps(1, 10);
    let of_eight = List::new().take(7).steps(7, 45).put(0, 1).steps(0, 1);
    let lists = [
        ("no records", 2, 1, List::new()),
        ("M3: a put and a take in one block", 2, 2, m3()),
        ("M5: two puts in one block, a take", 4, 1, m5()),
        ("M6: a put that is helped", 2, 3, m6(0, 1)),
        ("one by one", 2, 2, one_by_one()),
        ("a take before its Q, a put begun", 2, 2, unfinished),
        ("a take alone, a put begun", 8, 1, of_eight),
        ("a put with a help, unfinished", 2, 1, helped),
    ];
    let known = lists
        .into_iter()
        .map(|(about, p, l, list)| Taken::new(p, l, list.bytes()).row(about));
    known.chain(helps()).collect()
}

/// Of the lists with helps, those that show something which M6 does not.
fn helps() -> [Row; 6] {
    let [_, right, found_moved, _, none_next, in_both, inner, _, failed] = help_lists();
    [right, found_moved, none_next, in_both, inner, failed].map(|fixed| {
        let taken = Taken::new(fixed.p, fixed.l, fixed.list.bytes());
        taken.row(format!("helps: {}", fixed.about))
    })
}

/// Two puts and two takes of p = 2, one after the other: root blocks 1 to 4.
fn one_by_one() -> List {
    let puts = List::new().put(0, 5).steps(0, 17).put(1, 6).steps(1, 17);
    puts.take(0).steps(0, 17).take(1).steps(1, 17)
}

/// The terms on lists that go through the paces, the endings and the shapes.
pub fn planned() -> Vec<Row> {
    let stalls = |step| Pace::Stalls { step, after: true };
    let plans = [
        (Plan::new(2, 3, Pace::Uniform, 1), Ending::AllFinish),
        (Plan::new(2, 8, Pace::Uniform, 10), Ending::AllFinish),
        (Plan::new(2, 6, Pace::OneAtATime, 11), Ending::AllFinish),
        (Plan::new(4, 3, Pace::Uniform, 12), Ending::AllFinish),
        (Plan::new(8, 2, Pace::Bursts(30), 13), Ending::AllFinish),
        (Plan::new(2, 2, Pace::Lockstep, 2), Ending::AllFinish),
        (Plan::new(2, 4, Pace::Bursts(9), 3), Ending::Cut(90)),
        (Plan::new(2, 4, stalls(StepName::C4), 4), Ending::Abandoned),
        (Plan::new(2, 4, stalls(StepName::A), 5), Ending::Abandoned),
        (Plan::new(4, 1, Pace::Uniform, 6), Ending::AllFinish),
        (Plan::new(4, 2, Pace::Bursts(20), 7), Ending::Cut(200)),
        (Plan::new(8, 1, Pace::Lockstep, 8), Ending::AllFinish),
        (Plan::new(8, 1, stalls(StepName::V3), 9), Ending::Abandoned),
    ];
    let mut rows = Vec::new();
    for (plan, ending) in plans {
        let plan = plan.ending(ending);
        let about = format!(
            "{:?}, {ending:?}, p = {}, L = {}",
            plan.pace, plan.p, plan.l
        );
        rows.push(Taken::new(plan.p, plan.l, schedule(&plan)).row(about));
    }
    rows
}
