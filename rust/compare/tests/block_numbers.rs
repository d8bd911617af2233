//! Block numbers in the tables of the compiled library: their claims, and the same of all three calls.

use crate::support::{mixed_list, needed, with_a_record_more};
use otq::{most_answer_bytes, Table};
use reference::block_numbers::{numbers_hold, written_by};
use reference::help_lists::help_lists;
use reference::known_runs::known_runs;
use reference::process::StepName;
use reference::schedules::{schedule, Ending, Pace, Plan};
use reference::tree::Shape;

/// Run, list the order and check a log leave one table; the claims hold of its numbers, and each block
/// that a record wrote is there. Gives how many blocks there are, by height.
fn assert_numbered(p: u32, l: u32, records: &[u8]) -> [usize; 4] {
    let shape = Shape::new(p, l).unwrap();
    let mut words = vec![9; needed(p, l)];
    let mut answers = vec![9; most_answer_bytes(p, l).unwrap()];
    let run = otq::run(p, l, records, &mut words, &mut answers);
    let taken = &records[..8 * run.taken as usize];
    assert_eq!(numbers_hold(shape, taken, &words), Ok(()));

    let table = Table::new(p, l, &words).unwrap();
    let written = written_by(shape, taken);
    let mut blocks = [0; 4];
    for node in table.nodes() {
        let present = table.present(node);
        let numbers: Vec<u32> = present.map(|(_, block)| block.number).collect();
        assert_eq!(numbers, written[node as usize], "node {node}");
        blocks[shape.height(node) as usize] += numbers.len();
    }

    let mut listed = vec![8; needed(p, l)];
    let _ = otq::list_order(p, l, records, &mut listed, &mut []);
    assert!(listed == words, "p {p}, l {l}: list_order leaves others");
    let mut checked = vec![8; needed(p, l)];
    otq::check_log(p, l, records, &[], &mut checked);
    assert!(checked == words, "p {p}, l {l}: check_log leaves others");
    blocks
}

fn paces() -> [Pace; 6] {
    let stalls = |step| Pace::Stalls { step, after: false };
    [
        Pace::Uniform,
        Pace::Lockstep,
        Pace::OneAtATime,
        Pace::Bursts(9),
        stalls(StepName::C4),
        stalls(StepName::V2),
    ]
}

#[test]
fn of_every_p() {
    let mut met = [0; 4];
    let mut assert_plan = |plan: &Plan| {
        let blocks = assert_numbered(plan.p, plan.l, &schedule(plan));
        met = std::array::from_fn(|height| met[height] + blocks[height]);
    };
    for p in [2, 4, 8] {
        for pace in paces() {
            for (l, seed) in [(1, 1), (2, 2), (7, 3), (24, 4)] {
                let plan = Plan::new(p, l, pace, seed);
                for ending in [Ending::AllFinish, Ending::Cut(90), Ending::Abandoned] {
                    assert_plan(&plan.ending(ending));
                }
            }
        }
        assert_plan(&Plan::new(p, 500, Pace::Bursts(40), 5));
    }
    assert!(met.iter().all(|&blocks| blocks > 1000), "{met:?}");
}

#[test]
fn of_the_known_runs_and_those_with_helps() {
    for known in known_runs() {
        assert_numbered(known.p, known.l, &known.list);
    }
    for fixed in help_lists() {
        assert_numbered(fixed.p, fixed.l, &fixed.list.bytes());
    }
}

/// A refused record at every place, of each sort: it writes no block.
#[test]
fn up_to_a_refused_record() {
    for (p, l) in [(2, 1), (4, 1)] {
        for list in with_a_record_more(p, &mixed_list(p, l, 4)) {
            assert_numbered(p, l, &list);
        }
    }
}
