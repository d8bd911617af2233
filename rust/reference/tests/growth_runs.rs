//! History only grows: each list cut at many places, on random and hostile lists.

use crate::support::{every_shape, past, stalls};
use reference::growth::{grows, Past};
use reference::known_runs::known_runs;
use reference::process::STEP_NAMES;
use reference::schedules::{schedule, Pace, Plan};
use std::fmt::Debug;

/// Pairs of a cut and a longer one, and those among them with a past that is not empty and grew.
#[derive(Default, Debug)]
struct Met {
    pairs: u64,
    grown: u64,
}

/// Lists up to so many records are cut at every record.
const SHORT: usize = 400;
/// A longer list is cut at about so many places.
const CUTS: usize = 12;

/// Numbers of records, the whole list last.
fn cuts(records: usize) -> Vec<usize> {
    let apart = if records <= SHORT { 1 } else { records / CUTS };
    let mut cuts: Vec<usize> = (0..records).step_by(apart).collect();
    cuts.push(records);
    cuts
}

/// Compares the past of each cut with that of every longer one.
fn assert_growth(p: u32, l: u32, list: &[u8], told: impl Debug, met: &mut Met) {
    let cuts = cuts(list.len() / 8);
    let pasts: Vec<Past> = cuts
        .iter()
        .map(|&cut| past(p, l, &list[..8 * cut]))
        .collect();
    for (index, earlier) in pasts.iter().enumerate() {
        for later in &pasts[index + 1..] {
            assert_eq!(grows(earlier, later), Ok(()), "{told:?}");
            let longer = later.order.len() > earlier.order.len();
            met.pairs += 1;
            met.grown += u64::from(!earlier.order.is_empty() && longer);
        }
    }
}

fn assert_plans(plans: &[Plan]) {
    let mut met = Met::default();
    for plan in plans {
        assert_growth(plan.p, plan.l, &schedule(plan), plan, &mut met);
    }
    assert!(met.grown > 0, "{met:?}");
}

#[test]
fn known_runs_up_to_their_refusals() {
    let mut met = Met::default();
    for known in known_runs() {
        let taken = &known.list[..8 * known.result.taken as usize];
        assert_growth(known.p, known.l, taken, known.name, &mut met);
    }
    assert!(met.grown > 0, "{met:?}");
}

#[test]
fn uniform() {
    assert_plans(&every_shape(Pace::Uniform, 2));
}

#[test]
fn bursts() {
    assert_plans(&every_shape(Pace::Bursts(25), 2));
}

#[test]
fn in_turn() {
    assert_plans(&every_shape(Pace::Lockstep, 1));
    assert_plans(&every_shape(Pace::OneAtATime, 1));
}

#[test]
fn stops_at_each_step() {
    for p in [2, 4, 8] {
        let plans = STEP_NAMES.into_iter().flat_map(|step| stalls(p, step));
        assert_plans(&plans.step_by(11).collect::<Vec<_>>());
    }
}

#[test]
fn the_largest_shape() {
    assert_plans(&[Plan::new(8, 500, Pace::Bursts(30), 1)]);
}
