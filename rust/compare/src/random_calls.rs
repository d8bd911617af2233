//! Random plans of lists, and lengths of buffers near what a call needs.

use crate::calls::Input;
use otq::table_words;
use reference::hostile::below;
use reference::process::STEP_NAMES;
use reference::random::Random;
use reference::schedules::{Ending, Pace, Plan};

pub fn random_plan(random: &mut Random) -> Plan {
    let l = match random.below(8) {
        0..=3 => 1 + random.below(4),
        4 | 5 => 1 + random.below(30),
        6 => 1 + random.below(150),
        _ => random.pick(&[499, 500]),
    };
    random_plan_of(random, l)
}

pub fn random_plan_of(random: &mut Random, l: u32) -> Plan {
    let p = random.pick(&[2, 4, 8]);
    // A whole list at the largest p and L has some 230,000 records, so most are cut.
    let cut = Ending::Cut(1 + random.below(20_000) as usize);
    let ending = match random.below(4) {
        0 if p * l <= 400 => Ending::AllFinish,
        1 if p * l <= 400 => Ending::Abandoned,
        _ => cut,
    };
    Plan {
        each: 1 + random.below(l).max(random.below(l)),
        puts_of_8: random.below(9),
        pace: random_pace(random),
        ending,
        ..Plan::new(p, l, Pace::Uniform, random.next())
    }
}

fn random_pace(random: &mut Random) -> Pace {
    let stalls = Pace::Stalls {
        step: random.pick(&STEP_NAMES),
        after: random.chance(1, 2),
    };
    let bursts = Pace::Bursts(1 + random.below(60));
    random.pick(&[
        Pace::Uniform,
        Pace::Lockstep,
        Pace::OneAtATime,
        bursts,
        stalls,
        stalls,
    ])
}

/// In one case of 24 another number than the one that the list is made for.
pub fn or_other(random: &mut Random, number: u32) -> u32 {
    if !random.chance(1, 24) {
        return number;
    }
    random.pick(&[0, 1, 2, 3, 4, 8, 9, 500, 501, u32::MAX])
}

/// Words needed, or some number where p or l is turned down.
pub fn needed(input: Input) -> usize {
    table_words(input.p, input.l).unwrap_or(100)
}

/// The length of a table: what is needed, more, or in few cases less.
pub fn table(random: &mut Random, input: Input) -> usize {
    let needed = needed(input);
    match random.below(32) {
        0 => needed - 1,
        1 => below(random, needed),
        2..=15 => needed,
        _ => needed + below(random, 40),
    }
}

/// A length near the one that is needed, or any below it.
pub fn near(random: &mut Random, length: usize) -> usize {
    match random.below(4) {
        0 => below(random, length),
        1 => length,
        _ => (length + below(random, 34)).saturating_sub(17),
    }
}
