//! Whole lists at the largest L: every place of every node is filled.

use crate::support::compare_amply;
use reference::schedules::{schedule, Pace, Plan};

fn compare_whole(p: u32, pace: Pace, puts_of_8: u32) {
    let plan = Plan::new(p, 500, pace, 5).puts_of_8(puts_of_8);
    compare_amply(p, 500, &schedule(&plan));
}

#[test]
fn two_processes() {
    compare_whole(2, Pace::Uniform, 4);
    compare_whole(2, Pace::OneAtATime, 3);
}

#[test]
fn four_processes() {
    compare_whole(4, Pace::Bursts(30), 4);
    compare_whole(4, Pace::Lockstep, 5);
}

#[test]
fn eight_processes() {
    compare_whole(8, Pace::Uniform, 4);
    compare_whole(8, Pace::OneAtATime, 4);
}

#[test]
fn puts_alone_and_takes_alone() {
    compare_whole(8, Pace::Bursts(50), 8);
    compare_whole(8, Pace::Bursts(50), 0);
}
