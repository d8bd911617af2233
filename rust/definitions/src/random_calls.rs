//! Random calls: lists of every pace, and one thing wrong in every third call; and forecasts.

use crate::call::Call;
use crate::forecasts;
use crate::row::Row;
use reference::process::STEP_NAMES;
use reference::random::Random;
use reference::schedules::{schedule, Ending, Pace, Plan};
use reference::tree::Shape;

/// p, L, and how many operations each process begins.
const SHAPES: [(u32, u32, u32); 11] = [
    (2, 2, 2),
    (2, 3, 3),
    (2, 1, 1),
    (4, 1, 1),
    (2, 5, 5),
    (4, 2, 2),
    (8, 1, 1),
    (8, 2, 2),
    (2, 24, 3),
    (4, 24, 1),
    (8, 9, 1),
];

pub fn rows(count: u64, seed: u64) -> Vec<Row> {
    let (mut random, mut of_begins) = (Random::new(seed), Random::new(!seed));
    let mut rows_of = |number| {
        let call = random_call(&mut random, number, seed);
        let (p, l, _) = shape_of(number);
        [
            call.row(format!("random, p = {}, L = {}", call.p, call.l)),
            forecasts::row_of_list(call.p, call.l, &call.records),
            forecasts::random_row(&mut of_begins, p, l),
        ]
    };
    (0..count).flat_map(&mut rows_of).collect()
}

fn shape_of(row: u64) -> (u32, u32, u32) {
    SHAPES[row as usize % SHAPES.len()]
}

/// Rows go through the shapes, the paces and, every third, the things that can be wrong, where each
/// seed goes on from other things.
fn random_call(random: &mut Random, row: u64, seed: u64) -> Call {
    let (p, l, each) = shape_of(row);
    let plan = Plan {
        p,
        l,
        each,
        puts_of_8: 2 + random.below(5),
        pace: pace(random, row),
        ending: ending(random, p, each),
        seed: random.next(),
    };
    let records = schedule(&plan);
    let needed = Shape::new(p, l).expect("a proper shape").words_needed();
    let mut call = Call {
        p,
        l,
        table: pattern(random, needed + 3),
        answers: pattern(random, 16 * (p * each) as usize + 5),
        output: pattern(random, 8 * (p * each) as usize + 3),
        log: Vec::new(),
        records,
    };
    call.log = call.own_log();
    if row % 3 == 2 {
        spoil(&mut call, row / 3 + 5 * seed + 6, random);
    }
    call
}

/// Makes one thing wrong: a record, a buffer, the log or the call.
fn spoil(call: &mut Call, what: u64, random: &mut Random) {
    let mut some = |length: usize| random.below(length.max(1) as u32) as usize;
    match what % 11 {
        0 => insert(call, 1, some),
        1 => {
            let at = some(call.log.len());
            call.log.get_mut(at).into_iter().for_each(|byte| *byte ^= 1);
        }
        2 => {
            let at = some(call.records.len());
            call.records[at] ^= 1 << some(8);
        }
        3 => call.answers.truncate(some(call.answers.len())),
        4 => call.output.truncate(some(call.output.len())),
        5 => call.log.truncate(some(call.log.len())),
        6 => call.table.truncate(call.table.len() - 4),
        7 => call.records.truncate(call.records.len() - 1 - some(7)),
        8 => call.p = [0, 1, 3, 16][some(4)],
        9 => call.l = [0, 501][some(2)],
        _ => insert(call, 0, some),
    }
}

/// Puts a step (kind 0) or a begin put (kind 1) in somewhere.
fn insert(call: &mut Call, kind: u8, mut some: impl FnMut(usize) -> usize) {
    let at = 8 * some(call.records.len() / 8);
    let process = some(call.p as usize) as u8;
    call.records
        .splice(at..at, [process, kind, 0, 0, 0, 0, 0, 0]);
}

pub fn pace(random: &mut Random, row: u64) -> Pace {
    match row % 6 {
        0 => Pace::Uniform,
        1 => Pace::Bursts(12),
        2 => Pace::Lockstep,
        3 => Pace::OneAtATime,
        _ => Pace::Stalls {
            step: random.pick(&STEP_NAMES),
            after: random.chance(1, 2),
        },
    }
}

pub fn ending(random: &mut Random, p: u32, each: u32) -> Ending {
    match random.below(3) {
        0 => Ending::AllFinish,
        1 => Ending::Abandoned,
        _ => Ending::Cut(1 + random.below(30 * p * each) as usize),
    }
}

/// A buffer without zeros, so that what is cleared and what is kept both show.
fn pattern<T: From<u8>>(random: &mut Random, length: usize) -> Vec<T> {
    (0..length)
        .map(|_| T::from(1 + random.below(255) as u8))
        .collect()
}
