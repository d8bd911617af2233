//! Times players of Run side by side, in one process and one run: the proved library, good safe
//! Rust, and the floor. Before that, all must leave what the reference leaves on every schedule.

mod floor;
mod layout;
mod ran;
mod safe;

use layout::BLOCK_WORDS;
use ran::Ran;
use reference::schedules::{schedule, Pace, Plan};
use std::hint::black_box;
use std::process::ExitCode;
use std::time::Instant;

type Player = fn(u32, u32, &[u8], &mut [u32], &mut [u8]) -> Ran;

const PLAYERS: &[(&str, Player)] = &[
    #[cfg(feature = "proved")]
    ("proved", proved),
    ("safe", safe::run),
    ("floor", floor::run),
];

const P: u32 = 8;
const L: u32 = 500;
/// Repetitions of each player on each schedule, of which the fastest counts. Other programs on the
/// machine can only slow one down.
const ROUNDS: usize = 400;

struct Schedule {
    name: &'static str,
    l: u32,
    records: Vec<u8>,
}

impl Schedule {
    fn new(name: &'static str, plan: Plan) -> Schedule {
        Schedule {
            name,
            l: plan.l,
            records: schedule(&plan),
        }
    }

    fn count(&self) -> usize {
        self.records.len() / 8
    }
}

/// A work table and answer bytes, long enough for L and everything smaller.
struct Buffers {
    table: Vec<u32>,
    answers: Vec<u8>,
}

impl Buffers {
    /// Filled, so that what a player leaves unwritten is seen.
    fn new() -> Buffers {
        Buffers {
            table: vec![0xa5a5_a5a5; BLOCK_WORDS * (4 * P * L + 2 * P - 1) as usize + 1],
            answers: vec![0xa5; (16 * P * L) as usize + 1],
        }
    }

    fn play(&mut self, player: Player, schedule: &Schedule) -> Ran {
        let (table, answers) = (&mut self.table, &mut self.answers);
        player(P, schedule.l, &schedule.records, table, answers)
    }
}

#[cfg(feature = "proved")]
fn proved(p: u32, l: u32, records: &[u8], table: &mut [u32], answers: &mut [u8]) -> Ran {
    let run = otq::run(p, l, records, table, answers);
    Ran {
        refusal: run.refusal.map_or(0, otq::Refusal::number),
        taken: run.taken,
        answers: run.answers,
    }
}

fn reference(p: u32, l: u32, records: &[u8], table: &mut [u32], answers: &mut [u8]) -> Ran {
    let result = reference::run::run(p, l, records, table, answers);
    Ran {
        refusal: result.refusal,
        taken: result.taken,
        answers: result.answers,
    }
}

/// Result, table and answers of every player are those of the reference, which takes all records.
fn assert_agree(schedule: &Schedule) {
    let mut expected = Buffers::new();
    let result = expected.play(reference, schedule);
    assert_eq!((result.refusal, result.taken), (0, schedule.count() as u64));
    for &(name, player) in PLAYERS {
        let told = format!("{name} on {} at L = {}", schedule.name, schedule.l);
        let mut buffers = Buffers::new();
        assert_eq!(buffers.play(player, schedule), result, "{told}");
        assert!(buffers.table == expected.table, "{told}: other words");
        assert!(buffers.answers == expected.answers, "{told}: other bytes");
    }
}

/// For each schedule the fastest ns a record of each player. Players and schedules take turns, so
/// that a slow spell of the machine does not fall on one alone.
fn time(schedules: &[Schedule], players: &[(&str, Player)]) -> Vec<Vec<f64>> {
    let mut best = vec![vec![f64::INFINITY; players.len()]; schedules.len()];
    let mut buffers = Buffers::new();
    for _ in 0..ROUNDS {
        for (schedule, best) in schedules.iter().zip(&mut best) {
            for (&(_, player), best) in players.iter().zip(best) {
                let began = Instant::now();
                black_box(buffers.play(player, black_box(schedule)));
                let taken = began.elapsed().as_nanos() as f64;
                *best = best.min(taken / schedule.count() as f64);
            }
        }
    }
    best
}

fn schedules() -> Vec<Schedule> {
    let plan = |pace| Plan::new(P, L, pace, 1);
    vec![
        Schedule::new("uniform", plan(Pace::Uniform)),
        Schedule::new("bursty", plan(Pace::Bursts(50))),
        Schedule::new("round-robin", plan(Pace::Lockstep)),
        Schedule::new("one at a time", plan(Pace::OneAtATime)),
        Schedule::new("take-heavy", plan(Pace::Bursts(50)).puts_of_8(3)),
    ]
}

fn print_schedules(schedules: &[Schedule]) {
    let names: String = PLAYERS
        .iter()
        .map(|(name, _)| format!("{name:>9}"))
        .collect();
    let ratios = match PLAYERS {
        [("proved", _), _, _] => "  proved/safe  proved/floor",
        _ => "",
    };
    println!("{:<14}{:>9}{names}{ratios}", "schedule", "records");
    for (schedule, best) in schedules.iter().zip(time(schedules, PLAYERS)) {
        print!("{:<14}{:>9}", schedule.name, schedule.count());
        for ns in &best {
            print!("{ns:>9.2}");
        }
        if let [proved, safe, floor] = best[..] {
            print!("{:>13.2}{:>14.2}", proved / safe, proved / floor);
        }
        println!();
    }
}

/// The first player as L grows.
fn print_growth(schedules: &[Schedule]) {
    let first = &PLAYERS[..1];
    print!("{}, uniform, as L grows:", first[0].0);
    for (schedule, best) in schedules.iter().zip(time(schedules, first)) {
        print!("  L = {}: {:.2}", schedule.l, best[0]);
    }
    println!();
}

fn main() -> ExitCode {
    #[cfg(feature = "proved")]
    if !otq::BUILT {
        eprintln!("{}", otq::NOT_BUILT);
        return ExitCode::from(2);
    }
    let schedules = schedules();
    let growing = [5, 50, 500].map(|l| {
        let plan = Plan::new(P, l, Pace::Uniform, 1);
        Schedule::new("uniform", plan)
    });
    schedules.iter().chain(&growing).for_each(assert_agree);
    let cpu = if cfg!(target_feature = "sse3") {
        "raised"
    } else {
        "default"
    };
    println!(
        "ns a record, best of {ROUNDS}; p = {P}, L = {L}; release, lto, one codegen unit, {cpu} target-cpu"
    );
    print_schedules(&schedules);
    print_growth(&growing);
    ExitCode::SUCCESS
}
