//! What the forecast says of runs: every list stays within it, whether or not a record is refused.

use crate::support::{
    every_shape, every_stall, mixed_list, needed, run_amply, run_with, written, SPARE,
};
use reference::forecast::{begins_of, forecast, ForecastResult};
use reference::hostile::harm_list;
use reference::known_runs::known_runs;
use reference::lists::List;
use reference::machine::Machine;
use reference::random::Random;
use reference::run::{play, Room};
use reference::schedules::{schedule, Pace};
use reference::tree::Shape;

/// How many lists were foreseen, by how they ended.
#[derive(Default, Debug)]
struct Endings {
    /// Nothing refused and all operations finished.
    finished: u64,
    /// Nothing refused, some operation not finished.
    unfinished: u64,
    /// By the number of a run that was refused though the forecast was not.
    refused: [u64; 9],
    /// The forecast was refused, and so was the run.
    neither: u64,
}

impl Endings {
    /// The claims on one list; p and l are proper.
    fn assert_within(&mut self, p: u32, l: u32, list: &[u8]) {
        let told = || format!("p {p} l {l} list {list:?}");
        let ran = run_amply(p, l, list).result;
        let foreseen = forecast(p, l, &begins_of(list));
        if foreseen.refusal != 0 {
            assert!(matches!(foreseen.refusal, 5 | 8), "{}", told());
            assert_ne!(ran.refusal, 0, "{}", told());
            self.neither += 1;
            return;
        }
        assert!(ran.taken <= foreseen.records, "{}", told());
        assert!(16 * ran.answers <= foreseen.answer_bytes, "{}", told());
        assert_enough(p, l, list, foreseen);
        if ran.refusal != 0 {
            self.refused[ran.refusal as usize] += 1;
            return;
        }
        let all_finish = all_idle(&play(shape(p, l), list, Room::Unlimited).machine);
        let exact = 16 * ran.answers == foreseen.answer_bytes;
        assert_eq!(exact, all_finish, "{}", told());
        if all_finish {
            assert_no_less(p, l, list, foreseen);
            self.finished += 1;
        } else {
            self.unfinished += 1;
        }
    }
}

fn shape(p: u32, l: u32) -> Shape {
    Shape::new(p, l).expect("a proper p and L")
}

fn all_idle(machine: &Machine) -> bool {
    (0..machine.shape().p()).all(|process| machine.idle(process))
}

/// On just the words and bytes foreseen, Run leaves what it leaves with more: neither 3 nor 9.
fn assert_enough(p: u32, l: u32, list: &[u8], foreseen: ForecastResult) {
    let (words, bytes) = (foreseen.words as usize, foreseen.answer_bytes as usize);
    let ample = run_amply(p, l, list);
    let exact = run_with(p, l, list, words, bytes);
    assert_eq!(exact.result, ample.result, "p {p} l {l} list {list:?}");
    assert_eq!(exact.table, ample.table[..words]);
    assert_eq!(written(&exact), written(&ample));
}

/// Where all finish, a word less is too short, and a byte less too if there is an answer.
fn assert_no_less(p: u32, l: u32, list: &[u8], foreseen: ForecastResult) {
    let (words, bytes) = (foreseen.words as usize, foreseen.answer_bytes as usize);
    let refusal = |words, bytes| run_with(p, l, list, words, bytes).result.refusal;
    assert_eq!(refusal(words - 1, bytes), 3);
    if bytes > 0 {
        assert_eq!(refusal(words, bytes - 1), 9);
    }
}

#[test]
fn schedules_of_every_pace() {
    let mut endings = Endings::default();
    for pace in [
        Pace::Uniform,
        Pace::Bursts(5),
        Pace::Lockstep,
        Pace::OneAtATime,
    ] {
        for plan in every_shape(pace, 4) {
            endings.assert_within(plan.p, plan.l, &schedule(&plan));
        }
    }
    assert!(
        endings.finished > 0 && endings.unfinished > 0,
        "{endings:?}"
    );
    assert_eq!((endings.refused, endings.neither), ([0; 9], 0));
}

#[test]
fn stalls_at_every_step() {
    let mut endings = Endings::default();
    for plan in every_stall() {
        endings.assert_within(plan.p, plan.l, &schedule(&plan));
    }
    assert!(
        endings.finished > 0 && endings.unfinished > 0,
        "{endings:?}"
    );
}

/// Lists with something wrong: torn, with a record changed, put in or taken out.
#[test]
fn hostile_lists() {
    let (mut endings, mut starts) = (Endings::default(), Endings::default());
    let mut random = Random::new(3);
    for (p, l) in [(2, 1), (2, 2), (2, 5), (4, 1), (4, 3), (8, 1), (8, 2)] {
        for seed in 0..400 {
            let mut list = mixed_list(p, l, seed);
            harm_list(&mut random, p, &mut list);
            harm_list(&mut random, p, &mut list);
            endings.assert_within(p, l, &list);
            assert_limits_of_any_run(p, l, &list);
            let taken = run_amply(p, l, &list).result.taken as usize;
            starts.assert_within(p, l, &list[..8 * taken]);
        }
    }
    assert!(
        endings.finished > 0 && endings.unfinished > 0,
        "{endings:?}"
    );
    // Where the forecast finds no begin past L, no run does.
    let met = endings.refused.map(|lists| lists > 0);
    let can_come = [false, false, false, false, true, true, true, true, false];
    assert_eq!(met, can_come, "{endings:?}");
    assert!(endings.neither > 0, "{endings:?}");
    // The records taken are foreseen, whatever is wrong with those after them.
    assert_eq!((starts.refused, starts.neither), ([0; 9], 0));
}

/// The begins of a list are counted, also those that come after its refusal.
#[test]
fn begins_after_the_refusal_count() {
    let stopped = List::new().put(0, 1).steps(1, 1).take(1).put(0, 2).bytes();
    assert_eq!(run_amply(2, 2, &stopped).result.taken, 1);
    assert_eq!(forecast(2, 2, &begins_of(&stopped)).answer_bytes, 48);
    Endings::default().assert_within(2, 2, &stopped);
}

#[test]
fn the_known_runs() {
    for known in known_runs() {
        Endings::default().assert_within(known.p, known.l, &known.list);
    }
}

/// Any list at all: the limits of p·L begins, and more room than for p·L answers changes nothing.
fn assert_limits_of_any_run(p: u32, l: u32, list: &[u8]) {
    let operations = (p * l) as usize;
    let most = [42, 82, 122][p.ilog2() as usize - 1] * operations;
    let played = play(shape(p, l), list, Room::Unlimited);
    assert!(played.taken <= most && played.answers.len() <= operations);
    let room = Room::Bytes(16 * operations);
    assert_eq!(play(shape(p, l), list, room), played);
    let exact = run_with(p, l, list, needed(p, l), 16 * operations);
    let ample = run_with(p, l, list, needed(p, l), 32 * operations + SPARE);
    assert_eq!((exact.result, exact.table), (ample.result, ample.table));
    assert_eq!(exact.bytes, ample.bytes[..16 * operations]);
}
