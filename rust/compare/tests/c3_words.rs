//! The compiled C3L, C3R and C3N take only the words that each needs: with all others random while
//! one is played, a run leaves the same. With one more in a needed word it leaves what the reference
//! then leaves.

use crate::guarded::{self, Changes, Other};
use crate::support::needed;
use compare::calls::Input;
use otq::most_answer_bytes;
use reference::c3_words::{paces, random_words, AtC3, MetC3};
use reference::machine::Machine;
use reference::memory::Memory;
use reference::process::Step;
use reference::random::Random;
use reference::records::{numbered, Act, StepRecord};
use reference::run::play_record;
use reference::schedules::{schedule, Ending, Pace, Plan};
use reference::tree::Shape;
use std::collections::BTreeMap;
use std::mem::replace;

/// Plays a list on the reference and hands on the index of each record that does one of the three
/// steps, with what it meets.
fn each_c3(plan: &Plan, list: &[u8], mut does: impl FnMut(usize, &Machine, AtC3)) {
    let mut machine = Machine::start(Shape::new(plan.p, plan.l).unwrap());
    for (index, (number, bytes)) in numbered(list).enumerate() {
        let record = StepRecord::read(bytes, plan.p).unwrap();
        if let Some(at) = AtC3::find(&machine, record.process) {
            does(index, &machine, at);
        }
        play_record(&mut machine, number, record);
    }
}

/// A list in which each of the three steps meets random words.
fn compare_list(plan: &Plan, met: &mut MetC3) {
    let Plan { p, l, seed, .. } = *plan;
    let (mut random, mut others) = (Random::new(seed), BTreeMap::new());
    let mut other_words = 0;
    let records = &schedule(plan)[..];
    each_c3(plan, records, |index, machine, at| {
        met.count(&at, at.next_on(machine, &machine.memory));
        let words = random_words(&mut random, needed(p, l));
        other_words += at.other_words(&machine.memory.tree.words(), &words);
        let kept = at.words;
        others.insert(index, Other { words, kept });
    });
    let all = Changes {
        records: others.len(),
        words: other_words,
        written: 0,
    };
    let (input, answers) = (Input { p, l, records }, most_answer_bytes(p, l).unwrap());
    input.run_by(needed(p, l), answers, |table, answers| {
        let (result, changes) = guarded::run(input, table, answers, others);
        assert_eq!(changes, all, "{plan:?}");
        result
    });
}

#[test]
fn all_other_words_random() {
    let mut met = MetC3::default();
    for p in [2, 4, 8] {
        for pace in paces() {
            for (l, seed) in [(1, 0), (2, 1), (5, 2)] {
                compare_list(&Plan::new(p, l, pace, seed), &mut met);
            }
            let plan = Plan::new(p, 24, pace, 3);
            compare_list(&plan.ending(Ending::Cut(700)), &mut met);
        }
        let plan = Plan::new(p, 500, Pace::Bursts(99), 4);
        compare_list(&plan.ending(Ending::Cut(300)), &mut met);
    }
    let steps = [met.root, met.below].concat();
    assert!(steps.iter().all(|&times| times > 100), "{met:?}");
}

/// A list that goes on after one of the three steps until C4 is done, which shows what was read.
struct LastC3<'a> {
    records: Vec<u8>,
    /// The record that does the step, and what it meets by the rules.
    index: usize,
    machine: &'a Machine,
    at: &'a AtC3,
    /// The steps after it.
    later: usize,
}

impl LastC3<'_> {
    fn of<'a>(list: &[u8], index: usize, machine: &'a Machine, at: &'a AtC3) -> LastC3<'a> {
        let (process, act) = (at.process, Act::Step);
        let later = match at.step {
            Step::C3L { .. } => 3,
            Step::C3R { .. } => 2,
            _ => 1,
        };
        let steps = StepRecord { process, act }.bytes().repeat(later);
        LastC3 {
            records: [&list[..8 * (index + 1)], &steps].concat(),
            index,
            machine,
            at,
            later,
        }
    }

    /// The table that the reference leaves if the step alone meets another memory.
    fn expected(&self, met: Memory) -> Vec<u32> {
        let (mut played, process) = (self.machine.clone(), self.at.process);
        let own = replace(&mut played.memory, met);
        let number = self.index as u32 + 1;
        played.step(process, number);
        played.memory = own;
        for later in 1..=self.later as u32 {
            played.step(process, number + later);
        }
        played.memory.tree.words()
    }

    /// The table that the library leaves if the step alone meets this value of a needed word, while
    /// all words that it does not need are random.
    fn found(&self, word: usize, value: u32) -> Vec<u32> {
        let shape = self.machine.shape();
        let (p, l, records) = (shape.p(), shape.l(), &self.records[..]);
        let mut words = random_words(&mut Random::new(self.index as u64), needed(p, l));
        words[word] = value;
        let mut kept = self.at.words.clone();
        kept.retain(|&other| other != word);
        let others = BTreeMap::from([(self.index, Other { words, kept })]);
        let mut table = vec![9; needed(p, l)];
        let mut answers = vec![9; most_answer_bytes(p, l).unwrap()];
        let input = Input { p, l, records };
        let (result, changes) = guarded::run(input, &mut table, &mut answers, others);
        assert_eq!(8 * result.taken as usize, records.len());
        assert_eq!((changes.records, changes.written), (1, 0));
        table
    }

    /// Compares with one more in a needed word; `false` if the run would leave the same table, or the
    /// word is not tried.
    fn compare(&self, word: usize) -> bool {
        let (machine, at) = (self.machine, self.at);
        let Some(met) = at.with_one_more(&machine.memory, word) else {
            return false;
        };
        // The library must not come to a Q of what is not in the root, or past a last place.
        let past = at.h > machine.shape().last_place(at.node);
        if past || at.next_on(machine, &met) == Step::Q {
            return false;
        }
        let value = met.tree.words()[word];
        let expected = self.expected(met);
        if expected == self.expected(machine.memory.clone()) {
            return false;
        }
        assert!(self.found(word, value) == expected, "word {word}, {at:?}");
        true
    }
}

#[test]
fn each_needed_word_plays_a_part() {
    let mut changed = [0; 7];
    let shapes = [(2, 1), (2, 1), (2, 3), (4, 1), (4, 1), (8, 1)];
    for (seed, (p, l)) in (0..).zip(shapes) {
        let plan = Plan::new(p, l, Pace::Uniform, seed);
        let list = schedule(&plan.ending(Ending::Cut(250)));
        each_c3(&plan, &list, |index, machine, at| {
            let run = LastC3::of(&list, index, machine, &at);
            for (number, word) in at.numbered_words() {
                changed[number] += u64::from(run.compare(word));
            }
        });
    }
    assert!(changed.iter().all(|&times| times > 0), "{changed:?}");
}

/// The handlers tell a step that writes: a first A meets the table's own words.
#[test]
fn a_write_is_told() {
    let (p, l) = (2, 1);
    let records = &schedule(&Plan::new(p, l, Pace::Uniform, 0))[..16];
    let (words, kept) = (vec![0; needed(p, l)], vec![]);
    let others = BTreeMap::from([(1, Other { words, kept })]);
    let (mut table, mut answers) = (vec![9; needed(p, l)], [9; 16]);
    let input = Input { p, l, records };
    let (result, changes) = guarded::run(input, &mut table, &mut answers, others);
    assert_eq!(result.taken, 2);
    let all = Changes {
        records: 1,
        words: 0,
        written: 1,
    };
    assert_eq!(changes, all);
}
