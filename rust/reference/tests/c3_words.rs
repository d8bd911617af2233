//! C3L, C3R and C3N take two words of the table each, C3N in the root three, and no head: with all
//! others random each leads to the same step with the same registers. Each of these words plays a
//! part.

use reference::c3_words::{paces, random_words, size_word, AtC3, MetC3};
use reference::machine::Machine;
use reference::memory::Memory;
use reference::random::Random;
use reference::records::{numbered, StepRecord};
use reference::run::play_record;
use reference::schedules::{schedule, Ending, Pace, Plan};
use reference::tree::{Shape, Tree, ROOT};

/// How much was met, so that nothing is left out by chance.
#[derive(Default, Debug)]
struct Met {
    steps: MetC3,
    /// By needed word: steps that one more in it alone changed.
    changed: [u64; 7],
}

/// All words but those that are kept, and all heads, are random; the heads are not the memory's own.
fn others_random(random: &mut Random, memory: &Memory, kept: &[usize]) -> Memory {
    let own = memory.tree.words();
    let mut table = random_words(random, own.len());
    for &word in kept {
        table[word] = own[word];
    }
    let mut heads = random_words(random, memory.heads.len());
    while heads == memory.heads {
        heads = random_words(random, memory.heads.len());
    }
    Memory {
        tree: Tree::from_words(memory.tree.shape(), &table),
        heads,
    }
}

/// The same step follows where all other words are random.
fn compare(random: &mut Random, machine: &Machine, at: &AtC3) {
    let other = others_random(random, &machine.memory, &at.words);
    at.other_words(&machine.memory.tree.words(), &other.tree.words());
    let expected = at.next_on(machine, &machine.memory);
    assert_eq!(at.next_on(machine, &other), expected, "{at:?}");
}

impl Met {
    /// One more in each needed word, and below the root in the size.
    fn change_words(&mut self, machine: &Machine, at: &AtC3) {
        let memory = &machine.memory;
        let next = at.next_on(machine, memory);
        let changes = |word| {
            let other = at.with_one_more(memory, word);
            other.is_some_and(|other| at.next_on(machine, &other) != next)
        };
        for (number, word) in at.numbered_words() {
            self.changed[number] += u64::from(changes(word));
        }
        self.steps.count(at, next);
        if at.node != ROOT {
            let size = size_word(machine.shape(), at.node, at.h - 1);
            assert!(!changes(size), "{at:?}");
        }
    }
}

/// Plays a list. Each such step is compared when it is done, and from when its process comes to it after
/// each record that changed the memory.
fn compare_list(plan: &Plan, met: &mut Met) {
    let mut random = Random::new(plan.seed);
    let mut machine = Machine::start(Shape::new(plan.p, plan.l).unwrap());
    let mut changed = false;
    for (number, bytes) in numbered(&schedule(plan)) {
        let record = StepRecord::read(bytes, plan.p).unwrap();
        for at in (0..plan.p).filter_map(|process| AtC3::find(&machine, process)) {
            let is_done = at.process == record.process;
            if changed || is_done {
                compare(&mut random, &machine, &at);
            }
            if is_done {
                met.change_words(&machine, &at);
            }
        }
        let before = machine.memory.clone();
        play_record(&mut machine, number, record);
        changed = machine.memory != before;
    }
}

fn compare_lists(p: u32) -> Met {
    let mut met = Met::default();
    for pace in paces() {
        for (l, seed) in [(1, 0), (1, 1), (2, 2), (3, 3), (5, 4)] {
            compare_list(&Plan::new(p, l, pace, seed), &mut met);
        }
        let plan = Plan::new(p, 24, pace, 5);
        compare_list(&plan.ending(Ending::Cut(1000)), &mut met);
    }
    let plan = Plan::new(p, 500, Pace::Uniform, 6);
    compare_list(&plan.ending(Ending::Cut(200)), &mut met);
    met
}

fn assert_often(counts: &[u64]) {
    assert!(counts.iter().all(|&times| times > 10), "{counts:?}");
}

#[test]
fn two_processes() {
    let met = compare_lists(2);
    assert_often(&[&met.steps.root[..], &met.changed].concat());
}

#[test]
fn four_and_eight_processes() {
    for p in [4, 8] {
        let met = compare_lists(p);
        assert_often(&[&met.steps.root[..], &met.steps.below, &met.changed].concat());
    }
}
