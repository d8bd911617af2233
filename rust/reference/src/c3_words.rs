//! The words of the table that C3L, C3R and C3N take, and memories in which words are changed under
//! them.

use crate::machine::Machine;
use crate::memory::Memory;
use crate::process::{Step, StepName};
use crate::random::Random;
use crate::schedules::Pace;
use crate::tree::{
    left_child, right_child, Shape, Tree, BLOCK_WORDS, PUTS_WORD, ROOT, SIZE_WORD, TAKES_WORD,
};

/// The number of no record; the three steps write no block, so that they have no use for one.
const NO_RECORD: u32 = 0;

/// A process that is at C3L, C3R or C3N.
#[derive(Clone, PartialEq, Eq, Debug)]
pub struct AtC3 {
    pub process: u32,
    pub step: Step,
    /// The node that is refreshed, and the place that R1 read.
    pub node: u32,
    pub h: u32,
    /// Where in the table the words stand that the step takes: puts and takes of its one block, and
    /// of C3N in the root also the size.
    pub words: Vec<usize>,
}

impl AtC3 {
    /// `None` if the process is at none of the three.
    pub fn find(machine: &Machine, process: u32) -> Option<AtC3> {
        let step = machine.next_step(process)?;
        let (refresh, h, block) = match step {
            Step::C3L { refresh, h, ends } => (refresh, h, (left_child(refresh.node), ends.left)),
            Step::C3R {
                refresh, h, ends, ..
            } => (refresh, h, (right_child(refresh.node), ends.right)),
            Step::C3N { refresh, h, .. } => (refresh, h, (refresh.node, h - 1)),
            _ => return None,
        };
        let (node, place) = block;
        let word = |word| word_at(machine.shape(), node, place, word);
        let mut words = vec![word(PUTS_WORD), word(TAKES_WORD)];
        // The block of C3L and of C3R is a child's.
        if node == ROOT {
            words.push(word(SIZE_WORD));
        }
        Some(AtC3 {
            process,
            step,
            node: refresh.node,
            h,
            words,
        })
    }

    /// How many of the words that the step does not take, all but two, of C3N in the root three, are
    /// other than the table's own.
    pub fn other_words(&self, own: &[u32], words: &[u32]) -> usize {
        let sizes = self.step.name() == StepName::C3N && self.node == ROOT;
        let taken = if sizes { 3 } else { 2 };
        assert_eq!(self.words.len(), taken, "{self:?}");
        let kept = |i: &usize| self.words.contains(i);
        let other = |i: &usize| !kept(i) && own[*i] != words[*i];
        let others = (0..own.len()).filter(other).count();
        // Else they would not be random.
        assert!(2 * others > own.len() - taken, "{others} of {}", own.len());
        others
    }

    /// Its words with their numbers among the seven that the three steps take in the root: two of
    /// C3L, two of C3R, three of C3N.
    pub fn numbered_words(&self) -> impl Iterator<Item = (usize, usize)> + '_ {
        let first = match self.step {
            Step::C3L { .. } => 0,
            Step::C3R { .. } => 2,
            _ => 4,
        };
        (first..).zip(self.words.iter().copied())
    }

    /// The step that follows on this memory, which must be left as it is.
    pub fn next_on(&self, machine: &Machine, memory: &Memory) -> Step {
        let mut played = Machine {
            memory: memory.clone(),
            processes: machine.processes.clone(),
        };
        assert_eq!(played.step(self.process, NO_RECORD), None);
        assert!(played.memory == *memory, "{self:?} changed the memory");
        let next = played.next_step(self.process);
        next.expect("Q comes after C3N")
    }

    /// The memory with one more in a word of the table. `None` if C3N can meet no such table: the
    /// totals of block h - 1 are at most the sums.
    pub fn with_one_more(&self, memory: &Memory, word: usize) -> Option<Memory> {
        let mut table = memory.tree.words();
        table[word] += 1;
        let legal = match self.step {
            Step::C3N { totals, .. } => {
                table[self.words[0]] <= totals.puts && table[self.words[1]] <= totals.takes
            }
            _ => true,
        };
        legal.then(|| Memory {
            tree: Tree::from_words(memory.tree.shape(), &table),
            heads: memory.heads.clone(),
        })
    }
}

/// Steps that were met, in the root and below it: C3L, C3R, those C3N that built a block, and those
/// that found equal totals.
#[derive(Default, Debug)]
pub struct MetC3 {
    pub root: [u64; 4],
    pub below: [u64; 4],
}

impl MetC3 {
    /// A step, and the one that followed it.
    pub fn count(&mut self, at: &AtC3, next: Step) {
        let case = match next.name() {
            StepName::C3R => 0,
            StepName::C3N => 1,
            StepName::C4 => 2,
            _ => 3,
        };
        match at.node {
            ROOT => self.root[case] += 1,
            _ => self.below[case] += 1,
        }
    }
}

/// Paces at which the three steps are met in many ways.
pub fn paces() -> [Pace; 6] {
    let stalls = |step| Pace::Stalls { step, after: false };
    [
        Pace::Uniform,
        Pace::Lockstep,
        Pace::Bursts(9),
        stalls(StepName::C3L),
        stalls(StepName::C3R),
        stalls(StepName::C3N),
    ]
}

/// Where in the table the size of a node's block stands.
pub fn size_word(shape: Shape, node: u32, place: u32) -> usize {
    word_at(shape, node, place, SIZE_WORD)
}

fn word_at(shape: Shape, node: u32, place: u32, word: usize) -> usize {
    shape.node_start(node) + BLOCK_WORDS * place as usize + word
}

/// Any words, many of them at an edge or as small as the ends and totals of a small tree.
pub fn random_words(random: &mut Random, count: usize) -> Vec<u32> {
    let word = |_| match random.below(8) {
        0 => 0,
        1 => u32::MAX,
        2..=4 => random.below(4),
        _ => random.next() as u32,
    };
    (0..count).map(word).collect()
}
