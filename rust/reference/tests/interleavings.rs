//! All interleavings of a few operations: demand 3, superblocks, growth and block numbers, wherever
//! they lead.

use crate::support::{places, table_of, unnumbered, Met};
use reference::block_numbers::{numbers_above, numbers_rise};
use reference::demand3::check;
use reference::growth::departs;
use reference::machine::Machine;
use reference::order::root_order;
use reference::records::{Act, Answer, Operation, StepRecord};
use reference::run::play_record;
use reference::tree::Shape;
use std::collections::hash_map::DefaultHasher;
use std::collections::{BTreeSet, HashSet};
use std::hash::{Hash, Hasher};
use std::ops::Range;

/// All that the claims can tell apart.
#[derive(Clone)]
struct State {
    machine: Machine,
    answers: Vec<Answer>,
    /// At each begin, its process and the answers so far.
    begins: Vec<(u32, usize)>,
}

impl State {
    /// Two lists with equal keys have equal verdicts. Block numbers are left out: no step goes by
    /// them, and `assert_numbered` tells of each record by itself that it keeps their claims.
    fn key(&self) -> u64 {
        let Machine { memory, processes } = &self.machine;
        let mut hasher = DefaultHasher::new();
        (&memory.heads, processes, &self.answers, &self.begins).hash(&mut hasher);
        unnumbered(&memory.tree).for_each(|block| block.hash(&mut hasher));
        hasher.finish()
    }
}

struct Search {
    /// For each process, what it begins in turn.
    operations: Vec<Vec<Operation>>,
    /// Keys of the states met.
    seen: HashSet<u64>,
    /// The answer logs of the ends.
    logs: HashSet<Vec<Answer>>,
    most_steps: u8,
    most_helps: u8,
    met: Met,
    /// Records that made a root order longer that was not empty.
    grown: usize,
    /// Demand 3 and superblocks are checked at every state if set, else at the ends.
    every_state: bool,
}

impl Search {
    fn new(operations: Vec<Vec<Operation>>, every_state: bool) -> Search {
        Search {
            operations,
            seen: HashSet::new(),
            logs: HashSet::new(),
            most_steps: 0,
            most_helps: 0,
            met: Met::default(),
            grown: 0,
            every_state,
        }
    }

    fn explore(mut self, p: u32, l: u32) -> Search {
        let start = State {
            machine: Machine::start(Shape::new(p, l).unwrap()),
            answers: Vec::new(),
            begins: Vec::new(),
        };
        self.visit(&start, &mut Vec::new());
        self
    }

    /// What the process can do next, if anything.
    fn act(&self, state: &State, process: u32) -> Option<Act> {
        if !state.machine.idle(process) {
            return Some(Act::Step);
        }
        let begun = state.machine.process(process).begun as usize;
        let operations = self.operations.get(process as usize)?;
        operations
            .get(begun)
            .map(|&operation| Act::Begin(operation))
    }

    fn visit(&mut self, state: &State, records: &mut Vec<u8>) {
        if !self.seen.insert(state.key()) {
            return;
        }
        let mut end = true;
        for process in 0..state.machine.shape().p() {
            let Some(act) = self.act(state, process) else {
                continue;
            };
            end = false;
            let record = StepRecord { process, act };
            records.extend(record.bytes());
            let number = records.len() as u32 / 8;
            let next = after(state, number, record);
            // Both claims are of the blocks alone.
            if next.machine.memory.tree != state.machine.memory.tree {
                assert_numbered(state, &next, number);
                self.grown += usize::from(assert_growth(state, &next, records));
            }
            self.visit(&next, records);
            records.truncate(records.len() - 8);
        }
        if end {
            self.logs.insert(state.answers.clone());
            for answer in &state.answers {
                self.most_steps = self.most_steps.max(answer.steps);
                self.most_helps = self.most_helps.max(answer.helps);
            }
        }
        if end || self.every_state {
            let table = table_of(&state.machine);
            assert_demand3(state, records, &table);
            self.met.assert_near(state.machine.shape(), &table, records);
        }
    }
}

fn after(state: &State, number: u32, record: StepRecord) -> State {
    let mut next = state.clone();
    if record.act != Act::Step {
        next.begins.push((record.process, next.answers.len()));
    }
    let answer = play_record(&mut next.machine, number, record);
    next.answers.extend(answer);
    next
}

/// A block that the record with this number wrote has it, every other keeps its own, and with the new
/// one the claims of block numbers hold. It is the highest, so whether they do goes by where the block
/// stands and not by the numbers before it.
fn assert_numbered(state: &State, next: &State, number: u32) {
    let [before, after] = [state, next].map(|state| &state.machine.memory.tree);
    let mut wrote = false;
    for (node, place) in places(before.shape()) {
        let (old, new) = (before.block(node, place), after.block(node, place));
        let written = new.present() && !old.present();
        let expected = if written { number } else { old.number };
        assert_eq!(new.number, expected, "block {place} of node {node}");
        assert!(old.number < number);
        wrote |= written;
    }
    if wrote {
        let (shape, table) = (before.shape(), after.words());
        assert_eq!(numbers_rise(shape, &table), Ok(()));
        assert_eq!(numbers_above(shape, &table), Ok(()));
    }
}

/// One record keeps the root order as a beginning; whether it made one longer that was not
/// empty. A beginning's beginning is one, so each list has its order kept by every longer one.
fn assert_growth(state: &State, next: &State, records: &[u8]) -> bool {
    let [earlier, later] = [state, next].map(|state| root_order(&state.machine.memory.tree));
    assert_eq!(departs(&earlier, &later), None, "{records:?}");
    !earlier.is_empty() && later.len() > earlier.len()
}

fn assert_demand3(state: &State, records: &[u8], table: &[u32]) {
    let shape = state.machine.shape();
    let answers: Vec<u8> = state
        .answers
        .iter()
        .flat_map(|answer| answer.bytes())
        .collect();
    let verdict = check(shape.p(), shape.l(), records, &answers, table);
    assert_eq!(verdict, Ok(()), "{records:?}");
}

const PUT: Operation = Operation::Put(5);
const OTHER: Operation = Operation::Put(6);
const TAKE: Operation = Operation::Take;

/// The search met so many states, growth, and superblocks of both sorts at these heights.
fn assert_states(search: &Search, least: usize, heights: Range<usize>) {
    let states = search.seen.len();
    assert!(states > least, "{states} states");
    assert!(search.grown > 0);
    search.met.assert_both(heights);
}

/// The root blocks of both operations and what the take got, over all end states.
fn endings(search: &Search) -> BTreeSet<(u32, u32, String)> {
    let ending = |log: &Vec<Answer>| {
        let of = |process| log.iter().find(|answer| answer.process == process).unwrap();
        let (put, take) = (of(0), of(1));
        (
            put.root_block,
            take.root_block,
            format!("{:?}", take.outcome),
        )
    };
    search.logs.iter().map(ending).collect()
}

#[test]
fn one_put_and_one_take_of_two_processes() {
    let search = Search::new(vec![vec![PUT], vec![TAKE]], true).explore(2, 1);
    assert_states(&search, 2000, 0..1);
    let expected = [
        (1, 1, "Value(5)".to_string()),
        (1, 2, "Value(5)".to_string()),
        (2, 1, "Nothing".to_string()),
    ];
    assert_eq!(endings(&search), BTreeSet::from(expected));
    assert_eq!(search.most_helps, 1);
}

#[test]
fn other_pairs_of_kinds() {
    for pair in [[PUT, OTHER], [TAKE, PUT], [TAKE, TAKE]] {
        let operations = pair.iter().map(|&operation| vec![operation]).collect();
        let search = Search::new(operations, true).explore(2, 1);
        assert_states(&search, 2000, 0..1);
        assert_eq!(search.most_helps, 1);
    }
}

#[test]
fn two_operations_against_one() {
    for two in [[PUT, TAKE], [TAKE, PUT], [TAKE, TAKE]] {
        for one in [OTHER, TAKE] {
            let search = Search::new(vec![two.to_vec(), vec![one]], true).explore(2, 2);
            assert_states(&search, 15_000, 0..1);
            // One for each refresh that the process with one operation needs.
            assert_eq!(search.most_helps, 2);
        }
    }
}

#[test]
fn two_operations_against_two() {
    let operations = vec![vec![PUT, TAKE], vec![OTHER, TAKE]];
    let search = Search::new(operations, false).explore(2, 2);
    assert_states(&search, 400_000, 0..1);
    assert!(search.logs.len() > 1000, "{} logs", search.logs.len());
    assert_eq!(search.most_helps, 2);
}

/// A put by process 0 and a take by another process of a larger tree.
fn assert_distant_pair(p: u32, taker: usize) {
    let mut operations = vec![Vec::new(); p as usize];
    operations[0] = vec![PUT];
    operations[taker] = vec![TAKE];
    let search = Search::new(operations, true).explore(p, 1);
    // Below the node where they meet each has its nodes alone.
    let met = taker.ilog2() as usize..p.ilog2() as usize;
    assert_states(&search, 3000, met);
    let limit = 40 * p.ilog2() as u8 + 1;
    assert!(search.most_steps <= limit);
    // Where they meet one moves a head for the other.
    assert_eq!(search.most_helps, 1);
}

#[test]
fn pairs_that_meet_at_each_height() {
    for (p, taker) in [(4, 1), (4, 2), (8, 2), (8, 4)] {
        assert_distant_pair(p, taker);
    }
}
